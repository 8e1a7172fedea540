/* Residue number systems of any number of moduli. */
#include "calls.h"

#define P UINT64_C(18446744073709551557)
#define Q UINT64_C(18446744073709551533)
#define R UINT64_C(18446744073709551521)

static const uint64_t small[3] = {3, 5, 7}, of_23[3] = {2, 3, 2};
static const uint64_t large[3] = {P, Q, R};
/* 2^190 + 12345678901234567890 */
static const uint64_t number[3] = {UINT64_C(12345678901234567890), 0, UINT64_C(4611686018427387904)};
static const uint64_t of_number[3] = {UINT64_C(16957364919662007124), UINT64_C(16957364919662098720),
                                      UINT64_C(16957364919662170114)};

static void encode_rows(void) {
    static const uint64_t power[3] = {0, 0, 1}, common[3] = {6, 4, 1}, zero[3] = {3, 0, 7};
    uint64_t out[4] = {7, 7, 7, 7};
    CODE(NM_OK, nm_residues_encode(NULL, 0, number, 3, NULL, 0));
    LIST(NM_OK, out, nm_residues_encode(small, 3, power, 3, out, 3), 1, 1, 4, 7);
    LIST(NM_OK, out, nm_residues_encode(large, 3, number, 3, out, 3), of_number[0], of_number[1], of_number[2], 7);
    LIST(NM_OK, out, nm_residues_encode(common, 3, power, 3, out, 3), 4, 0, 0, 7);
    LIST(NM_OK, out, nm_residues_encode(small, 3, NULL, 0, out, 3), 0, 0, 0, 7);
    out[0] = 8;
    LIST(NM_BAD_ARGUMENT, out, nm_residues_encode(zero, 3, power, 3, out, 3), 8, 0, 0, 7);
    LIST(NM_BAD_ARGUMENT, out, nm_residues_encode(small, 3, power, 3, out, 4), 8, 0, 0, 7);
    LIST(NM_BAD_ARGUMENT, out, nm_residues_encode(small, 3, power, 3, out, 2), 8, 0, 0, 7);
    CODE(NM_BAD_ARGUMENT, nm_residues_encode(small, 3, power, 3, NULL, 0));
    CODE(NM_BAD_ARGUMENT, nm_residues_encode(NULL, 0, power, 3, out, 3));
}

static void decode_rows(void) {
    uint64_t out[4] = {7, 7, 7, 7}, digits[3] = {7, 7, 7}, inverses[3];
    CODE(NM_OK, nm_residues_decode(NULL, 0, NULL, 0, NULL, 0, NULL, 0, NULL, 0));
    LIST(NM_OK, out, nm_residues_decode(small, 3, of_23, 3, out, 3, digits, 3, inverses, 3), 23, 0, 0, 7);
    row("the digits of 23", digits[0] == 2 && digits[1] == 2 && digits[2] == 1, 0);
    out[3] = 7;
    LIST(NM_OK, out, nm_residues_decode(large, 3, of_number, 3, out, 4, digits, 3, inverses, 3), number[0], 0, number[2],
         0);
    LIST(NM_OK, digits, nm_residues_encode(large, 3, out, 4, digits, 3), of_number[0], of_number[1], of_number[2]);
    out[0] = 7;
    LIST(NM_OK, out, nm_residues_decode(NULL, 0, NULL, 0, out, 1, NULL, 0, NULL, 0), 0, 0, number[2]);
}

/* A call that changes none of its lists. */
#define REFUSED(call)                                                                                                  \
    do {                                                                                                               \
        uint64_t out[4] = {5, 6, 7, 8}, digits[3] = {5, 6, 7}, inverses[3] = {5, 6, 7};                                \
        const uint64_t same[4] = {5, 6, 7, 8};                                                                         \
        uint32_t code = (call);                                                                                        \
        row(#call,                                                                                                     \
            code == NM_BAD_ARGUMENT && memcmp(out, same, sizeof out) == 0                                              \
                && memcmp(digits, same, sizeof digits) == 0 && memcmp(inverses, same, sizeof inverses) == 0,           \
            code);                                                                                                     \
    } while (0)

static void refused_rows(void) {
    static const uint64_t zero[3] = {3, 0, 7}, common[3] = {6, 35, 10}, above[3] = {2, 5, 2}, none[3] = {0, 0, 0};
#define DECODE(moduli, n, residues, k, places, d, i)                                                                   \
    REFUSED(nm_residues_decode(moduli, n, residues, k, out, places, digits, d, inverses, i))
    DECODE(small, 3, of_23, 2, 3, 3, 3);
    DECODE(small, 3, of_23, 3, 2, 3, 3);
    DECODE(small, 3, of_23, 3, 3, 2, 3);
    DECODE(small, 2, of_23, 2, 3, 3, 2);
    DECODE(small, 3, of_23, 3, 3, 3, 2);
    DECODE(small, 2, of_23, 2, 3, 2, 3);
    DECODE(small, 3, above, 3, 3, 3, 3);
    DECODE(zero, 3, none, 3, 3, 3, 3);
    DECODE(common, 3, none, 3, 3, 3, 3);
    DECODE(NULL, 0, of_23, 3, 3, 3, 3);
    REFUSED(nm_residues_decode(small, 3, NULL, 0, out, 3, digits, 3, inverses, 3));
    REFUSED(nm_residues_decode(small, 3, of_23, 3, NULL, 0, digits, 3, inverses, 3));
    REFUSED(nm_residues_decode(small, 3, of_23, 3, out, 3, NULL, 0, inverses, 3));
    REFUSED(nm_residues_decode(small, 3, of_23, 3, out, 3, digits, 3, NULL, 0));
#define EXTEND(moduli, residues, k, others, o, places, d, i)                                                           \
    REFUSED(nm_residues_extend(moduli, 3, residues, k, others, o, out, places, digits, d, inverses, i))
    EXTEND(small, of_23, 2, common, 3, 3, 3, 3);
    EXTEND(small, of_23, 3, common, 3, 4, 3, 3);
    EXTEND(small, of_23, 3, common, 3, 3, 2, 3);
    EXTEND(small, of_23, 3, common, 3, 3, 3, 2);
    EXTEND(small, of_23, 3, zero, 3, 3, 3, 3);
    EXTEND(small, above, 3, common, 3, 3, 3, 3);
    EXTEND(zero, none, 3, small, 3, 3, 3, 3);
    EXTEND(common, none, 3, small, 3, 3, 3, 3);
    EXTEND(small, NULL, 0, common, 3, 3, 3, 3);
    EXTEND(small, of_23, 3, NULL, 0, 3, 3, 3);
    REFUSED(nm_residues_extend(NULL, 0, of_23, 3, common, 3, out, 3, digits, 3, inverses, 3));
    REFUSED(nm_residues_extend(small, 3, of_23, 3, common, 3, NULL, 0, digits, 3, inverses, 3));
    REFUSED(nm_residues_extend(small, 3, of_23, 3, common, 3, out, 3, NULL, 0, inverses, 3));
    REFUSED(nm_residues_extend(small, 3, of_23, 3, common, 3, out, 3, digits, 3, NULL, 0));
}

static void extend_rows(void) {
    static const uint64_t others[5] = {10, 11, 1, 4, 105}, prime[2] = {1000000007, 12};
    uint64_t out[5] = {7, 7, 7, 7, 7}, digits[3], inverses[3];
    LIST(NM_OK, out, nm_residues_extend(small, 3, of_23, 3, others, 5, out, 5, digits, 3, inverses, 3), 3, 1, 0, 3, 23);
    LIST(NM_OK, out, nm_residues_extend(large, 3, of_number, 3, prime, 2, out, 2, digits, 3, inverses, 3), 768428931, 10,
         0);
    LIST(NM_OK, out, nm_residues_extend(NULL, 0, NULL, 0, small + 1, 1, out, 1, NULL, 0, NULL, 0), 0, 10);
    CODE(NM_OK, nm_residues_extend(small, 3, of_23, 3, NULL, 0, NULL, 0, digits, 3, inverses, 3));
}

void residue_system_rows(void) {
    encode_rows();
    decode_rows();
    extend_rows();
    refused_rows();
}
