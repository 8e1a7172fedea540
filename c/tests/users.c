/* Hashes and searches, numbers by their residues, and products of long numbers. */
#include <time.h>

#include "calls.h"

#define BYTES(text) (const uint8_t *)(text), sizeof(text) - 1

/* A call that writes the position out. */
#define POSITION(want_code, want, call)                                                                                \
    do {                                                                                                               \
        size_t out = 77;                                                                                               \
        uint32_t code = (call);                                                                                        \
        row(#call, code == (want_code) && out == (code == NM_OK ? (size_t)(want) : 77), code);                         \
    } while (0)

/* A call that writes the number out. */
#define NUMBER(want_code, want_low, want_high, call)                                                                   \
    do {                                                                                                               \
        nm_double_t out = {UNTOUCHED, UNTOUCHED}, want = {want_low, want_high};                                        \
        uint32_t code = (call);                                                                                        \
        if (code != NM_OK) want.low = want.high = UNTOUCHED;                                                           \
        row(#call, code == (want_code) && out.low == want.low && out.high == want.high, code);                         \
    } while (0)

static void hash_rows(void) {
    WORD(NM_OK, 97098099, nm_hash(1000, BYTES("abc"), &out));
    WORD(NM_OK, UINT64_C(1441598765653), nm_hash(UINT64_MAX, BYTES("a longer text"), &out));
    WORD(NM_OK, 0, nm_hash(5, NULL, 0, &out));
    POSITION(NM_OK, 2, nm_find(1000, BYTES("a longer text"), BYTES("longer"), &out));
    POSITION(NM_OK, 0, nm_find(0, BYTES("aaa"), BYTES("aa"), &out));
    POSITION(NM_OK, 0, nm_find(1, BYTES("abc"), NULL, 0, &out));
    POSITION(NM_NOT_FOUND, 0, nm_find(1, BYTES("abc"), BYTES("cba"), &out));
    POSITION(NM_NOT_FOUND, 0, nm_find(1, BYTES("abc"), BYTES("abcd"), &out));
    POSITION(NM_NOT_FOUND, 0, nm_find(1, NULL, 0, BYTES("a"), &out));
    POSITION(NM_OK, 0, nm_find(1, NULL, 0, NULL, 0, &out));
}

#ifndef UNOPTIMIZED
/* The time of a search by the base x for 2000 a, b and 2000 a in 100,000 a. */
static clock_t search_time(uint64_t x) {
    static uint8_t text[100000], pattern[4001];
    clock_t start = clock();
    memset(text, 'a', sizeof text);
    memset(pattern, 'a', sizeof pattern);
    pattern[2000] = 'b';
    POSITION(NM_NOT_FOUND, 0, nm_find(x, text, sizeof text, pattern, sizeof pattern, &out));
    return clock() - start;
}

/* a drawn base is fast where each window has the pattern's hash at the base 0 */
static void time_rows(void) {
    row("a drawn base takes less time", search_time(UINT64_C(1183974665320196433)) * 4 < search_time(0), 0);
}
#endif

static void decode_rows(void) {
    static const uint64_t small[3] = {3, 5, 7}, residues[3] = {2, 3, 2}, above[3] = {2, 5, 2};
    static const uint64_t zero[3] = {3, 0, 7}, common[3] = {3, 5, 9}, none[3] = {0, 0, 0};
    static const uint64_t large[2] = {UINT64_C(18446744073709551557), UINT64_C(9223372036854775783)};
    static const uint64_t of_large[2] = {123456789, 987654321};
    static const uint64_t too_large[3] = {UINT64_C(18446744073709551557), UINT64_C(9223372036854775783), 3};
    NUMBER(NM_OK, 23, 0, nm_decode(small, 3, residues, 3, &out));
    NUMBER(NM_OK, UINT64_C(9223372042643529004), UINT64_C(9223372036758753805), nm_decode(large, 2, of_large, 2, &out));
    NUMBER(NM_OK, 0, 0, nm_decode(NULL, 0, NULL, 0, &out));
    NUMBER(NM_BAD_ARGUMENT, 0, 0, nm_decode(small, 3, residues, 2, &out));
    NUMBER(NM_BAD_ARGUMENT, 0, 0, nm_decode(small, 3, NULL, 0, &out));
    NUMBER(NM_BAD_ARGUMENT, 0, 0, nm_decode(NULL, 0, residues, 3, &out));
    NUMBER(NM_BAD_ARGUMENT, 0, 0, nm_decode(small, 3, above, 3, &out));
    NUMBER(NM_BAD_ARGUMENT, 0, 0, nm_decode(zero, 3, none, 3, &out));
    NUMBER(NM_BAD_ARGUMENT, 0, 0, nm_decode(common, 3, none, 3, &out));
    NUMBER(NM_BAD_ARGUMENT, 0, 0, nm_decode(too_large, 3, none, 3, &out));
}

void pack(const uint16_t *digits, size_t count, uint64_t *words) {
    for (size_t i = 0; i < count; i++) words[i / 4] = (i % 4 ? words[i / 4] : 0) | (uint64_t)digits[i] << 16 * (i % 4);
}

static void room_rows(void) {
    const size_t half = (size_t)UINT64_C(2147483648), over = (size_t)UINT64_C(4294967297);
    ROOM(NM_OK, 0, 0, nm_product_room(6, 4, &words, &factors));
    ROOM(NM_OK, 8 * half, 3 * half, nm_product_room(half, half, &words, &factors));
    ROOM(NM_BAD_ARGUMENT, 0, 0, nm_product_room(over, 0, &words, &factors));
    ROOM(NM_BAD_ARGUMENT, 0, 0, nm_product_room(0, over, &words, &factors));
    ROOM(NM_BAD_ARGUMENT, 0, 0, nm_product_room(half + 1, half, &words, &factors));
    ROOM(NM_BAD_ARGUMENT, 0, 0, nm_product_room(SIZE_MAX, SIZE_MAX, &words, &factors));
    ROOM(NM_OK, 0, 0, nm_product_room(399, 100000, &words, &factors));
    ROOM(NM_OK, 4096, 1536, nm_product_room(400, 624, &words, &factors));
    ROOM(NM_OK, 8192, 3072, nm_product_room(400, 625, &words, &factors));
}

/* 0x123456789abcdef0fedcba98 times 2^64 - 1 */
static void product_rows(void) {
    static const uint16_t xs[6] = {47768, 65244, 57072, 39612, 22136, 4660}, ys[4] = {65535, 65535, 65535, 65535};
    static const uint16_t want[10] = {17768, 291, 8463, 25923, 25631, 60584, 57072, 39612, 22136, 4660};
    uint64_t digits[3] = {7, 7, 7}, before[3], first[2], second[1], known[3];
    uint64_t left[16] = {7};
    nm_factor_t right[16] = {{7, 7}};
    pack(xs, 6, first);
    pack(ys, 4, second);
    pack(want, 10, known);
    memcpy(before, digits, sizeof digits);
    CODE(NM_BAD_ARGUMENT, nm_product(first, 2, second, 1, digits, 2, left, 16, right, 16));
    row("a refused product writes nothing", memcmp(digits, before, sizeof digits) == 0 && left[0] == 7 && right[0].value == 7, 0);
    CODE(NM_OK, nm_product(first, 2, second, 1, digits, 3, left, 16, right, 16));
    row("the digits of the product", memcmp(digits, known, sizeof known) == 0, 0);
    CODE(NM_OK, nm_product(first, 2, second, 1, digits, 3, left, 15, right, 16));
    CODE(NM_OK, nm_product(first, 2, second, 1, digits, 3, left, 16, right, 8));
    row("short factors take no room", memcmp(digits, known, sizeof known) == 0, 0);
}

/* (2^25600 - 1)^2, which is 2^51200 - 2^25601 + 1 */
static void transformed_rows(void) {
    static uint64_t ones[400], digits[800], left[4096];
    static nm_factor_t right[1536];
    int same = 1;
    memset(ones, 0xff, sizeof ones);
    digits[0] = left[0] = right[0].value = 7;
    CODE(NM_BAD_ARGUMENT, nm_product(ones, 400, ones, 400, digits, 799, left, 4096, right, 1536));
    CODE(NM_BAD_ARGUMENT, nm_product(ones, 400, ones, 400, digits, 800, left, 4095, right, 1536));
    CODE(NM_BAD_ARGUMENT, nm_product(ones, 400, ones, 400, digits, 800, left, 4096, right, 1535));
    CODE(NM_BAD_ARGUMENT, nm_product(ones, 400, ones, 400, digits, 800, NULL, 0, right, 1536));
    CODE(NM_BAD_ARGUMENT, nm_product(ones, 400, ones, 400, digits, 800, left, 4096, NULL, 0));
    row("no room, and nothing is written", digits[0] == 7 && left[0] == 7 && right[0].value == 7, 0);
    CODE(NM_OK, nm_product(ones, 400, ones, 400, digits, 800, left, 4096, right, 1536));
    for (int i = 0; i < 800; i++)
        same &= digits[i] == (i == 0 ? 1 : i < 400 ? 0 : i == 400 ? UINT64_MAX - 1 : UINT64_MAX);
    row("the digits of a product by transforms", same, 0);
}

/* NULL as a number of no digits, which is 0, and as a list without room */
static void empty_rows(void) {
    static const uint64_t xs[2] = {7, 9};
    uint64_t digits[2] = {7, 7}, left[2] = {7, 7};
    nm_factor_t right[2] = {{7, 7}, {7, 7}};
    ROOM(NM_OK, 0, 0, nm_product_room(0, 0, &words, &factors));
    CODE(NM_OK, nm_product(NULL, 0, NULL, 0, NULL, 0, left, 1, right, 1));
    CODE(NM_OK, nm_product(NULL, 0, NULL, 0, NULL, 0, NULL, 0, right, 2));
    CODE(NM_OK, nm_product(NULL, 0, NULL, 0, NULL, 0, left, 2, NULL, 0));
    CODE(NM_BAD_ARGUMENT, nm_product(xs, 2, NULL, 0, NULL, 0, left, 2, right, 2));
    row("no digit is written", digits[0] == 7 && digits[1] == 7, 0);
    CODE(NM_OK, nm_product(xs, 2, NULL, 0, digits, 2, left, 2, right, 2));
    row("a number times no digits", digits[0] == 0 && digits[1] == 0, 0);
    digits[0] = digits[1] = 7;
    CODE(NM_OK, nm_product(NULL, 0, xs, 2, digits, 2, left, 2, right, 2));
    row("no digits times a number", digits[0] == 0 && digits[1] == 0, 0);
}

void user_rows(void) {
    hash_rows();
#ifndef UNOPTIMIZED
    time_rows();
#endif
    decode_rows();
    room_rows();
    product_rows();
    transformed_rows();
    empty_rows();
}
