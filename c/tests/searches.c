/* Searches for several patterns of one length at every position of a text. */
#include "calls.h"

#define TEXT(text) (const uint8_t *)(text), sizeof(text) - 1
/* a size whose double is 2^64 */
#define HALF ((size_t)1 << (8 * sizeof(size_t) - 1))

static uint64_t hashes[3];
static size_t found[12];

/* A call after which found begins with these numbers, after it was filled with 77. */
#define FOUND(want_code, call, ...)                                                                                    \
    do {                                                                                                               \
        const size_t wanted[] = {__VA_ARGS__};                                                                         \
        for (size_t i = 0; i < 12; i++) found[i] = 77;                                                                 \
        uint32_t code = (call);                                                                                        \
        row(#call, code == (want_code) && memcmp(found, wanted, sizeof wanted) == 0, code);                            \
    } while (0)

static void known_rows(void) {
    FOUND(NM_OK, nm_find_all(1000, TEXT("abab"), TEXT("baab"), 2, hashes, 2, found, 4), 1, 0, 1, 2, 77);
    FOUND(NM_OK, nm_find_all(123456789, TEXT("abracadabra"), TEXT("cadbra"), 3, hashes, 2, found, 11), 2, 1, 2, 2, 0, 2,
          2, 2, 1, 2, 2, 77);
    /* the hash at the base 0, or 2^61 - 1, is the last byte; at 1 it is the sum of the bytes */
    FOUND(NM_OK, nm_find_all(0, TEXT("aabba"), TEXT("aaab"), 2, hashes, 2, found, 5), 0, 1, 2, 2, 2, 77);
    FOUND(NM_OK, nm_find_all(UINT64_C(2305843009213693951), TEXT("aabba"), TEXT("aaab"), 2, hashes, 2, found, 2), 0, 1, 77);
    FOUND(NM_OK, nm_find_all(1, TEXT("abba"), TEXT("baabba"), 2, hashes, 3, found, 4), 1, 3, 0, 3, 77);
}

/* no byte, no pattern, no place; a text that is shorter than the patterns; the empty pattern, up to the end of the text */
static void edge_rows(void) {
    static const uint8_t text[2] = {1, 2}, patterns[4] = {2, 1, 1, 2};
    FOUND(NM_OK, nm_find_all(5, text, 1, patterns, 4, 2, hashes, 2, found, 3), 2, 2, 2, 77);
    FOUND(NM_OK, nm_find_all(5, NULL, 0, patterns, 4, 2, hashes, 2, found, 2), 2, 2, 77);
    FOUND(NM_OK, nm_find_all(5, text, 2, NULL, 0, 0, hashes, 2, found, 5), 0, 0, 0, 2, 2, 77);
    FOUND(NM_OK, nm_find_all(5, text, 2, NULL, 0, SIZE_MAX, NULL, 0, found, 2), 0, 0, 77);
    FOUND(NM_OK, nm_find_all(5, text, 2, patterns, 4, 2, hashes, 2, NULL, 0), 77);
    FOUND(NM_OK, nm_find_all(5, NULL, 0, NULL, 0, 0, NULL, 0, NULL, 0), 77);
}

static void refused_rows(void) {
    static const uint8_t text[2] = {1, 2}, patterns[4] = {2, 1, 1, 2};
    hashes[0] = 7;
    FOUND(NM_BAD_ARGUMENT, nm_find_all(5, text, 2, patterns, 3, 2, hashes, 2, found, 2), 77, 77);
    FOUND(NM_BAD_ARGUMENT, nm_find_all(5, text, 2, patterns, 4, 2, hashes, 1, found, 2), 77, 77);
    FOUND(NM_BAD_ARGUMENT, nm_find_all(5, text, 2, patterns, 4, 2, NULL, 0, found, 2), 77, 77);
    FOUND(NM_BAD_ARGUMENT, nm_find_all(5, text, 2, patterns, 0, HALF, hashes, 2, found, 2), 77, 77);
    row("no hash is written", hashes[0] == 7, 0);
}

/* each position of a text that holds its own patterns, at bases one after the other, by comparing bytes */
static void compared_rows(void) {
    static const uint8_t text[12] = "aabbabaaabab";
    int same = 1;
    for (uint64_t x = 0; x < 300; x++)
        for (size_t size = 1; size <= 4; size++) {
            same &= nm_find_all(x, text, 12, text + 3, 2 * size, size, hashes, 2, found, 12) == NM_OK;
            for (size_t at = 0; at < 12; at++) {
                size_t first = 0;
                while (first < 2 && (at + size > 12 || memcmp(text + at, text + 3 + first * size, size))) first++;
                same &= found[at] == first;
            }
        }
    row("the first pattern at each position is that of its bytes", same, 0);
}

void search_rows(void) {
    known_rows();
    edge_rows();
    refused_rows();
    compared_rows();
}
