/* Hashes of the parts of a text. */
#include "calls.h"

#define TEXT(text) (const uint8_t *)(text), sizeof(text) - 1

static void known_rows(void) {
    static const uint8_t text[4] = {1, 2, 3, 4};
    uint64_t hashes[5] = {7, 7, 7, 7, 7}, powers[5] = {7, 7, 7, 7, 7};
    LIST(NM_BAD_ARGUMENT, hashes, nm_prefix_hashes(1000, text, 4, hashes, 4, powers, 5), 7, 7, 7, 7, 7);
    LIST(NM_BAD_ARGUMENT, powers, nm_prefix_hashes(1000, text, 4, hashes, 5, powers, 4), 7, 7, 7, 7, 7);
    LIST(NM_BAD_ARGUMENT, hashes, nm_prefix_hashes(1000, text, 4, NULL, 0, powers, 5), 7, 7, 7, 7, 7);
    LIST(NM_BAD_ARGUMENT, hashes, nm_prefix_hashes(1000, NULL, 0, hashes, 5, NULL, 0), 7, 7, 7, 7, 7);
    LIST(NM_OK, hashes, nm_prefix_hashes(1000, text, 4, hashes, 5, powers, 5), 0, 1, 1002, 1002003, 1002003004);
    LIST(NM_OK, powers, nm_prefix_hashes(1000, text, 4, hashes, 5, powers, 5), 1, 1000, 1000000, 1000000000, 1000000000000);
    WORD(NM_OK, 2003, nm_substring_hash(hashes, 5, powers, 5, 1, 3, &out));
    WORD(NM_OK, 1002003004, nm_substring_hash(hashes, 5, powers, 5, 0, 4, &out));
    WORD(NM_OK, 0, nm_substring_hash(hashes, 5, powers, 5, 2, 2, &out));
    WORD(NM_BAD_ARGUMENT, 0, nm_substring_hash(hashes, 5, powers, 5, 3, 2, &out));
    WORD(NM_BAD_ARGUMENT, 0, nm_substring_hash(hashes, 5, powers, 5, 1, 5, &out));
    WORD(NM_BAD_ARGUMENT, 0, nm_substring_hash(hashes, 5, powers, 4, 1, 4, &out));
    WORD(NM_BAD_ARGUMENT, 0, nm_substring_hash(NULL, 0, powers, 5, 0, 0, &out));
    WORD(NM_BAD_ARGUMENT, 0, nm_substring_hash(hashes, 5, NULL, 0, 0, 0, &out));
    LIST(NM_OK, hashes, nm_prefix_hashes(1000, NULL, 0, hashes, 1, powers, 1), 0);
    WORD(NM_OK, 0, nm_substring_hash(hashes, 1, powers, 1, 0, 0, &out));
}

/* each part of a text, at a base above 2^61 - 1 */
static void part_rows(void) {
    static const char text[] = "abracadabra";
    const uint64_t x = UINT64_MAX - 5;
    uint64_t hashes[12], powers[12], part, known;
    int same = 1;
    CODE(NM_OK, nm_prefix_hashes(x, TEXT(text), hashes, 12, powers, 12));
    for (size_t to = 0; to < 12; to++)
        for (size_t from = 0; from <= to; from++) {
            nm_hash(x, (const uint8_t *)text + from, to - from, &known);
            same &= nm_substring_hash(hashes, 12, powers, 12, from, to, &part) == NM_OK && part == known;
        }
    row("the hash of each part is that of its bytes", same, 0);
}

void prefix_rows(void) {
    known_rows();
    part_rows();
}
