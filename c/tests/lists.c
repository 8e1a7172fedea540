/* Operations on lists, entry by entry, of words and of forms. */
#include "calls.h"

/* what each call makes of the same two lists modulo m: sums, differences, products, multiples; and the sum of products */
static void word_rows(uint64_t m, const uint64_t wanted[4][3], uint64_t dot) {
    const uint64_t xs[3] = {5, 9, UINT64_MAX}, ys[3] = {8, UINT64_MAX, 7};
    for (int call = 0; call < 4; call++) {
        uint64_t list[3];
        uint32_t code = UINT32_MAX;
        memcpy(list, xs, sizeof xs);
        if (call == 0) code = nm_add_lists(m, list, 3, ys, 3);
        if (call == 1) code = nm_sub_lists(m, list, 3, ys, 3);
        if (call == 2) code = nm_multiply_lists(m, list, 3, ys, 3);
        if (call == 3) code = nm_scale_list(m, list, 3, UINT64_MAX - 6);
        row("a call on lists of words", code == NM_OK && memcmp(list, wanted[call], sizeof list) == 0, code);
    }
    WORD(NM_OK, dot, nm_dot_product(m, xs, 3, ys, 3, &out));
}

static void refused_word_rows(void) {
    uint64_t xs[2] = {5, 9};
    const uint64_t ys[2] = {8, 7};
    LIST(NM_BAD_ARGUMENT, xs, nm_add_lists(0, xs, 2, ys, 2), 5, 9);
    LIST(NM_BAD_ARGUMENT, xs, nm_add_lists(7, xs, 2, ys, 1), 5, 9);
    LIST(NM_BAD_ARGUMENT, xs, nm_sub_lists(0, xs, 2, ys, 2), 5, 9);
    LIST(NM_BAD_ARGUMENT, xs, nm_sub_lists(7, xs, 1, ys, 2), 5, 9);
    LIST(NM_BAD_ARGUMENT, xs, nm_multiply_lists(0, xs, 2, ys, 2), 5, 9);
    LIST(NM_BAD_ARGUMENT, xs, nm_multiply_lists(7, xs, 2, NULL, 0), 5, 9);
    LIST(NM_BAD_ARGUMENT, xs, nm_scale_list(0, xs, 2, 3), 5, 9);
    WORD(NM_BAD_ARGUMENT, 0, nm_dot_product(0, xs, 2, ys, 2, &out));
    WORD(NM_BAD_ARGUMENT, 0, nm_dot_product(7, xs, 2, ys, 1, &out));
    CODE(NM_OK, nm_add_lists(7, NULL, 0, NULL, 0));
    CODE(NM_OK, nm_sub_lists(7, NULL, 0, NULL, 0));
    CODE(NM_OK, nm_multiply_lists(7, NULL, 0, NULL, 0));
    CODE(NM_OK, nm_scale_list(7, NULL, 0, 3));
    WORD(NM_OK, 0, nm_dot_product(7, NULL, 0, NULL, 0, &out));
}

/* forms modulo 97 by their definition, v * 2^64: those of 7, 9, 96 and of 10, 90, 96 */
static void form_rows(const nm_montgomery_t *ring) {
    const uint64_t xs[3] = {39, 64, 36}, ys[3] = {28, 58, 36};
    uint64_t list[3];
    memcpy(list, xs, sizeof xs);
    LIST(NM_OK, list, nm_montgomery_add_lists(ring, list, 3, ys, 3), 67, 25, 72);
    memcpy(list, xs, sizeof xs);
    LIST(NM_OK, list, nm_montgomery_sub_lists(ring, list, 3, ys, 3), 11, 6, 0);
    memcpy(list, xs, sizeof xs);
    LIST(NM_OK, list, nm_montgomery_multiply_lists(ring, list, 3, ys, 3), 2, 37, 61);
    memcpy(list, xs, sizeof xs);
    LIST(NM_OK, list, nm_montgomery_scale_list(ring, list, 3, 43), 10, 96, 54); /* by 50 */
    WORD(NM_OK, 3, nm_montgomery_dot_product(ring, xs, 3, ys, 3, &out));
    CODE(NM_OK, nm_montgomery_add_lists(ring, NULL, 0, NULL, 0));
    CODE(NM_OK, nm_montgomery_sub_lists(ring, NULL, 0, NULL, 0));
    CODE(NM_OK, nm_montgomery_multiply_lists(ring, NULL, 0, NULL, 0));
    CODE(NM_OK, nm_montgomery_scale_list(ring, NULL, 0, 0));
    WORD(NM_OK, 0, nm_montgomery_dot_product(ring, NULL, 0, NULL, 0, &out));
}

static void refused_form_rows(const nm_montgomery_t *ring) {
    const nm_montgomery_t changed = {ring->modulus, ring->negated_inverse + 1, ring->square};
    const uint64_t ys[2] = {1, 2}, above[2] = {1, 97};
    uint64_t xs[2] = {3, 4}, high[2] = {97, 4};
    LIST(NM_BAD_ARGUMENT, xs, nm_montgomery_add_lists(ring, xs, 2, ys, 1), 3, 4);
    LIST(NM_BAD_ARGUMENT, xs, nm_montgomery_add_lists(ring, xs, 2, above, 2), 3, 4);
    LIST(NM_BAD_ARGUMENT, high, nm_montgomery_add_lists(ring, high, 2, ys, 2), 97, 4);
    LIST(NM_BAD_ARGUMENT, xs, nm_montgomery_sub_lists(ring, xs, 1, ys, 2), 3, 4);
    LIST(NM_BAD_ARGUMENT, xs, nm_montgomery_sub_lists(ring, xs, 2, above, 2), 3, 4);
    LIST(NM_BAD_ARGUMENT, high, nm_montgomery_sub_lists(ring, high, 2, ys, 2), 97, 4);
    LIST(NM_BAD_ARGUMENT, xs, nm_montgomery_multiply_lists(ring, xs, 2, ys, 1), 3, 4);
    LIST(NM_BAD_ARGUMENT, xs, nm_montgomery_multiply_lists(ring, xs, 2, above, 2), 3, 4);
    LIST(NM_BAD_ARGUMENT, high, nm_montgomery_multiply_lists(ring, high, 2, ys, 2), 97, 4);
    LIST(NM_BAD_ARGUMENT, high, nm_montgomery_scale_list(ring, high, 2, 5), 97, 4);
    LIST(NM_BAD_ARGUMENT, xs, nm_montgomery_scale_list(ring, xs, 2, 97), 3, 4);
    WORD(NM_BAD_ARGUMENT, 0, nm_montgomery_dot_product(ring, xs, 2, ys, 1, &out));
    WORD(NM_BAD_ARGUMENT, 0, nm_montgomery_dot_product(ring, xs, 2, above, 2, &out));
    WORD(NM_BAD_ARGUMENT, 0, nm_montgomery_dot_product(ring, high, 2, ys, 2, &out));
    LIST(NM_BAD_CONTEXT, xs, nm_montgomery_add_lists(&changed, xs, 2, ys, 2), 3, 4);
    LIST(NM_BAD_CONTEXT, xs, nm_montgomery_sub_lists(&changed, xs, 2, ys, 2), 3, 4);
    LIST(NM_BAD_CONTEXT, xs, nm_montgomery_multiply_lists(&changed, xs, 2, ys, 2), 3, 4);
    LIST(NM_BAD_CONTEXT, xs, nm_montgomery_scale_list(&changed, xs, 2, 5), 3, 4);
    WORD(NM_BAD_CONTEXT, 0, nm_montgomery_dot_product(&changed, xs, 2, ys, 2, &out));
}

void word_list_rows(void) {
    nm_montgomery_t ring;
    word_rows(9, (const uint64_t[][3]){{4, 6, 4}, {6, 3, 8}, {4, 0, 6}, {0, 0, 0}}, 1);
    word_rows(
        UINT64_MAX,
        (const uint64_t[][3]){
            {13, 9, 7}, {UINT64_MAX - 3, 9, UINT64_MAX - 7}, {40, 0, 0}, {UINT64_MAX - 30, UINT64_MAX - 54, 0}},
        40);
    word_rows(UINT64_MAX - 1,
              (const uint64_t[][3]){{13, 10, 8},
                                    {UINT64_MAX - 4, 8, UINT64_MAX - 7},
                                    {40, 9, 7},
                                    {UINT64_MAX - 26, UINT64_MAX - 46, UINT64_MAX - 6}},
              56);
    word_rows(1, (const uint64_t[][3]){{0, 0, 0}, {0, 0, 0}, {0, 0, 0}, {0, 0, 0}}, 0);
    refused_word_rows();
    CODE(NM_OK, nm_montgomery(97, &ring));
    form_rows(&ring);
    refused_form_rows(&ring);
}
