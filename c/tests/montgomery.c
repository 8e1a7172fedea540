/* Montgomery's representation. */
#include "calls.h"

/* residues of sums, products and powers, by way of forms */
static void value_rows(uint64_t m, uint64_t a, uint64_t b, uint64_t sum, uint64_t difference, uint64_t product,
                       uint64_t square) {
    nm_montgomery_t ring;
    uint64_t f = 0, g = 0, h = 0;
    CODE(NM_OK, nm_montgomery(m, &ring));
    CODE(NM_OK, nm_montgomery_transform(&ring, a, &f));
    CODE(NM_OK, nm_montgomery_transform(&ring, b, &g));
    CODE(NM_OK, nm_montgomery_add(&ring, f, g, &h));
    WORD(NM_OK, sum, nm_montgomery_residue(&ring, h, &out));
    CODE(NM_OK, nm_montgomery_sub(&ring, f, g, &h));
    WORD(NM_OK, difference, nm_montgomery_residue(&ring, h, &out));
    CODE(NM_OK, nm_montgomery_mul(&ring, f, g, &h));
    WORD(NM_OK, product, nm_montgomery_residue(&ring, h, &out));
    CODE(NM_OK, nm_montgomery_pow(&ring, f, 2, &h));
    WORD(NM_OK, square, nm_montgomery_residue(&ring, h, &out));
}

/* forms by their definition: v * 2^64 modulo the odd part, above the lowest bits of v */
static void form_rows(void) {
    nm_montgomery_t ring;
    CODE(NM_OK, nm_montgomery(20, &ring));
    WORD(NM_OK, 11, nm_montgomery_transform(&ring, 7, &out));
    WORD(NM_OK, 17, nm_montgomery_transform(&ring, 9, &out));
    WORD(NM_OK, 15, nm_montgomery_mul(&ring, 11, 17, &out));
    WORD(NM_NO_INVERSE, 0, nm_montgomery_inv(&ring, 2, &out));
    WORD(NM_BAD_ARGUMENT, 0, nm_montgomery_residue(&ring, 20, &out));
    WORD(NM_BAD_ARGUMENT, 0, nm_montgomery_add(&ring, 20, 1, &out));
    WORD(NM_BAD_ARGUMENT, 0, nm_montgomery_sub(&ring, 1, 20, &out));
    WORD(NM_BAD_ARGUMENT, 0, nm_montgomery_mul(&ring, 1, 20, &out));
    WORD(NM_BAD_ARGUMENT, 0, nm_montgomery_mul(&ring, UINT64_MAX, 1, &out));
    WORD(NM_BAD_ARGUMENT, 0, nm_montgomery_pow(&ring, 20, 3, &out));
    WORD(NM_BAD_ARGUMENT, 0, nm_montgomery_inv(&ring, 20, &out));
    CODE(NM_OK, nm_montgomery(97, &ring));
    WORD(NM_OK, 39, nm_montgomery_transform(&ring, 7, &out));
    WORD(NM_OK, 64, nm_montgomery_transform(&ring, 9, &out));
    WORD(NM_OK, 60, nm_montgomery_mul(&ring, 39, 64, &out));
    CODE(NM_OK, nm_montgomery(UINT64_MAX - 1, &ring));
    WORD(NM_OK, UINT64_MAX - 4, nm_montgomery_transform(&ring, UINT64_MAX - 2, &out));
    WORD(NM_OK, 5, nm_montgomery_pow(&ring, UINT64_MAX - 4, 2, &out));
    WORD(NM_OK, UINT64_MAX - 4, nm_montgomery_inv(&ring, UINT64_MAX - 4, &out));
    CODE(NM_OK, nm_montgomery(1, &ring));
    WORD(NM_OK, 0, nm_montgomery_transform(&ring, UINT64_MAX, &out));
    WORD(NM_OK, 0, nm_montgomery_inv(&ring, 0, &out));
    WORD(NM_OK, 0, nm_montgomery_pow(&ring, 0, 0, &out));
    WORD(NM_BAD_ARGUMENT, 0, nm_montgomery_residue(&ring, 1, &out));
}

/* what every call answers of a context that isn't one */
static void bad_context_rows(const nm_montgomery_t *ring) {
    uint64_t xs[2] = {1, 2}, ys[2] = {3, 4};
    WORD(NM_BAD_CONTEXT, 0, nm_montgomery_transform(ring, 1, &out));
    WORD(NM_BAD_CONTEXT, 0, nm_montgomery_residue(ring, 0, &out));
    WORD(NM_BAD_CONTEXT, 0, nm_montgomery_add(ring, 0, 0, &out));
    WORD(NM_BAD_CONTEXT, 0, nm_montgomery_sub(ring, 0, 0, &out));
    WORD(NM_BAD_CONTEXT, 0, nm_montgomery_mul(ring, 0, 0, &out));
    WORD(NM_BAD_CONTEXT, 0, nm_montgomery_pow(ring, 0, 3, &out));
    WORD(NM_BAD_CONTEXT, 0, nm_montgomery_inv(ring, 0, &out));
    CODE(NM_BAD_CONTEXT, nm_montgomery_root_fits(ring, 1, 1));
    WORD(NM_BAD_CONTEXT, 0, nm_montgomery_find_root(ring, 1, &out));
    nm_command_t load = {NM_LOAD, 0, 0, 0, 5};
    size_t done = 77;
    LIST(NM_BAD_CONTEXT, xs, nm_montgomery_run(ring, xs, 2, &load, 1, &done), 1, 2);
    row("a run with a bad context writes no number", done == 77, NM_BAD_CONTEXT);
    LIST(NM_BAD_CONTEXT, xs, nm_montgomery_ntt(ring, xs, 2, 1), 1, 2);
    LIST(NM_BAD_CONTEXT, xs, nm_montgomery_intt(ring, xs, 2, 1), 1, 2);
    LIST(NM_BAD_CONTEXT, xs, nm_montgomery_convolve(ring, xs, 2, ys, 2, 1), 1, 2);
    LIST(NM_BAD_CONTEXT, ys, nm_montgomery_convolve(ring, xs, 2, ys, 2, 1), 3, 4);
}

/* each bit of a context changed is found out */
static void changed_context_rows(uint64_t m) {
    for (int bit = 0; bit < 192; bit++) {
        nm_montgomery_t ring;
        CODE(NM_OK, nm_montgomery(m, &ring));
        *(bit < 64 ? &ring.modulus : bit < 128 ? &ring.negated_inverse : &ring.square) ^= UINT64_C(1) << bit % 64;
        bad_context_rows(&ring);
    }
}

void montgomery_rows(void) {
    nm_montgomery_t ring = {UNTOUCHED, UNTOUCHED, UNTOUCHED};
    uint32_t code = nm_montgomery(0, &ring);
    row("nm_montgomery(0, &ring)",
        code == NM_BAD_ARGUMENT && ring.modulus == UNTOUCHED && ring.negated_inverse == UNTOUCHED
            && ring.square == UNTOUCHED, code);
    value_rows(11, 5, 6, 0, 10, 8, 3);
    value_rows(5, 12, 13, 0, 4, 1, 4);
    value_rows(97, 10, 20, 30, 87, 6, 3);
    value_rows(20, 7, 9, 16, 18, 3, 9);
    value_rows(UINT64_MAX, UINT64_MAX - 1, UINT64_MAX - 1, UINT64_MAX - 2, 0, 1, 1);
    form_rows();
    memset(&ring, 0, sizeof ring);
    bad_context_rows(&ring);
    changed_context_rows(97);
    changed_context_rows(20);
}
