/* Roots, transforms and cyclic products. */
#include <stdlib.h>

#include "calls.h"

static void root_rows(void) {
    nm_montgomery_t ring;
    CODE(NM_OK, nm_montgomery(21, &ring));
    CODE(NM_NO_ROOT, nm_montgomery_root_fits(&ring, 8, 2));
    CODE(NM_OK, nm_montgomery_root_fits(&ring, 20, 2));
    CODE(NM_OK, nm_montgomery_root_fits(&ring, 41, 2));
    CODE(NM_OK, nm_montgomery_root_fits(&ring, 5, 1));
    CODE(NM_NO_ROOT, nm_montgomery_root_fits(&ring, 20, 0));
    CODE(NM_NO_ROOT, nm_montgomery_root_fits(&ring, 20, 3));
    CODE(NM_OK, nm_montgomery(17, &ring));
    WORD(NM_OK, 13, nm_montgomery_find_root(&ring, 4, &out));
    CODE(NM_OK, nm_montgomery(97, &ring));
    WORD(NM_OK, 28, nm_montgomery_find_root(&ring, 32, &out));
    WORD(NM_NO_ROOT, 0, nm_montgomery_find_root(&ring, 64, &out));
    WORD(NM_NO_ROOT, 0, nm_montgomery_find_root(&ring, 0, &out));
    WORD(NM_NO_ROOT, 0, nm_montgomery_find_root(&ring, 12, &out));
    WORD(NM_OK, UINT64_C(18446744069397807105), nm_solinas_find_root(8, &out));
    WORD(NM_OK, UINT64_C(3511170319078647661), nm_solinas_find_root(1048576, &out));
    WORD(NM_NO_ROOT, 0, nm_solinas_find_root(0, &out));
    WORD(NM_NO_ROOT, 0, nm_solinas_find_root(SIZE_MAX / 2 + 1, &out));
    CODE(NM_OK, nm_solinas_root_fits(UINT64_C(3511170319078647661), 1048576));
    CODE(NM_NO_ROOT, nm_solinas_root_fits(UINT64_C(3511170319078647661), 524288));
    CODE(NM_NO_ROOT, nm_solinas_root_fits(7, 3));
}

static void list_rows(void) {
    nm_montgomery_t ring;
    uint64_t two[2] = {7, 9}, one[2] = {1, 0}, three[3] = {1, 2, 3};
    uint64_t xs[4] = {1, 2, 3, 4}, ys[4] = {0, 1, 0, 0}, us[4] = {1, 2, 3, 4}, vs[4] = {86, 1, 0, 0};
    uint64_t sums[4] = {10, 7, 15 + 17 * UINT64_C(1000), 6};
    CODE(NM_OK, nm_montgomery(20, &ring));
    LIST(NM_NO_INVERSE, two, nm_montgomery_convolve(&ring, two, 2, one, 2, 19), 7, 9);
    LIST(NM_NO_INVERSE, one, nm_montgomery_convolve(&ring, two, 2, one, 2, 19), 1, 0);
    LIST(NM_NO_ROOT, two, nm_montgomery_ntt(&ring, two, 2, 3), 7, 9);
    LIST(NM_OK, two, nm_montgomery_ntt(&ring, two, 2, 19), 16, 18);
    LIST(NM_NO_ROOT, three, nm_montgomery_ntt(&ring, three, 3, 19), 1, 2, 3);
    CODE(NM_NO_ROOT, nm_montgomery_ntt(&ring, NULL, 0, 19));
    LIST(NM_NO_INVERSE, two, nm_montgomery_intt(&ring, two, 2, 19), 16, 18);
    LIST(NM_NO_ROOT, two, nm_montgomery_intt(&ring, two, 2, 3), 16, 18);
    LIST(NM_NO_ROOT, three, nm_montgomery_intt(&ring, three, 3, 19), 1, 2, 3);
    CODE(NM_NO_ROOT, nm_montgomery_intt(&ring, NULL, 0, 19));
    CODE(NM_NO_ROOT, nm_montgomery_convolve(&ring, NULL, 0, NULL, 0, 19));
    CODE(NM_OK, nm_montgomery(17, &ring));
    LIST(NM_BAD_ARGUMENT, xs, nm_montgomery_convolve(&ring, xs, 4, xs, 4, 4), 1, 2, 3, 4);
    LIST(NM_BAD_ARGUMENT, xs, nm_montgomery_convolve(&ring, xs, 4, ys, 2, 4), 1, 2, 3, 4);
    LIST(NM_BAD_ARGUMENT, xs, nm_montgomery_convolve(&ring, xs, 4, NULL, 0, 4), 1, 2, 3, 4);
    LIST(NM_NO_ROOT, ys, nm_montgomery_convolve(&ring, xs, 4, ys, 4, 3), 0, 1, 0, 0);
    LIST(NM_OK, xs, nm_montgomery_convolve(&ring, xs, 4, ys, 4, 4), 4, 1, 2, 3);
    LIST(NM_OK, ys, NM_OK, 1, 4, 16, 13);
    LIST(NM_OK, ys, nm_montgomery_intt(&ring, ys, 4, 4), 0, 1, 0, 0);
    LIST(NM_OK, sums, nm_montgomery_intt(&ring, sums, 4, 21), 1, 2, 3, 4);
    CODE(NM_OK, nm_montgomery(85, &ring));
    LIST(NM_OK, us, nm_montgomery_convolve(&ring, us, 4, vs, 4, 98), 5, 3, 5, 7);
    LIST(NM_OK, vs, NM_OK, 2, 14, 0, 73);
    LIST(NM_OK, vs, nm_montgomery_intt(&ring, vs, 4, 13), 1, 1, 0, 0);
}

static void solinas_rows(void) {
    uint64_t xs[8] = {1, 2, 3}, ys[8] = {4, 5}, root = UINT64_C(18446744069397807105);
    LIST(NM_NO_ROOT, xs, nm_solinas_ntt(xs, 8, 7), 1, 2, 3, 0, 0, 0, 0, 0);
    LIST(NM_NO_ROOT, xs, nm_solinas_ntt(xs, 7, root), 1, 2, 3, 0, 0, 0, 0, 0);
    LIST(NM_BAD_ARGUMENT, xs, nm_solinas_convolve(xs, 8, xs, 8, root), 1, 2, 3, 0, 0, 0, 0, 0);
    LIST(NM_NO_ROOT, xs, nm_solinas_convolve(xs, 8, ys, 8, 7), 1, 2, 3, 0, 0, 0, 0, 0);
    LIST(NM_BAD_ARGUMENT, ys, nm_solinas_convolve(xs, 8, ys, 4, root), 4, 5, 0, 0, 0, 0, 0, 0);
    LIST(NM_NO_ROOT, xs, nm_solinas_intt(xs, 8, 7), 1, 2, 3, 0, 0, 0, 0, 0);
    LIST(NM_NO_ROOT, xs, nm_solinas_intt(xs, 7, root), 1, 2, 3, 0, 0, 0, 0, 0);
    CODE(NM_NO_ROOT, nm_solinas_ntt(NULL, 0, root));
    CODE(NM_NO_ROOT, nm_solinas_intt(NULL, 0, root));
    CODE(NM_NO_ROOT, nm_solinas_convolve(NULL, 0, NULL, 0, root));
    LIST(NM_OK, xs, nm_solinas_convolve(xs, 8, ys, 8, root), 4, 13, 22, 15, 0, 0, 0, 0);
    LIST(NM_OK, ys, nm_solinas_intt(ys, 8, root), 4, 5, 0, 0, 0, 0, 0, 0);
}

/* the transform of 2^20 ones: their number, and then zeros; and back */
static void long_row(void) {
    size_t n = 1048576, zeros = 0, ones = 0;
    uint64_t *xs = malloc(n * sizeof *xs);
    if (xs == NULL) return;
    for (size_t i = 0; i < n; i++) xs[i] = 1;
    CODE(NM_OK, nm_solinas_ntt(xs, n, UINT64_C(3511170319078647661)));
    for (size_t i = 1; i < n; i++) zeros += xs[i] == 0;
    row("2^20 ones", xs[0] == n && zeros == n - 1, NM_OK);
    CODE(NM_OK, nm_solinas_intt(xs, n, UINT64_C(3511170319078647661)));
    for (size_t i = 0; i < n; i++) ones += xs[i] == 1;
    row("2^20 ones again", ones == n, NM_OK);
    free(xs);
}

void transform_rows(void) {
    root_rows();
    list_rows();
    solinas_rows();
    long_row();
}
