/* Products of polynomials modulo any m. */
#include "calls.h"

#define M UINT64_C(1000000007)

/* a product without scratch lists, and the list that it writes */
#define PRODUCT(call, m, n, k, places, ...)                                                                            \
    LIST(NM_OK, out, call(m, xs, n, ys, k, out, places, NULL, 0, NULL, 0), __VA_ARGS__)

#define REFUSED(call) LIST(NM_BAD_ARGUMENT, out, call, 7, 7, 7, 7, 7, 7, 7)

static void short_rows(void) {
    static const uint64_t xs[3] = {1, 2, 3}, ys[4] = {4, 5, 6, 7};
    uint64_t out[7] = {7, 7, 7, 7, 7, 7, 7};
    PRODUCT(nm_polynomial_multiply, M, 3, 4, 6, 4, 13, 28, 34, 32, 21, 7);
    PRODUCT(nm_polynomial_multiply, 1, 3, 4, 6, 0, 0, 0, 0, 0, 0, 7);
    PRODUCT(nm_polynomial_multiply_cyclic, 100, 3, 3, 3, 31, 31, 28);
    PRODUCT(nm_polynomial_multiply_negacyclic, 100, 3, 3, 3, 77, 95, 28);
    PRODUCT(nm_polynomial_multiply_negacyclic, 1, 3, 3, 3, 0, 0, 0);
}

static void great_rows(void) {
    static const uint64_t small[2] = {M - 1, M - 1}, xs[2] = {UINT64_MAX - 1, UINT64_MAX - 1}, ys[2] = {UINT64_MAX - 1, 1};
    uint64_t out[3] = {7, 7, 7};
    LIST(NM_OK, out, nm_polynomial_square(M, small, 2, out, 3, NULL, 0, NULL, 0), 1, 2, 1);
    LIST(NM_OK, out, nm_polynomial_multiply(M, small, 2, small, 2, out, 3, NULL, 0, NULL, 0), 1, 2, 1);
    LIST(NM_OK, out, nm_polynomial_multiply(UINT64_MAX, xs, 2, ys, 2, out, 3, NULL, 0, NULL, 0), 1, 0, UINT64_MAX - 1);
}

static void refused_rows(void) {
    static const uint64_t xs[3] = {1, 2, 3};
    uint64_t out[7] = {7, 7, 7, 7, 7, 7, 7};
    CODE(NM_OK, nm_polynomial_multiply(M, NULL, 0, NULL, 0, NULL, 0, NULL, 0, NULL, 0));
    CODE(NM_OK, nm_polynomial_multiply(M, xs, 3, NULL, 0, NULL, 0, NULL, 0, NULL, 0));
    CODE(NM_OK, nm_polynomial_multiply(M, NULL, 0, xs, 3, NULL, 0, NULL, 0, NULL, 0));
    CODE(NM_OK, nm_polynomial_square(M, NULL, 0, NULL, 0, NULL, 0, NULL, 0));
    CODE(NM_OK, nm_polynomial_multiply_cyclic(M, NULL, 0, NULL, 0, NULL, 0, NULL, 0, NULL, 0));
    CODE(NM_OK, nm_polynomial_multiply_negacyclic(M, NULL, 0, NULL, 0, NULL, 0, NULL, 0, NULL, 0));
    REFUSED(nm_polynomial_multiply(0, xs, 3, xs, 3, out, 5, NULL, 0, NULL, 0));
    REFUSED(nm_polynomial_multiply(M, xs, 3, xs, 3, out, 6, NULL, 0, NULL, 0));
    REFUSED(nm_polynomial_multiply(M, xs, 3, NULL, 0, out, 1, NULL, 0, NULL, 0));
    REFUSED(nm_polynomial_square(0, xs, 3, out, 5, NULL, 0, NULL, 0));
    REFUSED(nm_polynomial_square(M, xs, 3, out, 4, NULL, 0, NULL, 0));
    REFUSED(nm_polynomial_multiply_cyclic(0, xs, 3, xs, 3, out, 3, NULL, 0, NULL, 0));
    REFUSED(nm_polynomial_multiply_cyclic(M, xs, 3, xs, 2, out, 3, NULL, 0, NULL, 0));
    REFUSED(nm_polynomial_multiply_cyclic(M, xs, 3, xs, 3, out, 5, NULL, 0, NULL, 0));
    REFUSED(nm_polynomial_multiply_negacyclic(0, xs, 3, xs, 3, out, 3, NULL, 0, NULL, 0));
    REFUSED(nm_polynomial_multiply_negacyclic(M, xs, 2, xs, 3, out, 3, NULL, 0, NULL, 0));
}

static void room_rows(void) {
    const size_t half = (size_t)UINT64_C(2147483648);
    ROOM(NM_OK, 0, 0, nm_polynomial_room(199, 100000, &words, &factors));
    ROOM(NM_OK, 0, 0, nm_polynomial_room(100000, 199, &words, &factors));
    ROOM(NM_OK, 2048, 768, nm_polynomial_room(200, 312, &words, &factors));
    ROOM(NM_OK, 4096, 1536, nm_polynomial_room(200, 313, &words, &factors));
    ROOM(NM_OK, 8 * half, 3 * half, nm_polynomial_room(half, half, &words, &factors));
    ROOM(NM_BAD_ARGUMENT, 0, 0, nm_polynomial_room(half, half + 1, &words, &factors));
    ROOM(NM_BAD_ARGUMENT, 0, 0, nm_polynomial_room(SIZE_MAX, SIZE_MAX, &words, &factors));
}

/* 1,000 ones modulo 97: entry e of the square is min(e + 1, 1999 - e), and each of the 1,000 entries of the cyclic product
 * 1,000; entry e of the negacyclic one is e + 1 less 999 - e */
static void long_rows(void) {
    static uint64_t ones[1000], out[1999], words[8192];
    static nm_factor_t factors[3072];
    int square = 1, product = 1, cyclic = 1, negacyclic = 1;
    for (size_t i = 0; i < 1000; i++) ones[i] = 1;
    out[0] = words[0] = factors[0].value = 7;
    ROOM(NM_OK, 8192, 3072, nm_polynomial_room(1000, 1000, &words, &factors));
    CODE(NM_BAD_ARGUMENT, nm_polynomial_multiply(97, ones, 1000, ones, 1000, out, 1999, words, 8191, factors, 3072));
    CODE(NM_BAD_ARGUMENT, nm_polynomial_square(97, ones, 1000, out, 1999, words, 8192, factors, 3071));
    CODE(NM_BAD_ARGUMENT, nm_polynomial_multiply_cyclic(97, ones, 1000, ones, 1000, out, 1000, NULL, 0, factors, 3072));
    CODE(NM_BAD_ARGUMENT, nm_polynomial_multiply_negacyclic(97, ones, 1000, ones, 1000, out, 1000, words, 8192, NULL, 0));
    row("no room, and nothing is written", out[0] == 7 && words[0] == 7 && factors[0].value == 7, 0);
    CODE(NM_OK, nm_polynomial_square(97, ones, 1000, out, 1999, words, 8192, factors, 3072));
    for (size_t e = 0; e < 1999; e++) square &= out[e] == (e < 1000 ? e + 1 : 1999 - e) % 97;
    row("the square of 1,000 ones", square, 0);
    memset(out, 0, sizeof out);
    CODE(NM_OK, nm_polynomial_multiply(97, ones, 1000, ones, 1000, out, 1999, words, 8192, factors, 3072));
    for (size_t e = 0; e < 1999; e++) product &= out[e] == (e < 1000 ? e + 1 : 1999 - e) % 97;
    row("the product of 1,000 ones and 1,000 ones", product, 0);
    CODE(NM_OK, nm_polynomial_multiply_cyclic(97, ones, 1000, ones, 1000, out, 1000, words, 8192, factors, 3072));
    for (size_t e = 0; e < 1000; e++) cyclic &= out[e] == 1000 % 97;
    row("the cyclic product of 1,000 ones", cyclic, 0);
    CODE(NM_OK, nm_polynomial_multiply_negacyclic(97, ones, 1000, ones, 1000, out, 1000, words, 8192, factors, 3072));
    for (size_t e = 0; e < 1000; e++) negacyclic &= out[e] == (2 * e + 2 + 97 * 20 - 1000) % 97;
    row("the product of 1,000 ones modulo X^1000 + 1", negacyclic, 0);
}

void polynomial_rows(void) {
    short_rows();
    great_rows();
    refused_rows();
    room_rows();
    long_rows();
}
