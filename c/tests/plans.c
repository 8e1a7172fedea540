/* Tables of roots, and transforms and products by them. */
#include <stdlib.h>

#include "calls.h"

#define GREATEST (UINT64_C(1) << 62)
#define OF_17 1, UINT64_C(1085102592571150095), 4, UINT64_C(4340410370284600380)

/* tables: a value and its quotient in turn */
static void table_rows(void) {
    nm_factor_t table[2] = {{7, 7}, {7, 7}};
    LIST(NM_BAD_ARGUMENT, table, nm_fill_table(0, 1, table, 2), 7, 7, 7, 7);
    LIST(NM_BAD_ARGUMENT, table, nm_fill_table(GREATEST + 1, 1, table, 2), 7, 7, 7, 7);
    LIST(NM_BAD_ARGUMENT, table, nm_fill_table(UINT64_MAX, UINT64_MAX - 1, table, 1), 7, 7, 7, 7);
    LIST(NM_NO_ROOT, table, nm_fill_table(17, 3, table, 2), 7, 7, 7, 7);
    LIST(NM_NO_ROOT, table, nm_fill_table(17, 4, table, 1), 7, 7, 7, 7);
    CODE(NM_NO_ROOT, nm_fill_table(17, 4, NULL, 0));
    LIST(NM_OK, table, nm_fill_table(17, 4, table, 2), OF_17);
    LIST(NM_OK, table, nm_fill_table(17, 21, table, 2), OF_17);
    LIST(NM_OK, table, nm_fill_table(85, 13, table, 2), 1, UINT64_C(217020518514230019), 13,
         UINT64_C(2821266740684990247));
    LIST(NM_OK, table, nm_fill_table(GREATEST, GREATEST - 1, table, 1), 1, 4);
    LIST(NM_OK, table, nm_fill_table(20, 19, table, 1), 1, UINT64_C(922337203685477580));
    LIST(NM_OK, table, nm_fill_table(1, 5, table, 2), 0, 0, 0, 0);
    nm_factor_t three[3] = {{7, 7}, {7, 7}, {7, 7}};
    LIST(NM_NO_ROOT, three, nm_fill_table(17, 4, three, 3), 7, 7, 7, 7, 7, 7);
}

/* which tables are those of a root */
static void fits_rows(void) {
    nm_factor_t table[8];
    CODE(NM_OK, nm_fill_table(17, 3, table, 8));
    CODE(NM_OK, nm_table_fits(17, 3, table, 8));
    CODE(NM_OK, nm_table_fits(17, 20, table, 8));
    CODE(NM_OK, nm_table_fits(17, 9, table, 4));
    CODE(NM_OK, nm_table_fits(17, 13, table, 2));
    CODE(NM_OK, nm_table_fits(17, 16, table, 1));
    CODE(NM_BAD_CONTEXT, nm_table_fits(17, 5, table, 8));
    CODE(NM_BAD_CONTEXT, nm_table_fits(17, 4, table, 2));
    CODE(NM_BAD_CONTEXT, nm_table_fits(97, 96, table, 1));
    CODE(NM_NO_ROOT, nm_table_fits(17, 3, table, 4));
    CODE(NM_NO_ROOT, nm_table_fits(17, 3, table, 7));
    CODE(NM_NO_ROOT, nm_table_fits(17, 3, NULL, 0));
    CODE(NM_BAD_ARGUMENT, nm_table_fits(0, 3, table, 8));
    CODE(NM_BAD_ARGUMENT, nm_table_fits(GREATEST + 1, 3, table, 8));
    nm_factor_t other = table[3];
    table[3] = table[4], table[4] = other;
    CODE(NM_BAD_CONTEXT, nm_table_fits(17, 3, table, 8));
}

/* what every call answers of a table that isn't one of the modulus */
static void bad_table_rows(uint64_t m, const nm_factor_t *table) {
    uint64_t xs[4] = {1, 2, 3, 4}, ys[4] = {0, 1, 0, 0};
    LIST(NM_BAD_CONTEXT, xs, nm_ntt_planned(m, xs, 4, table, 4), 1, 2, 3, 4);
    LIST(NM_BAD_CONTEXT, xs, nm_split(m, xs, 4, table, 4, 0, 2), 1, 2, 3, 4);
    LIST(NM_BAD_CONTEXT, xs, nm_join(m, xs, 4, table, 4, 1, 1), 1, 2, 3, 4);
    LIST(NM_BAD_CONTEXT, xs, nm_convolve_planned(m, xs, 4, ys, 4, table, 4, 1), 1, 2, 3, 4);
    LIST(NM_BAD_CONTEXT, ys, nm_convolve_negacyclic(m, xs, 4, ys, 4, table, 4, 1), 0, 1, 0, 0);
    LIST(NM_BAD_CONTEXT, xs, NM_BAD_CONTEXT, 1, 2, 3, 4);
}

/* each bit of a table changed is found out */
static void changed_table_rows(void) {
    nm_factor_t table[4];
    for (int bit = 0; bit < 512; bit++) {
        CODE(NM_OK, nm_fill_table(17, 9, table, 4));
        nm_factor_t *entry = &table[bit / 128];
        *(bit % 128 < 64 ? &entry->value : &entry->quotient) ^= UINT64_C(1) << bit % 64;
        CODE(NM_BAD_CONTEXT, nm_table_fits(17, 9, table, 4));
        bad_table_rows(17, table);
    }
    CODE(NM_OK, nm_fill_table(17, 9, table, 4));
    bad_table_rows(97, table);
    bad_table_rows(3, table);
    bad_table_rows(GREATEST, table);
}

static void transform_planned_rows(void) {
    nm_factor_t table[8];
    uint64_t xs[4] = {1, 2, 3, 4}, high[4] = {67, 66, 3, 4}, three[3] = {1, 2, 3}, one[1] = {67};
    uint64_t ys[16], two[2] = {UINT64_MAX, UINT64_MAX - 1};
    CODE(NM_OK, nm_fill_table(17, 3, table, 8));
    for (int i = 0; i < 16; i++) ys[i] = (uint64_t)i + 1;
    LIST(NM_OK, ys, nm_ntt_planned(17, ys, 16, table, 8), 0, 8, 2, 15, 7, 4, 6, 5, 9, 13, 12, 14, 11, 3, 16, 10);
    for (int i = 0; i < 16; i++) ys[i] = (uint64_t)i + 1;
    LIST(NM_BAD_ARGUMENT, ys, nm_ntt_planned(17, ys, 16, table, 7), 1, 2, 3, 4, 5, 6, 7, 8, 9);
    LIST(NM_OK, ys, nm_ntt_planned(17, ys, 8, table, 8), 2, 1, 12, 3, 13, 6, 14, 8, 9);
    LIST(NM_OK, one, nm_ntt_planned(17, one, 1, NULL, 0), 16);
    LIST(NM_BAD_ARGUMENT, three, nm_ntt_planned(17, three, 3, table, 8), 1, 2, 3);
    CODE(NM_BAD_ARGUMENT, nm_ntt_planned(17, NULL, 0, table, 8));
    LIST(NM_BAD_ARGUMENT, xs, nm_ntt_planned(0, xs, 4, table, 8), 1, 2, 3, 4);
    LIST(NM_BAD_ARGUMENT, xs, nm_ntt_planned(GREATEST + 1, xs, 4, table, 8), 1, 2, 3, 4);
    CODE(NM_OK, nm_fill_table(17, 4, table, 2));
    LIST(NM_OK, xs, nm_ntt_planned(17, xs, 4, table, 2), 10, 7, 15, 6);
    LIST(NM_OK, high, nm_ntt_planned(17, high, 4, table, 2), 4, 6, 0, 3);
    high[3] = 68;
    LIST(NM_BAD_ARGUMENT, high, nm_ntt_planned(17, high, 4, table, 2), 4, 6, 0, 68);
    CODE(NM_OK, nm_fill_table(GREATEST, GREATEST - 1, table, 1));
    LIST(NM_OK, two, nm_ntt_planned(GREATEST, two, 2, table, 1), UINT64_C(4611686018427387901), 1);
    /* factors that are no root's table: the words are below m */
    CODE(NM_OK, nm_fill_table(17, 4, table, 2));
    table[1] = table[0];
    CODE(NM_BAD_CONTEXT, nm_table_fits(17, 4, table, 2));
    CODE(NM_OK, nm_ntt_planned(17, xs, 4, table, 2));
    row("words below m", xs[0] < 17 && xs[1] < 17 && xs[2] < 17 && xs[3] < 17, NM_OK);
}

static void split_rows(void) {
    nm_factor_t table[8];
    const uint64_t start[8] = {37, 65, 49, 43, 2, 57, 56, 62};
    uint64_t xs[8];
    CODE(NM_OK, nm_fill_table(17, 3, table, 8));
#define RESTART memcpy(xs, start, sizeof xs)
    RESTART;
    LIST(NM_OK, xs, nm_split(17, xs, 8, table, 8, 0, 1), 14, 2, 2, 2, 3, 4, 7, 7);
    LIST(NM_OK, xs, nm_join(17, xs, 8, table, 8, 0, 1), 7, 10, 1, 4, 16, 14, 6, 3);
    RESTART;
    LIST(NM_OK, xs, nm_split(17, xs, 8, table, 8, 0, 2), 8, 6, 2, 0, 12, 16, 7, 0);
    LIST(NM_OK, xs, nm_join(17, xs, 8, table, 8, 0, 2), 12, 5, 9, 2, 8, 7, 3, 10);
    RESTART;
    LIST(NM_OK, xs, nm_split(17, xs, 8, table, 1, 0, 4), 5, 3, 3, 3, 1, 8, 10, 15);
    LIST(NM_OK, xs, nm_join(17, xs, 8, table, 1, 0, 4), 6, 11, 13, 1, 4, 12, 10, 5);
    RESTART;
    LIST(NM_OK, xs, nm_split(17, xs, 8, table, 8, 1, 1), 12, 7, 1, 11, 9, 9, 16, 10);
    LIST(NM_OK, xs, nm_join(17, xs, 8, table, 8, 1, 1), 7, 10, 1, 4, 16, 14, 6, 3);
    RESTART;
    LIST(NM_BAD_ARGUMENT, xs, nm_split(17, xs, 8, table, 7, 1, 1), 37, 65, 49, 43, 2, 57, 56, 62);
    LIST(NM_BAD_ARGUMENT, xs, nm_split(17, xs, 8, table, 8, SIZE_MAX, 1), 37, 65, 49, 43, 2, 57, 56, 62);
    LIST(NM_BAD_ARGUMENT, xs, nm_split(17, xs, 8, table, 8, 0, 0), 37, 65, 49, 43, 2, 57, 56, 62);
    LIST(NM_BAD_ARGUMENT, xs, nm_split(17, xs, 8, table, 8, 0, 3), 37, 65, 49, 43, 2, 57, 56, 62);
    LIST(NM_BAD_ARGUMENT, xs, nm_split(16, xs, 8, table, 8, 0, 1), 37, 65, 49, 43, 2, 57, 56, 62);
    LIST(NM_BAD_ARGUMENT, xs, nm_split(0, xs, 8, table, 8, 0, 1), 37, 65, 49, 43, 2, 57, 56, 62);
    LIST(NM_BAD_ARGUMENT, xs, nm_join(17, xs, 8, table, 3, 0, 1), 37, 65, 49, 43, 2, 57, 56, 62);
    LIST(NM_BAD_ARGUMENT, xs, nm_join(17, xs, 7, table, 8, 0, 2), 37, 65, 49, 43, 2, 57, 56, 62);
#undef RESTART
}

static void product_rows(void) {
    nm_factor_t table[8];
    const uint64_t left[8] = {37, 65, 49, 43, 2, 57, 56, 62}, right[8] = {36, 58, 18, 59, 33, 0, 55, 22};
    uint64_t xs[8], ys[8], two[2] = {7, 9}, one[2] = {1, 0};
    CODE(NM_OK, nm_fill_table(17, 3, table, 8));
#define RESTART (memcpy(xs, left, sizeof xs), memcpy(ys, right, sizeof ys))
    RESTART;
    LIST(NM_OK, xs, nm_convolve_planned(17, xs, 8, ys, 8, table, 4, 1), 9, 1, 12, 14, 3, 6, 8, 5);
    LIST(NM_OK, ys, NM_OK, 9, 3, 3, 6, 4, 9, 4, 12);
    RESTART;
    LIST(NM_OK, xs, nm_convolve_planned(17, xs, 8, ys, 8, table, 2, 2), 9, 1, 12, 14, 3, 6, 8, 5);
    LIST(NM_OK, ys, NM_OK, 6, 3, 13, 11, 15, 12, 8, 2);
    RESTART;
    LIST(NM_OK, xs, nm_convolve_negacyclic(17, xs, 8, ys, 8, table, 8, 1), 3, 12, 12, 2, 5, 4, 0, 5);
    LIST(NM_OK, ys, NM_OK, 10, 4, 2, 8, 1, 12, 11, 2);
    RESTART;
    LIST(NM_OK, xs, nm_convolve_negacyclic(17, xs, 8, ys, 8, table, 4, 2), 3, 12, 12, 2, 5, 4, 0, 5);
    LIST(NM_OK, ys, NM_OK, 7, 1, 5, 13, 15, 2, 15, 12);
    RESTART;
#define STILL(call)                                                                                                    \
    LIST(NM_BAD_ARGUMENT, xs, call, 37, 65, 49, 43, 2, 57, 56, 62);                                                    \
    LIST(NM_BAD_ARGUMENT, ys, NM_BAD_ARGUMENT, 36, 58, 18, 59, 33, 0, 55, 22)
    STILL(nm_convolve_planned(17, xs, 8, xs, 8, table, 8, 1));
    STILL(nm_convolve_negacyclic(17, xs, 8, xs, 8, table, 8, 1));
    STILL(nm_convolve_planned(17, xs, 8, ys, 4, table, 8, 1));
    STILL(nm_convolve_planned(17, xs, 8, NULL, 0, table, 8, 1));
    STILL(nm_convolve_planned(17, xs, 8, ys, 8, table, 3, 1));
    STILL(nm_convolve_planned(17, xs, 8, ys, 8, table, 8, 0));
    STILL(nm_convolve_planned(17, xs, 8, ys, 8, table, 8, 4));
    STILL(nm_convolve_planned(17, xs, 6, ys, 6, table, 8, 1));
    STILL(nm_convolve_planned(16, xs, 8, ys, 8, table, 8, 1));
    STILL(nm_convolve_planned(0, xs, 8, ys, 8, table, 8, 1));
    STILL(nm_convolve_negacyclic(17, xs, 8, ys, 8, table, 7, 1));
    STILL(nm_convolve_negacyclic(GREATEST + 1, xs, 8, ys, 8, table, 8, 1));
    CODE(NM_BAD_ARGUMENT, nm_convolve_planned(17, NULL, 0, NULL, 0, table, 8, 1));
    ys[7] = 68;
    LIST(NM_BAD_ARGUMENT, xs, nm_convolve_planned(17, xs, 8, ys, 8, table, 8, 1), 37, 65, 49, 43, 2, 57, 56, 62);
    CODE(NM_OK, nm_fill_table(20, 19, table, 1));
    LIST(NM_NO_INVERSE, two, nm_convolve_planned(20, two, 2, one, 2, table, 1, 1), 7, 9);
    LIST(NM_NO_INVERSE, one, NM_NO_INVERSE, 1, 0);
    LIST(NM_OK, two, nm_convolve_planned(20, two, 2, one, 2, table, 1, 2), 7, 9);
#undef STILL
#undef RESTART
}

/* NULL as a list of no words, and as a table of no entries, which lists of one block need */
static void empty_rows(void) {
    nm_factor_t table[8];
    uint64_t one[1] = {67}, four[4] = {67, 66, 3, 4}, two[2] = {67, 66};
    CODE(NM_OK, nm_fill_table(17, 3, table, 8));
    CODE(NM_BAD_ARGUMENT, nm_split(17, NULL, 0, table, 8, 0, 1));
    CODE(NM_BAD_ARGUMENT, nm_split(17, NULL, 0, NULL, 0, 0, 1));
    LIST(NM_OK, one, nm_split(17, one, 1, NULL, 0, 0, 1), 16);
    LIST(NM_OK, four, nm_split(17, four, 4, NULL, 0, 1, 4), 16, 15, 3, 4);
    LIST(NM_BAD_ARGUMENT, two, nm_split(17, two, 2, NULL, 0, 0, 1), 67, 66);
    one[0] = 67, four[0] = 67;
    CODE(NM_BAD_ARGUMENT, nm_join(17, NULL, 0, table, 8, 0, 1));
    CODE(NM_BAD_ARGUMENT, nm_join(17, NULL, 0, NULL, 0, 0, 1));
    LIST(NM_OK, one, nm_join(17, one, 1, NULL, 0, 0, 1), 16);
    LIST(NM_OK, four, nm_join(17, four, 4, NULL, 0, 1, 4), 16, 15, 3, 4);
    LIST(NM_BAD_ARGUMENT, two, nm_join(17, two, 2, NULL, 0, 0, 1), 67, 66);
    LIST(NM_BAD_ARGUMENT, two, nm_convolve_planned(17, NULL, 0, two, 2, table, 8, 1), 67, 66);
    LIST(NM_BAD_ARGUMENT, two, nm_convolve_planned(17, two, 2, four, 2, NULL, 0, 1), 67, 66);
    CODE(NM_BAD_ARGUMENT, nm_convolve_negacyclic(17, NULL, 0, NULL, 0, table, 8, 1));
    CODE(NM_BAD_ARGUMENT, nm_convolve_negacyclic(17, NULL, 0, NULL, 0, NULL, 0, 2));
    LIST(NM_BAD_ARGUMENT, two, nm_convolve_negacyclic(17, two, 2, NULL, 0, table, 8, 1), 67, 66);
    LIST(NM_BAD_ARGUMENT, two, nm_convolve_negacyclic(17, two, 2, four, 2, NULL, 0, 1), 67, 66);
}

/* 2^16 words modulo a prime of 62 bits: as nm_montgomery_ntt has it */
static void long_rows(void) {
    size_t n = 65536, wrong = 0;
    uint64_t m = UINT64_C(4179340454199820289), root = 0, word = 1;
    nm_montgomery_t ring;
    nm_factor_t *table = malloc(n / 2 * sizeof *table);
    uint64_t *xs = malloc(n * sizeof *xs), *ys = malloc(n * sizeof *ys);
    if (table != NULL && xs != NULL && ys != NULL) {
        for (size_t i = 0; i < n; i++) xs[i] = ys[i] = (word = word * UINT64_C(6364136223846793005) + 1) % (4 * m);
        CODE(NM_OK, nm_montgomery(m, &ring));
        CODE(NM_OK, nm_montgomery_find_root(&ring, n, &root));
        CODE(NM_OK, nm_fill_table(m, root, table, n / 2));
        CODE(NM_OK, nm_table_fits(m, root, table, n / 2));
        CODE(NM_OK, nm_ntt_planned(m, xs, n, table, n / 2));
        CODE(NM_OK, nm_montgomery_ntt(&ring, ys, n, root));
        for (size_t i = 0; i < n; i++) wrong += xs[i] != ys[i];
        row("2^16 words by a table", wrong == 0, NM_OK);
    }
    free(table), free(xs), free(ys);
}

void plan_rows(void) {
    table_rows();
    fits_rows();
    changed_table_rows();
    transform_planned_rows();
    split_rows();
    product_rows();
    empty_rows();
    long_rows();
}
