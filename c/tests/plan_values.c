/* Plans as one value, and the calls that don't test their table. */
#include <stdlib.h>

#include "calls.h"

#define GREATEST (UINT64_C(1) << 62)
#define OF_17 1, UINT64_C(1085102592571150095), 4, UINT64_C(4340410370284600380)

/* a plan before it is made, and still after a call that refuses */
static const nm_plan_t untouched = {77, 78, NULL, 79};

static int is_untouched(const nm_plan_t *plan) {
    return plan->modulus == 77 && plan->root == 78 && plan->table == NULL && plan->table_length == 79;
}

static void make_rows(void) {
    nm_factor_t table[2] = {{7, 7}, {7, 7}}, three[3] = {{7, 7}, {7, 7}, {7, 7}};
    nm_plan_t plan = untouched;
    LIST(NM_BAD_ARGUMENT, table, nm_plan_make(0, 1, table, 2, &plan), 7, 7, 7, 7);
    LIST(NM_BAD_ARGUMENT, table, nm_plan_make(GREATEST + 1, 1, table, 2, &plan), 7, 7, 7, 7);
    LIST(NM_NO_ROOT, table, nm_plan_make(17, 3, table, 2, &plan), 7, 7, 7, 7);
    LIST(NM_NO_ROOT, table, nm_plan_make(17, 4, table, 1, &plan), 7, 7, 7, 7);
    LIST(NM_NO_ROOT, three, nm_plan_make(17, 4, three, 3, &plan), 7, 7, 7, 7, 7, 7);
    CODE(NM_NO_ROOT, nm_plan_make(17, 4, NULL, 0, &plan));
    row("a plan that isn't made", is_untouched(&plan), NM_OK);
    LIST(NM_OK, table, nm_plan_make(17, 21, table, 2, &plan), OF_17);
    row("a plan", plan.modulus == 17 && plan.root == 4 && plan.table == table && plan.table_length == 2, NM_OK);
    CODE(NM_OK, nm_plan_check(&plan));
}

/* what is found of a plan whose parts were changed */
static void check_rows(void) {
    nm_factor_t table[4];
    nm_plan_t plan = untouched;
    for (int bit = 0; bit < 512; bit++) {
        CODE(NM_OK, nm_plan_make(17, 9, table, 4, &plan));
        nm_factor_t *entry = &table[bit / 128];
        *(bit % 128 < 64 ? &entry->value : &entry->quotient) ^= UINT64_C(1) << bit % 64;
        CODE(NM_BAD_CONTEXT, nm_plan_check(&plan));
    }
    CODE(NM_OK, nm_plan_make(17, 9, table, 4, &plan));
    const nm_plan_t shorter = {17, 13, table, 2}, greater_root = {17, 26, table, 4}, other_root = {17, 8, table, 4},
                    no_root = {17, 3, table, 4}, three = {17, 9, table, 3}, empty = {17, 9, NULL, 0},
                    other = {41, 27, table, 4}, zero = {0, 9, table, 4}, high = {GREATEST + 1, 9, table, 4};
    CODE(NM_OK, nm_plan_check(&shorter));
    CODE(NM_OK, nm_plan_check(&greater_root));
    CODE(NM_BAD_CONTEXT, nm_plan_check(&other_root));
    CODE(NM_NO_ROOT, nm_plan_check(&no_root));
    CODE(NM_NO_ROOT, nm_plan_check(&three));
    CODE(NM_NO_ROOT, nm_plan_check(&empty));
    CODE(NM_BAD_CONTEXT, nm_plan_check(&other));
    CODE(NM_BAD_ARGUMENT, nm_plan_check(&zero));
    CODE(NM_BAD_ARGUMENT, nm_plan_check(&high));
}

static void value_transform_rows(void) {
    nm_factor_t table[8];
    nm_plan_t plan = untouched;
    uint64_t xs[4] = {1, 2, 3, 4}, high[4] = {67, 66, 3, 4}, three[3] = {1, 2, 3}, one[1] = {67};
    uint64_t ys[16], most[2] = {UINT64_MAX, UINT64_MAX - 1};
    CODE(NM_OK, nm_plan_make(17, 3, table, 8, &plan));
    for (int i = 0; i < 16; i++) ys[i] = (uint64_t)i + 1;
    LIST(NM_OK, ys, nm_plan_transform(&plan, ys, 16), 0, 8, 2, 15, 7, 4, 6, 5, 9, 13, 12, 14, 11, 3, 16, 10);
    LIST(NM_OK, ys, nm_plan_inverse(&plan, ys, 16), 1, 2, 3, 4, 5, 6, 7, 8, 9, 10, 11, 12, 13, 14, 15, 16);
    LIST(NM_OK, ys, nm_plan_transform(&plan, ys, 8), 2, 1, 12, 3, 13, 6, 14, 8, 9);
    LIST(NM_OK, ys, nm_plan_inverse(&plan, ys, 8), 1, 2, 3, 4, 5, 6, 7, 8, 9);
    plan.table_length = 7;
    LIST(NM_BAD_ARGUMENT, ys, nm_plan_transform(&plan, ys, 16), 1, 2, 3, 4, 5, 6, 7, 8, 9);
    LIST(NM_BAD_ARGUMENT, ys, nm_plan_inverse(&plan, ys, 16), 1, 2, 3, 4, 5, 6, 7, 8, 9);
    plan.table_length = 8;
    LIST(NM_BAD_ARGUMENT, three, nm_plan_transform(&plan, three, 3), 1, 2, 3);
    LIST(NM_BAD_ARGUMENT, three, nm_plan_inverse(&plan, three, 3), 1, 2, 3);
    CODE(NM_BAD_ARGUMENT, nm_plan_transform(&plan, NULL, 0));
    CODE(NM_BAD_ARGUMENT, nm_plan_inverse(&plan, NULL, 0));
    const nm_plan_t empty = {17, 3, NULL, 0}, zero = {0, 1, NULL, 0}, above = {GREATEST + 1, 1, NULL, 0};
    LIST(NM_OK, one, nm_plan_transform(&empty, one, 1), 16);
    one[0] = 67;
    LIST(NM_OK, one, nm_plan_inverse(&empty, one, 1), 16);
    LIST(NM_BAD_ARGUMENT, xs, nm_plan_transform(&empty, xs, 2), 1, 2, 3, 4);
    LIST(NM_BAD_ARGUMENT, one, nm_plan_transform(&zero, one, 1), 16);
    LIST(NM_BAD_ARGUMENT, one, nm_plan_inverse(&above, one, 1), 16);
    CODE(NM_OK, nm_plan_make(17, 4, table, 2, &plan));
    LIST(NM_OK, xs, nm_plan_transform(&plan, xs, 4), 10, 7, 15, 6);
    LIST(NM_OK, xs, nm_plan_inverse(&plan, xs, 4), 1, 2, 3, 4);
    LIST(NM_OK, high, nm_plan_transform(&plan, high, 4), 4, 6, 0, 3);
    high[3] = 67;
    LIST(NM_OK, high, nm_plan_transform(&plan, high, 4), 9, 15, 16, 10);
    high[3] = 68;
    LIST(NM_BAD_ARGUMENT, high, nm_plan_transform(&plan, high, 4), 9, 15, 16, 68);
    LIST(NM_BAD_ARGUMENT, high, nm_plan_inverse(&plan, high, 4), 9, 15, 16, 68);
    CODE(NM_OK, nm_plan_make(GREATEST, GREATEST - 1, table, 1, &plan));
    LIST(NM_NO_INVERSE, most, nm_plan_inverse(&plan, most, 2), UINT64_MAX, UINT64_MAX - 1);
    LIST(NM_OK, most, nm_plan_transform(&plan, most, 2), UINT64_C(4611686018427387901), 1);
    /* factors that are no root's table: the words are below m */
    CODE(NM_OK, nm_plan_make(17, 4, table, 2, &plan));
    table[1] = table[0];
    CODE(NM_BAD_CONTEXT, nm_plan_check(&plan));
    CODE(NM_OK, nm_plan_transform(&plan, xs, 4));
    row("words below m", xs[0] < 17 && xs[1] < 17 && xs[2] < 17 && xs[3] < 17, NM_OK);
}

static void split_rows(void) {
    nm_factor_t table[8];
    nm_plan_t plan = untouched;
    const uint64_t start[8] = {37, 65, 49, 43, 2, 57, 56, 62};
    uint64_t xs[8], two[2] = {7, 9}, one[1] = {67};
    CODE(NM_OK, nm_plan_make(17, 3, table, 8, &plan));
#define RESTART memcpy(xs, start, sizeof xs)
#define BACK 3, 14, 15, 9, 2, 6, 5, 11
    RESTART;
    LIST(NM_OK, xs, nm_plan_split(&plan, xs, 8, 0, 1), 14, 2, 2, 2, 3, 4, 7, 7);
    LIST(NM_OK, xs, nm_plan_join(&plan, xs, 8, 0, 1), BACK);
    RESTART;
    LIST(NM_OK, xs, nm_plan_split(&plan, xs, 8, 0, 2), 8, 6, 2, 0, 12, 16, 7, 0);
    LIST(NM_OK, xs, nm_plan_join(&plan, xs, 8, 0, 2), BACK);
    RESTART;
    LIST(NM_OK, xs, nm_plan_split(&plan, xs, 8, 0, 4), 5, 3, 3, 3, 1, 8, 10, 15);
    LIST(NM_OK, xs, nm_plan_join(&plan, xs, 8, 0, 4), BACK);
    RESTART;
    LIST(NM_OK, xs, nm_plan_split(&plan, xs, 8, 1, 1), 12, 7, 1, 11, 9, 9, 16, 10);
    LIST(NM_OK, xs, nm_plan_join(&plan, xs, 8, 1, 1), BACK);
    RESTART;
    LIST(NM_BAD_ARGUMENT, xs, nm_plan_split(&plan, xs, 8, 2, 1), 37, 65, 49, 43, 2, 57, 56, 62);
    LIST(NM_BAD_ARGUMENT, xs, nm_plan_split(&plan, xs, 8, SIZE_MAX, 1), 37, 65, 49, 43, 2, 57, 56, 62);
    LIST(NM_BAD_ARGUMENT, xs, nm_plan_split(&plan, xs, 8, 0, 0), 37, 65, 49, 43, 2, 57, 56, 62);
    LIST(NM_BAD_ARGUMENT, xs, nm_plan_split(&plan, xs, 8, 0, 3), 37, 65, 49, 43, 2, 57, 56, 62);
    LIST(NM_BAD_ARGUMENT, xs, nm_plan_join(&plan, xs, 8, 2, 1), 37, 65, 49, 43, 2, 57, 56, 62);
    LIST(NM_BAD_ARGUMENT, xs, nm_plan_join(&plan, xs, 7, 0, 2), 37, 65, 49, 43, 2, 57, 56, 62);
    CODE(NM_BAD_ARGUMENT, nm_plan_split(&plan, NULL, 0, 0, 1));
    CODE(NM_BAD_ARGUMENT, nm_plan_join(&plan, NULL, 0, 0, 1));
    xs[0] = 68;
    LIST(NM_BAD_ARGUMENT, xs, nm_plan_split(&plan, xs, 8, 0, 1), 68, 65, 49, 43, 2, 57, 56, 62);
    LIST(NM_BAD_ARGUMENT, xs, nm_plan_join(&plan, xs, 8, 0, 1), 68, 65, 49, 43, 2, 57, 56, 62);
    const nm_plan_t empty = {17, 3, NULL, 0};
    LIST(NM_OK, one, nm_plan_split(&empty, one, 1, 0, 1), 16);
    LIST(NM_OK, one, nm_plan_join(&empty, one, 1, 0, 1), 16);
    CODE(NM_OK, nm_plan_make(20, 19, table, 1, &plan));
    LIST(NM_NO_INVERSE, two, nm_plan_join(&plan, two, 2, 0, 1), 7, 9);
    LIST(NM_OK, two, nm_plan_join(&plan, two, 2, 0, 2), 7, 9);
#undef BACK
#undef RESTART
}

static void product_rows(void) {
    nm_factor_t table[8];
    nm_plan_t plan = untouched;
    const uint64_t left[8] = {37, 65, 49, 43, 2, 57, 56, 62}, right[8] = {36, 58, 18, 59, 33, 0, 55, 22};
    uint64_t xs[8], ys[8], two[2] = {7, 9}, one[2] = {1, 0};
    CODE(NM_OK, nm_plan_make(17, 9, table, 4, &plan));
#define RESTART (memcpy(xs, left, sizeof xs), memcpy(ys, right, sizeof ys))
    RESTART;
    LIST(NM_OK, xs, nm_plan_convolve(&plan, xs, 8, ys, 8), 9, 1, 12, 14, 3, 6, 8, 5);
    LIST(NM_OK, ys, NM_OK, 9, 3, 3, 6, 4, 9, 4, 12);
    RESTART;
    LIST(NM_OK, xs, nm_plan_convolve_negacyclic(&plan, xs, 8, ys, 8), 3, 12, 12, 2, 5, 4, 0, 5);
    LIST(NM_OK, ys, NM_OK, 7, 1, 5, 13, 15, 2, 15, 12);
    RESTART;
#define STILL(call)                                                                                                    \
    LIST(NM_BAD_ARGUMENT, xs, call, 37, 65, 49, 43, 2, 57, 56, 62);                                                    \
    LIST(NM_BAD_ARGUMENT, ys, NM_BAD_ARGUMENT, 36, 58, 18, 59, 33, 0, 55, 22)
    STILL(nm_plan_convolve(&plan, xs, 8, xs, 8));
    STILL(nm_plan_convolve_negacyclic(&plan, xs, 8, xs, 8));
    STILL(nm_plan_convolve(&plan, xs, 8, ys, 4));
    STILL(nm_plan_convolve(&plan, xs, 8, NULL, 0));
    STILL(nm_plan_convolve(&plan, NULL, 0, ys, 8));
    STILL(nm_plan_convolve(&plan, xs, 6, ys, 6));
    STILL(nm_plan_convolve_negacyclic(&plan, xs, 8, ys, 4));
    STILL(nm_plan_convolve_negacyclic(&plan, xs, 8, NULL, 0));
    STILL(nm_plan_convolve_negacyclic(&plan, NULL, 0, ys, 8));
    STILL(nm_plan_convolve_negacyclic(&plan, xs, 6, ys, 6));
    plan.table_length = 3;
    STILL(nm_plan_convolve(&plan, xs, 8, ys, 8));
    STILL(nm_plan_convolve_negacyclic(&plan, xs, 8, ys, 8));
    plan.table_length = 4, ys[7] = 68;
    LIST(NM_BAD_ARGUMENT, xs, nm_plan_convolve(&plan, xs, 8, ys, 8), 37, 65, 49, 43, 2, 57, 56, 62);
    LIST(NM_BAD_ARGUMENT, xs, nm_plan_convolve_negacyclic(&plan, xs, 8, ys, 8), 37, 65, 49, 43, 2, 57, 56, 62);
    CODE(NM_OK, nm_plan_make(20, 19, table, 1, &plan));
    LIST(NM_NO_INVERSE, two, nm_plan_convolve(&plan, two, 2, one, 2), 7, 9);
    LIST(NM_NO_INVERSE, one, NM_NO_INVERSE, 1, 0);
    LIST(NM_OK, two, nm_plan_convolve_negacyclic(&plan, two, 2, one, 2), 7, 9);
#undef STILL
#undef RESTART
}

static void square_rows(void) {
    nm_factor_t table[4];
    nm_plan_t plan = untouched;
    uint64_t xs[8] = {37, 65, 49, 43, 2, 57, 56, 62}, four[4] = {1, 2, 3, 4}, two[2] = {7, 9}, one[1] = {67};
    CODE(NM_OK, nm_plan_make(17, 9, table, 4, &plan));
    LIST(NM_OK, xs, nm_plan_square(&plan, xs, 8), 1, 1, 13, 0, 0, 13, 1, 14);
    LIST(NM_OK, four, nm_plan_square(&plan, four, 4), 9, 11, 9, 3);
    LIST(NM_OK, one, nm_plan_square(&plan, one, 1), 1);
    CODE(NM_BAD_ARGUMENT, nm_plan_square(&plan, NULL, 0));
    LIST(NM_BAD_ARGUMENT, four, nm_plan_square(&plan, four, 3), 9, 11, 9, 3);
    plan.table_length = 3, four[3] = 68;
    LIST(NM_BAD_ARGUMENT, four, nm_plan_square(&plan, four, 4), 9, 11, 9, 68);
    LIST(NM_BAD_ARGUMENT, xs, nm_plan_square(&plan, xs, 8), 1, 1, 13, 0, 0, 13, 1, 14);
    CODE(NM_OK, nm_plan_make(20, 19, table, 1, &plan));
    LIST(NM_NO_INVERSE, two, nm_plan_square(&plan, two, 2), 7, 9);
    LIST(NM_OK, one, nm_plan_square(&plan, one, 1), 1);
}

/* lists of 2^6 to 2^16 words modulo a prime of 62 bits by one plan: as the calls that test the table have it, and back */
static void long_rows(void) {
    size_t most = 65536, wrong = 0;
    uint64_t m = UINT64_C(4179340454199820289), root = 0, word = 1;
    nm_montgomery_t ring;
    nm_plan_t plan = untouched;
    nm_factor_t *table = malloc(most / 2 * sizeof *table);
    uint64_t *xs = malloc(most * sizeof *xs), *ys = malloc(most * sizeof *ys), *zs = malloc(most * sizeof *zs);
    if (table != NULL && xs != NULL && ys != NULL && zs != NULL) {
        CODE(NM_OK, nm_montgomery(m, &ring));
        CODE(NM_OK, nm_montgomery_find_root(&ring, most, &root));
        CODE(NM_OK, nm_plan_make(m, root, table, most / 2, &plan));
        for (size_t n = 64; n <= most; n *= 4) {
            for (size_t i = 0; i < n; i++) xs[i] = ys[i] = (word = word * UINT64_C(6364136223846793005) + 1) % (4 * m);
            memcpy(zs, xs, n * sizeof *zs);
            CODE(NM_OK, nm_plan_transform(&plan, xs, n));
            CODE(NM_OK, nm_ntt_planned(m, ys, n, table, most / 2));
            for (size_t i = 0; i < n; i++) wrong += xs[i] != ys[i];
            CODE(NM_OK, nm_plan_inverse(&plan, xs, n));
            for (size_t i = 0; i < n; i++) wrong += xs[i] != zs[i] % m;
            memcpy(ys, xs, n * sizeof *ys), memcpy(zs, xs, n * sizeof *zs);
            CODE(NM_OK, nm_plan_square(&plan, xs, n));
            CODE(NM_OK, nm_plan_convolve(&plan, ys, n, zs, n));
            for (size_t i = 0; i < n; i++) wrong += xs[i] != ys[i];
        }
        row("long lists by a plan", wrong == 0, NM_OK);
    }
    free(table), free(xs), free(ys), free(zs);
}

void plan_value_rows(void) {
    make_rows();
    check_rows();
    value_transform_rows();
    split_rows();
    product_rows();
    square_rows();
    long_rows();
}
