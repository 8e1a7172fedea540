/* Calls that refuse, with every output in a page that can't be written. */
#include "calls.h"

#include <sys/mman.h>
#include <unistd.h>

#define GREATEST (UINT64_C(1) << 62)

sigjmp_buf before_the_call;
volatile sig_atomic_t in_a_call;
uint64_t *read_only;
static uint64_t *words;
static size_t size;
static struct sigaction old;

static void on_write(int number) {
    if (in_a_call) siglongjmp(before_the_call, 1);
    signal(number, SIG_DFL);
}

int begin_read_only(void) {
    struct sigaction handler = {.sa_handler = on_write};
    size = 2 * (size_t)sysconf(_SC_PAGESIZE);
    words = read_only = mmap(NULL, size, PROT_READ | PROT_WRITE, MAP_PRIVATE | MAP_ANONYMOUS, -1, 0);
    if (words == MAP_FAILED) return 0;
    for (size_t i = 0; i < size / sizeof *words; i++) words[i] = i + 1;
    return mprotect(words, size, PROT_READ) == 0 && sigaction(SIGSEGV, &handler, &old) == 0;
}

void end_read_only(void) {
    sigaction(SIGSEGV, &old, NULL);
    munmap(read_only, size);
}

static void plain_refusals(void) {
    int32_t *symbol = (int32_t *)words;
    REFUSES(CAUGHT, nm_addm(1, 2, 5, words));
    REFUSES(NM_BAD_ARGUMENT, nm_addm(1, 2, 0, words));
    REFUSES(NM_BAD_ARGUMENT, nm_subm(1, 2, 0, words));
    REFUSES(NM_BAD_ARGUMENT, nm_mulm(1, 2, 0, words));
    REFUSES(NM_BAD_ARGUMENT, nm_powm(5, 3, 0, words));
    REFUSES(NM_BAD_ARGUMENT, nm_invm(5, 0, words));
    REFUSES(NM_NO_INVERSE, nm_invm(7, 21, words));
    REFUSES(NM_BAD_ARGUMENT, nm_powm_secret(3, 8, 3, 7, words));
    REFUSES(NM_BAD_ARGUMENT, nm_invm_secret(5, 10, words));
    REFUSES(NM_NO_INVERSE, nm_invm_secret(7, 21, words));
    REFUSES(NM_BAD_ARGUMENT, nm_add_lists(0, words, 2, words + 8, 2));
    REFUSES(NM_BAD_ARGUMENT, nm_sub_lists(7, words, 2, words + 8, 1));
    REFUSES(NM_BAD_ARGUMENT, nm_multiply_lists(0, words, 2, words + 8, 2));
    REFUSES(NM_BAD_ARGUMENT, nm_scale_list(0, words, 2, 5));
    REFUSES(NM_BAD_ARGUMENT, nm_dot_product(0, words + 8, 2, words + 8, 2, words));
    REFUSES(NM_BAD_ARGUMENT, nm_jacobi(3, 8, symbol));
    REFUSES(NM_BAD_ARGUMENT, nm_jacobi_signed(2, -3, symbol));
    REFUSES(NM_BAD_ARGUMENT, nm_legendre(2, 9, symbol));
    REFUSES(NM_BAD_ARGUMENT, nm_legendre_signed(3, -128, symbol));
}

static void divider_refusals(void) {
    const nm_divider_t changed = {10, 7};
    nm_divider_t divider;
    nm_division_t *division = (nm_division_t *)words;
    CODE(NM_OK, nm_divider(10, &divider));
    REFUSES(NM_BAD_ARGUMENT, nm_divider(0, (nm_divider_t *)words));
    REFUSES(NM_BAD_CONTEXT, nm_div_rem(&changed, 57, division));
    REFUSES(NM_BAD_CONTEXT, nm_div_rem_2by1(&changed, 57, 0, division));
    REFUSES(NM_BAD_ARGUMENT, nm_div_rem_2by1(&divider, 57, 10, division));
}

static void form_refusals(const nm_montgomery_t *ring, const nm_montgomery_t *changed) {
    REFUSES(NM_BAD_ARGUMENT, nm_montgomery(0, (nm_montgomery_t *)words));
    REFUSES(NM_BAD_CONTEXT, nm_montgomery_transform(changed, 5, words));
    REFUSES(NM_BAD_CONTEXT, nm_montgomery_residue(changed, 5, words));
    REFUSES(NM_BAD_CONTEXT, nm_montgomery_add(changed, 5, 5, words));
    REFUSES(NM_BAD_CONTEXT, nm_montgomery_sub(changed, 5, 5, words));
    REFUSES(NM_BAD_CONTEXT, nm_montgomery_mul(changed, 5, 5, words));
    REFUSES(NM_BAD_CONTEXT, nm_montgomery_pow(changed, 5, 5, words));
    REFUSES(NM_BAD_CONTEXT, nm_montgomery_inv(changed, 5, words));
    REFUSES(NM_BAD_ARGUMENT, nm_montgomery_residue(ring, 20, words));
    REFUSES(NM_BAD_ARGUMENT, nm_montgomery_add(ring, 20, 5, words));
    REFUSES(NM_BAD_ARGUMENT, nm_montgomery_sub(ring, 5, 20, words));
    REFUSES(NM_BAD_ARGUMENT, nm_montgomery_mul(ring, 20, 20, words));
    REFUSES(NM_BAD_ARGUMENT, nm_montgomery_pow(ring, 20, 5, words));
    REFUSES(NM_BAD_ARGUMENT, nm_montgomery_inv(ring, 20, words));
    REFUSES(NM_NO_INVERSE, nm_montgomery_inv(ring, 0, words));
    REFUSES(NM_BAD_CONTEXT, nm_montgomery_add_lists(changed, words, 2, words + 8, 2));
    REFUSES(NM_BAD_CONTEXT, nm_montgomery_sub_lists(changed, words, 2, words + 8, 2));
    REFUSES(NM_BAD_CONTEXT, nm_montgomery_multiply_lists(changed, words, 2, words + 8, 2));
    REFUSES(NM_BAD_CONTEXT, nm_montgomery_scale_list(changed, words, 2, 5));
    REFUSES(NM_BAD_CONTEXT, nm_montgomery_dot_product(changed, words + 8, 2, words + 8, 2, words));
    REFUSES(NM_BAD_ARGUMENT, nm_montgomery_add_lists(ring, words + 18, 2, words + 8, 2));
    REFUSES(NM_BAD_ARGUMENT, nm_montgomery_sub_lists(ring, words, 2, words + 18, 2));
    REFUSES(NM_BAD_ARGUMENT, nm_montgomery_multiply_lists(ring, words, 2, words + 8, 1));
    REFUSES(NM_BAD_ARGUMENT, nm_montgomery_scale_list(ring, words, 2, 20));
    REFUSES(NM_BAD_ARGUMENT, nm_montgomery_dot_product(ring, words + 8, 2, words + 8, 1, words));
}

static void list_refusals(const nm_montgomery_t *ring, const nm_montgomery_t *changed) {
    const nm_command_t commands[2] = {{NM_LOAD, 0, 0, 0, 5}, {NM_LOAD, 2, 0, 0, 5}};
    uint64_t *others = words + 8;
    size_t *done = (size_t *)others;
    REFUSES(NM_NO_ROOT, nm_montgomery_find_root(ring, 3, words));
    REFUSES(NM_BAD_CONTEXT, nm_montgomery_find_root(changed, 2, words));
    REFUSES(NM_NO_ROOT, nm_montgomery_ntt(ring, words, 2, 3));
    REFUSES(NM_BAD_CONTEXT, nm_montgomery_ntt(changed, words, 2, 19));
    REFUSES(NM_NO_ROOT, nm_montgomery_intt(ring, words, 2, 3));
    REFUSES(NM_NO_INVERSE, nm_montgomery_intt(ring, words, 2, 19));
    REFUSES(NM_BAD_CONTEXT, nm_montgomery_intt(changed, words, 2, 19));
    REFUSES(NM_BAD_ARGUMENT, nm_montgomery_convolve(ring, words, 2, others, 1, 19));
    REFUSES(NM_NO_ROOT, nm_montgomery_convolve(ring, words, 2, others, 2, 3));
    REFUSES(NM_NO_INVERSE, nm_montgomery_convolve(ring, words, 2, others, 2, 19));
    REFUSES(NM_BAD_CONTEXT, nm_montgomery_convolve(changed, words, 2, others, 2, 19));
    REFUSES(NM_BAD_ARGUMENT, nm_montgomery_run(ring, words, 2, commands, 2, done));
    REFUSES(NM_BAD_CONTEXT, nm_montgomery_run(changed, words, 2, commands, 1, done));
    REFUSES(NM_NO_ROOT, nm_solinas_find_root(3, words));
    REFUSES(NM_NO_ROOT, nm_solinas_ntt(words, 8, 7));
    REFUSES(NM_NO_ROOT, nm_solinas_intt(words, 8, 7));
    REFUSES(NM_BAD_ARGUMENT, nm_solinas_convolve(words, 8, others, 4, NM_SOLINAS - 1));
    REFUSES(NM_NO_ROOT, nm_solinas_convolve(words, 8, others, 8, 7));
}

/* the words are above 4 modulo 1, and below 4 modulo 20, where 2 has no inverse */
static void plan_refusals(void) {
    uint64_t *others = words + 8;
    nm_factor_t table[2];
    CODE(NM_OK, nm_fill_table(20, 19, table, 1));
    table[1] = table[0];
    REFUSES(NM_BAD_ARGUMENT, nm_fill_table(GREATEST + 1, 1, (nm_factor_t *)words, 2));
    REFUSES(NM_NO_ROOT, nm_fill_table(17, 3, (nm_factor_t *)words, 2));
    REFUSES(NM_BAD_ARGUMENT, nm_ntt_planned(1, words, 4, table, 2));
    REFUSES(NM_BAD_CONTEXT, nm_ntt_planned(17, words, 4, table, 2));
    REFUSES(NM_BAD_ARGUMENT, nm_split(20, words, 8, table, 2, 0, 1));
    REFUSES(NM_BAD_CONTEXT, nm_split(17, words, 4, table, 2, 0, 1));
    REFUSES(NM_BAD_ARGUMENT, nm_join(20, words, 8, table, 2, 0, 1));
    REFUSES(NM_BAD_CONTEXT, nm_join(17, words, 4, table, 2, 0, 1));
    REFUSES(NM_BAD_ARGUMENT, nm_convolve_planned(20, words, 2, others, 1, table, 2, 1));
    REFUSES(NM_BAD_CONTEXT, nm_convolve_planned(17, words, 2, others, 2, table, 2, 1));
    REFUSES(NM_NO_INVERSE, nm_convolve_planned(20, words, 2, others, 2, table, 2, 1));
    REFUSES(NM_BAD_ARGUMENT, nm_convolve_negacyclic(20, words, 2, others, 1, table, 2, 1));
    REFUSES(NM_BAD_CONTEXT, nm_convolve_negacyclic(17, words, 2, others, 2, table, 2, 1));
    REFUSES(NM_NO_INVERSE, nm_convolve_negacyclic(20, words, 2, others, 2, table, 2, 1));
}

/* modulo 1 the words are too great */
static void plan_value_refusals(void) {
    uint64_t *others = words + 8;
    nm_factor_t table[2];
    nm_plan_t plan, small;
    CODE(NM_OK, nm_plan_make(1, 0, table, 2, &small));
    REFUSES(CAUGHT, nm_plan_make(1, 0, table, 2, (nm_plan_t *)words));
    REFUSES(NM_BAD_ARGUMENT, nm_plan_make(GREATEST + 1, 1, (nm_factor_t *)words, 2, (nm_plan_t *)others));
    REFUSES(NM_NO_ROOT, nm_plan_make(17, 3, (nm_factor_t *)words, 2, (nm_plan_t *)others));
    REFUSES(NM_BAD_ARGUMENT, nm_plan_transform(&small, words, 4));
    REFUSES(NM_BAD_ARGUMENT, nm_plan_inverse(&small, words, 4));
    REFUSES(NM_BAD_ARGUMENT, nm_plan_split(&small, words, 4, 0, 1));
    REFUSES(NM_BAD_ARGUMENT, nm_plan_join(&small, words, 4, 0, 1));
    REFUSES(NM_BAD_ARGUMENT, nm_plan_convolve(&small, words, 4, others, 4));
    REFUSES(NM_BAD_ARGUMENT, nm_plan_convolve_negacyclic(&small, words, 4, others, 4));
    REFUSES(NM_BAD_ARGUMENT, nm_plan_square(&small, words, 4));
    CODE(NM_OK, nm_plan_make(20, 19, table, 1, &plan));
    table[1] = table[0], plan.table_length = 2;
    REFUSES(NM_NO_INVERSE, nm_plan_inverse(&plan, words, 2));
    REFUSES(NM_NO_INVERSE, nm_plan_join(&plan, words, 2, 0, 1));
    REFUSES(NM_NO_INVERSE, nm_plan_convolve(&plan, words, 2, others, 2));
    REFUSES(NM_NO_INVERSE, nm_plan_square(&plan, words, 2));
    REFUSES(NM_NO_INVERSE, nm_plan_convolve_negacyclic(&plan, words, 4, others, 4));
}

/* scratch can be written */
static void erasure_refusals(const nm_montgomery_t *ring, const nm_montgomery_t *changed) {
    static const uint64_t points[3] = {0, 1, 3}, symbols[3] = {1, 2, 3};
    static const size_t few[1] = {0}, twice[2] = {1, 1}, beyond[2] = {0, 3}, apart[2] = {0, 1};
    const uint64_t even[2] = {1, 3};
    uint64_t scratch[60], *others = words + 8, *number = words + 16;
    size_t *errors = (size_t *)(words + 15);
    REFUSES(CAUGHT, nm_erasure_encode(ring, points, 3, symbols, 2, words, 3, scratch, 60));
    REFUSES(NM_BAD_CONTEXT, nm_erasure_encode(changed, points, 3, symbols, 2, words, 3, scratch, 60));
    REFUSES(NM_BAD_ARGUMENT, nm_erasure_encode(ring, points, 3, symbols, 2, words, 2, scratch, 60));
    REFUSES(NM_BAD_CONTEXT, nm_erasure_share(changed, points, 3, symbols, 2, words, 3, scratch, 60));
    REFUSES(NM_BAD_ARGUMENT, nm_erasure_share(ring, points, 3, symbols, 2, words, 3, scratch, 4));
    REFUSES(NM_POINT_WITHOUT_INVERSE, nm_erasure_share(ring, points, 3, symbols, 2, words, 3, scratch, 60));
    REFUSES(NM_POINTS_DONT_FIT, nm_erasure_share(ring, even, 2, symbols, 2, words, 2, scratch, 60));
    REFUSES(NM_BAD_CONTEXT, nm_erasure_restore(changed, points, 3, apart, 2, symbols, 2, words, 2, scratch, 60));
    REFUSES(NM_BAD_ARGUMENT, nm_erasure_restore(ring, points, 3, apart, 2, symbols, 1, words, 2, scratch, 60));
    REFUSES(NM_TOO_FEW_SYMBOLS, nm_erasure_restore(ring, points, 3, few, 1, symbols, 1, words, 2, scratch, 60));
    REFUSES(NM_PLACE_TWICE, nm_erasure_restore(ring, points, 3, twice, 2, symbols, 2, words, 2, scratch, 60));
    REFUSES(NM_PLACE_OUT_OF_RANGE, nm_erasure_restore(ring, points, 3, beyond, 2, symbols, 2, words, 2, scratch, 60));
    REFUSES(NM_POINTS_DONT_FIT, nm_erasure_restore(ring, even, 2, apart, 2, symbols, 2, words, 2, scratch, 60));
#define CORRECT(with, at, places, s, t)                                                                                \
    nm_erasure_correct(with, at, 2, places, s, symbols, t, words, 1, others, 2, scratch, 60, errors, number)
    REFUSES(NM_BAD_CONTEXT, CORRECT(changed, points, apart, 2, 2));
    REFUSES(NM_BAD_ARGUMENT, CORRECT(ring, points, apart, 2, 1));
    REFUSES(NM_TOO_FEW_SYMBOLS, CORRECT(ring, points, apart, 0, 0));
    REFUSES(NM_PLACE_TWICE, CORRECT(ring, points, twice, 2, 2));
    REFUSES(NM_PLACE_OUT_OF_RANGE, CORRECT(ring, points, beyond, 2, 2));
    REFUSES(NM_POINTS_DONT_FIT, CORRECT(ring, even, apart, 2, 2));
    REFUSES(NM_TOO_MANY_ERRORS, CORRECT(ring, points, apart, 2, 2));
#undef CORRECT
}

/* forms and scratch can be written */
static void corrector_refusals(const nm_montgomery_t *ring, const nm_montgomery_t *changed) {
    static const uint64_t points[2] = {0, 1}, even[2] = {1, 3};
    static const size_t both[2] = {0, 1}, twice[2] = {1, 1}, beyond[1] = {2};
    uint64_t forms[4], scratch[23], *others = words + 16, *number = words + 24;
    size_t *errors = (size_t *)(words + 25);
    nm_corrector_t of_one, of_none, *made = (nm_corrector_t *)words;
    REFUSES(CAUGHT, nm_corrector_make(ring, points, 2, 1, forms, 4, NULL, 0, scratch, 23, made));
    REFUSES(NM_BAD_CONTEXT, nm_corrector_make(changed, points, 2, 1, others, 4, others + 4, 2, scratch, 23, made));
    REFUSES(NM_BAD_ARGUMENT, nm_corrector_make(ring, points, 2, 3, others, 4, others + 4, 2, scratch, 23, made));
    REFUSES(NM_BAD_ARGUMENT, nm_corrector_make(ring, points, 2, 1, others, 4, others + 4, 1, scratch, 23, made));
    REFUSES(NM_POINTS_DONT_FIT, nm_corrector_make(ring, even, 2, 1, forms, 4, others, 2, scratch, 23, made));
    CODE(NM_OK, nm_corrector_make(ring, points, 2, 1, forms, 4, NULL, 0, scratch, 23, &of_one));
    CODE(NM_OK, nm_corrector_make(ring, points, 2, 0, forms, 4, NULL, 0, scratch, 23, &of_none));
#define CORRECT(by, lost, count, room) nm_corrector_correct(&by, lost, count, others, 2, scratch, room, errors, number)
    REFUSES(CAUGHT, CORRECT(of_one, both, 1, 16));
    REFUSES(NM_BAD_ARGUMENT, CORRECT(of_one, both, 1, 15));
    REFUSES(NM_TOO_FEW_SYMBOLS, CORRECT(of_one, both, 2, 16));
    REFUSES(NM_PLACE_OUT_OF_RANGE, CORRECT(of_one, beyond, 1, 16));
    REFUSES(NM_PLACE_TWICE, CORRECT(of_none, twice, 2, 23));
    REFUSES(NM_TOO_MANY_ERRORS, CORRECT(of_one, NULL, 0, 16));
    of_one.context = *changed;
    REFUSES(NM_BAD_CONTEXT, CORRECT(of_one, both, 1, 16));
#undef CORRECT
}

static void user_refusals(void) {
    static const uint8_t text[3] = {1, 2, 3}, pattern[1] = {4};
    static const uint64_t moduli[2] = {3, 9}, residues[2] = {0, 0};
    static const uint64_t digits[400] = {9};
    nm_factor_t *factors = (nm_factor_t *)(words + 900);
    REFUSES(NM_NOT_FOUND, nm_find(1, text, 3, pattern, 1, (size_t *)words));
    REFUSES(NM_BAD_ARGUMENT, nm_find_all(1, text, 3, pattern, 1, 1, words, 2, (size_t *)words + 8, 3));
    REFUSES(NM_BAD_ARGUMENT, nm_decode(moduli, 2, residues, 2, (nm_double_t *)words));
    REFUSES(NM_BAD_ARGUMENT, nm_product_room((size_t)UINT64_C(4294967297), 0, (size_t *)words, (size_t *)words + 1));
    REFUSES(NM_BAD_ARGUMENT, nm_product(digits, 1, digits, 1, words, 1, words + 8, 2, factors, 1));
    REFUSES(NM_BAD_ARGUMENT, nm_product(digits, 400, digits, 400, words, 800, words + 800, 2, factors, 1));
}

/* modulo 0, of other lengths, and without room */
static void polynomial_refusals(void) {
    static const uint64_t xs[200] = {9};
    uint64_t *scratch = words + 500;
    nm_factor_t *factors = (nm_factor_t *)(words + 900);
    REFUSES(CAUGHT, nm_polynomial_multiply(7, xs, 2, xs, 2, words, 3, NULL, 0, NULL, 0));
    REFUSES(NM_BAD_ARGUMENT, nm_polynomial_room((size_t)UINT64_C(4294967297), 0, (size_t *)words, (size_t *)words + 1));
    REFUSES(NM_BAD_ARGUMENT, nm_polynomial_multiply(0, xs, 2, xs, 2, words, 3, scratch, 2, factors, 1));
    REFUSES(NM_BAD_ARGUMENT, nm_polynomial_multiply(7, xs, 2, xs, 2, words, 4, scratch, 2, factors, 1));
    REFUSES(NM_BAD_ARGUMENT, nm_polynomial_multiply(7, xs, 200, xs, 200, words, 399, scratch, 2, factors, 1));
    REFUSES(NM_BAD_ARGUMENT, nm_polynomial_square(0, xs, 2, words, 3, scratch, 2, factors, 1));
    REFUSES(NM_BAD_ARGUMENT, nm_polynomial_square(7, xs, 200, words, 399, scratch, 2, factors, 1));
    REFUSES(NM_BAD_ARGUMENT, nm_polynomial_multiply_cyclic(7, xs, 3, xs, 2, words, 3, scratch, 2, factors, 1));
    REFUSES(NM_BAD_ARGUMENT, nm_polynomial_multiply_cyclic(7, xs, 200, xs, 200, words, 200, scratch, 2, factors, 1));
    REFUSES(NM_BAD_ARGUMENT, nm_polynomial_multiply_negacyclic(7, xs, 3, xs, 2, words, 3, scratch, 2, factors, 1));
    REFUSES(NM_BAD_ARGUMENT, nm_polynomial_multiply_negacyclic(7, xs, 200, xs, 200, words, 200, scratch, 2, factors, 1));
}

static void prefix_refusals(void) {
    static const uint8_t text[3] = {1, 2, 3};
    uint64_t *others = words + 8;
    REFUSES(CAUGHT, nm_prefix_hashes(10, text, 3, words, 4, others, 4));
    REFUSES(NM_BAD_ARGUMENT, nm_prefix_hashes(10, text, 3, words, 3, others, 4));
    REFUSES(NM_BAD_ARGUMENT, nm_prefix_hashes(10, text, 3, words, 4, others, 5));
    REFUSES(NM_BAD_ARGUMENT, nm_substring_hash(words, 4, words, 4, 2, 1, others));
    REFUSES(NM_BAD_ARGUMENT, nm_substring_hash(words, 4, words, 4, 1, 4, others));
}

static void residue_system_refusals(void) {
    static const uint64_t moduli[2] = {3, 9}, zero[2] = {3, 0}, none[2] = {0, 0}, coprime[2] = {3, 5};
    REFUSES(CAUGHT, nm_residues_encode(moduli, 2, moduli, 2, words, 2));
    REFUSES(NM_BAD_ARGUMENT, nm_residues_encode(zero, 2, moduli, 2, words, 2));
    REFUSES(NM_BAD_ARGUMENT, nm_residues_encode(moduli, 2, moduli, 2, words, 3));
    REFUSES(NM_BAD_ARGUMENT, nm_residues_decode(moduli, 2, none, 2, words, 2, words + 8, 2, words + 16, 2));
    REFUSES(NM_BAD_ARGUMENT, nm_residues_decode(zero, 2, none, 2, words, 2, words + 8, 2, words + 16, 2));
    REFUSES(NM_BAD_ARGUMENT, nm_residues_decode(coprime, 2, coprime, 2, words, 2, words + 8, 2, words + 16, 2));
    REFUSES(NM_BAD_ARGUMENT, nm_residues_decode(coprime, 2, none, 2, words, 1, words + 8, 2, words + 16, 2));
    REFUSES(NM_BAD_ARGUMENT, nm_residues_decode(coprime, 2, none, 2, words, 2, words + 8, 2, words + 16, 3));
    REFUSES(NM_BAD_ARGUMENT, nm_residues_extend(moduli, 2, none, 2, coprime, 2, words, 2, words + 8, 2, words + 16, 2));
    REFUSES(NM_BAD_ARGUMENT, nm_residues_extend(coprime, 2, none, 2, zero, 2, words, 2, words + 8, 2, words + 16, 2));
    REFUSES(NM_BAD_ARGUMENT, nm_residues_extend(coprime, 2, none, 2, moduli, 2, words, 2, words + 8, 1, words + 16, 2));
}

/* modulo 0, of other lengths, without inverses, and without room */
static void any_length_refusals(void) {
    static const uint64_t xs[200] = {9};
    uint64_t *scratch = words + 300;
    nm_factor_t *factors = (nm_factor_t *)(words + 900);
    REFUSES(CAUGHT, nm_transform(7, 2, xs, 3, words, 3, NULL, 0, NULL, 0));
    REFUSES(NM_BAD_ARGUMENT, nm_transform_room((size_t)UINT64_C(1431655766), (size_t *)words, (size_t *)words + 1));
    REFUSES(NM_BAD_ARGUMENT, nm_transform_find_root(0, 3, words));
    REFUSES(NM_NO_ROOT, nm_transform_find_root(31, 7, words));
    REFUSES(NM_BAD_ARGUMENT, nm_transform(0, 2, xs, 3, words, 3, scratch, 2, factors, 3));
    REFUSES(NM_BAD_ARGUMENT, nm_transform(7, 2, xs, 3, words, 4, scratch, 2, factors, 3));
    REFUSES(NM_BAD_ARGUMENT, nm_transform(7, 2, xs, 16, words, 16, scratch, 95, factors, 3));
    REFUSES(NM_BAD_ARGUMENT, nm_transform(7, 2, xs, 200, words, 200, scratch, 600, factors, 3));
    REFUSES(NM_NO_INVERSE, nm_transform(9, 6, xs, 3, words, 3, scratch, 2, factors, 3));
    REFUSES(NM_BAD_ARGUMENT, nm_transform_inverse(7, 2, xs, 3, words, 4, scratch, 2, factors, 3));
    REFUSES(NM_BAD_ARGUMENT, nm_transform_inverse(7, 2, xs, 200, words, 200, scratch, 600, factors, 3));
    REFUSES(NM_NO_INVERSE, nm_transform_inverse(9, 6, xs, 3, words, 3, scratch, 2, factors, 3));
    REFUSES(NM_NO_INVERSE, nm_transform_inverse(9, 2, xs, 3, words, 3, scratch, 2, factors, 3));
}

/* no standard, no number of it, no such place, and no symbol that completes */
static void check_digit_refusals(void) {
    static const uint64_t ones[2] = {1, 1}, least[2] = {0, 0}, greatest[2] = {6, 5}, word[2] = {0, 0};
    static const uint8_t book[9] = "030640615", account[5] = "GB82W";
    const nm_check_code_t own = {7, 6, ones, 2, least, 2, greatest, 2}, even = {8, 6, greatest, 2, least, 2, greatest, 2};
    REFUSES(CAUGHT, nm_check_digit(NM_ISBN_10, book, 9, words));
    REFUSES(NM_BAD_ARGUMENT, nm_check_digit(11, book, 9, words));
    REFUSES(NM_NOT_ACCEPTED, nm_check_digit(NM_ISBN_10, book, 8, words));
    REFUSES(NM_NOT_ACCEPTED, nm_check_digit(NM_ISBN_10, account, 5, words));
    REFUSES(CAUGHT, nm_iban_check_digits(account, 5, (uint8_t *)words, 2));
    REFUSES(NM_BAD_ARGUMENT, nm_iban_check_digits(account, 5, (uint8_t *)words, 3));
    REFUSES(NM_NOT_ACCEPTED, nm_iban_check_digits(account, 4, (uint8_t *)words, 2));
    REFUSES(CAUGHT, nm_check_code(NM_ABA_RTN, (nm_check_code_t *)words));
    REFUSES(NM_BAD_ARGUMENT, nm_check_code(NM_LUHN, (nm_check_code_t *)words));
    REFUSES(CAUGHT, nm_check_code_restore(&own, word, 2, 0, words));
    REFUSES(NM_NOT_ACCEPTED, nm_check_code_restore(&own, word, 2, 1, words));
    REFUSES(NM_BAD_ARGUMENT, nm_check_code_restore(&own, word, 2, 2, words));
    REFUSES(NM_BAD_ARGUMENT, nm_check_code_restore(&own, word, 1, 0, words));
    REFUSES(NM_NO_INVERSE, nm_check_code_restore(&even, word, 2, 0, words));
}

void read_only_rows(void) {
    nm_montgomery_t ring, changed;
    CODE(NM_OK, nm_montgomery(20, &ring));
    changed = ring, changed.square ^= 1;
    plain_refusals();
    divider_refusals();
    form_refusals(&ring, &changed);
    list_refusals(&ring, &changed);
    plan_refusals();
    plan_value_refusals();
    erasure_refusals(&ring, &changed);
    corrector_refusals(&ring, &changed);
    user_refusals();
    polynomial_refusals();
    prefix_refusals();
    residue_system_refusals();
    any_length_refusals();
    check_digit_refusals();
}
