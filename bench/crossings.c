/* What a call of the library from C costs, beside FLINT's word-sized calls where FLINT is at hand.
 *
 * Each step takes the answer of the step before it. Prints the least time of a step over several rounds, in
 * nanoseconds, and compares the last answers of calls that compute the same. */
#define _POSIX_C_SOURCE 199309L
#include <inttypes.h>
#include <num_modular.h>
#include <stdio.h>
#include <time.h>
#ifdef WITH_FLINT
#include <flint/ulong_extras.h>
#endif

enum { ROUNDS = 7, PLACES = 65536, FEW = 64 };

static const uint64_t modulus = UINT64_C(18446744073709551557), factor = UINT64_C(1234567890123456789);
static const uint64_t exponent = UINT64_C(9223372036854775778);
static uint32_t codes; /* of all calls: 0 where each is NM_OK */
static nm_montgomery_t ring;
static uint64_t factor_form, list[PLACES], root;
static const uint64_t prime = UINT64_C(4179340454199820289); /* 29 * 2^57 + 1 */
static nm_montgomery_t prime_ring;
static nm_factor_t table[PLACES / 2];
static uint64_t prime_root;
static nm_plan_t plan;

/* an erasure code of 128 symbols, of which any 64 restore the message */
enum { SYMBOLS = 128, MESSAGE = 64, SCRATCH = 2 * SYMBOLS + 4 * SYMBOLS + 4 * MESSAGE + 2 };
static uint64_t points[SYMBOLS], message[MESSAGE], word[SYMBOLS], found[SYMBOLS], scratch[SCRATCH];
static size_t places[SYMBOLS];

/* a step: a call of the answer before, and its own */
#define STEP(NAME, CALL, ANSWER) \
    static uint64_t NAME(uint64_t x) { \
        codes |= CALL; \
        return ANSWER; \
    }

STEP(mulm, nm_mulm(x, factor, modulus, &x), x)
STEP(montgomery_mul, nm_montgomery_mul(&ring, x, factor_form, &x), x)
STEP(powm, nm_powm(x, exponent, modulus, &x), x)
STEP(montgomery_pow, nm_montgomery_pow(&ring, x, exponent, &x), x)
STEP(inverted, nm_invm(x, modulus, &x), x + 1)
STEP(value, nm_montgomery_residue(&ring, x, &x), x)

STEP(transform, (list[0] = x, nm_solinas_ntt(list, PLACES, root)), list[0])
STEP(transform_montgomery, (list[0] = x, nm_montgomery_ntt(&prime_ring, list, PLACES, prime_root)), list[0])
STEP(transform_planned, (list[0] = x, nm_ntt_planned(prime, list, PLACES, table, PLACES / 2)), list[0])
STEP(table_tried, 0, x ^ nm_table_fits(prime, prime_root, table, PLACES / 2))
STEP(table_filled, 0, x ^ nm_fill_table(prime, prime_root, table, PLACES / 2))

STEP(transform_by_plan, (list[0] = x, nm_plan_transform(&plan, list, PLACES)), list[0])
STEP(inverse_by_plan, (list[0] = x, nm_plan_inverse(&plan, list, PLACES)), list[0])
/* by the first entries of the table alone, which are the table for fewer words */
STEP(few_planned, (list[0] = x, nm_ntt_planned(prime, list, FEW, table, FEW / 2)), list[0])
STEP(few_by_plan, (list[0] = x, nm_plan_transform(&plan, list, FEW)), list[0])

/* `corrected` takes all symbols, of which none is wrong */
static size_t errors;
static uint64_t number;
#define CODE &prime_ring, points, SYMBOLS
#define MEMORY scratch, SCRATCH
STEP(encoded, (message[0] = x, nm_erasure_encode(CODE, message, MESSAGE, word, SYMBOLS, MEMORY)), word[1])
STEP(restored, (word[0] = x, nm_erasure_restore(CODE, places, MESSAGE, word, MESSAGE, message, MESSAGE, MEMORY)),
     message[1])
STEP(corrected, nm_erasure_correct(CODE, places, SYMBOLS, word, SYMBOLS, message, MESSAGE, found, SYMBOLS, MEMORY,
                                   &errors, &number), x ^ errors)

#ifdef WITH_FLINT
static uint64_t inverse;
STEP(flint_mul, 0, n_mulmod2_preinv(x, factor, modulus, n_preinvert_limb(modulus)))
STEP(flint_mul_preinv, 0, n_mulmod2_preinv(x, factor, modulus, inverse))
STEP(flint_pow, 0, n_powmod2(x, (slong)exponent, modulus))
STEP(flint_inv, 0, n_invmod(x, modulus) + 1)
#endif

/* The least time of a step, and the answer of the last. */
static double measured(uint64_t (*step)(uint64_t), uint64_t x, long steps, uint64_t *last) {
    double least = 1e300;
    for (int round = 0; round < ROUNDS; round++) {
        struct timespec from, to;
        *last = x;
        clock_gettime(CLOCK_MONOTONIC, &from);
        for (long i = 0; i < steps; i++) *last = step(*last);
        clock_gettime(CLOCK_MONOTONIC, &to);
        double took = ((double)(to.tv_sec - from.tv_sec) * 1e9 + (double)(to.tv_nsec - from.tv_nsec)) / (double)steps;
        if (took < least) least = took;
    }
    return least;
}

static uint64_t line(const char *name, uint64_t (*step)(uint64_t), uint64_t x, long steps) {
    uint64_t last;
    printf("%-32s %12.1f ns\n", name, measured(step, x, steps, &last));
    return last;
}

int main(void) {
    uint64_t three, wrong = 0;
    if (nm_montgomery(modulus, &ring) || nm_montgomery_transform(&ring, factor, &factor_form)) return 1;
    if (nm_montgomery_transform(&ring, 3, &three) || nm_solinas_find_root(PLACES, &root)) return 1;
    uint64_t product = line("nm_mulm", mulm, 3, 1000000);
    wrong |= product ^ value(line("nm_montgomery_mul", montgomery_mul, three, 1000000));
    uint64_t power = line("nm_powm", powm, 3, 20000);
    wrong |= power ^ value(line("nm_montgomery_pow", montgomery_pow, three, 20000));
    uint64_t inverse_of = line("nm_invm", inverted, 3, 100000);
#ifdef WITH_FLINT
    inverse = n_preinvert_limb(modulus);
    wrong |= product ^ line("n_mulmod2_preinv", flint_mul_preinv, 3, 1000000);
    wrong |= product ^ line("n_preinvert_limb with it", flint_mul, 3, 1000000);
    wrong |= power ^ line("n_powmod2", flint_pow, 3, 20000);
    wrong |= inverse_of ^ line("n_invmod", flint_inv, 3, 100000);
#else
    (void)inverse_of;
#endif
    line("nm_solinas_ntt, 2^16", transform, 3, 10);
    if (nm_montgomery(prime, &prime_ring) || nm_montgomery_find_root(&prime_ring, PLACES, &prime_root)) return 1;
    wrong |= line("nm_fill_table, 2^15 entries", table_filled, 0, 10);
    wrong |= line("nm_table_fits, 2^15 entries", table_tried, 0, 10);
    for (size_t i = 0; i < PLACES; i++) list[i] = i;
    uint64_t transformed = line("nm_montgomery_ntt, 2^16", transform_montgomery, 3, 10);
    for (size_t i = 0; i < PLACES; i++) list[i] = i;
    wrong |= transformed ^ line("nm_ntt_planned, 2^16", transform_planned, 3, 10);
    plan = (nm_plan_t){prime, prime_root, table, PLACES / 2};
    codes |= nm_plan_check(&plan);
    for (size_t i = 0; i < PLACES; i++) list[i] = i;
    wrong |= transformed ^ line("nm_plan_transform, 2^16", transform_by_plan, 3, 10);
    line("nm_plan_inverse, 2^16", inverse_by_plan, 3, 10);
    for (size_t i = 0; i < FEW; i++) list[i] = i;
    uint64_t few = line("nm_ntt_planned, 2^6", few_planned, 3, 10000);
    for (size_t i = 0; i < FEW; i++) list[i] = i;
    wrong |= few ^ line("nm_plan_transform, 2^6", few_by_plan, 3, 10000);
    for (size_t i = 0; i < SYMBOLS; i++) points[i] = i + 1, places[i] = i;
    for (size_t i = 0; i < MESSAGE; i++) message[i] = i * i;
    line("nm_erasure_encode, 64 of 128", encoded, 3, 100);
    line("nm_erasure_correct, 64 of 128", corrected, 3, 10);
    line("nm_erasure_restore, 64 of 128", restored, 3, 100);
    if (wrong) printf("the answers differ\n");
    if (codes) printf("a call failed\n");
    return wrong != 0 || codes != 0;
}
