/* Arithmetic modulo m on words of 64 bits: the library num_modular, proved, for C.
 *
 * Each function tests its preconditions and returns a code. With NM_OK it has written its result. With any other code
 * it leaves everything that the caller passed unchanged, but for the scratch list of the erasure codes and, with
 * NM_POINTS_DONT_FIT, the forms of nm_corrector_make; only nm_montgomery_run, nm_erasure_correct and
 * nm_corrector_correct also write with NM_NO_INVERSE. It is proved that the old and the new contents are equal, but for
 * the lists of nm_plan_make and nm_corrector_make. A body that writes and then restores would meet that, too. That such
 * a call doesn't write at all is tested, with outputs in a read-only page.
 *
 * A context, divider, plan, modulus or base comes first, but in the seven operations on words and in the symbols, where
 * the modulus follows the operands as in the Rust crate.
 *
 * The caller must ensure these preconditions, which the library can't test:
 *
 * - A pointer to a single value is valid. A list is a pointer and a number of elements, and has at least so many. For
 *   every list, NULL with the number 0 is an empty list. In comments, n is the length of a call's first list, and k
 *   that of its second, where they don't say another.
 * - A plan of type nm_plan_t, and its table, are as nm_plan_make or nm_plan_check left them; nm_plan_check itself takes
 *   any. A corrector of type nm_corrector_t, and its lists, are as nm_corrector_make left them.
 * - What a call writes, which is each argument without const, overlaps no other argument. Of the six products in place,
 *   such as nm_plan_convolve, this header tests whether both lists are one, and returns NM_BAD_ARGUMENT; for a square
 *   call nm_plan_square. Arguments that are const may overlap each other in any way, or be the same.
 * - No function allocates, keeps a state or calls back, so calls may run in several threads at the same time, and may
 *   share what all of them only read. While one call writes a value or a list, no other call or thread may access it:
 *   the library has no locks.
 */
#ifndef NUM_MODULAR_H
#define NUM_MODULAR_H

#include <stddef.h>
#include <stdint.h>

/* The version of this header; nm_version tells that of the library. NM_VERSION counts as nm_version does, for #if. */
#define NM_VERSION_MAJOR 0u
#define NM_VERSION_MINOR 7u
#define NM_VERSION_PATCH 0u
#define NM_VERSION (10000 * NM_VERSION_MAJOR + 100 * NM_VERSION_MINOR + NM_VERSION_PATCH)

/* Before a function whose code tells whether there is a result: compilers that can warn where the code isn't used, and
 * not where the call is cast to void. Of gcc's attributes only this one heeds the cast. */
#if (defined(__cplusplus) && __cplusplus >= 201703L) || (defined(__STDC_VERSION__) && __STDC_VERSION__ >= 202311L)
#define NM_CHECK [[nodiscard]]
#elif defined(__clang__)
#define NM_CHECK __attribute__((warn_unused_result))
#elif defined(__GNUC__) && __GNUC__ >= 10 && (!defined(__cplusplus) || __cplusplus >= 201103L)
#define NM_CHECK __extension__ [[nodiscard]]
#else
#define NM_CHECK
#endif

#ifdef __cplusplus
extern "C" {
#endif

/* The type of the codes, which all functions but nm_version and nm_strerror return. */
typedef uint32_t nm_code_t;

/* The codes. */
#define NM_OK 0u           /* the result is written */
#define NM_NO_INVERSE 1u   /* an inverse that the call needs doesn't exist */
#define NM_BAD_ARGUMENT 2u /* an argument breaks a precondition of the call */
#define NM_BAD_CONTEXT 3u  /* a divider, a context or a table isn't one that the library makes */
#define NM_NO_ROOT 4u      /* the root doesn't suit the length, or none was found */
#define NM_NOT_FOUND 5u    /* the pattern doesn't occur */
/* those of the erasure codes */
#define NM_TOO_FEW_SYMBOLS 6u        /* there are fewer symbols than the message has */
#define NM_PLACE_OUT_OF_RANGE 7u     /* a place isn't below the number of points */
#define NM_PLACE_TWICE 8u            /* a place occurs twice */
#define NM_POINTS_DONT_FIT 9u        /* the difference of two points has no inverse */
#define NM_TOO_MANY_ERRORS 10u       /* no word of the code is near enough to the symbols */
#define NM_POINT_WITHOUT_INVERSE 11u /* a point has no inverse, so that the share there would tell something */
/* that of the check digits */
#define NM_NOT_ACCEPTED 12u /* the number or word isn't one of the code, or no symbol makes it one */

/* What a code says, in a few words, as for an error message. It is this header's alone: the library doesn't export it,
 * so a language that can't include the header keeps texts of its own. */
static inline const char *nm_strerror(nm_code_t code) {
    switch (code) {
    case NM_OK: return "no error";
    case NM_NO_INVERSE: return "a number has no inverse";
    case NM_BAD_ARGUMENT: return "an argument breaks a precondition";
    case NM_BAD_CONTEXT: return "a divider, context or table isn't one that the library makes";
    case NM_NO_ROOT: return "the root doesn't suit the length, or none was found";
    case NM_NOT_FOUND: return "the pattern doesn't occur";
    case NM_TOO_FEW_SYMBOLS: return "there are fewer symbols than the message has";
    case NM_PLACE_OUT_OF_RANGE: return "a place isn't below the number of points";
    case NM_PLACE_TWICE: return "a place occurs twice";
    case NM_POINTS_DONT_FIT: return "the difference of two points has no inverse";
    case NM_TOO_MANY_ERRORS: return "no word of the code is near enough to the symbols";
    case NM_POINT_WITHOUT_INVERSE: return "a point has no inverse";
    case NM_NOT_ACCEPTED: return "the number isn't one of the code, or no symbol makes it one";
    default: return "no code of num_modular";
    }
}

/* The version of the library: 10000 * major + 100 * minor + patch. */
uint32_t nm_version(void);

/* --- Operations modulo m, of words that may be above m. NM_BAD_ARGUMENT: m is 0. --- */

/* The residue of a + b. */
NM_CHECK nm_code_t nm_addm(uint64_t a, uint64_t b, uint64_t m, uint64_t *sum);

/* The residue of a - b, from 0 to m - 1. */
NM_CHECK nm_code_t nm_subm(uint64_t a, uint64_t b, uint64_t m, uint64_t *difference);

/* The residue of a * b. */
NM_CHECK nm_code_t nm_mulm(uint64_t a, uint64_t b, uint64_t m, uint64_t *product);

/* The residue of a to the power exponent; that of 1 for the exponent 0. */
NM_CHECK nm_code_t nm_powm(uint64_t a, uint64_t exponent, uint64_t m, uint64_t *power);

/* The inverse of a. NM_NO_INVERSE: a has none. */
NM_CHECK nm_code_t nm_invm(uint64_t a, uint64_t m, uint64_t *inverse);

/* The residue of a to the power of a secret exponent below 2^bits, by the same products for all. a is secret, too. For
 * a form, pass what nm_montgomery_residue makes of it. NM_BAD_ARGUMENT: bits is above 64, or the exponent isn't below
 * 2^bits. */
NM_CHECK nm_code_t nm_powm_secret(uint64_t a, uint64_t exponent, uint32_t bits, uint64_t m, uint64_t *power);

/* The inverse of a secret a for an odd m, by the same steps for all. NM_NO_INVERSE: a has none. NM_BAD_ARGUMENT: m is
 * even. */
NM_CHECK nm_code_t nm_invm_secret(uint64_t a, uint64_t m, uint64_t *inverse);

/* --- Operations on lists of words modulo m, entry by entry. ---
 *
 * m may be any word but 0, words may be above m, and the results are below m. NM_BAD_ARGUMENT: m is 0, or the lengths
 * of two lists differ. */

/* Replaces each x_i by the sum x_i + y_i modulo m. */
NM_CHECK nm_code_t nm_add_lists(uint64_t m, uint64_t *xs, size_t xs_length, const uint64_t *ys, size_t ys_length);

/* Replaces each x_i by the difference x_i - y_i modulo m, from 0 to m - 1. */
NM_CHECK nm_code_t nm_sub_lists(uint64_t m, uint64_t *xs, size_t xs_length, const uint64_t *ys, size_t ys_length);

/* Replaces each x_i by the product x_i * y_i modulo m. */
NM_CHECK nm_code_t nm_multiply_lists(uint64_t m, uint64_t *xs, size_t xs_length, const uint64_t *ys, size_t ys_length);

/* Replaces each x_i by the product x_i * factor modulo m. */
NM_CHECK nm_code_t nm_scale_list(uint64_t m, uint64_t *xs, size_t xs_length, uint64_t factor);

/* The sum of all products x_i * y_i modulo m; 0 for empty lists. */
NM_CHECK nm_code_t nm_dot_product(uint64_t m, const uint64_t *xs, size_t xs_length, const uint64_t *ys,
                                  size_t ys_length, uint64_t *product);

/* --- Symbols of a over n: -1, 0 or 1. --- */

/* The Jacobi symbol. NM_BAD_ARGUMENT: n is even. */
NM_CHECK nm_code_t nm_jacobi(uint64_t a, uint64_t n, int32_t *symbol);

/* The Jacobi symbol of signed numbers. NM_BAD_ARGUMENT: n is even or below 1. */
NM_CHECK nm_code_t nm_jacobi_signed(int64_t a, int64_t n, int32_t *symbol);

/* The Legendre symbol, where n is an odd prime, which the call doesn't test. In any case it is 0, 1 or -1 where a to
 * the power (n - 1)/2, rounded down, is congruent to 0, 1 or n - 1 modulo n, tried in this order. NM_BAD_ARGUMENT: the
 * power is none of these, or n is 0. */
NM_CHECK nm_code_t nm_legendre(uint64_t a, uint64_t n, int32_t *symbol);

/* nm_legendre of signed numbers. NM_BAD_ARGUMENT: as nm_legendre, or n is below 1. */
NM_CHECK nm_code_t nm_legendre_signed(int64_t a, int64_t n, int32_t *symbol);

/* The Kronecker symbol, which exists for all numbers. Returns NM_OK. */
nm_code_t nm_kronecker(uint64_t a, uint64_t n, int32_t *symbol);

/* The Kronecker symbol of signed numbers. Returns NM_OK. */
nm_code_t nm_kronecker_signed(int64_t a, int64_t n, int32_t *symbol);

/* --- Division by an invariant divisor. --- */

/* A divisor and its reciprocal, as nm_divider computes it. It may be copied and stored. Each call tests it, and returns
 * NM_BAD_CONTEXT where the reciprocal isn't that of the divisor. */
typedef struct {
    uint64_t divisor;    /* the divisor */
    uint64_t reciprocal; /* the reciprocal of the divisor shifted left until its top bit is set */
} nm_divider_t;

/* A quotient, rounded down, and a remainder. */
typedef struct {
    uint64_t quotient;
    uint64_t remainder;
} nm_division_t;

/* The divider by d. NM_BAD_ARGUMENT: d is 0. */
NM_CHECK nm_code_t nm_divider(uint64_t d, nm_divider_t *divider);

/* Quotient and remainder of the dividend. NM_BAD_CONTEXT: the divider isn't one that nm_divider makes. */
NM_CHECK nm_code_t nm_div_rem(const nm_divider_t *divider, uint64_t dividend, nm_division_t *division);

/* Quotient and remainder of low + 2^64 * high. NM_BAD_CONTEXT: as for nm_div_rem. NM_BAD_ARGUMENT: high isn't
 * below the divisor, so that the quotient doesn't fit a word. */
NM_CHECK nm_code_t nm_div_rem_2by1(const nm_divider_t *divider, uint64_t low, uint64_t high, nm_division_t *division);

/* --- Montgomery's representation modulo any m that is at least 1. --- */

/* A modulus and what nm_montgomery precomputes of it. It may be copied and stored. Each call tests it, and returns
 * NM_BAD_CONTEXT where its numbers aren't those of its modulus. */
typedef struct {
    uint64_t modulus;         /* m */
    uint64_t negated_inverse; /* its product with the odd part of m is -1 modulo 2^64 */
    uint64_t square;          /* 2^128 modulo the odd part of m */
} nm_montgomery_t;

/* The context of m. NM_BAD_ARGUMENT: m is 0. */
NM_CHECK nm_code_t nm_montgomery(uint64_t m, nm_montgomery_t *context);

/* These calls take and write forms: words that represent values modulo m. Each value has exactly one form, which is
 * below m. NM_BAD_CONTEXT: the context isn't one that nm_montgomery makes. NM_BAD_ARGUMENT: a word that must be a form
 * isn't one. */

/* The form of a word modulo m. */
NM_CHECK nm_code_t nm_montgomery_transform(const nm_montgomery_t *context, uint64_t word, uint64_t *form);

/* The value of a form: a number below m. */
NM_CHECK nm_code_t nm_montgomery_residue(const nm_montgomery_t *context, uint64_t form, uint64_t *value);

/* The form of the sum of two forms. */
NM_CHECK nm_code_t nm_montgomery_add(const nm_montgomery_t *context, uint64_t a, uint64_t b, uint64_t *sum);

/* The form of the difference of two forms. */
NM_CHECK nm_code_t nm_montgomery_sub(const nm_montgomery_t *context, uint64_t a, uint64_t b, uint64_t *difference);

/* The form of the product of two forms. */
NM_CHECK nm_code_t nm_montgomery_mul(const nm_montgomery_t *context, uint64_t a, uint64_t b, uint64_t *product);

/* The form of the power of a form; that of 1 for the exponent 0. */
NM_CHECK nm_code_t nm_montgomery_pow(const nm_montgomery_t *context, uint64_t form, uint64_t exponent, uint64_t *power);

/* The form of the inverse of a form. NM_NO_INVERSE: its value has none. */
NM_CHECK nm_code_t nm_montgomery_inv(const nm_montgomery_t *context, uint64_t form, uint64_t *inverse);

/* --- Operations on lists of forms, entry by entry. ---
 *
 * As nm_add_lists and its like, for lists of forms, which nm_montgomery_transform makes. NM_BAD_CONTEXT: the context
 * isn't one that nm_montgomery makes. NM_BAD_ARGUMENT: the lengths of two lists differ, or a word isn't a form. */

/* Replaces each form by that of the sum with the other list's form. */
NM_CHECK nm_code_t nm_montgomery_add_lists(const nm_montgomery_t *context, uint64_t *xs, size_t xs_length,
                                           const uint64_t *ys, size_t ys_length);

/* Replaces each form by that of the difference from the other's form. */
NM_CHECK nm_code_t nm_montgomery_sub_lists(const nm_montgomery_t *context, uint64_t *xs, size_t xs_length,
                                           const uint64_t *ys, size_t ys_length);

/* Replaces each form by that of the product with the other list's form. */
NM_CHECK nm_code_t nm_montgomery_multiply_lists(const nm_montgomery_t *context, uint64_t *xs, size_t xs_length,
                                                const uint64_t *ys, size_t ys_length);

/* Replaces each form by that of the product with the factor, a form. */
NM_CHECK nm_code_t nm_montgomery_scale_list(const nm_montgomery_t *context, uint64_t *xs, size_t xs_length,
                                            uint64_t factor);

/* The form of the sum of the products of both lists' forms; that of 0 for empty lists. */
NM_CHECK nm_code_t nm_montgomery_dot_product(const nm_montgomery_t *context, const uint64_t *xs, size_t xs_length,
                                             const uint64_t *ys, size_t ys_length, uint64_t *product);

/* --- Transforms and cyclic products of lists of words, modulo m. ---
 *
 * These calls, nm_montgomery_run and the nm_erasure_ calls take and write plain words, not forms. The words may be
 * above m, and the results are below m. A root suits lists of n words where n is a power of two and, for n above 1, the
 * root to the power n/2 is -1 modulo m. NM_BAD_CONTEXT: the context isn't one that nm_montgomery makes. */

/* NM_OK where the root suits lists of n = length words, and NM_NO_ROOT where it doesn't. */
NM_CHECK nm_code_t nm_montgomery_root_fits(const nm_montgomery_t *context, uint64_t root, size_t length);

/* A root that suits lists of n = length words: x to the power (m - 1)/n, rounded down, for the least x from 2 to 255
 * for which it does. NM_NO_ROOT: it does for no x, as where n is no power of two. */
NM_CHECK nm_code_t nm_montgomery_find_root(const nm_montgomery_t *context, size_t length, uint64_t *root);

/* Replaces the n words by their transform by the root: entry j is the sum of x_i * root^(i * j) modulo m.
 * NM_NO_ROOT: the root doesn't suit n. */
NM_CHECK nm_code_t nm_montgomery_ntt(const nm_montgomery_t *context, uint64_t *xs, size_t xs_length, uint64_t root);

/* Undoes nm_montgomery_ntt: replaces the n words by those whose transform by the root they are. NM_NO_ROOT: the root
 * doesn't suit n. NM_NO_INVERSE: n has no inverse modulo m. */
NM_CHECK nm_code_t nm_montgomery_intt(const nm_montgomery_t *context, uint64_t *xs, size_t xs_length, uint64_t root);

/* Replaces the first list by the cyclic product of both: entry e is the sum of x_i * y_j modulo m over all i + j = e or
 * e + n. The second list is replaced by its transform by the root. NM_BAD_ARGUMENT: the lengths differ. NM_NO_ROOT: the
 * root doesn't suit n. NM_NO_INVERSE: n has no inverse modulo m. */
NM_CHECK nm_code_t nm_montgomery_convolve(const nm_montgomery_t *context, uint64_t *xs, size_t xs_length, uint64_t *ys,
                                          size_t ys_length, uint64_t root);

/* --- Lists of commands on registers, modulo m. --- */

/* What a command writes in dst. Operands are read before that, so dst may be an operand. */
#define NM_LOAD 0u /* n modulo m */
#define NM_ADD 1u  /* a + b */
#define NM_SUB 2u  /* a - b */
#define NM_MUL 3u  /* a times b */
#define NM_NEG 4u  /* -a */
#define NM_DBL 5u  /* 2 times a */
#define NM_SQR 6u  /* a times a */
#define NM_INV 7u  /* the inverse of a; the run stops where there is none */
#define NM_DIV 8u  /* a times the inverse of b; the run stops where b has none */
#define NM_POW 9u  /* a to the power n */

/* A command. Fields that its operation doesn't use may have any value. */
typedef struct {
    uint32_t operation; /* one of those above */
    size_t dst;         /* the register that is written */
    size_t a;           /* the register of the first operand */
    size_t b;           /* the register of the second operand */
    uint64_t n;         /* the number that is loaded, or the exponent */
} nm_command_t;

/* Carries out the commands in order, on the residues of the words in registers, and replaces the words by the resulting
 * residues; carried_out becomes the number of commands carried out. NM_NO_INVERSE: the inverse of command number
 * carried_out, counted from 0, doesn't exist, and the residues are those after the commands before it. NM_BAD_ARGUMENT:
 * an operation has no name, or a register number isn't below registers_length. NM_BAD_CONTEXT: the context isn't one
 * that nm_montgomery makes. */
NM_CHECK nm_code_t nm_montgomery_run(const nm_montgomery_t *context, uint64_t *registers, size_t registers_length,
                                     const nm_command_t *commands, size_t commands_length, size_t *carried_out);

/* --- Transforms and cyclic products modulo 2^64 - 2^32 + 1. --- */

/* As nm_montgomery_NAME, without a context: nm_solinas_NAME computes modulo the prime 2^64 - 2^32 + 1. */
#define NM_SOLINAS UINT64_C(18446744069414584321)
NM_CHECK nm_code_t nm_solinas_root_fits(uint64_t root, size_t length);
NM_CHECK nm_code_t nm_solinas_find_root(size_t length, uint64_t *root);
NM_CHECK nm_code_t nm_solinas_ntt(uint64_t *xs, size_t xs_length, uint64_t root);
NM_CHECK nm_code_t nm_solinas_intt(uint64_t *xs, size_t xs_length, uint64_t root);
NM_CHECK nm_code_t nm_solinas_convolve(uint64_t *xs, size_t xs_length, uint64_t *ys, size_t ys_length, uint64_t root);

/* --- Transforms and products by a table, modulo m from 1 to 2^62. ---
 *
 * The table of a root holds the factors of its powers (twiddle factors). The caller owns it, and transforms are faster
 * with it. Words must be below 4 * m, and the results are below m. Each call tests its list and its table: the entries
 * must be factors modulo m with their quotients. A table that passes the test but is no root's, such as a reordered one,
 * is memory-safe but gives wrong results; nm_table_fits tests whether a table is that of a root.
 *
 * NM_BAD_ARGUMENT: m is 0 or above 2^62, or what the call's comment says. NM_BAD_CONTEXT: an entry of the table isn't a
 * factor modulo m with its quotient.
 *
 * New code should use nm_plan_make and the calls nm_plan_*, which keep modulus, root and table together and don't test
 * the table at each call; nm_fill_table fills a bare table, for the calls that take one. */

/* A factor w below m, and its quotient 2^64 * w / m, rounded down. */
typedef struct {
    uint64_t value;
    uint64_t quotient;
} nm_factor_t;

/* Fills the table of the root for transforms of n words, n being twice its length. NM_NO_ROOT: the root doesn't
 * suit n. */
NM_CHECK nm_code_t nm_fill_table(uint64_t m, uint64_t root, nm_factor_t *table, size_t table_length);

/* Tests whether a table is that of a root: the one that nm_fill_table makes for this m and this root. NM_BAD_CONTEXT:
 * it isn't. NM_NO_ROOT: the root doesn't suit n, twice the length of the table. */
NM_CHECK nm_code_t nm_table_fits(uint64_t m, uint64_t root, const nm_factor_t *table, size_t table_length);

/* Replaces the n words by their transform: entry j is the sum of x_i * h^(i * j) modulo m. h is the root of the table,
 * or, where the table is for more words, the power of it that suits n. NM_BAD_ARGUMENT: a word isn't below
 * 4 * m, or n is no power of two, or above twice the length of the table. */
NM_CHECK nm_code_t nm_ntt_planned(uint64_t m, uint64_t *xs, size_t xs_length, const nm_factor_t *table,
                                  size_t table_length);

/* Splits block b of the tree of remainders into count = n / last blocks: word i of block j becomes the sum over k of
 * x_(k * last + i) * c^k, the coefficient of the remainder modulo X^last - c, where c is the power of the table's
 * root by the reversed bits of b * count + j. So b = 0 and last = 1 give the transform in
 * bit-reversed order, and b = 1 starts from a polynomial modulo X^n + 1. NM_BAD_ARGUMENT: a word isn't below 4 * m,
 * n isn't last times a power of two, or the table has fewer than (b + 1) * (count / 2) entries. */
NM_CHECK nm_code_t nm_split(uint64_t m, uint64_t *xs, size_t xs_length, const nm_factor_t *table, size_t table_length,
                            size_t b, size_t last);

/* Undoes nm_split, but for a factor: each word is multiplied by count. The codes are those of nm_split. */
NM_CHECK nm_code_t nm_join(uint64_t m, uint64_t *xs, size_t xs_length, const nm_factor_t *table, size_t table_length,
                           size_t b, size_t last);

/* Replaces the first list by the cyclic product of both: entry e is the sum of x_i * y_j modulo m over all
 * i + j = e or e + n. The second list is replaced by the result of nm_split for b = 0. Both are split down to blocks
 * of last words, which is 1, or 2 where the table is for n / 2 words. NM_BAD_ARGUMENT: a word isn't below 4 * m, the
 * lengths differ, last isn't 1 or 2, n isn't last times a power of two, or the table has fewer than
 * n / last / 2 entries, or none. NM_NO_INVERSE: n / last has no inverse modulo m. */
NM_CHECK nm_code_t nm_convolve_planned(uint64_t m, uint64_t *xs, size_t xs_length, uint64_t *ys, size_t ys_length,
                                       const nm_factor_t *table, size_t table_length, size_t last);

/* Replaces the first list by the product of both modulo X^n + 1: entry e is the sum of x_i * y_j over all i + j = e,
 * less that over all i + j = e + n, modulo m. The second list is replaced by the result of nm_split for b = 1. The
 * codes are those of nm_convolve_planned, except that the table must have at least n / last entries. */
NM_CHECK nm_code_t nm_convolve_negacyclic(uint64_t m, uint64_t *xs, size_t xs_length, uint64_t *ys, size_t ys_length,
                                          const nm_factor_t *table, size_t table_length, size_t last);

/* --- Transforms and products by a plan, modulo m from 1 to 2^62. ---
 *
 * An nm_plan_t holds a modulus, a root, and the table of the factors of its powers. nm_plan_make and nm_plan_check test
 * the table once, and the other calls trust it. So the caller must ensure that a plan is one that nm_plan_make wrote or
 * nm_plan_check accepted, and that neither it nor its table has changed since then. It is enough that the entries of
 * the table are factors modulo m with their quotients: where they are no root's table, the results are below m and
 * meaningless. For other entries nothing is claimed.
 *
 * Words must be below 4 * m, and the results are below m. */

/* A plan: modulus, root, and a table, which stays the caller's and must live as long as the plan. It may be copied. */
typedef struct {
    uint64_t modulus;
    uint64_t root;
    const nm_factor_t *table;
    size_t table_length;
} nm_plan_t;

/* Fills the table for transforms of n words, n being twice its length, and writes the plan, whose root is the residue
 * of root. nm_montgomery_find_root finds a root that suits n. NM_NO_ROOT: the root doesn't suit n. NM_BAD_ARGUMENT: m
 * is 0 or above 2^62. */
NM_CHECK nm_code_t nm_plan_make(uint64_t m, uint64_t root, nm_factor_t *table, size_t table_length, nm_plan_t *plan);

/* Tests whether a plan's table is that of its root: the one that nm_plan_make makes for its modulus and root, as for a
 * plan that the caller wrote over a table that is filled already. NM_BAD_CONTEXT: it isn't. NM_NO_ROOT: the root
 * doesn't suit n, twice the length of the table. NM_BAD_ARGUMENT: the modulus is 0 or above 2^62. */
NM_CHECK nm_code_t nm_plan_check(const nm_plan_t *plan);

/* Replaces the n words by their transform: entry j is the sum of x_i * h^(i * j) modulo m. h is the plan's root, or,
 * where the table is for more words, the power of it that suits n. NM_BAD_ARGUMENT: a word isn't below 4 * m, or n is
 * no power of two, or above twice the length of the table. */
NM_CHECK nm_code_t nm_plan_transform(const nm_plan_t *plan, uint64_t *xs, size_t xs_length);

/* Undoes nm_plan_transform: replaces the n words by those whose transform they are. NM_BAD_ARGUMENT: a word isn't below
 * 4 * m, or n is no power of two, or above twice the length of the table. NM_NO_INVERSE: n has no inverse modulo m, as
 * for n above 1 where m is even. */
NM_CHECK nm_code_t nm_plan_inverse(const nm_plan_t *plan, uint64_t *xs, size_t xs_length);

/* Splits block b of the tree of remainders into count = n / last blocks, as nm_split defines them.
 * NM_BAD_ARGUMENT: a word isn't below 4 * m, n isn't last times a power of two, or the table has fewer than
 * (b + 1) * (count / 2) entries. */
NM_CHECK nm_code_t nm_plan_split(const nm_plan_t *plan, uint64_t *xs, size_t xs_length, size_t b, size_t last);

/* Undoes nm_plan_split: joins count = n / last blocks to block b, without the factor that nm_join leaves.
 * NM_BAD_ARGUMENT: a word isn't below 4 * m, n isn't last times a power of two, or the table has fewer than
 * (b + 1) * (count / 2) entries. NM_NO_INVERSE: count has no inverse modulo m. */
NM_CHECK nm_code_t nm_plan_join(const nm_plan_t *plan, uint64_t *xs, size_t xs_length, size_t b, size_t last);

/* Replaces the first list by the cyclic product of both: entry e is the sum of x_i * y_j modulo m over all
 * i + j = e or e + n. The second list is replaced by the result of nm_plan_split for b = 0 and last = 1.
 * NM_BAD_ARGUMENT: a word isn't below 4 * m, the lengths differ, or n is no power of two, or above twice the length of
 * the table. NM_NO_INVERSE: n has no inverse modulo m. */
NM_CHECK nm_code_t nm_plan_convolve(const nm_plan_t *plan, uint64_t *xs, size_t xs_length, uint64_t *ys,
                                    size_t ys_length);

/* Replaces the n words by their cyclic product with themselves: entry e is the sum of x_i * x_j modulo m over all
 * i + j = e or e + n. The codes are those of nm_plan_convolve for xs and a copy of it. */
NM_CHECK nm_code_t nm_plan_square(const nm_plan_t *plan, uint64_t *xs, size_t xs_length);

/* Replaces the first list by the product of both modulo X^n + 1: entry e is the sum of x_i * y_j over all i + j = e,
 * less that over all i + j = e + n, modulo m. The second list is replaced by the result of nm_plan_split for b = 1 and
 * last = 2. NM_BAD_ARGUMENT: a word isn't below 4 * m, the lengths differ, or n isn't 2 times a power of two, or is
 * above twice the length of the table. NM_NO_INVERSE: n / 2 has no inverse modulo m. */
NM_CHECK nm_code_t nm_plan_convolve_negacyclic(const nm_plan_t *plan, uint64_t *xs, size_t xs_length, uint64_t *ys,
                                               size_t ys_length);

/* --- Erasure codes (Reed-Solomon) and secret sharing (Shamir), modulo any m. ---
 *
 * A message of k symbols is the list of the coefficients of a polynomial, the constant first, and symbol i of its word
 * is the value modulo m at point i. Lists hold words that may be above m; results are below m. The message comes back
 * from any k symbols, or from s symbols of which at most (s - k)/2 are wrong, if the points fit: the difference of any
 * two has an inverse modulo m. So their number is at most the least prime that divides m. For a composite m,
 * nm_erasure_correct may return NM_NO_INVERSE instead of the message.
 *
 * places are numbers of points, counted from 0, and symbol j is the one at place j. The contents of scratch are
 * unspecified after every call, whatever its code. n is the number of points, and s that of places. NM_BAD_ARGUMENT:
 * word or shares hasn't n entries, there aren't as many symbols as places, or scratch is shorter than the call needs.
 * NM_BAD_CONTEXT: the context isn't one that nm_montgomery makes. Where several codes fit, NM_BAD_CONTEXT comes before
 * NM_BAD_ARGUMENT, and that before the others; of these a call returns the first that its comment names, but that
 * nm_erasure_correct may return NM_NO_INVERSE where NM_TOO_MANY_ERRORS fits, too. For secrets see docs/secrets.md. */

#ifdef __cplusplus
#  define NM_SIZE(n) static_cast<size_t>(n)
#else
#  define NM_SIZE(n) ((size_t)(n))
#endif

/* How many words scratch must have at least, with n points, s places and a message of k symbols. */
#define NM_ERASURE_ENCODE_SCRATCH(n, k) (NM_SIZE(n) + NM_SIZE(k))
#define NM_ERASURE_RESTORE_SCRATCH(n, s, k) (NM_SIZE(n) + NM_SIZE(s) + 3 * NM_SIZE(k))
#define NM_ERASURE_CORRECT_SCRATCH(n, s, k) (2 * NM_SIZE(n) + 4 * NM_SIZE(s) + 4 * NM_SIZE(k) + 2)

/* The word of the message. The call doesn't test whether the points fit. nm_erasure_restore does, called with all n
 * places, any n symbols, and k = n: it returns NM_POINTS_DONT_FIT where they don't. nm_erasure_share tests them, too.
 * A symbol that isn't below m comes back as its residue. Where k is above n, the call writes the word, too, but no call
 * restores the message. scratch: NM_ERASURE_ENCODE_SCRATCH(n, k) words. */
NM_CHECK nm_code_t nm_erasure_encode(const nm_montgomery_t *context, const uint64_t *points, size_t points_length,
                                     const uint64_t *message, size_t message_length, uint64_t *word, size_t word_length,
                                     uint64_t *scratch, size_t scratch_length);

/* The message of k symbols, by the first k places and the symbols there. scratch: NM_ERASURE_RESTORE_SCRATCH(n, s, k)
 * words. NM_TOO_FEW_SYMBOLS: s is below k. NM_PLACE_OUT_OF_RANGE, NM_PLACE_TWICE: of the first k places, in order, one
 * isn't below n, or occurs before. NM_POINTS_DONT_FIT: the points at these places don't. */
NM_CHECK nm_code_t nm_erasure_restore(const nm_montgomery_t *context, const uint64_t *points, size_t points_length,
                                      const size_t *places, size_t places_length, const uint64_t *symbols,
                                      size_t symbols_length, uint64_t *message, size_t message_length,
                                      uint64_t *scratch, size_t scratch_length);

/* The only message of k symbols, at least 1, whose word differs in e of the s symbols, where 2 * e is at most s - k;
 * that word; and e, as errors. scratch: NM_ERASURE_CORRECT_SCRATCH(n, s, k) words. NM_BAD_ARGUMENT: also where k is 0.
 * The codes of nm_erasure_restore, for all s places. NM_TOO_MANY_ERRORS: no word is that near. NM_NO_INVERSE: a number
 * above 0 without an inverse modulo m was met, and is written to number; it never comes where m is a prime, or where no
 * symbol is wrong. */
NM_CHECK nm_code_t nm_erasure_correct(const nm_montgomery_t *context, const uint64_t *points, size_t points_length,
                                      const size_t *places, size_t places_length, const uint64_t *symbols,
                                      size_t symbols_length, uint64_t *message, size_t message_length, uint64_t *word,
                                      size_t word_length, uint64_t *scratch, size_t scratch_length, size_t *errors,
                                      uint64_t *number);

/* Shares of a secret, by Shamir's scheme: the word of a message whose first symbol is the secret, and whose k - 1
 * others the caller draws at random, each from 0 to m - 1. Then k - 1 shares say nothing of the secret.
 * nm_erasure_restore gives it back as the first symbol of the message from any k shares, and nm_erasure_correct though
 * some are forged. A secret that isn't below m comes back as its residue. scratch: NM_ERASURE_ENCODE_SCRATCH(n, k)
 * words. NM_BAD_ARGUMENT: also if k is 0 or above n. NM_POINT_WITHOUT_INVERSE: a point, such as 0, has no inverse.
 * NM_POINTS_DONT_FIT: the points don't. */
NM_CHECK nm_code_t nm_erasure_share(const nm_montgomery_t *context, const uint64_t *points, size_t points_length,
                                    const uint64_t *coefficients, size_t coefficients_length, uint64_t *shares,
                                    size_t shares_length, uint64_t *scratch, size_t scratch_length);

/* --- Erasure codes that are prepared to correct many words, modulo any m. ---
 *
 * An nm_corrector_t holds what depends on the points alone. nm_corrector_make computes it once, and
 * nm_corrector_correct trusts it: the caller must ensure that the corrector is one that nm_corrector_make wrote, and
 * that neither it nor its lists have changed since then. Only its context is tested. For others nothing is claimed.
 *
 * n is the number of points, and k that of the symbols of a message. A word has n symbols, as nm_erasure_encode writes
 * them. The contents of scratch are unspecified after every call, whatever its code. Where several codes fit,
 * NM_BAD_CONTEXT comes before NM_BAD_ARGUMENT, and that before the others; of these a call returns the first that its
 * comment names, but that it may return NM_NO_INVERSE where NM_TOO_MANY_ERRORS fits, too. Not for secrets. */

/* A corrector: a context, k, and lists, which stay the caller's and must live as long as it. It may be copied. */
typedef struct {
    nm_montgomery_t context;
    size_t k;
    const uint64_t *points; /* the forms of the points */
    size_t points_length;
    const uint64_t *weights; /* the forms of their weights */
    size_t weights_length;
    const uint64_t *checks; /* empty, or a table of forms */
    size_t checks_length;
} nm_corrector_t;

/* How many words the scratch list of nm_corrector_correct must have at least. */
#define NM_CORRECTOR_SCRATCH(n, k) (3 * NM_SIZE(n) + 7 * (NM_SIZE(n) - NM_SIZE(k)) + 3)

/* Prepares a code: fills forms, of 2 * n words, and checks, of (n - k) * n words or none, and writes the corrector,
 * which points to both. With checks nm_corrector_correct takes less time. scratch: n words. NM_BAD_CONTEXT: the context
 * isn't one that nm_montgomery makes. NM_BAD_ARGUMENT: k is above n, forms or checks has another length, or scratch is
 * shorter. NM_POINTS_DONT_FIT: the difference of two points has no inverse; the contents of forms are then
 * unspecified. */
NM_CHECK nm_code_t nm_corrector_make(const nm_montgomery_t *context, const uint64_t *points, size_t points_length,
                                     size_t k, uint64_t *forms, size_t forms_length, uint64_t *checks,
                                     size_t checks_length, uint64_t *scratch, size_t scratch_length,
                                     nm_corrector_t *corrector);

/* Corrects a word in place, c lost symbols and e wrong ones besides, if 2 * e + c is at most n - k: it becomes the only
 * word of a message of k symbols that differs from it in so few symbols, and errors becomes e. Symbols may be above m,
 * and become residues. lost are the places of the lost symbols, counted from 0, and what stands there is ignored.
 * scratch: NM_CORRECTOR_SCRATCH(n, k) words. NM_BAD_CONTEXT: the corrector's context isn't one that nm_montgomery
 * makes. NM_BAD_ARGUMENT: the word hasn't n symbols, or scratch is shorter. NM_TOO_FEW_SYMBOLS: fewer than k symbols
 * aren't lost. NM_PLACE_OUT_OF_RANGE, NM_PLACE_TWICE: of the places, in order, one isn't below n, or occurs before.
 * NM_TOO_MANY_ERRORS: no word is that near. NM_NO_INVERSE: a number above 0 without an inverse modulo m was met, and is
 * written to number; it never comes where m is a prime, or where at most one symbol is wrong that isn't lost. */
NM_CHECK nm_code_t nm_corrector_correct(const nm_corrector_t *corrector, const size_t *lost, size_t lost_length,
                                        uint64_t *word, size_t word_length, uint64_t *scratch, size_t scratch_length,
                                        size_t *errors, uint64_t *number);

/* --- Applications: hashes, numbers by their residues, long products. --- */

/* The hash of the n bytes at the base x: the value at x of the polynomial with the bytes as coefficients, the
 * highest first, modulo 2^61 - 1. Returns NM_OK. */
nm_code_t nm_hash(uint64_t x, const uint8_t *bytes, size_t bytes_length, uint64_t *hash);

/* The first position where a pattern occurs: k bytes in the text of n bytes, by hashes at the base x. NM_NOT_FOUND: it
 * occurs nowhere. The result is right for every x, but the time depends on x, and nothing is proved of it. Two
 * different texts of k bytes have one hash at fewer than k of the x from 0 to 2^61 - 2. So an x should be drawn at
 * random after text and pattern are fixed; for another, such as 0 or 1, the time may be proportional to n * k. */
NM_CHECK nm_code_t nm_find(uint64_t x, const uint8_t *text, size_t text_length, const uint8_t *pattern,
                           size_t pattern_length, size_t *position);

/* The patterns that occur in a text: entry i of found becomes the number of the first pattern that occurs at position
 * i, or count where none does, for i from 0 to found_length - 1. The count patterns have size bytes each and stand one
 * after the other. The scratch list hashes, of count words, has unspecified contents afterwards. The result is right
 * for every x. Each position compares its hash with up to count others, and bytes where two are equal: for which x that
 * is rare, see nm_find. NM_BAD_ARGUMENT: patterns_length isn't count * size. */
NM_CHECK nm_code_t nm_find_all(uint64_t x, const uint8_t *text, size_t text_length, const uint8_t *patterns,
                               size_t patterns_length, size_t size, uint64_t *hashes, size_t count, size_t *found,
                               size_t found_length);

/* The number low + 2^64 * high. */
typedef struct {
    uint64_t low;
    uint64_t high;
} nm_double_t;

/* The number that has the residues: the only one below the product of the n moduli. NM_BAD_ARGUMENT: the lengths
 * differ, a modulus is 0, two have a common divisor above 1, their product isn't below 2^128, or a residue isn't below
 * its modulus. */
NM_CHECK nm_code_t nm_decode(const uint64_t *moduli, size_t moduli_length, const uint64_t *residues,
                             size_t residues_length, nm_double_t *number);

/* The lengths of the two scratch lists of nm_product, for numbers of n = xs_length and k = ys_length digits: 0 where
 * one of the numbers has fewer than 400 digits, else 4 * e words and 3 * e / 2 factors, e being the least power of two
 * that is at least n + k. NM_BAD_ARGUMENT: n + k is above 2^32. */
NM_CHECK nm_code_t nm_product_room(size_t xs_length, size_t ys_length, size_t *words, size_t *factors);

/* The digits of the product of two numbers of n and k digits, which have 64 bits, the lowest first. The scratch lists
 * words and factors have unspecified contents afterwards. NM_BAD_ARGUMENT: digits_length isn't n + k; or both numbers
 * have at least 400 digits, and digits_length is above 2^32 or a scratch list is shorter than nm_product_room writes.
 * */
NM_CHECK nm_code_t nm_product(const uint64_t *xs, size_t xs_length, const uint64_t *ys, size_t ys_length,
                              uint64_t *digits, size_t digits_length, uint64_t *words, size_t words_length,
                              nm_factor_t *factors, size_t factors_length);

/* --- Hashes of the parts of a text, each by one product. --- */

/* The hashes of a text's beginnings: entry i of hashes becomes nm_hash of the first i of the n bytes at the base x, and
 * entry i of powers x to the power i modulo 2^61 - 1. NM_BAD_ARGUMENT: hashes or powers hasn't n + 1 entries. */
NM_CHECK nm_code_t nm_prefix_hashes(uint64_t x, const uint8_t *text, size_t text_length, uint64_t *hashes,
                                    size_t hashes_length, uint64_t *powers, size_t powers_length);

/* nm_hash of a part of a text, of its bytes from to to - 1, counted from 0, by the two lists that nm_prefix_hashes
 * wrote of the text. Two parts with different hashes are different; of equal hashes see nm_find. NM_BAD_ARGUMENT: from
 * is above to, or to isn't below both lengths. Of lists that nm_prefix_hashes didn't write, the result has no meaning.
 * */
NM_CHECK nm_code_t nm_substring_hash(const uint64_t *hashes, size_t hashes_length, const uint64_t *powers,
                                     size_t powers_length, size_t from, size_t to, uint64_t *hash);

/* --- Products of polynomials modulo any m, by their coefficients, the lowest first. ---
 *
 * m may be any word but 0, coefficients may be any words, and the results are below m. No root is needed. Where both
 * factors have at least 200 coefficients the product is computed by transforms, in the scratch lists words and factors,
 * else by the sums. The scratch lists have unspecified contents afterwards. */

/* The lengths of the two scratch lists of a product: for factors of n = xs_length and k = ys_length coefficients 0
 * where one has fewer than 200, else 4 * e words and 3 * e / 2 factors, e being the least power of two that is at least
 * n + k. NM_BAD_ARGUMENT: n + k is above 2^32. */
NM_CHECK nm_code_t nm_polynomial_room(size_t xs_length, size_t ys_length, size_t *words, size_t *factors);

/* The product: coefficient e is the sum of x_i * y_j modulo m over i + j = e. NM_BAD_ARGUMENT: m is 0; out_length isn't
 * n + k - 1, or isn't 0 where n or k is; or both factors have at least 200 coefficients, and n + k is above 2^32 or a
 * scratch list is shorter than nm_polynomial_room writes. */
NM_CHECK nm_code_t nm_polynomial_multiply(uint64_t m, const uint64_t *xs, size_t xs_length, const uint64_t *ys,
                                          size_t ys_length, uint64_t *out, size_t out_length, uint64_t *words,
                                          size_t words_length, nm_factor_t *factors, size_t factors_length);

/* The square of a polynomial of n coefficients. The codes are those of nm_polynomial_multiply for xs and xs. */
NM_CHECK nm_code_t nm_polynomial_square(uint64_t m, const uint64_t *xs, size_t xs_length, uint64_t *out,
                                        size_t out_length, uint64_t *words, size_t words_length, nm_factor_t *factors,
                                        size_t factors_length);

/* The cyclic product, for any n: entry e is the sum of x_i * y_j modulo m over i + j = e or e + n. NM_BAD_ARGUMENT: m
 * is 0; ys_length or out_length isn't n; or n is at least 200, and n + n is above 2^32 or a scratch list is shorter
 * than nm_polynomial_room writes for n and n. */
NM_CHECK nm_code_t nm_polynomial_multiply_cyclic(uint64_t m, const uint64_t *xs, size_t xs_length, const uint64_t *ys,
                                                 size_t ys_length, uint64_t *out, size_t out_length, uint64_t *words,
                                                 size_t words_length, nm_factor_t *factors, size_t factors_length);

/* The product modulo X^n + 1: entry e is the sum of x_i * y_j over i + j = e, less that over i + j = e + n, modulo m.
 * The codes are those of nm_polynomial_multiply_cyclic. */
NM_CHECK nm_code_t nm_polynomial_multiply_negacyclic(uint64_t m, const uint64_t *xs, size_t xs_length,
                                                     const uint64_t *ys, size_t ys_length, uint64_t *out,
                                                     size_t out_length, uint64_t *words, size_t words_length,
                                                     nm_factor_t *factors, size_t factors_length);

/* --- Transforms of any length modulo any m. ---
 *
 * m may be any word but 0, the numbers and g may be any words, and the results are below m. From 6 numbers on the
 * transform is computed by a product of polynomials, in the scratch lists words and factors, else by the sums. The
 * scratch lists have unspecified contents afterwards. */

/* The lengths of the two scratch lists of a transform: for n = length numbers 0 where n is below 6, else 6 * n words,
 * and from n = 200 on 4 * e words more and 3 * e / 2 factors, e being the least power of two that is at least 3 * n -
 * 1. NM_BAD_ARGUMENT: 3 * n is above 2^32. */
NM_CHECK nm_code_t nm_transform_room(size_t length, size_t *words, size_t *factors);

/* Whether g is a root of unity of this order n modulo m, for which nm_transform_inverse undoes nm_transform: n is at
 * least 1, g^n is 1, and g^d - 1 has an inverse for each d from 1 to n - 1. It takes 2 * n products and one inverse
 * where g^n is 1 and n is below m. NM_NO_ROOT: it isn't. NM_BAD_ARGUMENT: m is 0. */
NM_CHECK nm_code_t nm_transform_root_fits(uint64_t m, uint64_t g, size_t order);

/* A root of unity of this order n modulo m, as nm_transform_root_fits tests it: x to the power (m - 1)/n, rounded down,
 * for the least x from 2 to 255 for which it is one. NM_NO_ROOT: it is for no x. NM_BAD_ARGUMENT: m is 0. */
NM_CHECK nm_code_t nm_transform_find_root(uint64_t m, size_t order, uint64_t *root);

/* The transform by g: entry j is the sum of x_i * g^(i * j) modulo m over i from 0 to n - 1. NM_NO_INVERSE: g has no
 * inverse modulo m. NM_BAD_ARGUMENT: m is 0; out_length isn't n; or a scratch list is shorter than nm_transform_room
 * writes, or that refuses. */
NM_CHECK nm_code_t nm_transform(uint64_t m, uint64_t g, const uint64_t *xs, size_t xs_length, uint64_t *out,
                                size_t out_length, uint64_t *words, size_t words_length, nm_factor_t *factors,
                                size_t factors_length);

/* The inverse transform by g: entry j is the sum of x_i * g^(-i * j) over i from 0 to n - 1, divided by n, modulo m.
 * Where g is a root of order n (nm_transform_root_fits tells), it undoes nm_transform. NM_NO_INVERSE: g or n has no
 * inverse modulo m. NM_BAD_ARGUMENT: as nm_transform. */
NM_CHECK nm_code_t nm_transform_inverse(uint64_t m, uint64_t g, const uint64_t *xs, size_t xs_length, uint64_t *out,
                                        size_t out_length, uint64_t *words, size_t words_length, nm_factor_t *factors,
                                        size_t factors_length);

/* --- Residue number systems of any number of moduli, for numbers by their words of 64 bits, the lowest first. --- */

/* The residues of the number of k words modulo n moduli, which may have common divisors. NM_BAD_ARGUMENT: a modulus is
 * 0, or residues_length isn't n. */
NM_CHECK nm_code_t nm_residues_encode(const uint64_t *moduli, size_t moduli_length, const uint64_t *words,
                                      size_t words_length, uint64_t *residues, size_t residues_length);

/* The number that has the residues, the only one below the product of the n moduli: its words, with 0 above them, and
 * its digits in the mixed radix of the moduli, of which digit i counts the product of the moduli before modulus i. The
 * scratch list inverses has unspecified contents afterwards. It takes about 3 * n^2 products for n words.
 * NM_BAD_ARGUMENT: a modulus is 0; two have a common divisor above 1; a residue isn't below its modulus; the number of
 * residues, digits or inverses isn't n; or there are fewer than n words. */
NM_CHECK nm_code_t nm_residues_decode(const uint64_t *moduli, size_t moduli_length, const uint64_t *residues,
                                      size_t residues_length, uint64_t *words, size_t words_length, uint64_t *digits,
                                      size_t digits_length, uint64_t *inverses, size_t inverses_length);

/* Base extension: the residues modulo the others, which may have common divisors, of the only number below the product
 * of the n moduli that has the k residues. The scratch lists digits and inverses have unspecified contents afterwards.
 * NM_BAD_ARGUMENT: a modulus is 0, or one of the others is; two of the n moduli have a common divisor above 1; a
 * residue isn't below its modulus; the number of residues, digits or inverses isn't n; or extended_length isn't
 * others_length. */
NM_CHECK nm_code_t nm_residues_extend(const uint64_t *moduli, size_t moduli_length, const uint64_t *residues,
                                      size_t residues_length, const uint64_t *others, size_t others_length,
                                      uint64_t *extended, size_t extended_length, uint64_t *digits,
                                      size_t digits_length, uint64_t *inverses, size_t inverses_length);

/* --- Check digits of standards. ---
 *
 * A text has digits and X, which is the symbol 10, in ASCII, and between two of them at most one hyphen or space: such
 * as "978-0-306-40615-7", without a byte 0 at its end. NM_BAD_ARGUMENT: no standard has the number standard, or the
 * text has more than 128 characters. */

/* The standards. */
#define NM_ISBN_10 0u  /* numbers of books until 2006 */
#define NM_ISBN_13 1u  /* numbers of books; also ISMN, of printed music, which begin with 9790 */
#define NM_EAN_13 2u   /* numbers of articles (GTIN-13) */
#define NM_EAN_8 3u    /* the same with eight digits (GTIN-8) */
#define NM_UPC_A 4u    /* the same with twelve digits (GTIN-12) */
#define NM_ISSN 5u     /* numbers of periodicals */
#define NM_ORCID 6u    /* numbers of authors; also ISNI */
#define NM_ABA_RTN 7u  /* routing numbers of banks in the United States */
#define NM_LUHN 8u     /* digits with Luhn's check digit, as of payment cards */
#define NM_VERHOEFF 9u /* digits with Verhoeff's check digit */
#define NM_DAMM 10u    /* digits with Damm's check digit */

/* NM_OK where the text is a number of the standard. NM_NOT_ACCEPTED: it isn't. */
NM_CHECK nm_code_t nm_check_accepts(uint32_t standard, const uint8_t *text, size_t text_length);

/* The check digit behind a text of the symbols before it: the only symbol, 10 for X, that behind these makes a number
 * of the standard. NM_NOT_ACCEPTED: no symbol does, or the text isn't as above, but empty, or with a hyphen at its
 * end. */
NM_CHECK nm_code_t nm_check_digit(uint32_t standard, const uint8_t *text, size_t text_length, uint64_t *digit);

/* --- IBANs, and codes with one check equation. --- */

/* NM_OK where the text is an IBAN, without spaces or in groups of four characters with a space between two groups. The
 * length, which depends on the country, isn't tested. NM_NOT_ACCEPTED: it isn't one. */
NM_CHECK nm_code_t nm_iban_accepts(const uint8_t *text, size_t text_length);

/* The two check digits of an IBAN, as characters: the only ones that, after those of the country, make the text an
 * IBAN. Those in the text are ignored, and may be 00. NM_NOT_ACCEPTED: the text, which has no spaces, hasn't the form
 * of an IBAN: two letters A to Z, two digits, and one to thirty letters and digits. NM_BAD_ARGUMENT: digits_length
 * isn't 2. */
NM_CHECK nm_code_t nm_iban_check_digits(const uint8_t *text, size_t text_length, uint8_t *digits, size_t digits_length);

/* A code of n places: a word of it has at each place an allowed symbol, and the sum of its symbols, each times the
 * weight of its place, is congruent to the residue modulo the modulus. The lists stay the caller's. */
typedef struct {
    uint64_t modulus; /* at least 1 */
    uint64_t residue;
    const uint64_t *weights; /* the weight of each place */
    size_t weights_length;
    const uint64_t *least; /* the least symbol of each place */
    size_t least_length;
    const uint64_t *greatest; /* the greatest symbol of each place */
    size_t greatest_length;
} nm_check_code_t;

/* The code of a standard, NM_ISBN_10 to NM_ABA_RTN. Its lists are the library's, and live as long as it.
 * NM_BAD_ARGUMENT: none of these has the number standard. */
NM_CHECK nm_code_t nm_check_code(uint32_t standard, nm_check_code_t *code);

/* NM_OK where the word is one of the code. NM_NOT_ACCEPTED: it isn't. NM_BAD_ARGUMENT: the modulus is 0, or one of the
 * code's lists is longer than another. */
NM_CHECK nm_code_t nm_check_code_accepts(const nm_check_code_t *code, const uint64_t *word, size_t word_length);

/* The symbol that completes the word at a place: the only one below the modulus that, in place of the one there, makes
 * it a word of the code; at the last place the check digit. The symbol at the place is ignored. NM_NO_INVERSE: the
 * weight of the place has no inverse modulo the modulus. NM_NOT_ACCEPTED: no symbol does. NM_BAD_ARGUMENT: as
 * nm_check_code_accepts, or word_length isn't n, or place isn't below n. */
NM_CHECK nm_code_t nm_check_code_restore(const nm_check_code_t *code, const uint64_t *word, size_t word_length,
                                         size_t place, uint64_t *symbol);

/* --- One list twice. --- */

/* The six products in place, as a program calls them: NM_BAD_ARGUMENT where both lists are one, and not empty; else what
 * the library's function of the name does. */
NM_CHECK static inline nm_code_t NM_montgomery_convolve(const nm_montgomery_t *context, uint64_t *xs, size_t n,
                                                        uint64_t *ys, size_t k, uint64_t root) {
    return xs == ys && n ? NM_BAD_ARGUMENT : nm_montgomery_convolve(context, xs, n, ys, k, root);
}
NM_CHECK static inline nm_code_t NM_solinas_convolve(uint64_t *xs, size_t n, uint64_t *ys, size_t k, uint64_t root) {
    return xs == ys && n ? NM_BAD_ARGUMENT : nm_solinas_convolve(xs, n, ys, k, root);
}
NM_CHECK static inline nm_code_t NM_convolve_planned(uint64_t m, uint64_t *xs, size_t n, uint64_t *ys, size_t k,
                                                     const nm_factor_t *table, size_t factors, size_t last) {
    return xs == ys && n ? NM_BAD_ARGUMENT : nm_convolve_planned(m, xs, n, ys, k, table, factors, last);
}
NM_CHECK static inline nm_code_t NM_convolve_negacyclic(uint64_t m, uint64_t *xs, size_t n, uint64_t *ys, size_t k,
                                                        const nm_factor_t *table, size_t factors, size_t last) {
    return xs == ys && n ? NM_BAD_ARGUMENT : nm_convolve_negacyclic(m, xs, n, ys, k, table, factors, last);
}
NM_CHECK static inline nm_code_t NM_plan_convolve(const nm_plan_t *plan, uint64_t *xs, size_t n, uint64_t *ys,
                                                  size_t k) {
    return xs == ys && n ? NM_BAD_ARGUMENT : nm_plan_convolve(plan, xs, n, ys, k);
}
NM_CHECK static inline nm_code_t NM_plan_convolve_negacyclic(const nm_plan_t *plan, uint64_t *xs, size_t n,
                                                             uint64_t *ys, size_t k) {
    return xs == ys && n ? NM_BAD_ARGUMENT : nm_plan_convolve_negacyclic(plan, xs, n, ys, k);
}
#define nm_montgomery_convolve NM_montgomery_convolve
#define nm_solinas_convolve NM_solinas_convolve
#define nm_convolve_planned NM_convolve_planned
#define nm_convolve_negacyclic NM_convolve_negacyclic
#define nm_plan_convolve NM_plan_convolve
#define nm_plan_convolve_negacyclic NM_plan_convolve_negacyclic

#ifdef __cplusplus
}
#endif

#endif
