/* FLINT's word-sized calls, in the steps of the functions of crates/modular_bench that stand beside them, its products,
 * values and interpolations of polynomials, and its lists of words. */
#include <flint/flint.h>
#include <flint/nmod_poly.h>
#include <flint/nmod_vec.h>
#include <flint/ulong_extras.h>
#include <time.h>

/* The seconds that this thread has computed for. */
double peer_seconds(void)
{
    struct timespec time;
    clock_gettime(CLOCK_THREAD_CPUTIME_ID, &time);
    return (double) time.tv_sec + 1e-9 * (double) time.tv_nsec;
}

const char *peer_version(void)
{
    return FLINT_VERSION;
}

static unsigned unused_bits(ulong m)
{
    return __builtin_clzl(m);
}

/* A symbol as a number from 0 to 2. */
static ulong number(int symbol)
{
    return symbol < 0 ? 2 : (ulong) symbol;
}

ulong peer_mulm(ulong x, ulong y, ulong m, ulong n)
{
    ulong inverse = n_preinvert_limb(m);
    for (; n > 0; n--)
        x = n_mulmod2_preinv(x, y, m, inverse);
    return x;
}

ulong peer_mulm_eight(ulong x, ulong y, ulong m, ulong n)
{
    ulong inverse = n_preinvert_limb(m);
    ulong xs[8], sum = 0;
    for (int k = 0; k < 8; k++)
        xs[k] = x ^ (ulong) k;
    for (; n > 0; n--)
        for (int k = 0; k < 8; k++)
            xs[k] = n_mulmod2_preinv(xs[k], y, m, inverse);
    for (int k = 0; k < 8; k++)
        sum ^= xs[k];
    return sum;
}

ulong peer_powm(ulong x, ulong y, ulong m, ulong n)
{
    ulong inverse = n_preinvert_limb(m);
    for (; n > 0; n--)
        x = n_powmod2_preinv(x, (slong) y, m, inverse);
    return x;
}

ulong peer_invm(ulong x, ulong y, ulong m, ulong n)
{
    for (; n > 0; n--)
        x = (n_invmod(x, m) >> 1) + (y >> 1);
    return x;
}

ulong peer_jacobi(ulong x, ulong y, ulong m, ulong n)
{
    unsigned unused = unused_bits(m);
    for (; n > 0; n--)
        x = (y * x + number(n_jacobi_unsigned(x, m))) >> unused;
    return x;
}

ulong peer_powm_list(ulong x, ulong y, ulong m, ulong n)
{
    ulong inverse = n_preinvert_limb(m), sum = 0;
    unsigned unused = unused_bits(m);
    for (; n > 0; n--, x = y * x + 1)
        sum ^= n_powmod2_preinv(x >> unused, (slong) (y >> unused), m, inverse);
    return sum;
}

ulong peer_invm_list(ulong x, ulong y, ulong m, ulong n)
{
    ulong sum = 0;
    unsigned unused = unused_bits(m);
    for (; n > 0; n--, x = y * x + 1)
        sum ^= n_invmod(x >> unused, m);
    return sum;
}

ulong peer_jacobi_list(ulong x, ulong y, ulong m, ulong n)
{
    ulong sum = 0;
    unsigned unused = unused_bits(m);
    for (; n > 0; n--, x = y * x + 1)
        sum ^= number(n_jacobi_unsigned(x >> unused, m));
    return sum;
}

/* The product of two polynomials of n terms modulo p. */
static nmod_poly_t first, second, product;

void peer_flint_set(ulong p, const ulong *xs, const ulong *ys, slong n)
{
    nmod_poly_init(first, p);
    nmod_poly_init(second, p);
    nmod_poly_init(product, p);
    for (slong i = 0; i < n; i++) {
        nmod_poly_set_coeff_ui(first, i, xs[i]);
        nmod_poly_set_coeff_ui(second, i, ys[i]);
    }
}

void peer_flint_multiply(void)
{
    nmod_poly_mul(product, first, second);
}

ulong peer_flint_coefficient(slong i)
{
    return nmod_poly_get_coeff_ui(product, i);
}

/* The word of a message of k symbols at n points. */
void peer_flint_encode(ulong p, const ulong *message, slong k, const ulong *points, ulong *word, slong n)
{
    nmod_poly_t polynomial;
    nmod_poly_init2(polynomial, p, k);
    for (slong i = 0; i < k; i++)
        nmod_poly_set_coeff_ui(polynomial, i, message[i]);
    nmod_poly_evaluate_nmod_vec(word, polynomial, points, n);
    nmod_poly_clear(polynomial);
}

/* A word whose first symbols were lost, from the k behind them. */
void peer_flint_restore(ulong p, const ulong *points, const ulong *symbols, slong k, ulong *word, slong lost)
{
    nmod_poly_t polynomial;
    nmod_poly_init2(polynomial, p, k);
    nmod_poly_interpolate_nmod_vec(polynomial, points + lost, symbols, k);
    nmod_poly_evaluate_nmod_vec(word, polynomial, points, lost);
    for (slong i = 0; i < k; i++)
        word[lost + i] = symbols[i];
    nmod_poly_clear(polynomial);
}

/* A code at n points: the product of X - x, the tree of its factors, and the weights of the points. */
static struct {
    nmod_t modulus;
    slong n;
    ulong *weights;
    mp_ptr *tree;
    nmod_poly_t product;
} code;

void peer_flint_code(ulong p, const ulong *points, slong n)
{
    nmod_init(&code.modulus, p);
    code.n = n;
    code.weights = _nmod_vec_init(n);
    code.tree = _nmod_poly_tree_alloc(n);
    _nmod_poly_tree_build(code.tree, points, n, code.modulus);
    _nmod_poly_interpolation_weights(code.weights, code.tree, n, code.modulus);
    nmod_poly_init2(code.product, p, n + 1);
    nmod_poly_product_roots_nmod_vec(code.product, points, n);
}

void peer_flint_code_clear(void)
{
    _nmod_vec_clear(code.weights);
    _nmod_poly_tree_free(code.tree, code.n);
    nmod_poly_clear(code.product);
}

/* Corrects a word from a message of k symbols, and returns how many were wrong, or -1 (Gao, "A new algorithm for decoding
 * Reed-Solomon codes"). */
slong peer_flint_correct(ulong *word, slong k)
{
    slong wrong = 0, n = code.n;
    ulong p = code.modulus.n;
    nmod_poly_t before, rest, earlier, locator, quotient, next;
    nmod_poly_init2(rest, p, n);
    _nmod_poly_interpolate_nmod_vec_fast_precomp(rest->coeffs, word, code.tree, code.weights, n, code.modulus);
    rest->length = n;
    _nmod_poly_normalise(rest);
    if (rest->length > k) {
        nmod_poly_init(before, p);
        nmod_poly_init(earlier, p);
        nmod_poly_init(locator, p);
        nmod_poly_init(quotient, p);
        nmod_poly_init(next, p);
        nmod_poly_set(before, code.product);
        nmod_poly_set_coeff_ui(locator, 0, 1);
        while (2 * nmod_poly_degree(rest) >= n + k) {
            nmod_poly_divrem(quotient, next, before, rest);
            nmod_poly_swap(before, rest);
            nmod_poly_swap(rest, next);
            nmod_poly_mul(next, quotient, locator);
            nmod_poly_sub(next, earlier, next);
            nmod_poly_swap(earlier, locator);
            nmod_poly_swap(locator, next);
        }
        wrong = nmod_poly_degree(locator);
        nmod_poly_divrem(quotient, next, rest, locator);
        if (!nmod_poly_is_zero(next) || quotient->length > k)
            wrong = -1;
        else
            _nmod_poly_evaluate_nmod_vec_fast_precomp(word, quotient->coeffs, quotient->length, code.tree, n, code.modulus);
        nmod_poly_clear(before);
        nmod_poly_clear(earlier);
        nmod_poly_clear(locator);
        nmod_poly_clear(quotient);
        nmod_poly_clear(next);
    }
    nmod_poly_clear(rest);
    return wrong;
}

/* xs + ys, xs - ys, the products of the entries, xs times the first of ys, and the dot product, which becomes the
 * first of xs: by the operation's number. */
void peer_flint_list(int operation, ulong m, ulong *xs, const ulong *ys, slong n)
{
    nmod_t modulus;
    nmod_init(&modulus, m);
    switch (operation) {
    case 0:
        _nmod_vec_add(xs, xs, ys, n, modulus);
        break;
    case 1:
        _nmod_vec_sub(xs, xs, ys, n, modulus);
        break;
    case 2:
        for (slong i = 0; i < n; i++)
            xs[i] = nmod_mul(xs[i], ys[i], modulus);
        break;
    case 3:
        _nmod_vec_scalar_mul_nmod(xs, xs, n, ys[0], modulus);
        break;
    default:
        xs[0] = _nmod_vec_dot(xs, ys, n, modulus, _nmod_vec_dot_bound_limbs(n, modulus));
    }
}
