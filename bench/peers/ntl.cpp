// NTL's transforms and products of polynomials modulo its first prime for transforms, of 60 bits, and products
// modulo a prime that is too large for it, by ZZ_pX.
#include <NTL/FFT.h>
#include <NTL/ZZ_pX.h>
#include <NTL/lzz_pX.h>
#include <NTL/version.h>
using namespace NTL;

static zz_pX first, second, product;
static ZZ_pX first_large, second_large, product_large;

extern "C" {

const char *peer_ntl_version() { return NTL_VERSION; }

unsigned long peer_ntl_prime()
{
    zz_p::FFTInit(0);
    return zz_p::modulus();
}

void peer_ntl_forward(unsigned long *xs, long bits) { new_fft((long *)xs, (long *)xs, bits, *FFTTables[0]); }

void peer_ntl_back(unsigned long *xs, long bits) { new_ifft((long *)xs, (long *)xs, bits, *FFTTables[0]); }

void peer_ntl_set(const unsigned long *xs, const unsigned long *ys, long n)
{
    first.rep.SetLength(n);
    second.rep.SetLength(n);
    for (long i = 0; i < n; i++) {
        first.rep[i].LoopHole() = xs[i];
        second.rep[i].LoopHole() = ys[i];
    }
    first.normalize();
    second.normalize();
}

// The same modulo a p of at most 60 bits.
void peer_ntl_set_modulo(unsigned long p, const unsigned long *xs, const unsigned long *ys, long n)
{
    zz_p::init(p);
    peer_ntl_set(xs, ys, n);
}

void peer_ntl_multiply() { mul(product, first, second); }

unsigned long peer_ntl_coefficient(long i) { return rep(coeff(product, i)); }

void peer_ntl_set_large(unsigned long p, const unsigned long *xs, const unsigned long *ys, long n)
{
    ZZ_p::init(to_ZZ(p));
    clear(first_large);
    clear(second_large);
    for (long i = 0; i < n; i++) {
        SetCoeff(first_large, i, to_ZZ_p(to_ZZ(xs[i])));
        SetCoeff(second_large, i, to_ZZ_p(to_ZZ(ys[i])));
    }
}

void peer_ntl_multiply_large() { mul(product_large, first_large, second_large); }

unsigned long peer_ntl_coefficient_large(long i) { return to_ulong(rep(coeff(product_large, i))); }
}
