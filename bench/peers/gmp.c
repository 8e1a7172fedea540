// GMP's product of two numbers of as many digits of 64 bits.
#include <gmp.h>

const char *peer_gmp_version(void) { return gmp_version; }

void peer_gmp_multiply(unsigned long *digits, const unsigned long *xs, const unsigned long *ys, long n)
{
    mpn_mul(digits, xs, n, ys, n);
}
