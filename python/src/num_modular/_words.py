"""Operations modulo m on integers, and symbols. A modulus or n that is out of range raises ValueError."""
from __future__ import annotations

from operator import index

from num_modular._calls import check, exponent_of, modulus, no_inverse, reduced
from num_modular._library import ffi, lib


def addm(a: int, b: int, m: int) -> int:
    """The residue of a + b modulo m, from 1 to 2^64 - 1.

    >>> addm(5, -7, 10)
    8
    """
    m, out = modulus(m), ffi.new("uint64_t *")
    check(lib.nm_addm(reduced(a, m), reduced(b, m), m, out))
    return out[0]


def subm(a: int, b: int, m: int) -> int:
    """The residue of a - b modulo m, from 1 to 2^64 - 1.

    >>> subm(5, 7, 10)
    8
    """
    m, out = modulus(m), ffi.new("uint64_t *")
    check(lib.nm_subm(reduced(a, m), reduced(b, m), m, out))
    return out[0]


def mulm(a: int, b: int, m: int) -> int:
    """The residue of a * b modulo m, from 1 to 2^64 - 1.

    >>> mulm(12, 13, 5)
    1
    """
    m, out = modulus(m), ffi.new("uint64_t *")
    check(lib.nm_mulm(reduced(a, m), reduced(b, m), m, out))
    return out[0]


def powm(a: int, exponent: int, m: int) -> int:
    """The residue of a to the power exponent modulo m. A negative exponent raises the inverse of a to the power -exponent.

    NoInverseError: the exponent is negative, and a has no inverse. ValueError: the exponent isn't between -2^64 and 2^64.

    >>> powm(3, 1000, 97), powm(3, -1, 7)
    (36, 5)
    """
    m, exponent, out = modulus(m), exponent_of(exponent), ffi.new("uint64_t *")
    if exponent < 0:
        a, exponent = invm(a, m), -exponent
    check(lib.nm_powm(reduced(a, m), exponent, m, out))
    return out[0]


def invm(a: int, m: int) -> int:
    """The inverse of a modulo m, from 0 to m - 1; 0 for m = 1. NoInverseError: there is none.

    >>> invm(3, 7)
    5
    """
    m, out = modulus(m), ffi.new("uint64_t *")
    code = lib.nm_invm(reduced(a, m), m, out)
    if code == lib.NM_NO_INVERSE:
        raise no_inverse(a, m)
    check(code)
    return out[0]


def powm_secret(a: int, exponent: int, m: int, bits: int = 64) -> int:
    """What `powm` returns, by the same products for every a and every exponent below 2^bits. Python's own integers still take
    time that depends on them.

    ValueError: the exponent isn't from 0 to 2^bits - 1, or bits isn't from 0 to 64.

    >>> powm_secret(3, 1000, 97, bits=10)
    36
    """
    m, exponent, bits, out = modulus(m), index(exponent), index(bits), ffi.new("uint64_t *")
    if not 0 <= bits <= 64 or not 0 <= exponent < 1 << bits:
        raise ValueError("bits must be from 0 to 64, and the exponent from 0 to 2^bits - 1")
    check(lib.nm_powm_secret(reduced(a, m), exponent, bits, m, out))
    return out[0]


def invm_secret(a: int, m: int) -> int:
    """What `invm` returns, by the same steps for every a, as in `powm_secret`. ValueError: m is even.

    >>> invm_secret(3, 7)
    5
    """
    m, out = modulus(m), ffi.new("uint64_t *")
    code = lib.nm_invm_secret(reduced(a, m), m, out)
    if code == lib.NM_NO_INVERSE:
        raise no_inverse(a, m)
    check(code, "m must be odd")
    return out[0]


def jacobi(a: int, n: int) -> int:
    """The Jacobi symbol of a over an odd n from 1 to 2^64 - 1: -1, 0 or 1. ValueError: n is even.

    >>> jacobi(2, 15), jacobi(7, 15), jacobi(5, 15)
    (1, -1, 0)
    """
    n, out = modulus(n, "n"), ffi.new("int32_t *")
    check(lib.nm_jacobi(reduced(a, n), n, out), "n must be odd")
    return out[0]


def legendre(a: int, p: int) -> int:
    """The Legendre symbol of a over an odd prime p: 0 where p divides a, 1 where a is a square modulo p, else -1.

    The call doesn't test whether p is prime. For other p it returns the one of 0, 1 and -1 to which a to the power (p - 1)/2,
    rounded down, is congruent, tried in this order. ValueError: there is none.

    >>> legendre(2, 7), legendre(3, 7)
    (1, -1)
    """
    p, out = modulus(p, "p"), ffi.new("int32_t *")
    fault = f"{p} is no odd prime: a to the power {(p - 1) // 2} is none of 0, 1 and {p - 1}"
    check(lib.nm_legendre(reduced(a, p), p, out), fault)
    return out[0]


def kronecker(a: int, n: int) -> int:
    """The Kronecker symbol of a over n: -1, 0 or 1. ValueError: neither are both from -2^63 to 2^63 - 1, nor both
    from 0 to 2^64 - 1.

    >>> kronecker(3, 8), kronecker(-1, 0), kronecker(-10, -11)
    (-1, 1, -1)
    """
    a, n, out = index(a), index(n), ffi.new("int32_t *")
    least, greatest = min(a, n), max(a, n)
    if not (0 <= least and greatest < 1 << 64 or -(1 << 63) <= least and greatest < 1 << 63):
        raise ValueError("a and n must be from -2^63 to 2^63 - 1, or both from 0 to 2^64 - 1")
    check((lib.nm_kronecker if least >= 0 else lib.nm_kronecker_signed)(a, n, out))
    return out[0]
