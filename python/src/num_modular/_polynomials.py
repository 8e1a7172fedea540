"""Products of polynomials by their coefficients, the constant first, and transforms of any length, all modulo any m."""
from __future__ import annotations

from collections.abc import Iterable
from math import gcd
from operator import index
from typing import Any

from num_modular._calls import NoInverseError, check, modulus, new_words, no_inverse, same_length, scratch_for, word
from num_modular._library import ffi, lib


def multiply(xs: Iterable[int], ys: Iterable[int], m: int) -> list[int]:
    """The product of two polynomials modulo m, from 1 to 2^64 - 1: entry e is the sum of x_i * y_j modulo m over i + j = e.

    The lists may have any lengths. Where one of them is empty, the result is empty. ValueError: m is out of range.

    >>> multiply([1, 2, 3], [4, 5, 6, 7], 10**9 + 7)
    [4, 13, 28, 34, 32, 21]
    """
    m = modulus(m)
    first, second = new_words(xs, m), new_words(ys, m)
    n, k = len(first), len(second)
    scratch = scratch_for(lib.nm_polynomial_room, n, k)
    return _written(lib.nm_polynomial_multiply, n + k - 1 if n and k else 0, scratch, m, first, n, second, k)


def square(xs: Iterable[int], m: int) -> list[int]:
    """The square of a polynomial modulo m, as `multiply(xs, xs, m)`, but faster. ValueError: m is out of range.

    >>> square([1, 2, 3], 97)
    [1, 4, 10, 12, 9]
    """
    m = modulus(m)
    first = new_words(xs, m)
    n = len(first)
    scratch = scratch_for(lib.nm_polynomial_room, n, n)
    return _written(lib.nm_polynomial_square, 2 * n - 1 if n else 0, scratch, m, first, n)


def multiply_cyclic(xs: Iterable[int], ys: Iterable[int], m: int) -> list[int]:
    """The product of two polynomials of n coefficients modulo X^n - 1 and m, for any n: entry e is the sum of x_i * y_j modulo
    m over i + j = e or e + n.

    Unlike `Plan.convolve`, it needs no root. ValueError: the lengths differ, or m is out of range.

    >>> multiply_cyclic([1, 2, 3], [4, 5, 6], 97)
    [31, 31, 28]
    """
    return _wrapped(lib.nm_polynomial_multiply_cyclic, xs, ys, m)


def multiply_negacyclic(xs: Iterable[int], ys: Iterable[int], m: int) -> list[int]:
    """The product modulo X^n + 1 and m: entry e is the sum of x_i * y_j over i + j = e, minus that over i + j = e + n.
    ValueError: as for `multiply_cyclic`.

    >>> multiply_negacyclic([1, 2, 3], [4, 5, 6], 97)
    [74, 92, 28]
    """
    return _wrapped(lib.nm_polynomial_multiply_negacyclic, xs, ys, m)


def transform(xs: Iterable[int], g: int, m: int) -> list[int]:
    """The transform of n numbers modulo m, for any n and any m from 1 to 2^64 - 1: entry j is the sum of x_i * g^(i * j)
    modulo m.

    NoInverseError: g has no inverse modulo m. ValueError: m is out of range.

    >>> transform([1, 2, 3], 2, 7)
    [6, 3, 1]
    """
    return _transformed(lib.nm_transform, xs, g, m)


def transform_inverse(xs: Iterable[int], g: int, m: int) -> list[int]:
    """The inverse transform of n numbers modulo m: entry j is the sum of x_i * g^(-i * j) modulo m, divided by n. It undoes
    `transform` where g is a root of unity of order n, which `transform_root_fits` tests.

    NoInverseError: g or n has no inverse modulo m. ValueError: m is out of range.

    >>> transform_inverse([6, 3, 1], 2, 7)
    [1, 2, 3]
    """
    return _transformed(lib.nm_transform_inverse, xs, g, m)


def transform_root_fits(g: int, n: int, m: int) -> bool:
    """Whether g is a root of unity of order n modulo m by which `transform_inverse` undoes `transform`: n is at least 1, g^n
    is 1, and g^d - 1 has an inverse for each d from 1 to n - 1. It computes about 2 * n products where g^n is 1 and n is below
    m. ValueError: m is out of range.

    >>> transform_root_fits(2, 3, 7), transform_root_fits(2, 6, 7)
    (True, False)
    """
    m, g, n = modulus(m), index(g), word(n, "the order")
    code = lib.nm_transform_root_fits(m, g % m, n)
    if code == lib.NM_NO_ROOT:
        return False
    check(code)
    return True


def transform_find_root(n: int, m: int) -> int:
    """A root of unity of order n modulo m, as `transform_root_fits` tests it: x to the power (m - 1) // n for the least x from 2
    to 255 for which it is one. NoRootError: it is for no x. ValueError: m is out of range.

    >>> transform_find_root(5, 31)
    2
    """
    m, n, root = modulus(m), word(n, "the order"), ffi.new("uint64_t *")
    check(lib.nm_transform_find_root(m, n, root), f"no root of order {n} modulo {m} was found")
    return root[0]


def _transformed(call: Any, xs: Iterable[int], g: int, m: int) -> list[int]:
    m = modulus(m)
    words, base = new_words(xs, m), index(g) % m
    n = len(words)
    try:
        return _written(call, n, scratch_for(lib.nm_transform_room, n), m, base, words, n)
    except NoInverseError:
        raise no_inverse(n if gcd(base, m) == 1 else g, m) from None


def _wrapped(call: Any, xs: Iterable[int], ys: Iterable[int], m: int) -> list[int]:
    """The product of two polynomials of n coefficients that a call reduces to n coefficients."""
    m = modulus(m)
    first, second = new_words(xs, m), new_words(ys, m)
    same_length(first, second)
    n = len(first)
    return _written(call, n, scratch_for(lib.nm_polynomial_room, n, n), m, first, n, second, n)


def _written(call: Any, places: int, scratch: tuple[Any, int, Any, int], *arguments: Any) -> list[int]:
    """The list that a call writes, with this number of words."""
    out = ffi.new("uint64_t[]", places)
    check(call(*arguments, out, places, *scratch))
    return list(out)
