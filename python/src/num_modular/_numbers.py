"""Products of long numbers and residue systems."""
from __future__ import annotations

from collections.abc import Iterable, Sequence
from itertools import combinations
from math import gcd
from operator import index
from typing import Any

from num_modular._calls import check, modulus, ordered, scratch_for
from num_modular._library import ffi, lib

_WORD = 8  # bytes


def _digits(n: int) -> tuple[object, int]:
    """The 64-bit digits of a nonnegative number, the lowest first, and how many they are."""
    count = -(-n.bit_length() // 64)
    return ffi.from_buffer("uint64_t[]", bytearray(n.to_bytes(count * _WORD, "little"))), count


def product(a: int, b: int) -> int:
    """a * b for integers of any size, by transforms where both are long.

    >>> product(-2**100, 3) == -3 * 2**100
    True
    """
    a, b = index(a), index(b)
    (xs, n), (ys, k) = _digits(abs(a)), _digits(abs(b))
    digits = bytearray((n + k) * _WORD)
    out = ffi.from_buffer("uint64_t[]", digits, require_writable=True)
    check(lib.nm_product(xs, n, ys, k, out, n + k, *scratch_for(lib.nm_product_room, n, k)))
    found = int.from_bytes(digits, "little")
    return -found if (a < 0) != (b < 0) else found


def encode(moduli: Iterable[int], x: int) -> list[int]:
    """The residues of x modulo each modulus, both of any size, in Python. ValueError: a modulus is below 1.

    >>> encode([3, 5, 7], 23)
    [2, 3, 2]
    """
    x, listed = index(x), [index(m) for m in ordered(moduli)]
    if any(m < 1 for m in listed):
        raise ValueError("each modulus must be at least 1")
    return [x % m for m in listed]


def decode(moduli: Iterable[int], residues: Iterable[int]) -> int:
    """The number below the product of the moduli, any number of them, that has these residues: see also `crt`.

    ValueError: the lengths differ, a modulus isn't from 1 to 2^64 - 1, two have a common divisor above 1, or a residue isn't
    from 0 to its modulus less 1.

    >>> decode([3, 5, 7], [2, 3, 2])
    23
    """
    first, second, n = _system(moduli, residues)
    words, digits, inverses = (ffi.new("uint64_t[]", n) for _ in range(3))
    code = lib.nm_residues_decode(first, n, second, n, words, n, digits, n, inverses, n)
    if code != lib.NM_OK:
        check(code, _fault(first))
    return sum(word << 64 * place for place, word in enumerate(words))


def crt(residues: Iterable[int], moduli: Iterable[int]) -> int:
    """The least number from 0 up that is congruent to each of the residues, any integers, modulo its modulus (the Chinese
    remainder theorem): `decode` for residues of any size. ValueError: as for `decode`.

    >>> crt([2, 3, 2], [3, 5, 7]), crt([-1, -1], [3, 5])
    (23, 14)
    """
    listed, found = [modulus(m) for m in ordered(moduli)], [index(it) for it in ordered(residues)]
    _expect_pairs(listed, found)
    return decode(listed, [it % m for it, m in zip(found, listed)])


def extend(moduli: Iterable[int], residues: Iterable[int], others: Iterable[int]) -> list[int]:
    """The residues modulo the others, which may have common divisors, of the number that `decode` returns. ValueError: as for
    `decode`, or one of the others isn't from 1 to 2^64 - 1.

    >>> extend([3, 5, 7], [2, 3, 2], [10, 4])
    [3, 3]
    """
    first, second, n = _system(moduli, residues)
    third = ffi.new("uint64_t[]", [modulus(it, "each of the others") for it in ordered(others)])
    k = len(third)
    digits, inverses, out = (ffi.new("uint64_t[]", it) for it in (n, n, k))
    code = lib.nm_residues_extend(first, n, second, n, third, k, out, k, digits, n, inverses, n)
    if code != lib.NM_OK:
        check(code, _fault(first))
    return list(out)


def _system(moduli: Iterable[int], residues: Iterable[int]) -> tuple[Any, Any, int]:
    """New words with the moduli and with the residues, and their number. ValueError: they aren't as `decode` needs them."""
    listed, found = [modulus(m) for m in ordered(moduli)], [index(it) for it in ordered(residues)]
    _expect_pairs(listed, found)
    for m, residue in zip(listed, found):
        if not 0 <= residue < m:
            raise ValueError(f"the residue {residue} modulo {m} must be from 0 to {m - 1}")
    return ffi.new("uint64_t[]", listed), ffi.new("uint64_t[]", found), len(listed)


def _expect_pairs(moduli: Sequence[int], residues: Sequence[int]) -> None:
    """Raises ValueError where there aren't as many residues as moduli."""
    if len(moduli) != len(residues):
        raise ValueError(f"the number of moduli is {len(moduli)}, and that of residues {len(residues)}")


def _fault(moduli: Sequence[int]) -> str:
    """Which moduli have a common divisor."""
    divisors = ((first, second, gcd(first, second)) for first, second in combinations(moduli, 2))
    first, second, divisor = next(it for it in divisors if it[2] > 1)
    return f"the moduli {first} and {second} have the common divisor {divisor}"
