"""Integers modulo m, with operators."""
from __future__ import annotations

from operator import index
from typing import Any

from num_modular._calls import ByArguments, exponent_of, modulus, no_inverse, reduced
from num_modular._library import ffi, lib


class Mod(ByArguments):
    """An integer modulo m, from 1 to 2^64 - 1, with the operators +, -, *, / and ** and with `pow`. The other operand is an
    integer or a `Mod` of the same modulus. `int` returns the residue, from 0 to m - 1.

    A `Mod` equals each integer that is congruent to it, and each `Mod` of the same modulus and residue. Its hash is that of
    its residue, so in a set or a dictionary it is found among residues, not among other integers.

    NoInverseError, which is also a ZeroDivisionError: a divisor, or the base of a negative power, has no inverse. ValueError:
    m is out of range, two moduli differ, or an exponent isn't between -2^64 and 2^64.

    >>> x = Mod(3, 7)
    >>> x + 5, 2 - x, x * x, 1 / x, pow(x, -1), x**100, int(x)
    (Mod(1, 7), Mod(6, 7), Mod(2, 7), Mod(5, 7), Mod(5, 7), Mod(4, 7), 3)
    >>> x == Mod(10, 7), x == -4, hash(x) == hash(3)
    (True, True, True)
    >>> f"{x} {x:>3d}"
    'Mod(3, 7)   3'
    """

    __slots__ = ("_modulus", "_residue")
    __array_ufunc__ = None  # so that numpy's integers leave their operators to this class

    def __init__(self, value: int, m: int) -> None:
        self._modulus = modulus(m)
        self._residue = index(value) % self._modulus

    def _arguments(self) -> tuple[Any, ...]:
        return self._residue, self._modulus

    @property
    def modulus(self) -> int:
        """The modulus."""
        return self._modulus

    @property
    def residue(self) -> int:
        """The residue, from 0 to m - 1: `int` of it.

        >>> Mod(-1, 7).residue
        6
        """
        return self._residue

    def __int__(self) -> int:
        return self._residue

    def __format__(self, spec: str) -> str:
        return format(self._residue, spec) if spec else str(self)

    def __bool__(self) -> bool:
        return self._residue != 0

    def __eq__(self, other: object) -> bool:
        if isinstance(other, Mod):
            return (self._residue, self._modulus) == (other._residue, other._modulus)
        try:
            return bool((index(other) - self._residue) % self._modulus == 0)  # type: ignore[arg-type]
        except TypeError:
            return NotImplemented

    def __hash__(self) -> int:
        return hash(self._residue)

    def __pos__(self) -> Mod:
        return self

    def __neg__(self) -> Mod:
        return self._made(lib.nm_subm, 0, self._residue)

    def __add__(self, other: int | Mod) -> Mod:
        b = self._operand(other)
        return NotImplemented if b is None else self._made(lib.nm_addm, self._residue, b)

    __radd__ = __add__

    def __sub__(self, other: int | Mod) -> Mod:
        b = self._operand(other)
        return NotImplemented if b is None else self._made(lib.nm_subm, self._residue, b)

    def __rsub__(self, other: int) -> Mod:
        a = self._operand(other)
        return NotImplemented if a is None else self._made(lib.nm_subm, a, self._residue)

    def __mul__(self, other: int | Mod) -> Mod:
        b = self._operand(other)
        return NotImplemented if b is None else self._made(lib.nm_mulm, self._residue, b)

    __rmul__ = __mul__

    def __truediv__(self, other: int | Mod) -> Mod:
        b = self._operand(other)
        return NotImplemented if b is None else self._made(lib.nm_mulm, self._residue, self._inverse(b))

    def __rtruediv__(self, other: int) -> Mod:
        a = self._operand(other)
        return NotImplemented if a is None else self._made(lib.nm_mulm, a, self._inverse(self._residue))

    def __pow__(self, exponent: int, unused: None = None) -> Mod:
        if unused is not None:
            return NotImplemented
        try:
            n = exponent_of(exponent)
        except TypeError:
            return NotImplemented
        base = self._residue if n >= 0 else self._inverse(self._residue)
        return self._made(lib.nm_powm, base, abs(n))

    def _operand(self, other: Any) -> int | None:
        """A word that is congruent to an operand; None where it is no integer. ValueError: it has another modulus."""
        if isinstance(other, Mod):
            if other._modulus != self._modulus:
                raise ValueError(f"the moduli {self._modulus} and {other._modulus} differ")
            return other._residue
        try:
            return reduced(other, self._modulus)
        except TypeError:
            return None

    def _made(self, call: Any, a: int, b: int) -> Mod:
        """What a call of the library makes of two words, which can't fail modulo at least 1."""
        out = ffi.new("uint64_t *")
        call(a, b, self._modulus, out)
        made = object.__new__(Mod)
        made._modulus, made._residue = self._modulus, out[0]
        return made

    def _inverse(self, a: int) -> int:
        out = ffi.new("uint64_t *")
        if lib.nm_invm(a, self._modulus, out) != lib.NM_OK:
            raise no_inverse(a, self._modulus)
        return int(out[0])
