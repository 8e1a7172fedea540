"""What all calls of the library for C share: codes as exceptions, integers as words, lists as arrays of words.

Each number passes through `index`, since cffi rounds fractions in silence, and what isn't a word is reduced or refused here,
since cffi's messages name no argument.
"""
from __future__ import annotations

import re
import sys
from collections.abc import Iterable, Set
from operator import index
from typing import Any, NoReturn, TypeVar

from num_modular._library import ffi, lib

if lib.nm_version() // 100 != 100 * lib.NM_VERSION_MAJOR + lib.NM_VERSION_MINOR:
    version = f"{lib.NM_VERSION_MAJOR}.{lib.NM_VERSION_MINOR}"
    raise ImportError(f"the library for C doesn't have version {version}, for which this package was built")

# The formats of words of 64 bits that the struct module and memoryview write, in the order of this machine's bytes.
_LITTLE = sys.byteorder == "little"
_TOP = 1 << 64
_Listed = TypeVar("_Listed")
_FORMATS = {"Q", "@Q", "=Q", "<Q" if _LITTLE else ">Q", "N", "@N"} | ({"L", "@L"} if ffi.sizeof("long") == 8 else set())


class ByArguments:
    """An object that the arguments of its constructor determine: equality, hash, copies and text are by them."""

    __slots__ = ()

    def _arguments(self) -> tuple[Any, ...]:
        raise NotImplementedError

    def __eq__(self, other: object) -> bool:
        if isinstance(other, ByArguments) and type(other) is type(self):
            return self._arguments() == other._arguments()
        return NotImplemented

    def __hash__(self) -> int:
        return hash((type(self), self._arguments()))

    def __reduce__(self) -> tuple[Any, ...]:
        return type(self), self._arguments()

    def __repr__(self) -> str:
        return f"{type(self).__name__}({', '.join(map(repr, self._arguments()))})"


class NoInverseError(ValueError, ZeroDivisionError):
    """A number that a call must invert, or divide by, has no inverse modulo m: `number`.

    Only `Montgomery.run` sets `at`, the number of the command that failed, counted from 0, and `registers`, those after the
    commands before it.
    """

    number: int | None = None
    at: int | None = None
    registers: Any = None


class NoRootError(ValueError):
    """The root doesn't suit the length, or none was found."""


class PointsError(ValueError):
    """The difference of two points of an erasure code has no inverse modulo m, or one of those of shares hasn't."""


class TooFewSymbolsError(ValueError):
    """An erasure code has fewer symbols than its message."""


class TooManyErrorsError(ValueError):
    """No word of an erasure code is near enough to the symbols."""


# The exceptions of the codes that aren't ValueError.
_FAULTS = {
    lib.NM_NO_INVERSE: NoInverseError,
    lib.NM_NO_ROOT: NoRootError,
    lib.NM_TOO_FEW_SYMBOLS: TooFewSymbolsError,
    lib.NM_POINTS_DONT_FIT: PointsError,
    lib.NM_TOO_MANY_ERRORS: TooManyErrorsError,
    lib.NM_POINT_WITHOUT_INVERSE: PointsError,
}


def fail(code: int, words: str = "") -> NoReturn:
    """Raises the exception of a code, with these words or with those of nm_strerror."""
    raise _FAULTS.get(code, ValueError)(words or ffi.string(lib.nm_strerror(code)).decode())


def check(code: int, words: str = "") -> None:
    """Raises the exception of a code, if it isn't NM_OK."""
    if code != lib.NM_OK:
        fail(code, words)


def no_inverse(number: int, m: int, place: str = "") -> NoInverseError:
    """The exception for a number that has no inverse modulo m. Its text has the residue of a number that isn't a word: Python
    refuses to write very long ones.
    """
    fault = NoInverseError(f"{number if abs(number) < _TOP else number % m} has no inverse modulo {m}{place}")
    fault.number = number
    return fault


def word(n: int, name: str, least: int = 0) -> int:
    """A number that must be a word. ValueError, with its name: it is out of range."""
    n = index(n)
    if not least <= n < _TOP:
        raise ValueError(f"{name} must be from {least} to 2^64 - 1")
    return n


def modulus(m: int, name: str = "the modulus") -> int:
    """A modulus. ValueError: it isn't from 1 to 2^64 - 1."""
    m = index(m)
    return m if 0 < m < _TOP else word(m, name, 1)  # each call pays for this test: one function less


def exponent_of(n: int, name: str = "the exponent") -> int:
    """An exponent. ValueError: its absolute value isn't below 2^64."""
    n = index(n)
    if abs(n) >= _TOP:
        raise ValueError(f"{name} must be between -2^64 and 2^64")
    return n


def reduced(n: int, m: int) -> int:
    """A word that is congruent to n modulo m: n itself where it is a word, else its residue."""
    n = index(n)
    return n if 0 <= n < _TOP else n % m


def ordered(items: _Listed) -> _Listed:
    """What is to be read as a list. TypeError: it is a set."""
    if isinstance(items, Set):
        raise TypeError("a set has no order: pass a list")
    return items


def new_words(numbers: Iterable[int], m: int, limit: int = _TOP) -> Any:
    """New words that are congruent modulo m to these integers, and below the limit, which is at least m."""
    listed = list(map(index, ordered(numbers)))
    if listed and not 0 <= min(listed) <= max(listed) < limit:
        listed = [it % m for it in listed]
    return ffi.new("uint64_t[]", listed)


def check_buffer(view: memoryview, name: str) -> None:
    """Raises ValueError where a buffer isn't contiguous or holds objects."""
    if not view.c_contiguous:
        raise ValueError(f"{name} must be contiguous")
    if "O" in view.format and "O" in re.sub(":.*?:", "", view.format):  # without the names of fields
        raise ValueError(f"{name} must not hold objects")


def words_of(array: Any, m: int, limit: int = _TOP) -> tuple[Any, bool]:
    """The words of an array, in the caller's memory, and False; or `new_words` of a sequence of integers, and True.

    The caller releases them by `with`, since an exception that is kept would otherwise keep the array exported.
    """
    try:
        view = memoryview(array)
    except TypeError:
        return new_words(array, m, limit), True
    with view:
        check_buffer(view, "the array")
        if view.format not in _FORMATS or view.ndim != 1:
            found = f"{view.ndim} of format {view.format!r}"
            raise TypeError(f"the array must have one dimension of unsigned words of 64 bits, not {found}: convert it to an "
                            "array of numpy.uint64 or array('Q'), or pass a list")
        if view.readonly:
            raise ValueError("the array must be writable")
        if view.nbytes == 0:  # an empty array need not be aligned
            return ffi.new("uint64_t[]", 0), False
    words = ffi.from_buffer("uint64_t[]", array, require_writable=True)
    if int(ffi.cast("uintptr_t", words)) % ffi.alignof("uint64_t"):
        ffi.release(words)
        raise ValueError("the array must be aligned to words of 64 bits")
    return words, False


def same_length(first: Any, second: Any) -> None:
    """Raises ValueError where two lists differ in length."""
    if len(first) != len(second):
        raise ValueError(f"the lists have {len(first)} and {len(second)} words")


def apart(first: Any, second: Any) -> None:
    """Raises ValueError where two arrays of words overlap."""
    begins, other = (int(ffi.cast("uintptr_t", it)) for it in (first, second))
    if begins < other + 8 * len(second) and other < begins + 8 * len(first):
        raise ValueError("the arrays must not overlap")


def pair_of(first: Any, second: Any, m: int, limit: int = _TOP) -> tuple[Any, Any, bool]:
    """The words of two lists, and whether the first are new. ValueError: the lengths differ, or the arrays overlap."""
    xs, is_new = words_of(first, m, limit)
    try:
        ys, _ = words_of(second, m, limit)
        try:
            apart(xs, ys)
            same_length(xs, ys)
        except ValueError:
            ffi.release(ys)
            raise
    except (TypeError, ValueError):
        ffi.release(xs)
        raise
    return xs, ys, is_new


def scratch_for(room: Any, *lengths: int) -> tuple[Any, int, Any, int]:
    """The two scratch lists that a call needs for lists of these lengths, each followed by its own length."""
    words, factors = ffi.new("size_t *"), ffi.new("size_t *")
    check(room(*lengths, words, factors), "the lists are too long")
    return ffi.new("uint64_t[]", words[0]), words[0], ffi.new("nm_factor_t[]", factors[0]), factors[0]
