"""Erasure codes, which correct wrong symbols too, and secret sharing."""
from __future__ import annotations

import secrets
from collections.abc import Iterable, Mapping, Sequence
from itertools import combinations
from math import gcd
from operator import index
from typing import Any, NamedTuple, Optional, Union

from num_modular._calls import ByArguments, PointsError, check, fail, modulus, no_inverse, ordered
from num_modular._library import ffi, lib

# The symbols of a word: a list with one for each point, None where it is lost; or a dict from numbers of points to symbols.
Symbols = Union[Sequence[Optional[int]], Mapping[int, int]]


class Correction(NamedTuple):
    """What `ErasureCode.correct` returns: the message, its word, and how many of the given symbols differ from that word."""

    message: list[int]
    word: list[int]
    errors: int


class CorrectedWord(NamedTuple):
    """What `Corrector.correct` returns: the word, and how many of the given symbols differ from it."""

    word: list[int]
    errors: int


def _some(k: int) -> int:
    """The number of symbols of a message. ValueError: it is below 1."""
    k = index(k)
    if k < 1:
        raise ValueError("k must be at least 1")
    return k


class ErasureCode(ByArguments):
    """Reed-Solomon codes and Shamir's secret sharing modulo m, from 1 to 2^64 - 1. Fields that aren't the numbers modulo a
    prime, such as GF(2^8), aren't here.

    The points are numbers modulo m. A message is a list of numbers modulo m, the coefficients of a polynomial, the constant
    first. Symbol i of its word is the value of the polynomial at point i. Any k symbols determine a message of k symbols,
    since the points must fit: the difference of any two has an inverse modulo m. So at most p points fit, where p is the
    least prime that divides m. To test n points takes about n^2 products. PointsError: they don't fit.

    A word with lost symbols is a list of n symbols with None for each lost one, or a dict from the number of a point,
    counted from 0, to the symbol there. ValueError: m is out of range, the list has another length, there is no point of
    that number, or a symbol isn't from 0 to m - 1.

    >>> code = ErasureCode(929, range(7))
    >>> code.encode([1, 2, 3])
    [1, 6, 17, 34, 57, 86, 121]
    >>> code.restore([1, None, None, 34, None, None, 121], 3)
    [1, 2, 3]
    """

    __slots__ = ("_context", "_points")

    def __init__(self, m: int, points: Iterable[int]) -> None:
        self._context = ffi.new("nm_montgomery_t *")
        check(lib.nm_montgomery(modulus(m), self._context))
        self._points = ffi.new("uint64_t[]", [index(it) % self.modulus for it in ordered(points)])
        self._expect_fitting()

    def _arguments(self) -> tuple[Any, ...]:
        return self.modulus, tuple(self._points)

    @property
    def modulus(self) -> int:
        """The modulus."""
        return self._context.modulus

    @property
    def points(self) -> list[int]:
        """The points, from 0 to m - 1."""
        return list(self._points)

    def encode(self, message: Iterable[int]) -> list[int]:
        """The word of a message, a symbol for each point. ValueError: the message has more symbols than there are points,
        or a symbol isn't from 0 to m - 1.

        >>> ErasureCode(97, [1, 2, 3]).encode([5, 10])
        [15, 25, 35]
        """
        return self._encoded(lib.nm_erasure_encode, message)

    def encode_systematic(self, message: Iterable[int]) -> list[int]:
        """The word that begins with the k symbols of the message: its polynomial has them as values at the first k points.
        `restore_systematic` returns the message from any k symbols of it, while `restore` returns the coefficients.
        ValueError: the message has more symbols than there are points, or a symbol isn't from 0 to m - 1.

        >>> ErasureCode(97, [1, 2, 3, 4]).encode_systematic([15, 25])
        [15, 25, 35, 45]
        """
        values = self._symbols(message)
        k = len(values)
        self._expect_room(k)
        coefficients = ffi.new("uint64_t[]", k)
        check(self._restored(ffi.new("size_t[]", list(range(k))), values, coefficients))
        return self.encode(coefficients)

    def restore(self, word: Symbols, k: int) -> list[int]:
        """The message of k symbols, at least 1, computed from the first k symbols of the word that aren't lost.

        ValueError: k is below 1. TooFewSymbolsError: fewer than k aren't lost.

        >>> ErasureCode(97, [1, 2, 3]).restore({2: 35, 0: 15}, 2)
        [5, 10]
        """
        k = _some(k)
        places, symbols = self._received(word, k)
        message = ffi.new("uint64_t[]", k)
        check(self._restored(places, symbols, message))
        return list(message)

    def restore_word(self, word: Symbols, k: int) -> list[int]:
        """The word of a message of k symbols, computed from the first k symbols that aren't lost. The exceptions are those
        of `restore`.

        >>> ErasureCode(97, [1, 2, 3, 4]).restore_word([None, 25, None, 45], 2)
        [15, 25, 35, 45]
        """
        return self.encode(self.restore(word, k))

    def restore_systematic(self, word: Symbols, k: int) -> list[int]:
        """The message of k symbols with which the word begins, computed from the first k symbols that aren't lost. The
        exceptions are those of `restore`.

        >>> ErasureCode(97, [1, 2, 3, 4]).restore_systematic([None, 25, None, 45], 2)
        [15, 25]
        """
        return self.restore_word(word, k)[:k]

    def correct(self, word: Symbols, k: int) -> Correction:
        """The message of k symbols, at least 1, whose word differs from at most (s - k)/2 of the s symbols that aren't lost;
        with that word, and the number of symbols from which it differs. There is at most one such message.

        ValueError: k is below 1. TooFewSymbolsError: s is below k. TooManyErrorsError: there is no such message.
        NoInverseError: the method met a number without an inverse, which never happens for a prime m, or where no symbol is
        wrong.

        >>> ErasureCode(929, range(7)).correct([1, 0, 17, 34, 57, 900, 121], 3)
        Correction(message=[1, 2, 3], word=[1, 6, 17, 34, 57, 86, 121], errors=2)
        """
        k = _some(k)
        places, symbols = self._received(word, k)
        n, s = len(self._points), len(places)
        message, found = ffi.new("uint64_t[]", k), ffi.new("uint64_t[]", n)
        scratch = ffi.new("uint64_t[]", lib.NM_ERASURE_CORRECT_SCRATCH(n, s, k))
        errors, number = ffi.new("size_t *"), ffi.new("uint64_t *")
        code = lib.nm_erasure_correct(self._context, self._points, n, places, s, symbols, s, message, k, found, n, scratch,
                                      len(scratch), errors, number)
        if code == lib.NM_NO_INVERSE:
            raise no_inverse(number[0], self.modulus)
        check(code)
        return Correction(list(message), list(found), errors[0])

    def share(self, secret: int, k: int) -> list[int]:
        """A share of the secret, a number from 0 to m - 1, for each point. Any k shares determine the secret, and k - 1
        shares reveal nothing about it, as the module `secrets` draws the k - 1 other coefficients. It doesn't run in constant
        time.

        PointsError: a point, such as 0, has no inverse. ValueError: the secret is out of range, or k is below 1, or above
        the number of points.

        >>> shares = ErasureCode(2**61 - 1, range(1, 6)).share(1234567, 3)
        >>> ErasureCode(2**61 - 1, range(1, 6)).recover({0: shares[0], 4: shares[4], 2: shares[2]}, 3)
        1234567
        """
        secret = index(secret)
        if not 0 <= secret < self.modulus:
            raise ValueError(f"the secret must be from 0 to {self.modulus - 1}")
        k = _some(k)
        self._expect_room(k)
        drawn = (secrets.randbelow(self.modulus) for _ in range(k - 1))
        return self._encoded(lib.nm_erasure_share, [secret, *drawn])

    def recover(self, shares: Symbols, k: int) -> int:
        """The secret, computed from the first k shares that aren't lost, which must be right. The exceptions are those of
        `restore`.

        >>> ErasureCode(97, [1, 2, 3]).recover([15, None, 35], 2)
        5
        """
        return self.restore(shares, k)[0]

    def recover_correct(self, shares: Symbols, k: int) -> int:
        """The secret, computed from s shares of which at most (s - k)/2 are forged. The exceptions are those of `correct`.

        >>> ErasureCode(97, [1, 2, 3, 4]).recover_correct([15, 96, 35, 45], 2)
        5
        """
        return self.correct(shares, k).message[0]

    def _symbols(self, numbers: Iterable[int], places: Sequence[int] | None = None) -> Any:
        """New words with these symbols, which are at these places of a word, or at 0, 1 and so on. The calls would reduce
        greater ones, so that others come back. A symbol may be a share, so the exception doesn't show it.
        """
        listed = list(map(index, ordered(numbers)))
        if listed and not 0 <= min(listed) <= max(listed) < self.modulus:
            at = next(at for at, symbol in enumerate(listed) if not 0 <= symbol < self.modulus)
            raise ValueError(f"symbol {places[at] if places else at} must be from 0 to {self.modulus - 1}")
        return ffi.new("uint64_t[]", listed)

    def _encoded(self, call: Any, message: Iterable[int]) -> list[int]:
        words, n = self._symbols(message), len(self._points)
        self._expect_room(len(words))
        out, scratch = ffi.new("uint64_t[]", n), ffi.new("uint64_t[]", lib.NM_ERASURE_ENCODE_SCRATCH(n, len(words)))
        code = call(self._context, self._points, n, words, len(words), out, n, scratch, len(scratch))
        if code == lib.NM_POINT_WITHOUT_INVERSE:
            point = next(it for it in self._points if gcd(it, self.modulus) > 1)
            raise PointsError(f"the point {point} has no inverse modulo {self.modulus}")
        check(code)
        return list(out)

    def _restored(self, places: Any, symbols: Any, message: Any) -> int:
        """The code of nm_erasure_restore, which writes the message of these symbols."""
        n, s, k = len(self._points), len(places), len(message)
        scratch = ffi.new("uint64_t[]", lib.NM_ERASURE_RESTORE_SCRATCH(n, s, k))
        return lib.nm_erasure_restore(self._context, self._points, n, places, s, symbols, s, message, k, scratch,
                                      len(scratch))

    def _received(self, word: Symbols, k: int) -> tuple[Any, Any]:
        """The symbols that aren't lost, at least k, after the numbers of their points."""
        n, is_dict = len(self._points), isinstance(word, Mapping)
        pairs = list(word.items() if is_dict else enumerate(ordered(word)))
        if not is_dict and len(pairs) != n:
            raise ValueError(f"the word has {len(pairs)} symbols, not {n}")
        there = [(index(place), symbol) for place, symbol in pairs if symbol is not None]
        for place in (it for it, _ in there if not 0 <= it < n):
            raise ValueError(f"there is no point {place}: the points have the numbers from 0 to {n - 1}")
        if len(there) < k:
            fail(lib.NM_TOO_FEW_SYMBOLS, f"a message of {k} symbols can't be restored from {len(there)}")
        places = [place for place, _ in there]
        return ffi.new("size_t[]", places), self._symbols((symbol for _, symbol in there), places)

    def _expect_room(self, k: int) -> None:
        """Raises ValueError where a message of k symbols is too long."""
        if k > len(self._points):
            raise ValueError(f"a message of {k} symbols is too long for {len(self._points)} points")

    def _expect_fitting(self) -> None:
        """Raises PointsError where the points don't fit, which the call that restores from all of them tells."""
        n, m = len(self._points), self.modulus
        code = self._restored(ffi.new("size_t[]", list(range(n))), ffi.new("uint64_t[]", n), ffi.new("uint64_t[]", n))
        if code == lib.NM_POINTS_DONT_FIT:
            pairs = combinations(enumerate(self._points), 2)
            (i, first), (j, second) = next(pair for pair in pairs if gcd(pair[0][1] - pair[1][1], m) > 1)
            raise PointsError(f"points {i} and {j} don't fit: {first} - {second} has no inverse modulo {m}")
        check(code)


class Corrector(ByArguments):
    """A code of `ErasureCode`, for messages of k symbols at n points, that is prepared to correct many words: it keeps a weight
    for each point, and with `table` also n * (n - k) factors, by which `correct` takes less time.

    PointsError: the points don't fit. ValueError: m is out of range, or k isn't from 1 to n.

    >>> code = Corrector(97, range(1, 7), 2)
    >>> code.correct([12, None, 50, 33, 40, None])
    CorrectedWord(word=[12, 19, 26, 33, 40, 47], errors=1)
    """

    __slots__ = ("_checks", "_code", "_corrector", "_forms")

    def __init__(self, m: int, points: Iterable[int], k: int, table: bool = False) -> None:
        self._code = ErasureCode(m, points)
        k, n = _some(k), len(self._code._points)
        self._code._expect_room(k)
        # The corrector points to these lists, which live as long as this object, and are never handed out.
        self._forms, self._checks = ffi.new("uint64_t[]", 2 * n), ffi.new("uint64_t[]", n * (n - k) if table else 0)
        self._corrector, scratch = ffi.new("nm_corrector_t *"), ffi.new("uint64_t[]", n)
        check(lib.nm_corrector_make(self._code._context, self._code._points, n, k, self._forms, 2 * n, self._checks,
                                    len(self._checks), scratch, n, self._corrector))

    def _arguments(self) -> tuple[Any, ...]:
        return *self._code._arguments(), self.k, len(self._checks) > 0

    @property
    def modulus(self) -> int:
        """The modulus."""
        return self._code.modulus

    @property
    def points(self) -> list[int]:
        """The points, from 0 to m - 1."""
        return self._code.points

    @property
    def k(self) -> int:
        """The number of symbols of a message."""
        return self._corrector.k

    def correct(self, word: Symbols) -> CorrectedWord:
        """The word of the code that differs from at most (s - k)/2 of the s symbols that aren't lost, and from how many it
        does. There is at most one such word.

        Lost symbols are None or not in the dict, as for `ErasureCode`, and the same words raise ValueError.
        TooFewSymbolsError: s is below k. TooManyErrorsError: there is no such word. NoInverseError: the method met a number
        without an inverse, which never happens for a prime m, or where at most one symbol is wrong.

        >>> Corrector(929, range(7), 3, table=True).correct([1, 0, 17, 34, 57, 900, 121])
        CorrectedWord(word=[1, 6, 17, 34, 57, 86, 121], errors=2)
        """
        n, k = len(self._code._points), self.k
        places, symbols = self._code._received(word, k)
        known = dict(zip(places, symbols))
        found = ffi.new("uint64_t[]", [known.get(place, 0) for place in range(n)])
        lost = ffi.new("size_t[]", [place for place in range(n) if place not in known])
        scratch = ffi.new("uint64_t[]", lib.NM_CORRECTOR_SCRATCH(n, k))
        errors, number = ffi.new("size_t *"), ffi.new("uint64_t *")
        code = lib.nm_corrector_correct(self._corrector, lost, len(lost), found, n, scratch, len(scratch), errors, number)
        if code == lib.NM_NO_INVERSE:
            raise no_inverse(number[0], self.modulus)
        check(code)
        return CorrectedWord(list(found), errors[0])
