"""Hashes of bytes by a polynomial modulo 2^61 - 1, and searches by them."""
from __future__ import annotations

import secrets
from collections.abc import Iterable
from operator import index
from typing import Any

from num_modular._calls import ByArguments, check, check_buffer, ordered
from num_modular._library import ffi, lib

_MODULUS = (1 << 61) - 1


def _residue(base: int | None) -> int:
    """The base modulo 2^61 - 1, drawn at random where none is given."""
    return secrets.randbelow(_MODULUS) if base is None else index(base) % _MODULUS


def _bytes(data: Any, name: str = "the text") -> Any:
    """The bytes of an object that has a contiguous buffer, whatever the size of its elements. The caller releases them by
    `with`, as for `words_of`."""
    try:
        view = memoryview(data)
    except TypeError:
        raise TypeError(f"{name} must be bytes-like: encode str first") from None
    with view:
        check_buffer(view, name)
    return ffi.from_buffer("uint8_t[]", data)


def _copied(data: Any, name: str) -> bytes:
    """The bytes of such an object, copied."""
    with _bytes(data, name) as read:
        return ffi.buffer(read)[:]


def polynomial_hash(data: bytes, base: int) -> int:
    """The value modulo 2^61 - 1, at the base, of the polynomial with the bytes as coefficients, the highest first. The base is
    any integer. Data that differ only by zero bytes in front have the same hash.

    >>> polynomial_hash(b"abc", 1000)
    97098099
    """
    base, out = _residue(index(base)), ffi.new("uint64_t *")
    with _bytes(data) as read:
        check(lib.nm_hash(base, read, len(read), out))
    return out[0]


def find(text: bytes, pattern: bytes, *, base: int | None = None) -> int:
    """The first position of the pattern in the text, or -1, as `bytes.find` returns it; by hashes at the base, which is drawn
    at random where none is given. The result is right for every base, but a search at a base that is known before may be slow.

    >>> find(b"a longer text", b"longer"), find(b"abc", b"d")
    (2, -1)
    """
    at, out = _residue(base), ffi.new("size_t *")
    with _bytes(text) as first, _bytes(pattern, "the pattern") as second:
        code = lib.nm_find(at, first, len(first), second, len(second), out)
    if code == lib.NM_NOT_FOUND:
        return -1
    check(code)
    return out[0]


def find_all(text: bytes, patterns: Iterable[bytes], *, base: int | None = None) -> dict[int, int]:
    """The positions of the text where one of the patterns occurs, in ascending order, each with the number of the first
    pattern that occurs there, counted from 0. The base is as for `find`. ValueError: the patterns don't have the same length.

    >>> find_all(b"abracadabra", [b"abra", b"cada"])
    {0: 0, 4: 1, 7: 0}
    """
    at = _residue(base)
    with _bytes(text) as read:
        listed = [_copied(it, "each pattern") for it in ordered(patterns)]
        count, size = len(listed), len(listed[0]) if listed else 0
        if any(len(it) != size for it in listed):
            raise ValueError("the patterns must have the same length")
        joined, places = b"".join(listed), max(len(read) - size + 1, 0)
        hashes, found = ffi.new("uint64_t[]", count), ffi.new("size_t[]", places)
        check(lib.nm_find_all(at, read, len(read), joined, len(joined), size, hashes, count, found, places))
    return {at: number for at, number in enumerate(found) if number < count}


class PrefixHashes(ByArguments):
    """The hashes of all prefixes of a text, from which the hash of any part is computed by one product. The base is drawn at
    random where none is given. A copy of the text is kept, by which objects are compared and pickled.

    >>> text = PrefixHashes(b"abracadabra")
    >>> text.hash(0, 4) == text.hash(7, 11), text.hash(0, 4) == text.hash(1, 5)
    (True, False)
    """

    __slots__ = ("_base", "_hashes", "_powers", "_text")

    def __init__(self, text: bytes, base: int | None = None) -> None:
        self._text, self._base = _copied(text, "the text"), _residue(base)
        n = len(self._text) + 1
        self._hashes, self._powers = ffi.new("uint64_t[]", n), ffi.new("uint64_t[]", n)
        check(lib.nm_prefix_hashes(self._base, self._text, n - 1, self._hashes, n, self._powers, n))

    def _arguments(self) -> tuple[Any, ...]:
        return self._text, self._base

    def __repr__(self) -> str:
        return f"<PrefixHashes of {len(self._text)} bytes at the base {self._base}>"

    @property
    def base(self) -> int:
        """The base, from 0 to 2^61 - 2."""
        return self._base

    def hash(self, start: int, stop: int) -> int:
        """`polynomial_hash` of the bytes from start to stop - 1, counted from 0. Parts with different hashes are different.
        IndexError: start is negative or above stop, or stop is above the length of the text.

        >>> PrefixHashes(b"xabcx", 1000).hash(1, 4) == polynomial_hash(b"abc", 1000)
        True
        """
        start, stop, out, n = index(start), index(stop), ffi.new("uint64_t *"), len(self._hashes)
        if not 0 <= start <= stop < n:
            raise IndexError(f"the text of {n - 1} bytes has no part from {start} to {stop}")
        check(lib.nm_substring_hash(self._hashes, n, self._powers, n, start, stop, out))
        return out[0]
