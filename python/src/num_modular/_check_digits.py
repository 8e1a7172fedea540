"""Check digits: the numbers of standards, and codes of one's own."""
from __future__ import annotations

from collections.abc import Iterable
from operator import index
from typing import Any, Optional

from num_modular._calls import ByArguments, check, modulus, no_inverse, ordered, word
from num_modular._library import ffi, lib


def _characters(text: str) -> Any:
    """The characters of a text in ASCII, with ? for those that ASCII hasn't, which stands in no number. TypeError: it isn't
    a str."""
    if not isinstance(text, str):
        raise TypeError(f"the text must be a str, not {type(text).__name__}")
    return ffi.from_buffer("uint8_t[]", text.encode("ascii", "replace"))


def _is_accepted(code: int, words: str = "") -> bool:
    """Whether a call accepted what it read. The other exceptions are those of its code."""
    if code != lib.NM_NOT_ACCEPTED:
        check(code, words)
    return code == lib.NM_OK


class CheckCode(ByArguments):
    """A code with one check equation modulo m, from 1 to 2^64 - 1: a word has an allowed symbol for each weight, and the sum of
    its symbols, each times the weight of its place, is congruent to the residue.

    `least` and `greatest` are the least and the greatest symbol of each place, from 0 to 2^64 - 1; without them all from 0 to
    m - 1 are allowed. ValueError: m or a symbol is out of range, or their numbers differ from that of the weights.

    >>> code = CheckCode(7, [3, 1])
    >>> code.accepts([5, 6]), code.check_digit([5])
    (True, 6)
    """

    __slots__ = ("_code", "_lists")

    def __init__(
        self,
        m: int,
        weights: Iterable[int],
        residue: int = 0,
        least: Optional[Iterable[int]] = None,
        greatest: Optional[Iterable[int]] = None,
    ) -> None:
        m = modulus(m)
        factors = [index(it) % m for it in ordered(weights)]
        bounds = []
        for name, symbols, same in (("least", least, 0), ("greatest", greatest, m - 1)):
            listed = [same] * len(factors) if symbols is None else [word(it, f"a {name} symbol") for it in ordered(symbols)]
            if len(listed) != len(factors):
                raise ValueError(f"there are {len(factors)} weights and {len(listed)} {name} symbols")
            bounds.append(listed)
        self._lists = [ffi.new("uint64_t[]", it) for it in (factors, *bounds)]
        fields = (it for listed in self._lists for it in (listed, len(listed)))
        self._code = ffi.new("nm_check_code_t *", (m, index(residue) % m, *fields))

    def _arguments(self) -> tuple[Any, ...]:
        weights, least, greatest = map(tuple, self._lists)
        return self.modulus, weights, self.residue, least, greatest

    @property
    def modulus(self) -> int:
        """The modulus."""
        return self._code.modulus

    @property
    def residue(self) -> int:
        """The residue of the weighted sum of a word, from 0 to m - 1."""
        return self._code.residue

    @property
    def weights(self) -> list[int]:
        """The weight of each place, from 0 to m - 1."""
        return list(self._lists[0])

    @property
    def least(self) -> list[int]:
        """The least symbol of each place."""
        return list(self._lists[1])

    @property
    def greatest(self) -> list[int]:
        """The greatest symbol of each place."""
        return list(self._lists[2])

    def accepts(self, symbols: Iterable[int]) -> bool:
        """Whether the symbols are a word of the code. ValueError: a symbol isn't from 0 to 2^64 - 1.

        >>> ISBN_10.code.accepts([0, 3, 0, 6, 4, 0, 6, 1, 5, 2])
        True
        """
        words = ffi.new("uint64_t[]", [word(it, "a symbol") for it in ordered(symbols)])
        return _is_accepted(lib.nm_check_code_accepts(self._code, words, len(words)))

    def restore(self, symbols: Iterable[Optional[int]]) -> int:
        """The symbol in place of the only None: the only one below m that makes them a word of the code.

        ValueError: no symbol does; there are more or fewer symbols than weights, or not one None; a symbol isn't from 0 to
        2^64 - 1. NoInverseError: the weight of the place has no inverse modulo m.

        >>> ISBN_10.code.restore([0, 3, 0, 6, None, 0, 6, 1, 5, 2])
        4
        """
        listed = list(ordered(symbols))
        erased = [place for place, it in enumerate(listed) if it is None]
        if len(erased) != 1 or len(listed) != len(self._lists[0]):
            raise ValueError(f"there must be a symbol for each of the {len(self._lists[0])} weights, and one of them None")
        out, words = ffi.new("uint64_t *"), ffi.new("uint64_t[]", [word(it or 0, "a symbol") for it in listed])
        code = lib.nm_check_code_restore(self._code, words, len(words), erased[0], out)
        if code == lib.NM_NO_INVERSE:
            raise no_inverse(self._lists[0][erased[0]], self.modulus)
        if not _is_accepted(code):
            raise ValueError("no symbol makes it a word of the code")
        return out[0]

    def check_digit(self, symbols: Iterable[int]) -> int:
        """The symbol behind these: the only one below m that makes them a word of the code. The exceptions are those of
        `restore`.

        >>> ISBN_10.code.check_digit([0, 8, 0, 4, 4, 2, 9, 5, 7])
        10
        """
        return self.restore([*ordered(symbols), None])


class Standard:
    """The numbers of a standard, as texts: `ISBN_10`, `ISBN_13`, `EAN_13`, `EAN_8`, `UPC_A`, `ISSN`, `ORCID`, `ABA_RTN`, and
    digits with Luhn's check digit, as of payment cards, with Verhoeff's and with Damm's: `LUHN`, `VERHOEFF`, `DAMM`.

    A text has digits and X, for 10, and between two of them at most one hyphen or space. Where these have to be isn't tested.
    ValueError: the text has more than 128 characters.

    >>> ISBN_13.accepts("978-0-306-40615-7"), LUHN.accepts("4539 5787 6362 1487")
    (True, False)
    """

    __slots__ = ("_name", "_number")

    def __init__(self, name: str) -> None:
        self._name, self._number = name, getattr(lib, f"NM_{name}")

    def __repr__(self) -> str:
        return self._name

    def __reduce__(self) -> str:
        return self._name

    def accepts(self, text: str) -> bool:
        """Whether the text is a number of the standard.

        >>> ORCID.accepts("0000-0002-1694-233X"), ORCID.accepts("0000-0002-1694-2339")
        (True, False)
        """
        read = _characters(text)
        return _is_accepted(lib.nm_check_accepts(self._number, read, len(read)), "the text has more than 128 characters")

    def check_digit(self, text: str) -> str:
        """The check digit behind the text of the symbols before it: the only digit, or X, that makes it a number of the
        standard. ValueError: there is none.

        >>> ISBN_13.check_digit("978-0-306-40615"), ISBN_10.check_digit("080442957")
        ('7', 'X')
        """
        read, out = _characters(text), ffi.new("uint64_t *")
        code = lib.nm_check_digit(self._number, read, len(read), out)
        if not _is_accepted(code, "the text has more than 128 characters"):
            raise ValueError(f"no check digit makes the text a number of {self._name}")
        return "0123456789X"[out[0]]

    @property
    def code(self) -> CheckCode:
        """The code of the standard, for lists of symbols. ValueError: it is `LUHN`, `VERHOEFF` or `DAMM`, which have none.

        >>> EAN_8.code.weights
        [3, 1, 3, 1, 3, 1, 3, 1]
        """
        out = ffi.new("nm_check_code_t *")
        check(lib.nm_check_code(self._number, out), f"{self._name} has no weights")
        weights, least, greatest = (ffi.unpack(it, out.weights_length) for it in (out.weights, out.least, out.greatest))
        return CheckCode(out.modulus, weights, out.residue, least, greatest)


ISBN_10, ISBN_13, EAN_13, EAN_8 = map(Standard, ("ISBN_10", "ISBN_13", "EAN_13", "EAN_8"))
UPC_A, ISSN, ORCID, ABA_RTN = map(Standard, ("UPC_A", "ISSN", "ORCID", "ABA_RTN"))
LUHN, VERHOEFF, DAMM = map(Standard, ("LUHN", "VERHOEFF", "DAMM"))


def accepts_iban(text: str) -> bool:
    """Whether the text is an IBAN, without spaces or in groups of four characters with a space between two groups. The length,
    which depends on the country, isn't tested.

    >>> accepts_iban("GB82WEST12345698765432"), accepts_iban("GB82 WEST 1234 5698 7654 33")
    (True, False)
    """
    read = _characters(text)
    return _is_accepted(lib.nm_iban_accepts(read, len(read)))


def iban_check_digits(text: str) -> str:
    """The two check digits of an IBAN without spaces: the only ones that, after the two letters of the country, make the text an
    IBAN. Those in the text are ignored, and may be 00. ValueError: the text hasn't the form of an IBAN.

    >>> iban_check_digits("GB00WEST12345698765432")
    '82'
    """
    read, out = _characters(text), ffi.new("uint8_t[]", 2)
    if not _is_accepted(lib.nm_iban_check_digits(read, len(read), out, 2)):
        raise ValueError("the text hasn't the form of an IBAN")
    return bytes(out).decode()
