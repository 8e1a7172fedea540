"""Check digits, by numbers that their standards print, and by sums of Python's integers."""
import copy
import itertools
import pickle
import random

import pytest

import num_modular
from num_modular import (
    ABA_RTN, DAMM, EAN_8, EAN_13, ISBN_10, ISBN_13, ISSN, LUHN, ORCID, UPC_A, VERHOEFF, CheckCode, NoInverseError, accepts_iban,
    iban_check_digits,
)

NUMBERS = [
    (ISBN_10, "0-306-40615-2"),
    (ISBN_10, "080442957X"),
    (ISBN_13, "978-0-306-40615-7"),
    (EAN_13, "4 006381 333931"),
    (EAN_8, "73513537"),
    (UPC_A, "036000291452"),
    (ISSN, "0378-5955"),
    (ISSN, "2434-561X"),
    (ORCID, "0000-0002-1694-233X"),
    (ORCID, "0000-0002-1825-0097"),
    (ABA_RTN, "111000025"),
    (ABA_RTN, "021000021"),
    (LUHN, "4539 5787 6362 1486"),
    (LUHN, "79927398713"),
    (VERHOEFF, "2363"),
    (VERHOEFF, "84736430954837284567892"),
    (DAMM, "5724"),
]
STANDARDS = (ISBN_10, ISBN_13, EAN_13, EAN_8, UPC_A, ISSN, ORCID, ABA_RTN)
TAKING_TEXTS = [it.accepts for it in (ISBN_10, LUHN)] + [ISBN_13.check_digit, accepts_iban, iban_check_digits]


@pytest.mark.parametrize("standard, number", NUMBERS)
def test_known_numbers(standard, number):
    front, symbol = number[:-1].rstrip("-"), number[-1]
    assert standard.accepts(number) and standard.check_digit(front) == symbol
    for other in set("0123456789X") - {symbol}:
        assert not standard.accepts(number[:-1] + other)


def test_words_of_the_standards():
    """Each code by its modulus and the weighted sum, at random words and with a symbol erased."""
    draw = random.Random(1)
    moduli = dict(zip(STANDARDS, (11, 10, 10, 10, 10, 11, 11, 10)))
    for standard in STANDARDS:
        code, m = standard.code, moduli[standard]
        n = len(code.weights)
        assert (code.modulus, len(code.least), len(code.greatest)) == (m, n, n)
        for _ in range(40):
            word = [draw.randint(low, high) for low, high in zip(code.least[:-1], code.greatest[:-1])]
            sums = {t: sum(a * b for a, b in zip(code.weights, [*word, t])) for t in range(m)}
            found = [t for t, it in sums.items() if it % m == code.residue and t <= code.greatest[-1]]
            if not found:
                with pytest.raises(ValueError, match="no symbol makes it a word"):
                    code.check_digit(word)
                continue
            word += found
            assert code.check_digit(word[:-1]) == found[0] and code.accepts(word)
            text = "".join("0123456789X"[it] for it in word)
            assert standard.accepts(text) and standard.check_digit(text[:-1]) == text[-1]
            place = draw.randrange(n)
            assert code.restore([*word[:place], None, *word[place + 1:]]) == word[place]


def luhn(text):
    places = enumerate(reversed([int(it) for it in text if it.isdigit()]))
    return sum(it if i % 2 == 0 else 2 * it - 9 * (it > 4) for i, it in places) % 10 == 0


def test_luhn_by_sums():
    draw = random.Random(2)
    for _ in range(300):
        text = "".join(draw.choice("0123456789") for _ in range(draw.randint(1, 127)))
        symbol = LUHN.check_digit(text)
        assert luhn(text + symbol) and LUHN.accepts(text) == luhn(text)
        assert [it for it in "0123456789" if LUHN.accepts(text + it)] == [symbol]


@pytest.mark.parametrize("standard", (VERHOEFF, DAMM))
def test_the_stronger_methods_detect_all(standard):
    draw = random.Random(3)
    for _ in range(50):
        front = "".join(draw.choice("0123456789") for _ in range(draw.randint(1, 20)))
        text = front + standard.check_digit(front)
        place, other = draw.randrange(len(text)), draw.choice("0123456789")
        assert standard.accepts(text[:place] + other + text[place + 1:]) == (other == text[place])
        a, b = text[place:place + 2].ljust(2)
        assert b == " " or standard.accepts(text[:place] + b + a + text[place + 2:]) == (a == b)


@pytest.mark.parametrize("text", ("", "-", " 1", "1-", "1--2", "1_2", "12x", "A", "\0", "\uff11", "é", "\N{DIGIT ONE}\n"))
def test_texts_of_another_form(text):
    for standard in (ISBN_10, LUHN):
        assert not standard.accepts(text)
        with pytest.raises(ValueError, match="no check digit"):
            standard.check_digit(text)


def test_long_texts():
    assert LUHN.accepts(f"{'1' * 127}9")
    for call in (LUHN.accepts, LUHN.check_digit, ISBN_10.accepts):
        with pytest.raises(ValueError, match="more than 128 characters"):
            call("1" * 129)


def iban(text):
    """By the standard: the first four characters behind the others, and letters as 10 to 35."""
    return int("".join(str(int(it, 36)) for it in text[4:] + text[:4])) % 97 == 1


def test_ibans():
    draw = random.Random(4)
    for known in ("GB82WEST12345698765432", "DE89370400440532013000", "FR1420041010050500013M02606", "NL91ABNA0417164300"):
        assert accepts_iban(known) and iban_check_digits(f"{known[:2]}00{known[4:]}") == known[2:4]
        assert accepts_iban(" ".join(map("".join, itertools.zip_longest(*[iter(known)] * 4, fillvalue=""))))
        assert not accepts_iban(f"{known[:-1]}{(int(known[-1]) + 1) % 10}")
    for _ in range(200):
        account = "".join(draw.choice("0123456789ABCDEFGHIJKLMNOPQRSTUVWXYZ") for _ in range(draw.randint(1, 30)))
        digits = iban_check_digits(f"DE99{account}")
        assert "02" <= digits <= "98" and iban(f"DE{digits}{account}") and accepts_iban(f"DE{digits}{account}")
    for text in ("", "GB82", "gb82west12345698765432", "GB82 WEST 1234 5698 76543 2", "82GBWEST", f"GB82{'1' * 31}"):
        assert not accepts_iban(text)
        with pytest.raises(ValueError, match="form of an IBAN"):
            iban_check_digits(text)


def test_codes_of_ones_own():
    """Each word of three symbols, by its sum."""
    code = CheckCode(-7 + 14, [3, 8, -2], 20, [0, 0, 2], [6, 6, 3])
    assert (code.modulus, code.weights, code.residue, code.least, code.greatest) == (7, [3, 1, 5], 6, [0, 0, 2], [6, 6, 3])
    for word in itertools.product(range(8), repeat=3):
        x, y, z = word
        assert code.accepts(iter(word)) == ((3 * x + y + 5 * z) % 7 == 6 and x < 7 and y < 7 and z in (2, 3))
    assert CheckCode(10, [1, 1]).greatest == [9, 9] and CheckCode(10, [1, 1]).least == [0, 0]
    assert CheckCode(5, []).accepts([]) and not CheckCode(5, [], 1).accepts([])
    assert CheckCode(2**64 - 1, [1], -1).check_digit([]) == 2**64 - 2


def test_values():
    code = CheckCode(7, [3, 1])
    assert code == CheckCode(7, [10, -6], 0, [0, 0], [6, 6]) != CheckCode(7, [3, 1], 1)
    assert hash(code) == hash(CheckCode(7, [10, 1])) and repr(code) == "CheckCode(7, (3, 1), 0, (0, 0), (6, 6))"
    for it in (code, ISBN_10.code):
        assert pickle.loads(pickle.dumps(it)) == it == copy.deepcopy(it)
    for it in (ISBN_10, DAMM):
        assert pickle.loads(pickle.dumps(it)) is it is copy.deepcopy(it) and getattr(num_modular, repr(it)) is it


def test_arguments_out_of_range():
    code = ISBN_10.code
    for m in (0, -1, 2**64):
        with pytest.raises(ValueError, match="the modulus"):
            CheckCode(m, [1])
    for few in ({"least": [0]}, {"greatest": [1, 2, 3]}):
        with pytest.raises(ValueError, match="2 weights"):
            CheckCode(7, [1, 2], **few)
    for bad in ({"least": [-1]}, {"greatest": [2**64]}):
        with pytest.raises(ValueError, match="symbol must be from 0"):
            CheckCode(7, [1], **bad)
    for symbols in ([-1] + [0] * 9, [2**64] + [0] * 9):
        with pytest.raises(ValueError, match="a symbol must be from 0"):
            code.accepts(symbols)
    for symbols in ([0] * 10, [None, None] + [0] * 8, [None] + [0] * 8, []):
        with pytest.raises(ValueError, match="one of them None"):
            code.restore(symbols)
    with pytest.raises(ValueError, match="one of them None"):
        code.check_digit([0] * 10)
    with pytest.raises(NoInverseError, match="5 has no inverse modulo 10") as caught:
        CheckCode(10, [5, 1]).restore([None, 0])
    assert caught.value.number == 5
    for standard in (LUHN, VERHOEFF, DAMM):
        with pytest.raises(ValueError, match=f"{standard!r} has no weights"):
            standard.code


def test_other_types():
    for call in TAKING_TEXTS:
        for text in (b"0306406152", 306406152, None, ["0"]):
            with pytest.raises(TypeError, match="must be a str"):
                call(text)
    for symbols in ("0306406152", [0.0] * 10, {0, 3}, 3):
        with pytest.raises(TypeError):
            ISBN_10.code.accepts(symbols)
    for weights in ({1, 3}, [1.5], 3, "13"):
        with pytest.raises(TypeError):
            CheckCode(10, weights)
