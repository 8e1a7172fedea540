"""Integers modulo m with operators, beside Python's own."""
import fractions
import math
import operator
import random

import pytest

from num_modular import Mod, NoInverseError, crt, invm

TOP = 1 << 64


def cases(count):
    """Moduli of all lengths, operands, some of them negative or at an edge, and exponents."""
    draw = random.Random(2)
    for _ in range(count):
        m = draw.choice([1, 2, TOP - 1, draw.getrandbits(draw.randrange(1, 65)) or 1])
        a, b = (draw.choice([draw.getrandbits(64), -draw.getrandbits(70), 0, m - 1, TOP - 1]) for _ in range(2))
        yield m, a, b, draw.getrandbits(draw.randrange(65))


def test_operators():
    for m, a, b, n in cases(1500):
        x, y = Mod(a, m), Mod(b, m)
        assert (int(x), x.modulus, bool(x), repr(x)) == (a % m, m, a % m != 0, f"Mod({a % m}, {m})")
        assert (int(-x), int(+x)) == (-a % m, a % m)
        for call in (operator.add, operator.sub, operator.mul):
            for found in (call(x, y), call(x, b), call(a, y)):
                assert (type(found), int(found), found.modulus) == (Mod, call(a, b) % m, m)
        assert int(x**n) == int(pow(x, n)) == pow(a, n, m)


def test_division():
    for m, a, b, n in cases(1500):
        x, y = Mod(a, m), Mod(b, m)
        calls = (lambda: x / y, lambda: x / b, lambda: a / y)
        powers = (lambda: y**-n, lambda: pow(y, -n))
        if math.gcd(b, m) == 1:
            assert {int(call()) for call in calls} == {a * pow(b, -1, m) % m}
            assert {int(call()) for call in powers} == {pow(b, -n, m)}
            assert (int(1 / y), int(pow(y, -1))) == (invm(b, m), invm(b, m))
            continue
        for call in (*calls, *powers, lambda: 1 / y, lambda: pow(y, -1)):
            if n or call not in powers:
                with pytest.raises(NoInverseError, match=rf"\b{b % m} has no inverse modulo {m}$|^-?\d+ has no inverse"):
                    call()
    with pytest.raises(ZeroDivisionError, match="^6 has no inverse modulo 21$") as told:
        1 / Mod(27, 21)
    assert told.value.number == 6
    with pytest.raises(ZeroDivisionError, match="^0 has no inverse modulo 7$"):
        Mod(3, 7) / 0


def test_equality_and_hash():
    x = Mod(3, 7)
    assert x == Mod(10, 7) and x == 3 and x == 10 and -4 == x and not x != 3
    assert x != Mod(3, 11) and x != 4 and x != 3.0 and x != "3" and x is not None
    assert hash(x) == hash(Mod(-4, 7)) == hash(3)
    assert len({Mod(3, 7), Mod(10, 7), Mod(3, 11), Mod(4, 7), 3}) == 3
    assert pow(Mod(3, 7), 3) == -1


def test_what_is_refused():
    x = Mod(3, 7)
    for call in (operator.add, operator.sub, operator.mul, operator.truediv):
        with pytest.raises(ValueError, match="^the moduli 7 and 11 differ$"):
            call(x, Mod(3, 11))
        for other in (1.5, "3", None, fractions.Fraction(1, 2)):
            for pair in ((x, other), (other, x)):
                with pytest.raises(TypeError):
                    call(*pair)
    for call in (lambda: x**x, lambda: x**1.5, lambda: pow(x, 2, 7), lambda: 2**x, lambda: x // 2, lambda: x % 2, lambda: [1] * x):
        with pytest.raises(TypeError):
            call()
    for call in (lambda: Mod(1.5, 7), lambda: Mod(x, 7), lambda: Mod(3, 7.0), lambda: range(x)):
        with pytest.raises(TypeError):
            call()
    for m in (0, -7, TOP):
        with pytest.raises(ValueError, match="the modulus must be from 1 to 2"):
            Mod(3, m)
    for n in (TOP, -TOP):
        with pytest.raises(ValueError, match="the exponent must be between"):
            x**n


def test_integers_of_numpy():
    numpy = pytest.importorskip("numpy")
    x, n = Mod(3, 7), numpy.int64(-2)
    assert (x + n, n + x, x * n, n * x, x - n, n - x, n / x, x**n) == (1, 1, 1, 1, 5, 2, 4, 4)
    assert Mod(numpy.uint64(10), 7) == x and x == numpy.int64(10) and numpy.int64(10) == x


def test_the_chinese_remainder_theorem():
    draw = random.Random(3)
    for moduli in ([3, 5, 7], [2**64 - 1, 2**64 - 3, 2**64 - 5], [1, 4, 9, 1], []):
        residues = [draw.randrange(-(2**80), 2**80) for _ in moduli]
        found = crt(residues, moduli)
        assert 0 <= found < math.prod(moduli) and all((found - it) % m == 0 for it, m in zip(residues, moduli))
        assert crt(iter(residues), iter(moduli)) == found
    bad = [(([1], [3, 5]), "moduli is 2, and that of residues 1"), (([1, 1], [3, 0]), "from 1 to 2"), (([1, 2], [6, 9]), "common divisor 3")]
    for words, fault in bad:
        with pytest.raises(ValueError, match=fault):
            crt(*words)
    for words in (({1}, [3]), ([1], {3}), ([1.0], [3])):
        with pytest.raises(TypeError):
            crt(*words)
