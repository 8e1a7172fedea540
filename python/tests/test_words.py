"""Operations on integers, beside Python's own."""
import math
import random

import pytest

import num_modular
from num_modular import (
    Divider,
    Montgomery,
    NoInverseError,
    addm,
    invm,
    invm_secret,
    jacobi,
    kronecker,
    legendre,
    mulm,
    powm,
    powm_secret,
    subm,
)
from num_modular._library import lib

TOP = 1 << 64


def test_versions():
    major, minor, _ = map(int, num_modular.__version__.split("."))
    assert (major, minor) == divmod(lib.nm_version() // 100, 100)


def cases(count):
    """Operands, some of them negative or at an edge, exponents and moduli of all lengths."""
    draw = random.Random(1)
    edges = [0, 1, 2, TOP - 2, TOP - 1]
    for _ in range(count):
        a, b = (draw.choice([draw.getrandbits(64), -draw.getrandbits(70), *edges]) for _ in range(2))
        yield a, b, draw.getrandbits(draw.randrange(65)), draw.getrandbits(draw.randrange(1, 65)) or 1
    yield from ((a, b, e, m) for a in edges for b in edges for e in edges for m in (1, 2, TOP - 2, TOP - 1))


def test_operations():
    for a, b, e, m in cases(3000):
        assert (addm(a, b, m), subm(a, b, m), mulm(a, b, m)) == ((a + b) % m, (a - b) % m, a * b % m)
        assert powm(a, e, m) == pow(a, e, m) == Montgomery(m).pow(a, e)
        assert powm_secret(a, e, m) == powm_secret(a, e, m, bits=e.bit_length()) == pow(a, e, m)


def test_inverses():
    for a, _, e, m in cases(2000):
        if math.gcd(a, m) == 1:
            assert invm(a, m) == pow(a, -1, m)
            assert powm(a, -e, m) == Montgomery(m).pow(a, -e) == pow(a, -e, m)
        else:
            for call in (lambda: invm(a, m), lambda: powm(a, -1, m), lambda: Montgomery(m).pow(a, -1)):
                with pytest.raises(NoInverseError) as told:
                    call()
                assert (told.value.number, told.value.at, told.value.registers) == (a, None, None)


def test_secret_inverses():
    for a, _, _, m in cases(2000):
        if m % 2 == 0:
            with pytest.raises(ValueError, match="^m must be odd$"):
                invm_secret(a, m)
        elif math.gcd(a, m) == 1:
            assert invm_secret(a, m) == pow(a, -1, m)
        else:
            with pytest.raises(NoInverseError) as told:
                invm_secret(a, m)
            assert told.value.number == a


def test_long_numbers_without_an_inverse():
    for a in (21 * 10**9000 + 6, 6 - 21 * 10**9000):
        with pytest.raises(NoInverseError, match="^6 has no inverse modulo 21$") as told:
            invm(a, 21)
        assert told.value.number == a


def test_symbols():
    assert [jacobi(a, 15) for a in range(-1, 5)] == [-1, 0, 1, 1, 0, 1]
    assert [legendre(a, 7) for a in range(7)] == [0, 1, 1, -1, 1, -1, -1]
    assert [kronecker(*it) for it in ((-1, 0), (3, -128), (-3, -128), (-10, -11), (TOP - 2, TOP - 1))] == [1, -1, 1, -1, -1]
    for a in (10**100, -(10**9000)):
        assert jacobi(a, 97) == legendre(a, 97) == legendre(a % 97, 97)
    bad = [
        (jacobi, 3, 8, "n must be odd"),
        (jacobi, 3, 0, "n must be from 1"),
        (jacobi, 3, TOP + 1, "n must be from 1"),
        (legendre, 2, 9, "^9 is no odd prime: a to the power 4 is none of 0, 1 and 8$"),
        (legendre, 2, 15, "^15 is no odd prime: a to the power 7 is none of 0, 1 and 14$"),
        (legendre, 3, 0, "p must be from 1"),
        (kronecker, TOP, 3, "a and n must be"),
        (kronecker, TOP // 2, -3, "a and n must be"),
    ]
    for symbol, a, n, fault in bad:
        with pytest.raises(ValueError, match=fault):
            symbol(a, n)


@pytest.mark.parametrize("call", [addm, subm, mulm, powm, powm_secret])
def test_out_of_range(call):
    for m in (0, TOP, -5):
        with pytest.raises(ValueError, match="^the modulus must be from 1 to 2.64 - 1$"):
            call(3, 2, m)
    with pytest.raises(TypeError):
        call(3.0, 2, 5)
    for a in (TOP, 10**100, -(10**100)):
        assert call(a, 2, 97) == call(a % 97, 2, 97)


def test_numbers_of_numpy():
    numpy = pytest.importorskip("numpy")
    for m in (numpy.uint64(97), numpy.int64(97), numpy.uint64(TOP - 59)):
        for a in (numpy.int64(-5), numpy.uint64(TOP - 1), numpy.int8(-128)):
            assert mulm(a, a, m) == int(a) ** 2 % int(m)
            assert powm(a, numpy.int64(-3), m) == pow(int(a), -3, int(m))
    assert Divider(numpy.uint64(7)).divmod(numpy.uint64(TOP - 1)) == divmod(TOP - 1, 7)


def test_exponents_out_of_range():
    for exponent in (TOP, -TOP, -TOP - 1):
        for call in (lambda: powm(3, exponent, 7), lambda: Montgomery(7).pow(3, exponent)):
            with pytest.raises(ValueError, match="^the exponent must be between"):
                call()
    for exponent, bits in ((-1, 64), (TOP, 64), (8, 3), (1, 0), (1, -1), (1, 65)):
        with pytest.raises(ValueError, match="^bits must be from 0 to 64, and the exponent from 0 to 2.bits - 1$"):
            powm_secret(3, exponent, 7, bits=bits)
    for call in (lambda: powm(3, "2", 7), lambda: Montgomery(7).pow(3, "2"), lambda: kronecker("3", 5)):
        with pytest.raises(TypeError, match="cannot be interpreted as an integer"):
            call()


def test_division():
    draw = random.Random(2)
    for _ in range(2000):
        d = draw.getrandbits(draw.randrange(1, 65)) or 1
        n = draw.randrange(d << 64)
        assert Divider(d).divmod(n) == divmod(n, d)
        assert Divider(d).divmod(-n - 1) == divmod(-n - 1, d)
    for n in (7 << 64, -(7 << 64) - 1, 1 << 128):
        with pytest.raises(ValueError, match=r"^the dividend must be from -2\^64 \* 7 to 2\^64 \* 7 - 1$"):
            Divider(7).divmod(n)
    for d in (0, -1, TOP):
        with pytest.raises(ValueError, match="the divisor must be from 1 to"):
            Divider(d)
