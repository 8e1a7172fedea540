"""Products of polynomials and transforms of any length, beside sums by Python's integers."""
import array
import math
import random

import pytest

from num_modular import (
    NoInverseError,
    NoRootError,
    multiply,
    multiply_cyclic,
    multiply_negacyclic,
    square,
    transform,
    transform_find_root,
    transform_inverse,
    transform_root_fits,
)


MODULI = (1, 2, 97, 10**9 + 7, 2**63 - 25, 2**64 - 1)


def sums(xs, ys, m):
    """The coefficients of the product."""
    found = [0] * (len(xs) + len(ys) - 1 if xs and ys else 0)
    for i, x in enumerate(xs):
        for j, y in enumerate(ys):
            found[i + j] += x * y
    return [it % m for it in found]


@pytest.mark.parametrize("m", MODULI)
def test_products(m):
    draw = random.Random(m)
    for n, k in ((0, 0), (0, 3), (3, 0), (1, 1), (3, 4), (50, 7), (199, 200), (200, 300)):
        xs, ys = ([draw.randrange(-m, m) for _ in range(it)] for it in (n, k))
        assert multiply(xs, ys, m) == sums(xs, ys, m)
    xs, ys = [2**64 - 1, 2**64, -(2**70)], [2**100, 2**64 - 1]
    assert multiply(iter(xs), iter(ys), m) == sums(xs, ys, m)


@pytest.mark.parametrize("m", MODULI)
def test_squares_and_products_of_n_coefficients(m):
    draw = random.Random(m)
    for n in (0, 1, 2, 3, 50, 199, 200, 257):
        xs, ys = ([draw.randrange(-m, 2**70) for _ in range(n)] for _ in range(2))
        assert square(xs, m) == sums(xs, xs, m)
        long = sums(xs, ys, m) + [0]
        for call, sign in ((multiply_cyclic, 1), (multiply_negacyclic, -1)):
            assert call(xs, ys, m) == [(low + sign * high) % m for low, high in zip(long, long[n:] + [0] * n)][:n]


def test_what_is_no_polynomial():
    for m in (0, -1, 2**64):
        with pytest.raises(ValueError):
            square([1], m)
        for call in (multiply, multiply_cyclic, multiply_negacyclic):
            with pytest.raises(ValueError):
                call([1], [1], m)
    with pytest.raises(TypeError):
        multiply([1.5], [2], 5)
    for call in (multiply_cyclic, multiply_negacyclic):
        with pytest.raises(ValueError, match="2 and 3 words"):
            call([1, 2], [1, 2, 3], 97)


def test_polynomials_in_arrays():
    xs, ys = array.array("Q", [1, 2, 3]), array.array("Q", [4, 5, 6, 7])
    assert multiply(xs, ys, 10**9 + 7) == [4, 13, 28, 34, 32, 21]
    assert multiply(xs, array.array("Q"), 5) == []
    numpy = pytest.importorskip("numpy")
    assert multiply(numpy.array(xs, numpy.uint64), numpy.array(ys, numpy.uint64), 97) == [4, 13, 28, 34, 32, 21]
    assert multiply(numpy.array([-1, 2]), [2**64, 1], numpy.uint64(97)) == multiply([-1, 2], [2**64, 1], 97)
    assert transform(numpy.array([-1, 2]), numpy.int64(-2), numpy.uint64(97)) == [1, (-1 - 4) % 97]


@pytest.mark.parametrize("m", MODULI)
def test_transforms(m):
    draw = random.Random(m)
    for n in (0, 1, 2, 5, 6, 7, 30, 67, 210):
        xs, g = [draw.randrange(-m, 2**70) for _ in range(n)], draw.randrange(-(2**70), 2**70)
        while math.gcd(g, m) > 1:
            g += 1
        for call, power in ((transform, 1), (transform_inverse, -1)):
            if power < 0 and math.gcd(n, m) > 1:
                with pytest.raises(NoInverseError):
                    call(xs, g, m)
                continue
            root, scale = pow(g, power, m), pow(n, -1, m) if power < 0 else 1
            assert call(xs, g, m) == [scale * sum(x * pow(root, i * j, m) for i, x in enumerate(xs)) % m for j in range(n)]


def test_roots_of_unity():
    draw = random.Random(7)
    for m in (1, 2, 7, 15, 31, 91):
        for n in range(12):
            for g in range(-3, m):
                fits = n > 0 and pow(g, n, m) == 1 % m and all(math.gcd(pow(g, d, m) - 1, m) == 1 for d in range(1, n))
                assert transform_root_fits(g, n, m) is fits
                if fits:
                    xs = [draw.randrange(m) for _ in range(n)]
                    assert transform_inverse(transform(xs, g, m), g, m) == xs
    assert transform_root_fits(2**70, 1, 1)
    for m in (7, 31, 97, 1009, 1025):
        for n in range(1, 40):
            roots = (pow(x, (m - 1) // n, m) for x in range(2, 256))
            found = next((it for it in roots if transform_root_fits(it, n, m)), None)
            if found is None:
                with pytest.raises(NoRootError, match=f"^no root of order {n} modulo {m} was found$"):
                    transform_find_root(n, m)
            else:
                assert transform_find_root(n, m) == found
    # these would take centuries
    assert transform_root_fits(5, 2**64 - 1, 1) and not transform_root_fits(1, 2**64 - 1, 7)
    assert not transform_root_fits(3, 2**63, 2**62 - 57)


def test_what_is_no_transform():
    for call, g, m, number in ((transform, -6, 9, -6), (transform_inverse, 3, 9, 3), (transform_inverse, 3, 4, 2)):
        with pytest.raises(NoInverseError, match=f"^{number} has no inverse modulo {m}$") as told:
            call([1, 2], g, m)
        assert told.value.number == number
    for call in (transform, transform_inverse):
        with pytest.raises(TypeError):
            call([1, 2], 2.0, 9)
    for call, words in ((transform, ([1], 1)), (transform_inverse, ([1], 1)), (transform_root_fits, (1, 1)),
                        (transform_find_root, (1,))):
        for m in (0, -1, 2**64):
            with pytest.raises(ValueError):
                call(*words, m)
    for n in (-1, 2**64):
        with pytest.raises(ValueError, match="the order must be from 0"):
            transform_root_fits(1, n, 5)
        with pytest.raises(ValueError, match="the order must be from 0"):
            transform_find_root(n, 5)
