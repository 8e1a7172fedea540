"""Products of long numbers and residue systems, beside Python's own."""
import math
import random

import pytest

from num_modular import decode, encode, extend, product


def test_products():
    draw = random.Random(3)
    for bits in (0, 1, 63, 64, 65, 1000, 25599, 25600, 26000, 100000):
        for others in (0, 1, 64, 26000, 70000):
            a, b = draw.getrandbits(bits), draw.getrandbits(others)
            assert (product(a, b), product(-a, b), product(a, -b), product(-a, -b)) == (a * b, -a * b, -a * b, a * b)
    n = (1 << 60000) - 1
    assert product(n, n) == n * n
    with pytest.raises(TypeError):
        product(1.5, 2)


def test_residue_systems():
    draw = random.Random(7)
    primes = [n for n in range(2, 1000) if all(n % d for d in range(2, n))]
    for moduli in ([2**64 - 59, 2**63 - 25], [2**64 - 1, 2**64 - 3, 2**64 - 5], [1, 4, 9, 1], primes):
        others = [draw.getrandbits(64) | 1 for _ in range(20)] + moduli
        for x in (0, 1, draw.randrange(math.prod(moduli)), math.prod(moduli) - 1):
            x %= math.prod(moduli)
            assert encode(moduli, x) == [x % m for m in moduli]
            assert decode(moduli, encode(moduli, x)) == decode(iter(moduli), iter(encode(moduli, x))) == x
            assert extend(moduli, encode(moduli, x), others) == encode(others, x)
            assert encode(moduli, x - math.prod(moduli)) == encode(moduli, x)
    assert decode([], []) == 0
    assert (extend([], [], [5, 7]), extend([3], [2], [])) == ([0, 0], [])


def test_what_is_no_residue_system():
    bad = [
        (([3, 5], [1]), "moduli is 2, and that of residues 1"),
        (([3, 0], [1, 0]), "the modulus must be from 1 to 2"),
        (([3, -1], [1, 0]), "the modulus must be from 1 to 2"),
        (([3, 2**64], [1, 0]), "the modulus must be from 1 to 2"),
        (([3, 5], [-1, 1]), "residue -1 modulo 3 must be from 0 to 2"),
        (([3, 5], [1, 2**70]), "modulo 5 must be from 0 to 4"),
        (([5, 9, 7, 15], [1, 1, 1, 1]), "5 and 15 have the common divisor 5"),
        (([3, 5], [3, 1]), "residue 3 modulo 3 must be from 0 to 2"),
    ]
    for words, fault in bad:
        for call, more in ((decode, ()), (extend, ([2],))):
            with pytest.raises(ValueError, match=fault):
                call(*words, *more)
    for other in (0, -1, 2**64):
        with pytest.raises(ValueError, match="each of the others must be from 1 to 2"):
            extend([3], [2], [5, other])
    with pytest.raises(ValueError):
        encode([0], 1)
