"""Numbers that aren't integers are refused by every call, and never rounded."""
from fractions import Fraction

import pytest

from num_modular import (
    Divider,
    ErasureCode,
    Montgomery,
    Plan,
    PrefixHashes,
    addm,
    decode,
    encode,
    extend,
    find,
    find_all,
    invm,
    invm_secret,
    jacobi,
    kronecker,
    legendre,
    mulm,
    multiply,
    multiply_cyclic,
    multiply_negacyclic,
    polynomial_hash,
    powm,
    powm_secret,
    product,
    square,
    subm,
    transform,
    transform_inverse,
    transform_root_fits,
)

RING, PLAN, CODE, TEXT = Montgomery(97), Plan(97, 4), ErasureCode(929, [1, 2]), PrefixHashes(b"abc", 5)
# Each call with right numbers, and each of these in turn as a fraction.
CALLS = [
    (addm, 1, 2, 7),
    (subm, 1, 2, 7),
    (mulm, 1, 2, 7),
    (powm, 3, 2, 7),
    (powm, 3, -2, 7),
    (invm, 3, 7),
    (powm_secret, 3, 2, 7, 2),
    (invm_secret, 3, 7),
    (jacobi, 2, 7),
    (legendre, 2, 7),
    (kronecker, 2, 7),
    (kronecker, -2, -7),
    (Divider, 7),
    (Divider(7).divmod, 20),
    (Montgomery, 97),
    (RING.pow, 3, 5),
    (RING.find_root, 8),
    (lambda x, root: RING.ntt([x, 1], root), 5, 96),
    (lambda x, root: RING.intt([x, 1], root), 5, 96),
    (lambda x, y, root: RING.convolve([x, 1], [2, y], root), 5, 6, 96),
    (lambda n: RING.run([n], []), 5),
    (lambda at, n: RING.run([0], [("load", at, n)]), 0, 5),
    (lambda at, a, n: RING.run([5], [("pow", at, a, n)]), 0, 0, 5),
    (Plan, 97, 4),
    (Plan, 97, 4, 22),
    (lambda x: PLAN.ntt([x, 1]), 5),
    (lambda b, last: PLAN.split([1, 2], b, last), 0, 1),
    (lambda b, last: PLAN.join([1, 2], b, last), 0, 1),
    (lambda x, y: PLAN.convolve([x, 1], [2, y]), 5, 6),
    (lambda m, point: ErasureCode(m, [point]), 929, 5),
    (lambda x: CODE.encode([x]), 5),
    (lambda place, symbol, k: CODE.restore({place: symbol}, k), 1, 5, 1),
    (lambda place, symbol, k: CODE.correct({place: symbol}, k), 1, 5, 1),
    (CODE.share, 5, 2),
    (product, 3, 5),
    (lambda m, x: encode([m], x), 7, 5),
    (lambda m, x: decode([m], [x]), 7, 5),
    (lambda m, x, other: extend([m], [x], [other]), 7, 5, 3),
    (polynomial_hash, b"abc", 5),
    (lambda text, pattern, base: find(text, pattern, base=base), b"abc", b"b", 5),
    (lambda text, patterns, base: find_all(text, patterns, base=base), b"abc", [b"b"], 5),
    (PrefixHashes, b"abc", 5),
    (TEXT.hash, 1, 2),
    (lambda x, y, m: multiply([x], [y], m), 3, 5, 7),
    (lambda x, y, m: multiply_cyclic([x], [y], m), 3, 5, 7),
    (lambda x, y, m: multiply_negacyclic([x], [y], m), 3, 5, 7),
    (lambda x, m: square([x], m), 3, 7),
    (lambda x, g, m: transform([x], g, m), 3, 5, 7),
    (lambda x, g, m: transform_inverse([x], g, m), 3, 5, 7),
    (transform_root_fits, 2, 3, 7),
]


@pytest.mark.parametrize("call, numbers", [(call, numbers) for call, *numbers in CALLS])
def test_fractions(call, numbers):
    call(*numbers)
    for place, number in enumerate(numbers):
        if isinstance(number, int):
            for bad in (number + Fraction(1, 2), Fraction(number)):
                with pytest.raises(TypeError):
                    call(*numbers[:place], bad, *numbers[place + 1 :])
