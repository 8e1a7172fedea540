"""Objects as values: equality, hashes, copies, pickles and texts by the arguments of the constructor."""
import array
import copy
import pickle

import pytest

from num_modular import Corrector, Divider, ErasureCode, Mod, Montgomery, Plan, PrefixHashes

# Each object of the row is equal to the others, and to none of another row; the text of the first.
ROWS = [
    ((Divider(7), Divider(7)), "Divider(7)"),
    ((Divider(97), Divider(97)), "Divider(97)"),
    ((Mod(3, 98), Mod(101, 98)), "Mod(3, 98)"),
    ((Mod(3, 99), Mod(-96, 99)), "Mod(3, 99)"),
    ((Montgomery(97), Montgomery(97)), "Montgomery(97)"),
    ((Montgomery(98), Montgomery(98)), "Montgomery(98)"),
    ((Plan(97, 8), Plan(97, 8, 64), Plan(97, 8, 64 - 97), Plan(97, 8, 64 + 97)), "Plan(97, 8, 64)"),
    ((Plan(97, 4), Plan(97, 4)), "Plan(97, 4, 22)"),
    ((Plan(97, 8, 33), Plan(97, 8, 33)), "Plan(97, 8, 33)"),
    ((ErasureCode(97, range(3)), ErasureCode(97, [97, 1, -95])), "ErasureCode(97, (0, 1, 2))"),
    ((ErasureCode(97, [1, 0, 2]), ErasureCode(97, [1, 0, 2])), "ErasureCode(97, (1, 0, 2))"),
    ((ErasureCode(101, range(3)), ErasureCode(101, range(3))), "ErasureCode(101, (0, 1, 2))"),
    ((Corrector(97, range(3), 1), Corrector(97, [97, 1, -95], 1)), "Corrector(97, (0, 1, 2), 1, False)"),
    ((Corrector(97, range(3), 1, True), Corrector(97, range(3), 1, table=True)), "Corrector(97, (0, 1, 2), 1, True)"),
    ((Corrector(97, range(3), 2), Corrector(97, range(3), 2)), "Corrector(97, (0, 1, 2), 2, False)"),
    ((PrefixHashes(b"abc", 5), PrefixHashes(bytearray(b"abc"), 2**61 + 4)), "<PrefixHashes of 3 bytes at the base 5>"),
    ((PrefixHashes(b"abd", 5), PrefixHashes(b"abd", 5)), "<PrefixHashes of 3 bytes at the base 5>"),
    ((PrefixHashes(b"abc", 6), PrefixHashes(b"abc", 6)), "<PrefixHashes of 3 bytes at the base 6>"),
]


def test_equality():
    for place, (alike, text) in enumerate(ROWS):
        assert repr(alike[0]) == text
        for one in alike:
            for other in alike:
                assert one == other and not one != other and hash(one) == hash(other)
            assert one != text and one != 97
            for others, _ in ROWS[:place] + ROWS[place + 1 :]:
                assert one != others[0]
    assert len({it for alike, _ in ROWS for it in alike}) == len(ROWS)


def test_copies():
    for (it, *_), _ in ROWS:
        for copied in (copy.copy(it), copy.deepcopy(it), *(pickle.loads(pickle.dumps(it, level)) for level in range(6))):
            assert copied == it and type(copied) is type(it)
    assert pickle.loads(pickle.dumps(Plan(97, 8))).ntt([1] * 8) == [8] + [0] * 7
    text = bytearray(b"abc")
    hashes = PrefixHashes(text)
    text[0] += 1
    assert copy.copy(hashes).hash(0, 3) == hashes.hash(0, 3)
    assert PrefixHashes(array.array("I", [0x01020304]), 5) == PrefixHashes(array.array("I", [0x01020304]).tobytes(), 5)


def test_a_divider_as_the_right_operand():
    for n in (0, 6, 100, 2**66, -1, -7, -8, -(7 << 64)):
        assert (divmod(n, Divider(7)), n // Divider(7), n % Divider(7)) == (divmod(n, 7), n // 7, n % 7)
    for n, fault in ((-(7 << 64) - 1, ValueError), (7 << 64, ValueError), (1.0, TypeError)):
        for call in (lambda: divmod(n, Divider(7)), lambda: n // Divider(7), lambda: n % Divider(7)):
            with pytest.raises(fault):
                call()


def test_a_divider_as_the_right_operand_of_numpy():
    numpy = pytest.importorskip("numpy")
    n = numpy.uint64(2**64 - 1)
    assert (n // Divider(7), n % Divider(7), divmod(n, Divider(7))) == (*divmod(2**64 - 1, 7), divmod(2**64 - 1, 7))
