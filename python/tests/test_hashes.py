"""Hashes and searches, beside Python's integers and its own searches."""
import array
import ctypes
import random

import pytest

from num_modular import PrefixHashes, find, find_all, polynomial_hash

MODULUS = (1 << 61) - 1


def test_hashes():
    draw = random.Random(5)
    for n in (0, 1, 2, 17, 1000):
        data, base = draw.randbytes(n), draw.choice([1, -1]) * draw.getrandbits(draw.choice([10, 64, 200]))
        want = 0
        for it in data:
            want = (want * base + it) % MODULUS
        assert polynomial_hash(data, base) == polynomial_hash(bytearray(data), base) == want
    assert polynomial_hash(b"ab", -1) == (ord("b") - ord("a")) % MODULUS
    words = array.array("I", [0x01020304, 0x05060708])
    assert polynomial_hash(words, 1000) == polynomial_hash(words.tobytes(), 1000)
    assert find(words, words.tobytes()[5:]) == 5
    for call in (lambda: polynomial_hash("ab", 5), lambda: find("ab", b"a"), lambda: PrefixHashes("ab")):
        with pytest.raises(TypeError, match="^the text must be bytes-like: encode str first$"):
            call()
    with pytest.raises(TypeError, match="^the pattern must be bytes-like: encode str first$"):
        find(b"ab", "a")
    for call in (find, find_all):  # where bytes.find has its start
        with pytest.raises(TypeError, match="positional"):
            call(b"abc", [b"a"], 5)
    for data, base in (("ab", 5), ([1, 2], 5), (b"ab", 5.0), (b"ab", None)):
        with pytest.raises(TypeError):
            polynomial_hash(data, base)


def test_buffers_that_are_refused():
    spread, objects = memoryview(b"abcdef")[::2], (ctypes.py_object * 2)("a", "b")
    calls = {
        "the text": (lambda it: polynomial_hash(it, 5), lambda it: find(it, b"a"), lambda it: find_all(it, [b"a"]), PrefixHashes),
        "the pattern": (lambda it: find(b"ab", it),),
        "each pattern": (lambda it: find_all(b"ab", [it]),),
    }
    for name, call in ((name, call) for name, listed in calls.items() for call in listed):
        with pytest.raises(ValueError, match=f"^{name} must be contiguous$"):
            call(spread)
        with pytest.raises(ValueError, match=f"^{name} must not hold objects$"):
            call(objects)
    text, kept = bytearray(b"ab"), []
    for call in (lambda: find(text, "a"), lambda: find_all(text, ["a"]), lambda: find_all(text, [b"a", b"ab"])):
        with pytest.raises((TypeError, ValueError)) as fault:
            call()
        kept.append(fault)
        text.append(text.pop())  # BufferError: it is exported


def test_search():
    draw = random.Random(6)
    for _ in range(500):
        text = bytes(draw.choice(b"ab") for _ in range(draw.randrange(60)))
        pattern = bytes(draw.choice(b"ab") for _ in range(draw.randrange(6)))
        for base in (None, 0, 1000, 2**64, -(2**70)):
            assert find(text, pattern, base=base) == text.find(pattern)


def test_searches_for_several_patterns():
    draw = random.Random(8)
    for _ in range(500):
        text = bytes(draw.choice(b"ab") for _ in range(draw.randrange(40)))
        size = draw.randrange(5)
        patterns = [bytes(draw.choice(b"ab") for _ in range(size)) for _ in range(draw.randrange(5))]
        want = {}
        for at in range(len(text) - size + 1):
            if text[at : at + size] in patterns:
                want[at] = patterns.index(text[at : at + size])
        for base in (None, 0, 1000, 2**64, -(2**70)):
            assert find_all(text, patterns, base=base) == want
    assert find_all(bytearray(b"xyx"), [memoryview(b"x")]) == {0: 0, 2: 0}
    for call in (lambda: find(b"abcb", b"b", 2), lambda: find_all(b"abcb", [b"b"], 2)):  # 2 isn't where to begin
        with pytest.raises(TypeError):
            call()
    with pytest.raises(ValueError, match="same length"):
        find_all(b"abc", [b"a", b"ab"])
    with pytest.raises(TypeError, match="^each pattern must be bytes-like: encode str first$"):
        find_all(b"abc", ["ab"])
    for patterns in (b"ab", 5):
        with pytest.raises(TypeError):
            find_all(b"abc", patterns)


def test_hashes_of_parts():
    draw = random.Random(9)
    for base in (None, 0, 1, 2**61 - 1, 2**70, -5):
        text = draw.randbytes(draw.randrange(30))
        hashes = PrefixHashes(text, base)
        assert base is None or hashes.base == base % MODULUS
        for start in range(len(text) + 1):
            for stop in range(start, len(text) + 1):
                assert hashes.hash(start, stop) == polynomial_hash(text[start:stop], hashes.base)
        for start, stop in ((1, 0), (0, len(text) + 1), (-3, -1), (-1, 0), (0, 2**64)):
            with pytest.raises(IndexError, match=f"^the text of {len(text)} bytes has no part from {start} to {stop}$"):
                hashes.hash(start, stop)
