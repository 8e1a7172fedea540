"""Transforms, products and runs of commands on lists and on arrays that are changed in place."""
import array
import ctypes
import inspect
import random
import sys
import threading
import typing

import pytest

from num_modular import ErasureCode, Montgomery, NoInverseError, NoRootError, Plan, decode, encode, multiply

PRIMES = (193, 12289, 998244353, 4611686018326724609)


def transform(xs, root, m):
    return [sum(x * pow(root, i * j, m) for i, x in enumerate(xs)) % m for j in range(len(xs))]


def product(xs, ys, m, sign):
    sums = [0] * len(xs)
    for i, x in enumerate(xs):
        for j, y in enumerate(ys):
            sums[(i + j) % len(xs)] += x * y if i + j < len(xs) else sign * x * y
    return [it % m for it in sums]


@pytest.mark.parametrize("m", PRIMES)
def test_transforms_and_products(m):
    draw = random.Random(m)
    for n in (2, 4, 16, 32):
        xs, ys = ([draw.randrange(m) for _ in range(n)] for _ in range(2))
        plan, ring = Plan(m, n), Montgomery(m)
        assert (plan.modulus, plan.length, ring.modulus) == (m, n, m)
        assert plan.ntt(xs) == ring.ntt(xs) == ring.ntt(xs, plan.root - m) == transform(xs, plan.root, m)
        assert plan.intt(transform(xs, plan.root, m)) == Plan(m, 2 * n).intt(Plan(m, 2 * n).ntt(xs)) == xs
        assert ring.intt(transform(xs, plan.root, m)) == ring.intt([it - m for it in ring.ntt(xs)], plan.root - m) == xs
        assert plan.convolve(xs, ys) == ring.convolve(xs, ys) == product(xs, ys, m, 1)
        assert plan.convolve_negacyclic(xs, ys) == product(xs, ys, m, -1)
        assert plan.square(xs) == product(xs, xs, m, 1)
        assert Plan(m, 2 * n).convolve(xs, ys) == product(xs, ys, m, 1)


def remainders(xs, root, m, last):
    """Modulo X^last - c for all c, whose order is that of the bits reversed."""
    count = len(xs) // last
    order = [int(f"{j:b}".zfill(count.bit_length() - 1)[::-1] or "0", 2) for j in range(count)]
    return [sum(x * pow(root, last * j * k, m) for k, x in enumerate(xs[i::last])) % m for j in order for i in range(last)]


@pytest.mark.parametrize("m", PRIMES)
def test_remainders(m):
    draw = random.Random(m)
    for n in (2, 4, 16, 32):
        xs, plan = [draw.randrange(m) for _ in range(n)], Plan(m, n)
        for last in (it for it in (1, 2, 4, 8) if it < n):
            assert plan.split(xs, last=last) == remainders(xs, plan.root, m, last)
            assert plan.join(plan.split(xs, 0, last), 0, last) == xs
        if n > 2:
            half = xs[: n // 2]
            assert plan.split(half, 1, 1) == plan.split(half + [0] * (n // 2))[n // 2 :]
            assert plan.join(plan.split(half, 1, 1), 1, 1) == half


@pytest.mark.parametrize("m", PRIMES)
def test_lists_of_any_integers(m):
    xs, ys = [2**64, -(2**70), 4 * m, 5], [10**100, -(10**100), 4 * m - 1, 2**64 - 1]
    plan, ring, rest = Plan(m, 4), Montgomery(m), [it % m for it in xs]
    for call in (plan.ntt, plan.intt, plan.split, plan.join, plan.square, ring.ntt, ring.intt):
        assert call(xs) == call(rest)
    for call in (plan.convolve, plan.convolve_negacyclic, ring.convolve):
        assert call(xs, ys) == call(rest, [it % m for it in ys])
    assert ring.run(xs, [("load", 0, 10**100)]) == [10**100 % m, *rest[1:]]
    assert ring.ntt(rest, plan.root - 2**70 * m) == ring.ntt(rest, plan.root)


def arrays(words):
    yield array.array("Q", words)
    yield memoryview(array.array("Q", words))
    try:
        import numpy
    except ImportError:
        return
    yield numpy.array(words, dtype=numpy.uint64)


def test_arrays_are_changed_in_place():
    xs, ys = [1, 2, 3, 0], [4, 5, 0, 0]
    for call in (Montgomery(97).convolve, Plan(97, 4).convolve):
        for first, second in zip(arrays(xs), arrays(ys)):
            assert call(first, second) is first
            assert list(first) == [4, 13, 22, 15]
            assert list(second) != ys
        assert call(xs, ys) == [4, 13, 22, 15]
        assert (xs, ys) == ([1, 2, 3, 0], [4, 5, 0, 0])
    for words in arrays([1, 2, 3, 0]):
        assert Plan(97, 4).square(words) is words and list(words) == [10, 4, 10, 12]


@pytest.mark.parametrize("m", (1, 2, 97, 2**63 + 1, 2**64 - 1))
def test_operations_entry_by_entry(m):
    draw, ring = random.Random(m), Montgomery(m)
    for n in (0, 1, 5, 100):
        xs, ys = ([draw.choice([draw.getrandbits(64), 2**64 - 1, 0]) for _ in range(n)] for _ in range(2))
        wide = [it - draw.randrange(-(2**70), 2**70) * m for it in xs]
        factor = draw.getrandbits(70) - 2**69
        rows = (
            (ring.add_lists, ys, [(x + y) % m for x, y in zip(xs, ys)]),
            (ring.sub_lists, ys, [(x - y) % m for x, y in zip(xs, ys)]),
            (ring.multiply_lists, ys, [x * y % m for x, y in zip(xs, ys)]),
            (ring.scale_list, factor, [x * factor % m for x in xs]),
        )
        for call, other, wanted in rows:
            assert call(xs, other) == call(tuple(wide), other) == wanted
            for first, second in zip(arrays(xs), arrays(ys)):
                assert call(first, other if other is factor else second) is first and list(first) == wanted
                assert list(second) == ys
        for first, second in ((xs, ys), (wide, ys), *zip(arrays(xs), arrays(ys))):
            assert ring.dot_product(first, second) == sum(x * y for x, y in zip(xs, ys)) % m
            assert ring.dot_product(first, first) == sum(x * x for x in xs) % m
    with pytest.raises(ValueError, match="the lists have 1 and 2 words"):
        ring.add_lists([1], [1, 2])
    with pytest.raises(ValueError, match="the lists have 2 and 1 words"):
        ring.dot_product([1, 2], array.array("Q", [1]))
    words = array.array("Q", [1, 2])
    for call in (ring.add_lists, ring.sub_lists, ring.multiply_lists):
        with pytest.raises(ValueError, match="overlap"):
            call(words, words)


def test_empty_arrays():
    for xs in arrays([]):
        assert Montgomery(97).run(xs, []) is xs
        with pytest.raises(NoRootError):
            Montgomery(97).ntt(xs)
        with pytest.raises(ValueError, match="words is 0, not a power of two"):
            Plan(97, 4).ntt(xs)


def test_arrays_that_are_refused():
    ring = Montgomery(97)
    bad = [
        (TypeError, array.array("d", [0.0] * 8)),
        (TypeError, array.array("I", [0] * 8)),
        (TypeError, array.array("q", [0] * 8)),
        (TypeError, bytearray(64)),
        (TypeError, memoryview(bytearray(64)).cast("Q", (2, 4))),
        (ValueError, memoryview(bytes(64)).cast("Q")),
        (ValueError, memoryview(bytearray(128)).cast("Q")[::2]),
        (ValueError, (ctypes.py_object * 8)(*range(8))),
        (TypeError, 5),
        (TypeError, [1.5, 2]),
    ]
    for fault, xs in bad:
        with pytest.raises(fault):
            ring.ntt(xs, 1)
    with pytest.raises(TypeError, match=r"numpy.uint64 or array\('Q'\), or pass a list"):
        ring.ntt(array.array("q", [0] * 8))
    words = array.array("Q", [1] * 8)
    for xs, ys in ((words, words), (memoryview(words)[:4], memoryview(words)[3:7])):
        with pytest.raises(ValueError, match="overlap"):
            ring.convolve(xs, ys)


def test_kept_exceptions():
    xs, ys, ring, plan = array.array("Q", [400, 1, 2]), array.array("Q", [1, 2]), Montgomery(97), Plan(97, 4)
    calls = (
        lambda: ring.ntt(xs), lambda: plan.ntt(xs), lambda: ring.run(xs, [("inv", 3, 0)]), lambda: ring.run(xs, [("load", 0, 0), ("inv", 0, 0)]),
        lambda: ring.add_lists(xs, ys), lambda: ring.dot_product(xs, ys), lambda: ring.scale_list(xs, 1.5),
        lambda: ring.convolve(xs, ys), lambda: plan.convolve(xs, "no list"), lambda: plan.convolve(xs, array.array("Q", [1, 2, 3])),
    )
    kept = []
    for call in calls:
        with pytest.raises((TypeError, ValueError)) as fault:
            call()
        kept.append(fault)
        for words in (xs, ys):
            words.append(words.pop())  # BufferError: it is exported


def test_arrays_of_numpy_that_are_refused():
    numpy = pytest.importorskip("numpy")
    unaligned = numpy.frombuffer(bytearray(65), numpy.uint8)[1:].view(numpy.uint64)
    swapped = numpy.zeros(8, numpy.dtype(numpy.uint64).newbyteorder())
    read_only = numpy.zeros(8, numpy.uint64)
    read_only.flags.writeable = False
    for xs in (unaligned, swapped, read_only, numpy.zeros((2, 4), numpy.uint64), numpy.zeros(8)):
        with pytest.raises((TypeError, ValueError)):
            Montgomery(97).ntt(xs)
    for xs in (numpy.zeros(16, numpy.uint64)[::2], numpy.zeros(8, object)):
        with pytest.raises(ValueError):
            Montgomery(97).ntt(xs)


def test_roots_and_lengths():
    for n in (0, 3, 12, 2**64 - 1):
        with pytest.raises(NoRootError, match=f"^{n} isn't a power of two$"):
            Montgomery(97).find_root(n)
    for n in (64, 2**63):
        with pytest.raises(NoRootError, match=f"^no root for {n} words was found modulo 97$"):
            Montgomery(97).find_root(n)
    with pytest.raises(NoRootError):
        Montgomery(97).ntt([1, 2, 3])
    with pytest.raises(NoRootError):
        Montgomery(97).ntt([1, 2, 3, 4], 5)
    with pytest.raises(NoRootError):
        Montgomery(97).ntt([])
    with pytest.raises(NoRootError, match="5 doesn't suit 4 words"):
        Montgomery(97).intt([1, 2, 3, 4], 5)
    with pytest.raises(NoRootError, match="5 doesn't suit 4 words"):
        Montgomery(97).convolve([1, 2, 3, 4], [5, 6, 7, 8], 5)
    for m, n, root in ((97, 3, None), (97, 3, 5), (97, 8, 5), (97, 64, None), (97, 2**50, 5), (97, 2**63, None)):
        with pytest.raises(NoRootError):
            Plan(m, n, root)
    with pytest.raises(NoRootError, match="5 doesn't suit 8 words"):
        Plan(97, 8, 5)
    for m, n in ((97, 1), (97, -2), (97, 2**64), (0, 4), (-1, 4), ((1 << 62) + 1, 2)):
        with pytest.raises(ValueError, match="the modulus must be from 1 to 2.62|the number of words must be from 2 to 2"):
            Plan(m, n)
    for m in (0, -5, 2**64):
        with pytest.raises(ValueError, match="the modulus must be from 1 to 2.64 - 1"):
            Montgomery(m)
    for n in (-1, 2**64):
        with pytest.raises(ValueError, match="the number of words must be from 0"):
            Montgomery(97).find_root(n)
    plan, ones = Plan(10, 4, 3), [1] * 4
    without = [
        (lambda: Montgomery(4).convolve([1, 2], [3, 0], 3), 2),
        (lambda: Montgomery(20).intt([7, 9], 19), 2),
        (lambda: plan.intt(ones), 4),
        (lambda: plan.join(ones), 4),
        (lambda: plan.join(ones, 0, 2), 2),
        (lambda: plan.convolve(ones, ones), 4),
        (lambda: plan.square(ones), 4),
        (lambda: plan.convolve_negacyclic(ones, ones), 2),
    ]
    for call, number in without:
        with pytest.raises(NoInverseError, match=f"^{number} has no inverse modulo") as told:
            call()
        assert told.value.number == number
    plan = Plan(97, 4)
    for call in (Montgomery(97).convolve, plan.convolve, plan.convolve_negacyclic):
        for n, k in ((3, 2), (2, 3), (0, 1), (4, 8)):
            with pytest.raises(ValueError, match=f"{n} and {k} words"):
                call([1] * n, [1] * k)
    bad = [
        ([1, 2, 3], "is 3, not a power of two"),
        ([1] * 8, "^8 words don't fit the plan for 4$"),
        (array.array("Q", [1, 388]), "word 388 isn't below 388"),
    ]
    for xs, fault in bad:
        for call in (plan.ntt, plan.intt, plan.split, plan.join, plan.square):
            with pytest.raises(ValueError, match=fault):
                call(xs)
        for call in (plan.convolve, plan.convolve_negacyclic):
            for pair in ((xs, [1] * len(xs)), ([1] * len(xs), xs)):
                with pytest.raises(ValueError, match=fault.replace("not a power", "not (2 times )?a power")):
                    call(*pair)
    with pytest.raises(ValueError, match="is 1, not 2 times a power of two"):
        plan.convolve_negacyclic([1], [1])
    assert plan.convolve([2], [3]) == [6]
    for call in (plan.split, plan.join):
        for b, last, fault in ((2, 1, "4 words of block 2 don't"), (0, 3, "not 3 times a power"), (0, 0, "not 0 times a power")):
            with pytest.raises(ValueError, match=fault):
                call([1, 2, 3, 4], b, last)
        for b, last, fault in ((-1, 1, "^b must be"), (2**64, 1, "^b must be"), (0, -1, "^last must be")):
            with pytest.raises(ValueError, match=fault):
                call([1, 2, 3, 4], b, last)


def test_runs():
    ring = Montgomery(21)
    commands = [("load", 0, 5), ("load", 1, 7), ("inv", 2, 0), ("inv", 0, 1), ("add", 0, 0, 1)]
    with pytest.raises(NoInverseError) as told:
        ring.run([0] * 3, commands)
    assert (told.value.at, told.value.registers, told.value.number) == (3, [5, 7, 17], 7)
    for words in ([0, 14], array.array("Q", [0, 14])):
        with pytest.raises(NoInverseError, match="^14 has no inverse modulo 21 in command 1$") as told:
            ring.run(words, [("load", 0, 30), ("div", 0, 0, 1)])
        assert (told.value.at, list(told.value.registers), told.value.number) == (1, [9, 14], 14)
    words = array.array("Q", [30, 0])
    assert ring.run(words, [("sqr", 0, 0), ("pow", 1, 0, 3), ("neg", 1, 1), ("sub", 0, 1, 0)]) is words
    assert list(words) == [(-(81**3) - 81) % 21, -(81**3) % 21]
    assert ring.run([0], [("load", 0, -1)]) == [20]
    for command, fault in (
        (("pop", 0), r"^command 1, \('pop', 0\): there is no operation 'pop'$"),
        (("add", 0, 1), r"^command 1, \('add', 0, 1\), must be \('add', dst, a, b\)$"),
        (("add", 0, 1, 7), "^command 1 names register 7, but there are 2 registers, counted from 0$"),
        (("load", 9, 1), "^command 1 names register 9, but"),
        (("load", -1, 1), "^command 1 names register -1, but there are 2 registers, counted from 0$"),
        (("sqr", 0, 2**64), "^command 1 names register 18446744073709551616, but"),
        (("pow", 0, 1, -(2**64)), r"^the exponent of command 1 must be between -2\^64 and 2\^64$"),
    ):
        with pytest.raises(ValueError, match=fault):
            ring.run([0, 0], [("load", 1, 3), command])
    assert ring.run([5, 2], [("pow", 0, 0, -3), ("pow", 1, 0, 0)]) == [pow(5, -3, 21), 1]
    with pytest.raises(NoInverseError, match="^14 has no inverse modulo 21 in command 2$") as told:
        ring.run([5, 14], [("pow", 0, 0, -1), ("pow", 0, 0, -1), ("pow", 0, 1, -2), ("load", 0, 0)])
    assert (told.value.at, told.value.registers, told.value.number) == (2, [5, 14], 14)


def test_sets_are_refused():
    code, words = ErasureCode(97, range(4)), {1, 2, 3, 4}
    for call in (Montgomery(97).ntt, Plan(97, 4).ntt, code.encode, lambda it: multiply(it, [1], 97), lambda it: Montgomery(97).run(it, []),
                 lambda it: ErasureCode(97, it), lambda it: encode(it, 5), lambda it: decode([5, 7], it)):
        for it in (words, frozenset(words), dict.fromkeys(words).keys()):
            with pytest.raises(TypeError, match="^a set has no order: pass a list$"):
                call(it)


def test_types():
    """A list is typed as returning a list, and an array as returning itself, by each call that takes both."""
    if sys.version_info < (3, 11):
        pytest.skip("typing.get_overloads is of Python 3.11")
    calls = [call for kind in (Montgomery, Plan) for name, call in vars(kind).items() if not name.startswith("_")]
    named = [call for call in calls if getattr(call, "__annotations__", {}).get("return") == "Any"]
    assert len(named) == 15
    for call in named:
        array_kind, list_kind = (list(it.__annotations__.values()) for it in typing.get_overloads(call))
        assert (array_kind[0], array_kind[-1]) == ("Array", "Array")
        assert (list_kind[0], list_kind[-1]) == ("Sequence[int]", "list[int]")
        assert array_kind[1:-1] == list_kind[1:-1]
        names = [list(inspect.signature(it).parameters) for it in (call, *typing.get_overloads(call))]
        assert names[0] == names[1] == names[2]


def test_a_plan_over_an_even_modulus():
    plan = Plan(2, 2)
    assert (plan.ntt([1, 1]), plan.intt([1]), plan.convolve([1], [1])) == ([0, 0], [1], [1])
    for call in (plan.intt, lambda xs: plan.convolve(xs, xs)):
        with pytest.raises(NoInverseError, match="^2 has no inverse modulo 2$"):
            call([1, 1])


def test_threads_share_a_plan():
    plan, n = Plan(998244353, 1024), 1024
    wanted, found = plan.ntt(list(range(n))), [None] * 8

    def work(place):
        found[place] = [plan.ntt(list(range(n))) for _ in range(20)]

    threads = [threading.Thread(target=work, args=(place,)) for place in range(8)]
    for it in threads:
        it.start()
    for it in threads:
        it.join()
    assert found == [[wanted] * 20] * 8
