"""Erasure codes and secret sharing, beside sums of powers by Python's integers."""
import itertools
import math
import random

import pytest

from num_modular import Corrector, ErasureCode, NoInverseError, PointsError, TooFewSymbolsError, TooManyErrorsError

PRIMES = (2, 7, 929, 2**61 - 1, 18446744073709551557)


def word_of(message, points, m):
    return [sum(it * x**j for j, it in enumerate(message)) % m for x in points]


@pytest.mark.parametrize("m", PRIMES)
def test_words_and_messages(m):
    draw = random.Random(m)
    for _ in range(40):
        n = draw.randrange(1, min(m, 9) + 1)
        k = draw.randrange(1, n + 1)
        points = draw.sample(range(min(m, 1000)), n)
        message = [draw.randrange(m) for _ in range(k)]
        code, word = ErasureCode(m, points), word_of(message, points, m)
        assert (code.modulus, code.points) == (m, points)
        assert code.encode(message) == word
        for kept in itertools.islice(itertools.combinations(range(n), k), 20):
            assert code.restore([word[i] if i in kept else None for i in range(n)], k) == message
            assert code.restore({i: word[i] for i in reversed(kept)}, k) == message


@pytest.mark.parametrize("m", PRIMES[2:])
def test_wrong_symbols(m):
    draw = random.Random(m)
    for _ in range(100):
        n, k = draw.choice([(7, 3), (10, 4), (5, 5), (12, 1)])
        points = draw.sample(range(m), n) if m < 1000 else draw.sample(range(10**6), n)
        message = [draw.randrange(m) for _ in range(k)]
        code, word = ErasureCode(m, points), word_of(message, points, m)
        lost = draw.randrange(n - k + 1)
        wrong = draw.randrange((n - k - lost) // 2 + 1)
        places = draw.sample(range(n), lost + wrong)
        received = list(word)
        for i in places[:lost]:
            received[i] = None
        for i in places[lost:]:
            received[i] = (received[i] + draw.randrange(1, m)) % m
        assert code.correct(received, k) == (message, word, wrong)


@pytest.mark.parametrize("m", PRIMES[2:])
def test_prepared_corrections(m):
    draw = random.Random(m)
    for n, k in ((7, 3), (10, 4), (5, 5), (12, 1)):
        points = draw.sample(range(min(m, 10**6)), n)
        codes = [Corrector(m, points, k, table) for table in (False, True)]
        assert [(it.modulus, it.points, it.k) for it in codes] == [(m, points, k)] * 2
        for _ in range(50):
            word = word_of([draw.randrange(m) for _ in range(k)], points, m)
            lost = draw.randrange(n - k + 1)
            wrong = draw.randrange((n - k - lost) // 2 + 1)
            places = draw.sample(range(n), lost + wrong)
            received = [None if i in places[:lost] else it for i, it in enumerate(word)]
            for i in places[lost:]:
                received[i] = (received[i] + draw.randrange(1, m)) % m
            for code in codes:
                assert code.correct(received) == (word, wrong)
                assert code.correct({i: received[i] for i in range(n) if i not in places[:lost]}) == (word, wrong)


def test_what_a_corrector_refuses():
    points = range(1, 7)  # of which 5 + 7X has the values 12, 19, 26, 33, 40 and 47
    code = Corrector(97, points, 2)
    assert code.correct([12, None, 50, 33, 40, None]).word == [12, 19, 26, 33, 40, 47]
    with pytest.raises(TooManyErrorsError, match="^no word of the code is near enough to the symbols$"):
        code.correct([12, 19, 26, 0, 0, 1])  # one message has at most three of them
    with pytest.raises(TooFewSymbolsError, match="^a message of 2 symbols can't be restored from 1$"):
        code.correct({3: 33})
    for word in ([1] * 5, [97, *[1] * 5], [-1, *[1] * 5], {6: 1, 0: 1}):
        with pytest.raises(ValueError):
            code.correct(word)
    for k, fault in ((0, "k must be at least 1"), (7, "a message of 7 symbols is too long for 6 points")):
        with pytest.raises(ValueError, match=fault):
            Corrector(97, points, k)
    with pytest.raises(PointsError, match="points 0 and 2 don't fit"):
        Corrector(929, [1, 2, 930], 1)
    with pytest.raises(NoInverseError) as told:
        Corrector(35, range(5), 1).correct([8, 10, 3, 3, 3])
    assert 1 < math.gcd(told.value.number, 35) < 35


@pytest.mark.parametrize("m", (*PRIMES, 1001))
def test_systematic_words(m):
    draw = random.Random(m)
    for _ in range(40):
        n = draw.randrange(1, min(m, 7) + 1)
        k = draw.randrange(n + 1)
        symbols, code = [draw.randrange(m) for _ in range(k)], ErasureCode(m, draw.sample(range(min(m, 7)), n))
        word = code.encode_systematic(iter(symbols))
        assert len(word) == n and word[:k] == symbols
        if k == 0:
            assert word == [0] * n
            continue
        assert code.encode(code.restore(word, k)) == word
        for kept in itertools.combinations(range(n), k):
            assert code.restore_word({i: word[i] for i in kept}, k) == word
            assert code.restore_systematic({i: word[i] for i in kept}, k) == symbols
    with pytest.raises(TooFewSymbolsError):
        code.restore_word([None] * n, 1)


def test_messages_that_are_too_long():
    code = ErasureCode(929, [1, 2])
    for call, words in ((code.encode, ([5, 6, 7],)), (code.encode_systematic, ([5, 6, 7],)), (code.share, (5, 3))):
        with pytest.raises(ValueError, match="a message of 3"):
            call(*words)


def test_symbols_that_a_reduction_would_lose():
    code, word = ErasureCode(929, range(1, 8)), [1] * 7
    for bad in (929, 5000, 2**64, -1, -(2**70)):
        for k in (1, 3):
            with pytest.raises(ValueError, match="^the secret must be from 0 to 928$"):
                code.share(bad, k)
        with pytest.raises(ValueError, match="^symbol 1 must be from 0 to 928$"):
            code.encode([1, bad])
        for call in (code.restore, code.correct, code.recover, code.recover_correct):
            for place, received in ((0, [bad, *word[1:]]), (3, [1, None, 1, bad, *word[4:]]), (6, {0: 1, 1: 1, 6: bad})):
                with pytest.raises(ValueError, match=f"^symbol {place} must be from 0 to 928$"):
                    call(received, 2)
    assert code.recover(code.share(928, 3), 3) == 928
    assert ErasureCode(1, [0]).recover(ErasureCode(1, [0]).share(0, 1), 1) == 0


def test_errors():
    code = ErasureCode(929, range(7))
    word = code.encode([1, 2, 3])
    assert code.correct([1, 0, 17, 34, 57, 900, 121], 3) == ([1, 2, 3], word, 2)
    with pytest.raises(TooManyErrorsError, match="^no word of the code is near enough to the symbols$"):
        code.correct([1, 0, 17, 34, 57, 900, 1], 3)
    for call in (code.restore, code.correct):
        with pytest.raises(TooFewSymbolsError, match="^a message of 3 symbols can't be restored from 2$"):
            call([1, 6, *[None] * 5], 3)
        for place in (-1, 7, 2**64):
            with pytest.raises(ValueError, match=f"there is no point {place}: "):
                call({0: 1, place: 2, 1: 3}, 3)
        for length in (0, 2, 6, 8, 9):
            with pytest.raises(ValueError, match=f"the word has {length} symbols, not 7"):
                call([1] * length, 1)
        with pytest.raises(TooFewSymbolsError):
            call(word, 10**12)
        with pytest.raises(TypeError):
            call([1.0, *word[1:]], 3)
    for call in (code.restore, code.correct, code.recover, code.recover_correct):
        for k in (0, -1):
            with pytest.raises(ValueError, match="k must be at least 1"):
                call(word, k)
        with pytest.raises(TypeError):
            call(word, "1")
    with pytest.raises(ValueError, match="is too long for 7 points"):
        code.share(5, 10**12)
    for m in (0, 2**64, -3):
        with pytest.raises(ValueError, match="the modulus must be from 1 to 2"):
            ErasureCode(m, [1])
    with pytest.raises(NoInverseError) as told:
        ErasureCode(35, range(5)).correct([2, 10, 4, 26, 34], 2)
    assert 1 < math.gcd(told.value.number, 35) < 35


def test_points():
    for m, points, fault in (
        (9, [0, 3], "^points 0 and 1 don't fit: 0 - 3 has no inverse modulo 9$"),
        (1001, range(8), "points 0 and 7 don't fit: 0 - 7 has"),
        (929, [1, 2, 930], "points 0 and 2 don't fit: 1 - 1 has"),
        (4, [3, -(10**100) - 3], "points 0 and 1 don't fit: 3 - 1 has"),
    ):
        with pytest.raises(PointsError, match=fault):
            ErasureCode(m, points)
    assert ErasureCode(1, [0, 5, 0]).points == [0, 0, 0]
    assert ErasureCode(97, [-1, 98, 10**100]).points == [96, 1, 10**100 % 97]
    assert ErasureCode(97, []).encode([]) == []
    for m in range(2, 40):
        for pair in itertools.product(range(m), repeat=2):
            if math.gcd(pair[0] - pair[1], m) == 1:
                assert ErasureCode(m, pair).encode([1, 1]) == [(it + 1) % m for it in pair]
            else:
                with pytest.raises(PointsError):
                    ErasureCode(m, pair)


def test_composite_modulus():
    draw, points = random.Random(8), range(7)
    for _ in range(50):
        message = [draw.randrange(1001) for _ in range(3)]
        word = word_of(message, points, 1001)
        code = ErasureCode(1001, points)
        for kept in itertools.combinations(points, 3):
            assert code.restore({i: word[i] for i in kept}, 3) == message


def test_secrets():
    m, points = 2**61 - 1, range(1, 9)
    code = ErasureCode(m, points)
    shares = code.share(m - 5, 3)
    for kept in itertools.combinations(range(8), 3):
        assert code.recover({i: shares[i] for i in kept}, 3) == m - 5
    message = code.restore(shares, 3)
    assert word_of(message, points, m) == shares
    assert code.share(m - 5, 3) != shares
    forged = [0, shares[1], 1, *shares[3:]]
    assert code.recover_correct(forged, 3) == m - 5
    for bad in (range(8), [m, 1]):
        with pytest.raises(PointsError, match="the point 0 has no inverse modulo"):
            ErasureCode(m, bad).share(1, 2)
    with pytest.raises(PointsError, match="the point 5 has no inverse modulo 35"):
        ErasureCode(35, range(3, 6)).share(1, 2)
    for k in (0, -1):
        with pytest.raises(ValueError):
            code.share(1, k)
        with pytest.raises(ValueError):
            code.recover(shares, k)


def test_numbers_of_numpy():
    numpy = pytest.importorskip("numpy")
    code = ErasureCode(929, numpy.arange(7, dtype=numpy.uint64))
    word = numpy.array(code.encode(numpy.array([1, 2, 3], numpy.uint64)), numpy.uint64)
    assert word.tolist() == [1, 6, 17, 34, 57, 86, 121]
    assert code.restore(word, 3) == [1, 2, 3]
