"""Classes that compute something of a modulus or a divisor once: division, Montgomery's method, plans of transforms."""
from __future__ import annotations

from collections.abc import Iterable, Sequence
from operator import index
from typing import TYPE_CHECKING, Any, NoReturn, TypeVar, Union, overload

from num_modular._calls import (
    ByArguments,
    check,
    exponent_of,
    fail,
    modulus,
    no_inverse,
    pair_of,
    reduced,
    same_length,
    word,
    words_of,
)
from num_modular._library import ffi, lib
from num_modular._words import invm

if TYPE_CHECKING:
    from typing_extensions import Buffer

# An array that a call changes in place, and what the second list of a product may be.
Array = TypeVar("Array", bound="Buffer")
Words = Union[Sequence[int], "Buffer"]

_OPERATIONS = {
    "load": (lib.NM_LOAD, ("dst", "n")),
    "add": (lib.NM_ADD, ("dst", "a", "b")),
    "sub": (lib.NM_SUB, ("dst", "a", "b")),
    "mul": (lib.NM_MUL, ("dst", "a", "b")),
    "neg": (lib.NM_NEG, ("dst", "a")),
    "dbl": (lib.NM_DBL, ("dst", "a")),
    "sqr": (lib.NM_SQR, ("dst", "a")),
    "inv": (lib.NM_INV, ("dst", "a")),
    "div": (lib.NM_DIV, ("dst", "a", "b")),
    "pow": (lib.NM_POW, ("dst", "a", "n")),
}


class Divider(ByArguments):
    """A divisor d from 1 to 2^64 - 1 and its reciprocal, by which numbers are divided without a division. It may be the
    right operand of divmod, // and %. In Python a call takes longer than `n % d`: the class serves to get what the library
    for C computes. ValueError: d is out of range.

    >>> Divider(60).divmod(1000), divmod(1000, Divider(60)), 1000 // Divider(60), 1000 % Divider(60)
    ((16, 40), (16, 40), 16, 40)
    """

    __slots__ = ("_divider",)
    __array_ufunc__ = None  # so that numpy's integers leave their operators to this class

    def __init__(self, d: int) -> None:
        self._divider = ffi.new("nm_divider_t *")
        check(lib.nm_divider(modulus(d, "the divisor"), self._divider))

    def _arguments(self) -> tuple[Any, ...]:
        return (self.divisor,)

    @property
    def divisor(self) -> int:
        """The divisor."""
        return self._divider.divisor

    def divmod(self, n: int) -> tuple[int, int]:
        """The quotient, rounded down, and the remainder of n, from -2^64 * d to 2^64 * d - 1. ValueError: n is out of range.

        >>> Divider(7).divmod(2**66)
        (10540996613548315209, 1)
        """
        n, out = index(n), ffi.new("nm_division_t *")
        size = n if n >= 0 else -1 - n
        if size >> 64 >= self.divisor:
            raise ValueError(f"the dividend must be from -2^64 * {self.divisor} to 2^64 * {self.divisor} - 1")
        check(lib.nm_div_rem_2by1(self._divider, size & (1 << 64) - 1, size >> 64, out))
        return (out.quotient, out.remainder) if n >= 0 else (-1 - out.quotient, self.divisor - 1 - out.remainder)

    def __rdivmod__(self, n: int) -> tuple[int, int]:
        return self.divmod(n)

    def __rfloordiv__(self, n: int) -> int:
        return self.divmod(n)[0]

    def __rmod__(self, n: int) -> int:
        return self.divmod(n)[1]


class Montgomery(ByArguments):
    """A modulus m from 1 to 2^64 - 1 and its constants of Montgomery's method. ValueError: m is out of range.

    >>> Montgomery(97).pow(3, 1000)
    36
    """

    __slots__ = ("_context",)

    def __init__(self, m: int) -> None:
        self._context = ffi.new("nm_montgomery_t *")
        check(lib.nm_montgomery(modulus(m), self._context))

    def _arguments(self) -> tuple[Any, ...]:
        return (self.modulus,)

    @property
    def modulus(self) -> int:
        """The modulus."""
        return self._context.modulus

    def pow(self, a: int, exponent: int) -> int:
        """The residue of a to the power exponent. A negative exponent raises the inverse of a to the power -exponent.

        NoInverseError: the exponent is negative, and a has no inverse. ValueError: the exponent isn't between -2^64 and
        2^64.

        >>> Montgomery(2**61 - 1).pow(3, 2**61 - 2)
        1
        """
        exponent, out = exponent_of(exponent), ffi.new("uint64_t *")
        if exponent < 0:
            a, exponent = invm(a, self.modulus), -exponent
        check(lib.nm_montgomery_transform(self._context, reduced(a, self.modulus), out))
        check(lib.nm_montgomery_pow(self._context, out[0], exponent, out))
        check(lib.nm_montgomery_residue(self._context, out[0], out))
        return out[0]

    @overload
    def add_lists(self, xs: Array, ys: Words) -> Array: ...
    @overload
    def add_lists(self, xs: Sequence[int], ys: Words) -> list[int]: ...
    def add_lists(self, xs: Any, ys: Any) -> Any:
        """The sums x_i + y_i modulo m of two lists, entry by entry. ValueError: the lengths differ, or the arrays overlap.

        >>> Montgomery(97).add_lists([90, 2], [10, -3])
        [3, 96]
        """
        return self._entries(lib.nm_add_lists, xs, ys)

    @overload
    def sub_lists(self, xs: Array, ys: Words) -> Array: ...
    @overload
    def sub_lists(self, xs: Sequence[int], ys: Words) -> list[int]: ...
    def sub_lists(self, xs: Any, ys: Any) -> Any:
        """The differences x_i - y_i modulo m. ValueError: as for `add_lists`.

        >>> Montgomery(97).sub_lists([90, 2], [10, 3])
        [80, 96]
        """
        return self._entries(lib.nm_sub_lists, xs, ys)

    @overload
    def multiply_lists(self, xs: Array, ys: Words) -> Array: ...
    @overload
    def multiply_lists(self, xs: Sequence[int], ys: Words) -> list[int]: ...
    def multiply_lists(self, xs: Any, ys: Any) -> Any:
        """The products x_i * y_i modulo m. ValueError: as for `add_lists`.

        >>> Montgomery(97).multiply_lists([90, 2], [10, 3])
        [27, 6]
        """
        return self._entries(lib.nm_multiply_lists, xs, ys)

    @overload
    def scale_list(self, xs: Array, factor: int) -> Array: ...
    @overload
    def scale_list(self, xs: Sequence[int], factor: int) -> list[int]: ...
    def scale_list(self, xs: Any, factor: int) -> Any:
        """The products x_i * factor modulo m.

        >>> Montgomery(97).scale_list([90, 2], 10)
        [27, 20]
        """
        factor = reduced(factor, self.modulus)
        words, is_new = words_of(xs, self.modulus)
        with words:
            check(lib.nm_scale_list(self.modulus, words, len(words), factor))
            return list(words) if is_new else xs

    def dot_product(self, xs: Words, ys: Words) -> int:
        """The sum of all products x_i * y_i modulo m; 0 for empty lists. Both lists stay. ValueError: the lengths differ.

        >>> Montgomery(97).dot_product([90, 2], [10, 3])
        33
        """
        out = ffi.new("uint64_t *")
        with words_of(xs, self.modulus)[0] as first, words_of(ys, self.modulus)[0] as second:
            same_length(first, second)
            check(lib.nm_dot_product(self.modulus, first, len(first), second, len(second), out))
        return out[0]

    def find_root(self, n: int) -> int:
        """A root that suits lists of n words: its power n/2 is -1 modulo m. NoRootError: none was found.

        >>> Montgomery(97).find_root(8)
        64
        """
        out = ffi.new("uint64_t *")
        n = word(n, "the number of words")
        code = lib.nm_montgomery_find_root(self._context, n, out)
        if code != lib.NM_OK:
            is_power = n > 0 and n & (n - 1) == 0
            fail(code, f"no root for {n} words was found modulo {self.modulus}" if is_power else f"{n} isn't a power of two")
        return out[0]

    @overload
    def ntt(self, xs: Array, root: int | None = ...) -> Array: ...
    @overload
    def ntt(self, xs: Sequence[int], root: int | None = ...) -> list[int]: ...
    def ntt(self, xs: Any, root: int | None = None) -> Any:
        """The transform of n words: entry j is the sum of x_i * root^(i * j) modulo m. The root is that of `find_root` where
        none is given. NoRootError: the root doesn't suit n.

        >>> Montgomery(17).ntt([1, 2, 3, 4], 4)
        [10, 7, 15, 6]
        """
        return self._in_place(lib.nm_montgomery_ntt, xs, root)

    @overload
    def intt(self, xs: Array, root: int | None = ...) -> Array: ...
    @overload
    def intt(self, xs: Sequence[int], root: int | None = ...) -> list[int]: ...
    def intt(self, xs: Any, root: int | None = None) -> Any:
        """The inverse of `ntt` by the same root. NoRootError: the root doesn't suit n. NoInverseError: n has no inverse modulo
        m, as any n above 1 where m is even.

        >>> Montgomery(17).intt([10, 7, 15, 6], 4)
        [1, 2, 3, 4]
        """
        return self._in_place(lib.nm_montgomery_intt, xs, root)

    @overload
    def convolve(self, xs: Array, ys: Words, root: int | None = ...) -> Array: ...
    @overload
    def convolve(self, xs: Sequence[int], ys: Words, root: int | None = ...) -> list[int]: ...
    def convolve(self, xs: Any, ys: Any, root: int | None = None) -> Any:
        """The cyclic product of two lists of n words: entry e is the sum of x_i * y_j modulo m over i + j = e or e + n. An
        array ys becomes its transform. ValueError: the lengths differ, or the arrays overlap. NoRootError: the root
        doesn't suit n. NoInverseError: n has no inverse modulo m.

        >>> Montgomery(97).convolve([1, 2, 3, 0], [4, 5, 0, 0])
        [4, 13, 22, 15]
        """
        first, second, is_new = pair_of(xs, ys, self.modulus)
        with first, second:
            self._transform(lib.nm_montgomery_convolve, root, first, second)
            return list(first) if is_new else xs

    @overload
    def run(self, registers: Array, commands: Iterable[Sequence[Any]]) -> Array: ...
    @overload
    def run(self, registers: Sequence[int], commands: Iterable[Sequence[Any]]) -> list[int]: ...
    def run(self, registers: Any, commands: Iterable[Sequence[Any]]) -> Any:
        """The registers, residues modulo m, after the commands, which run in order. dst, a and b are numbers of registers,
        counted from 0. A command is one of

        - `("load", dst, n)`
        - `("add", dst, a, b)`, and likewise "sub", "mul" and "div"
        - `("neg", dst, a)`, and likewise "dbl" (the double), "sqr" (the square) and "inv"
        - `("pow", dst, a, n)`, with the exponent n, between -2^64 and 2^64

        NoInverseError: a command needs an inverse that doesn't exist; see `NoInverseError` for its number and the registers.
        ValueError: a command or a register doesn't exist.

        >>> Montgomery(97).run([0, 0, 0], [("load", 0, 10), ("load", 1, 20), ("mul", 2, 0, 1)])
        [10, 20, 6]
        """
        words, is_new = words_of(registers, self.modulus)
        with words:
            found = [(at, one) for at, it in enumerate(commands) for one in self._commands(at, it, len(words))]
            listed, done = [it for _, it in found], ffi.new("size_t *")
            read = ffi.new("nm_command_t[]", listed)
            code = lib.nm_montgomery_run(self._context, words, len(words), read, len(listed), done)
            result = list(words) if is_new else registers
        if code == lib.NM_NO_INVERSE:
            command = listed[done[0]]
            number = result[command["a" if command["operation"] == lib.NM_INV else "b"]]
            at = found[done[0]][0]
            fault = no_inverse(int(number), self.modulus, f" in command {at}")
            fault.at, fault.registers = at, result
            raise fault
        check(code)
        return result

    def _entries(self, call: Any, xs: Any, ys: Any) -> Any:
        first, second, is_new = pair_of(xs, ys, self.modulus)
        with first, second:
            check(call(self.modulus, first, len(first), second, len(second)))
            return list(first) if is_new else xs

    def _in_place(self, call: Any, xs: Any, root: int | None) -> Any:
        words, is_new = words_of(xs, self.modulus)
        with words:
            self._transform(call, root, words)
            return list(words) if is_new else xs

    def _transform(self, call: Any, root: int | None, *lists: Any) -> None:
        """Calls a function that changes lists of the same length by the root, and raises the exception of its code."""
        n = len(lists[0])
        root = self.find_root(n) if root is None else reduced(root, self.modulus)
        code = call(self._context, *(part for it in lists for part in (it, len(it))), root)
        if code == lib.NM_NO_INVERSE:
            raise no_inverse(n, self.modulus)
        check(code, f"{root} doesn't suit {n} words")

    def _commands(self, at: int, words: Sequence[Any], count: int) -> list[dict[str, int]]:
        """Command number at on so many registers, for the call of the library: two commands for a negative exponent."""
        name, *numbers = words
        if name not in _OPERATIONS:
            raise ValueError(f"command {at}, {words!r}: there is no operation {name!r}")
        operation, fields = _OPERATIONS[name]
        if len(numbers) != len(fields):
            raise ValueError(f"command {at}, {words!r}, must be ({name!r}, {', '.join(fields)})")
        command = {"operation": operation}
        for field, number in zip(fields, numbers):
            if name == "load" and field == "n":
                command[field] = reduced(number, self.modulus)
            elif field == "n":
                command[field] = exponent_of(number, f"the exponent of command {at}")
            else:
                command[field] = register = index(number)
                if not 0 <= register < count:
                    raise ValueError(
                        f"command {at} names register {register}, but there are {count} registers, counted from 0"
                    )
        if name == "pow" and command["n"] < 0:
            inverse = {"operation": lib.NM_INV, "dst": command["dst"], "a": command["a"]}
            return [inverse, {**command, "a": command["dst"], "n": -command["n"]}]
        return [command]


class Plan(ByArguments):
    """A table for transforms of up to n words modulo m, from 1 to 2^62, which are faster than those of `Montgomery`. n is a
    power of two, at least 2. Without a root, the plan takes that of `Montgomery.find_root`.

    The table is filled once, and no call tests it again. Words of arrays must be below 4 * m. ValueError: m, n or a word is
    out of range. NoRootError: the root doesn't suit n.

    >>> Plan(97, 8).convolve([1, 2, 3, 0, 0, 0, 0, 0], [4, 5, 0, 0, 0, 0, 0, 0])
    [4, 13, 22, 15, 0, 0, 0, 0]
    """

    __slots__ = ("_plan", "_table")

    def __init__(self, m: int, n: int, root: int | None = None) -> None:
        m, n = index(m), word(n, "the number of words", 2)
        if not 1 <= m <= 1 << 62:
            raise ValueError("the modulus must be from 1 to 2^62")
        ring = Montgomery(m)
        root = ring.find_root(n) if root is None else index(root) % m
        fault = f"{root} doesn't suit {n} words"
        check(lib.nm_montgomery_root_fits(ring._context, root, n), fault)  # before memory is asked for the table
        # The plan points to the table, which lives as long as this object, and is never handed out.
        self._table, self._plan = ffi.new("nm_factor_t[]", n // 2), ffi.new("nm_plan_t *")
        check(lib.nm_plan_make(m, root, self._table, n // 2, self._plan), fault)

    def _arguments(self) -> tuple[Any, ...]:
        return self.modulus, self.length, self.root

    @property
    def modulus(self) -> int:
        """The modulus."""
        return self._plan.modulus

    @property
    def length(self) -> int:
        """The length of the longest list that the plan transforms."""
        return 2 * self._plan.table_length

    @property
    def root(self) -> int:
        """The root, which suits lists of the plan's length, from 0 to m - 1."""
        return self._plan.root

    @overload
    def ntt(self, xs: Array) -> Array: ...
    @overload
    def ntt(self, xs: Sequence[int]) -> list[int]: ...
    def ntt(self, xs: Any) -> Any:
        """The transform of a list of words, whose number is a power of two up to the length of the plan: see `Montgomery.ntt`.
        The root is the power of the plan's root that suits their number.

        >>> Plan(17, 4, 4).ntt([1, 2, 3, 4])
        [10, 7, 15, 6]
        """
        return self._in_place(lib.nm_plan_transform, xs)

    @overload
    def intt(self, xs: Array) -> Array: ...
    @overload
    def intt(self, xs: Sequence[int]) -> list[int]: ...
    def intt(self, xs: Any) -> Any:
        """The inverse of `ntt`. NoInverseError: the number of words has no inverse modulo m, as any above 1 where m is even.

        >>> Plan(17, 4, 4).intt([10, 7, 15, 6])
        [1, 2, 3, 4]
        """
        return self._in_place(lib.nm_plan_inverse, xs)

    @overload
    def split(self, xs: Array, b: int = ..., last: int = ...) -> Array: ...
    @overload
    def split(self, xs: Sequence[int], b: int = ..., last: int = ...) -> list[int]: ...
    def split(self, xs: Any, b: int = 0, last: int = 1) -> Any:
        """The remainders of a polynomial modulo X^last - c, one after the other, for count = n / last values of c. Word i of
        remainder j is the sum of x_(k * last + i) * c^k over k. Here c is the power of the root whose exponent has the bits of
        b * count + j in reverse order. So b = 1 starts from a polynomial modulo X^n + 1. ValueError: n isn't last times a
        power of two, or the plan is too short for n, b and last.

        >>> Plan(17, 4, 4).split([1, 2, 3, 4], last=2)
        [4, 6, 15, 15]
        """
        return self._in_place(lib.nm_plan_split, xs, word(b, "b"), word(last, "last"))

    @overload
    def join(self, xs: Array, b: int = ..., last: int = ...) -> Array: ...
    @overload
    def join(self, xs: Sequence[int], b: int = ..., last: int = ...) -> list[int]: ...
    def join(self, xs: Any, b: int = 0, last: int = 1) -> Any:
        """The inverse of `split`. NoInverseError: the number of remainders has no inverse modulo m.

        >>> Plan(17, 4, 4).join([4, 6, 15, 15], last=2)
        [1, 2, 3, 4]
        """
        return self._in_place(lib.nm_plan_join, xs, word(b, "b"), word(last, "last"))

    @overload
    def convolve(self, xs: Array, ys: Words) -> Array: ...
    @overload
    def convolve(self, xs: Sequence[int], ys: Words) -> list[int]: ...
    def convolve(self, xs: Any, ys: Any) -> Any:
        """The cyclic product of two lists of n words: see `Montgomery.convolve`. n is a power of two, from 1 to the length of
        the plan. The contents of an array ys are unspecified afterwards.

        ValueError: the lengths differ, n or a word is out of range, or the arrays overlap. NoInverseError: n has no inverse
        modulo m.

        >>> Plan(97, 4).convolve([1, 2, 3, 0], [4, 5, 0, 0])
        [4, 13, 22, 15]
        """
        return self._product(lib.nm_plan_convolve, xs, ys, 1)

    @overload
    def convolve_negacyclic(self, xs: Array, ys: Words) -> Array: ...
    @overload
    def convolve_negacyclic(self, xs: Sequence[int], ys: Words) -> list[int]: ...
    def convolve_negacyclic(self, xs: Any, ys: Any) -> Any:
        """The product of two lists of n words modulo X^n + 1: entry e is the sum of x_i * y_j over i + j = e, minus that over
        i + j = e + n, modulo m. n is a power of two, from 2 to the length of the plan. Otherwise as `convolve`;
        NoInverseError: n/2 has no inverse modulo m.

        >>> Plan(97, 4).convolve_negacyclic([0, 0, 0, 1], [0, 1, 0, 0])
        [96, 0, 0, 0]
        """
        return self._product(lib.nm_plan_convolve_negacyclic, xs, ys, 2)

    @overload
    def square(self, xs: Array) -> Array: ...
    @overload
    def square(self, xs: Sequence[int]) -> list[int]: ...
    def square(self, xs: Any) -> Any:
        """The cyclic product of a list of n words with itself, as `convolve` of two equal lists, but faster.

        >>> Plan(97, 4).square([1, 2, 0, 0])
        [1, 4, 4, 0]
        """
        return self._in_place(lib.nm_plan_square, xs)

    def _in_place(self, call: Any, xs: Any, *block: int) -> Any:
        words, is_new = words_of(xs, self.modulus, 4 * self.modulus)
        with words:
            code = call(self._plan, words, len(words), *block)
            if code != lib.NM_OK:
                self._refuse(code, [words], *block)
            return list(words) if is_new else xs

    def _product(self, call: Any, xs: Any, ys: Any, last: int) -> Any:
        first, second, is_new = pair_of(xs, ys, self.modulus, 4 * self.modulus)
        with first, second:
            code = call(self._plan, first, len(first), second, len(second))
            if code != lib.NM_OK:
                self._refuse(code, [first, second], 0, last)
            return list(first) if is_new else xs

    def _refuse(self, code: int, lists: list[Any], b: int = 0, last: int = 1) -> NoReturn:
        """Raises the exception of a code, for lists of the same length that are block b, split down to last words."""
        if code == lib.NM_NO_INVERSE:
            raise no_inverse(len(lists[0]) // last, self.modulus)
        fail(code, self._fault(lists, b, last) if code == lib.NM_BAD_ARGUMENT else "")

    def _fault(self, lists: list[Any], b: int, last: int) -> str:
        """Which precondition the lists break."""
        n, limit = len(lists[0]), 4 * self.modulus
        for word in (it for words in lists for it in words if it >= limit):
            return f"the word {word} isn't below {limit}, 4 times the modulus"
        count, rest = divmod(n, last) if last else (0, n)
        if rest or count == 0 or count & (count - 1):
            times = "" if last == 1 else f"{last} times "
            return f"the number of words is {n}, not {times}a power of two"
        place = f" of block {b}" if b else ""
        return f"{n} words{place} don't fit the plan for {self.length}"
