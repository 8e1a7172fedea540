"""Reads the sources for `checks/promises`: each function by the path that a check prints, and the calls of a promise."""
import re
from functools import lru_cache

from libraries import LISTED, TOP

# Measured functions stand on the whole library, which would have to be proved for them alone.
LEFT_OUT = {"modular_bench"}
FUNCTION = re.compile(r"^( *)(?:pub(?:\(crate\))? )?fn (\w+)", re.M)
HOLDER = re.compile(r"^(?:pub )?(impl|trait)\b(.*)\{$", re.M)
CLAUSE = re.compile(r"\b(?:requires|ensures)\b[^{]*\{")
# The clauses of how many folds were taken: they stay, so that a caller has to rest on what a fold leaves.
KEPT = ("count", "few", "none")
PARAMETER = re.compile(r"(?:^<?|, )(?:const |')?(\w+)")


def closing(text, at):
    """Where the bracket closes that opens at `at`."""
    pair, depth = {"{": "}", "(": ")", "<": ">"}[text[at]], 0
    for index in range(at, len(text)):
        depth += (text[index] == text[at]) - (text[index] == pair)
        if depth == 0:
            return index
    raise ValueError(f"nothing closes {text[at:at + 40]}")


def arguments(text, at):
    """How many arguments stand in the parentheses that open at `at`."""
    inner = text[at + 1 : closing(text, at)]
    while (flat := re.sub(r"\([^()]*\)|\[[^][]*\]|\{[^{}]*\}|::<[^<>]*>", "_", inner)) != inner:
        inner = flat
    return len([it for it in inner.split(",") if it.strip()])


def head_of_impl(head):
    """The type parameters, the trait and the type of an impl's first line."""
    rest = head[4:].strip(" {")
    to = closing(rest, 0) if rest.startswith("<") else -1
    trait, _, of = rest[to + 1 :].strip().rpartition(" for ")
    return rest[1:to] if to > 0 else "", trait, of


def block_of(head):
    """What a check calls the block that a line begins: `impl<T> A<u8, B<T>> for B<T> {` is BAU8, `impl<T> A for T {` is AnyA,
    a trait has its own name."""
    if not head.startswith("impl"):
        return re.search(r"trait (\w+)", head)[1] if head else ""
    generics, trait, of = head_of_impl(head)
    parameters, words = PARAMETER.findall(generics), re.findall(r"\w+", of)
    if not trait:
        return words[0] if {*words[1:]} <= {*parameters} else "+".join(words)
    name, _, given = trait.rpartition(">")[0].partition("<") if "<" in trait else (trait, "", "")
    given = [it for it in re.split(r", (?![^<]*>)", given) if it != of]
    trait = [it for it in re.findall(r"\w+", " ".join((name, *given))) if it not in parameters]
    of = "Any" if words[0] in parameters else words[0]
    return "".join(it[0].upper() + it[1:] for it in (of, *trait))


def module_of(file):
    """The path of a file's module in its crate."""
    parts = file.relative_to(TOP / "crates").with_suffix("").parts[2:]
    return [] if parts in (("lib",), ("main",)) else list(parts)


class Function:
    """A function: where it stands, its text, and its path as a check prints it."""

    def __init__(self, file, whole, name, start, end, head, body):
        self.file, self.whole, self.name, self.start, self.end, self.head = file, whole, name, start, end, head
        self.body = body  # where it begins, if there is one
        self.crate, self.block = file.relative_to(TOP / "crates").parts[0], block_of(head)
        self.parameters, self.trait, self.type = head_of_impl(head) if head.startswith("impl") else ("", "", "")
        self.is_of = block_of(f"impl<{self.parameters}> {self.type} {{") if self.type else self.block
        self.text = whole[start:end]
        self.code = re.sub(r"//.*", lambda it: " " * len(it[0]), self.text)
        self.path = "::".join([self.crate, *module_of(file), *([self.block] if head else []), name])


@lru_cache(None)
def functions(crate):
    """The functions of a crate that aren't in tests."""
    top, found = TOP / "crates" / crate / "src", []
    for file in sorted(top.rglob("*.rt")):
        if "tests" in file.relative_to(top).with_suffix("").parts:
            continue
        whole = file.read_text()
        heads = [(it.start(), it[0]) for it in HOLDER.finditer(whole)]
        for it in FUNCTION.finditer(whole):
            body = re.compile(rf";$|\{{$|^{it[1]}\{{\}}?$", re.M).search(whole, it.end())
            is_closed = body[0].strip() in (";", "{}")
            end = body if is_closed else re.compile(rf"^{it[1]}\}}$", re.M).search(whole, body.end())
            head = [head for start, head in heads if start < it.start()][-1:] if it[1] else []
            of = (it[2], it.start(), end.end(), head[0] if head else "", 0 if is_closed else body.end() - 1)
            found.append(Function(file, whole, *of))
    return found


class Call:
    """A call of a promise in a function: where it stands, and what is put there."""

    def __init__(self, promise, function, found, rest="", is_own=False):
        self.function, self.start, self.end, self.is_own = function, found.start(), found.end(), is_own
        # a reducer's call of itself is emptied for its own type: by a type parameter it would lead back to the caller
        self.module = promise.module + (re.sub(r"\W+", "_", f"_of_{function.is_of}").lower() if is_own else "")
        self.put = f"{self.module}::{promise.name}{rest}"


class Promise:
    """A function whose promise is emptied."""

    def __init__(self, path):
        found = [it for it in functions(path.split("::")[0]) if it.path == path]
        if not found:
            raise SystemExit(f"promises: there is no function {path}")
        self.of, self.path, self.name, self.crate = found[0], path, found[0].name, found[0].crate
        self.is_trait = bool(re.match(r"(pub )?trait ", self.of.head))
        self.module = re.sub(r"\W+", "_", "_".join(["emptied", *self.of.block.split(), self.name])).lower()
        self.generics, self.parameters, self.result, self.conditions, self.kept = self.parts()
        self.is_method = self.parameters.startswith("&self")

    def parts(self):
        """Type parameters, parameters, result, conditions and what is kept of the promise."""
        text = self.of.text.strip()
        at = text.index(self.name) + len(self.name)
        generics, at = (text[at + 1 : (to := closing(text, at))], to + 1) if text[at] == "<" else ("", at)
        to = closing(text, at)
        parameters, rest = text[at + 1 : to], text[to + 1 :]
        result = (re.match(r"\s*->\s*(.*?)\s*(?=\n|\{|;)", rest) or ("", "()"))[1]
        clauses = [rest[it.start() : closing(rest, it.end() - 1) + 1] for it in CLAUSE.finditer(rest)]
        conditions = [it for it in clauses if it.startswith("requires")]
        kept = [it for it in clauses if it.startswith("ensures") and it.split()[1] in KEPT]
        return generics, parameters, result, conditions, kept

    def holder(self, own):
        """Type parameters, the type that a call is on, and what its ghost members are said of; `own` is an impl or nothing."""
        if own:
            return own.parameters, own.type, f"⟦<{own.type} as {own.trait}>⟧"
        if not self.is_trait:
            return self.of.parameters, self.of.type, ""
        inner = re.search(rf"{self.of.block}<([^>]*)>", self.of.head)
        return (f"{inner[1]}, M: {self.of.block}<{inner[1][0]}>" if inner else f"M: {self.of.block}"), "M", "M"

    def said_of(self, text, own):
        """A clause or a type of a method, said of its first argument or of the type."""
        _, kind, ghosts = self.holder(own)
        text = re.sub(r"\bself\b", "of", text)
        if self.is_trait:
            text = re.sub(r"\bSelf\b", kind, text)
            for ghost in re.findall(r"^    ghost (\w+):", self.of.whole, re.M):
                text = re.sub(rf"(?<![\w.]){ghost}(?= )", f"{ghosts}.{ghost}", text)
        return text

    def header(self, own):
        """Type parameters, parameters, result, clauses and call of the emptied function."""
        if not self.of.head:
            return self.generics, self.parameters, self.result, self.conditions + self.kept, f"super::{self.name}"
        generics, kind, _ = self.holder(own)
        call = f"of.{self.name}" if self.is_method else f"{kind.replace('<', '::<', 1)}::{self.name}"
        parameters = self.said_of(self.parameters.replace("&self", f"of: &{kind}"), own)
        clauses = [self.said_of(it, own) for it in self.conditions + self.kept]
        return generics, parameters, self.said_of(self.result, own), clauses, call

    def emptied(self, call):
        """The module that holds the function with the promise emptied, for a caller's file."""
        generics, parameters, result, clauses, name = self.header(call.function if call.is_own else None)
        said = " ".join([generics, parameters, result, name, *clauses])
        names = [it[1] for it in re.finditer(r"(\w+)\s*:(?!:)", parameters) if not (self.is_method and it[1] == "of")]
        lines = self.uses(call.function, said)
        lines += ["use super::*;", "", f"pub fn {self.name}<{generics}>({parameters}) -> {result}"]
        lines += ["    " + it for it in clauses]
        lines += [f"    ensures {'nothing ' if self.kept else ''}{{ result ≡ result }}", "{"]
        return "\n".join(lines + [f"    {name}({', '.join(names)})", "}", ""])

    def uses(self, function, said):
        """What the emptied function brings in: what is at hand where the promise stands, and is said."""
        uses = re.findall(r"^ghost use [^;]*;", self.of.whole, re.M)
        for place, names in re.findall(r"^use ([\w:]+?)::(\w+|\{[^}]*\});", self.of.whole, re.M):
            place = re.sub(r"^crate\b", self.crate, place) if function.crate != self.crate else place
            brought = (it for it in re.findall(r"\w+", names) if it != self.name)
            uses += [f"use {place}::{it};" for it in brought if re.search(rf"\b{it}\b", said)]
        if function.file != self.of.file:
            own = "::".join(["crate" if function.crate == self.crate else self.crate, *module_of(self.of.file)])
            declared = re.findall(r"^pub (?:struct|trait|type|enum) (\w+)", self.of.whole, re.M)
            uses += [f"use {own}::{it};" for it in declared if re.search(rf"\b{it}\b", said)]
        return uses

    def calls(self, function):
        """The calls of it in a function that may go round it."""
        # code over any reducer knows no other way, and a divisor that stores nothing divides by the primitive quotient
        is_without = self.of.block == "Reducer" and not function.trait.startswith("Reducer<") or function.trait.endswith(", ()>")
        if function.path == self.path or is_without:
            return []
        find = self.calls_of_methods if self.is_method else self.calls_of_types if self.of.head else self.calls_of_name
        return list(find(function))

    def calls_of_name(self, function):
        for it in re.finditer(rf"(?<![\w.:])(?<!fn ){self.name}(?=\(|::<)", function.code):
            yield Call(self, function, it)

    def calls_of_methods(self, function):
        expected = len(re.findall(r"\w:(?!:)", self.parameters))
        for it in re.finditer(rf"(?<![\w.])([\w.]+)\.{self.name}\(", function.code):
            is_own = it[1] == "self" and self.is_trait
            is_other = it[1] == "self" and not self.is_trait and function.is_of != self.of.block
            if not is_other and arguments(function.code, it.end() - 1) == expected:
                is_borrowed = it[1] == "self" or re.search(rf"\b{it[1]}: &", function.code)
                yield Call(self, function, it, f"({'' if is_borrowed else '&'}{it[1]}, ", is_own)

    def calls_of_types(self, function):
        for it in re.finditer(rf"(?<![\w.:])(\w+)(?:::<([^()]*)>)?::{self.name}\(", function.code):
            given = it[2]
            if self.is_trait:
                given = it[1]
            elif it[1] == "Self":
                given = ", ".join(PARAMETER.findall(self.of.parameters)) if function.is_of == self.of.block else None
            elif self.block_of_alias(it[1]) != self.of.block:
                given = None
            if given:
                yield Call(self, function, it, f"::<{given}>(")

    def block_of_alias(self, name):
        """What a check calls the impl of a type that an alias of the promise's file stands for."""
        found = re.search(rf"^pub type {name}<(.*?)> = ([^;]*);", self.of.whole, re.M | re.S)
        return block_of(f"impl<{found[1]}> {found[2]} {{") if found else name


def callers(promise):
    """The functions that call a promise, in its crate and those that list it, with the calls."""
    for crate in (it for it in LISTED if promise.crate in (it, *LISTED[it]) and it not in LEFT_OUT):
        for function in functions(crate):
            if calls := promise.calls(function):
                yield function, calls
