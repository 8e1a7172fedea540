"""The calls of the Cargo crate, for `checks/divisions`: each public function and each method, at types that stand for all.

A function over types is called at each word that its bounds admit, and over reducers, entries of tables and so on at those
of the tables below. A type with numbers as parameters is called over all of `fixed_types.py`.
"""
import itertools
import re
from collections import Counter
from fnmatch import fnmatchcase
from functools import lru_cache

from fixed_types import FIXED, is_tried
from libraries import leaves

# What isn't followed, each with the reason: a path of the crate's sources, or a call. Besides, tests and laws aren't, the
# functions for C, and the impls of traits.rs, integers.rs and features.rs, which are written over these calls.
LEFT_OUT = {
    "modular_prim::exact::assign_exact": "a generic body, which the impls of `DivExactAssign` call",
    "applications::examples::*": "programs of the documentation, which nobody sees",
    "modular_reduced::reduced_int::operations::with_*": "the operators call these with a method of the reducer",
}
# The types over words whose calls are followed at each width.
AT_WIDTHS = ("Vanilla", "PreMulInv2by1", "Montgomery", "Normalized2by1Divisor", "PreMulInv1by1", "PreModInv")
AT_WIDTHS += ("OddMontgomery", "StoredModulus", "PlannedModulus", "Factor", "RoomyModulus")
# The types whose `reduce_single` is written by a macro of additions.rs, so that the sources don't name its type.
FOLDS = ("reduce_double", "reduce_uncounted", "reduce_counted")  # methods that reduce by folds
REDUCE_SINGLE = [it for it in FIXED if re.match("FixedMersenne|FixedTrinomialSolinas", it)]
# What stands for a parameter that isn't a word, by its bound, and the reducers over each word.
RINGS = {word: (f"Montgomery<{word}>",) for word in ("u8", "u16", "usize")}
RINGS["u32"] = ("Montgomery<u32>", "FixedMontgomery32<97>")
RINGS["u64"] = ("Montgomery<u64>", "PreMulInv2by1<u64>", "FixedMersenne64<61, 1>", "FixedMontgomery64<97>")
RINGS["u128"] = ("FixedMersenne<61, 1>",)
CHOICES = {
    "PlanEntry": ("Factor<{0}>",), "AsCommand": ("RingCommand<{0}>",), "JoinSteps": ("PlannedModulus<{0}>", "RoomyModulus<{0}>"),
    "SplitSteps": ("PlannedModulus<{0}>", "RoomyModulus<{0}>"), "Bounded": ("PlannedModulus<{0}>", "RoomyModulus<{0}>"),
    "AsRef": ("[Factor<{0}>; 1024]",), "OddModulus": ("StoredModulus<{0}>",), "ModularInteger": ("VanillaInt<{0}>",),
    "FourStep": ("SplitFour<{0}, PlannedModulus<{0}>>", "JoinFour<{0}, PlannedModulus<{0}>>"), "usize": ("1024",),
    "PairStep": ("SplitPair<{0}, PlannedModulus<{0}>>", "JoinPair<{0}, PlannedModulus<{0}>>"),
}
OWN = {"R: Reducer<u64>": "Montgomery<u64>", "R: Reducer<u64>, C: AsCommand<u64>": "Montgomery<u64>, RingCommand<u64>"}
PARAMETER = re.compile(r"(?:^|, )(?:const )?('?\w+)(?:: ((?:[^,<]|<(?:[^<>]|<[^<>]*>)*>)*))?")
FUNCTION = re.compile(r"((?:^ *#\[.*\]\n)*)^( *)(pub )?(?:const )?fn (\w+)(?:<((?:[^()<>]|<(?:[^<>]|<[^<>]*>)*>)*)>)?\(", re.M)
BLOCK = re.compile(r"^((?:pub )?(?:impl|trait)\b(?:[^{;[]|\[[^]]*\])*)\{\n(.*?)^\}", re.M | re.S)
HEAD = re.compile(r"impl(?:<((?:[^<>]|<(?:[^<>]|<[^<>]*>)*>)*)>)?\s+(?:([^{]*?)\s+for\s+)?([^{]*?)\s*$", re.S)


def flat(text):
    """A text in one line."""
    return re.sub(r"(?<=[<(]) | (?=[>)])|,(?= ?[>)])", "", " ".join(text.split()))


class File:
    """A file of the crate: its module's path, what its names mean, and its functions, each with the impl that it is in."""

    def __init__(self, file, source):
        self.path = "::".join(file.relative_to(source).with_suffix("").parts)
        text = re.sub(r"^ *//.*\n", "", file.read_text(encoding="utf-8"), flags=re.M)
        self.tests = {f"{self.path}::{it}" for it in re.findall(r"^#\[cfg\(test\)\]\n(?:pub )?mod (\w+);", text, re.M)}
        text = re.sub(r"^(?:#\[cfg\(test\)\]\n)(?:#\[.*\]\n)*(?:[^\n]*;\n|[^\n]*\{\n.*?^\}\n)", "", text, flags=re.M | re.S)
        uses = [it for uses in re.findall(r"^(?:pub )?use ([^;]*);", text, re.M) for it in leaves(uses)]
        self.uses = [self.placed(it) for it in uses if re.search(r"\b[A-Z]\w*$", it)]
        blocks = [(flat(it[1]), it[2]) for it in BLOCK.finditer(text)]
        self.traits = {re.search(r"trait (\w+)", head)[1]: body for head, body in blocks if "trait " in head}
        self.uses += [f"num_modular::{self.path}::{it}" for it in ("RingWord",) if it in self.traits]  # the root's is a bound
        self.impls = [(*HEAD.match(head).groups(), body) for head, body in blocks if head.startswith("impl")]
        self.functions = [it for it in FUNCTION.finditer(BLOCK.sub("", text)) if it[3] and not it[2]]
        read = len(self.functions) + sum(bool(it[3]) for *_, body in self.impls for it in FUNCTION.finditer(body))
        self.unread = len(re.findall(r"\bpub (?:const )?fn ", text)) - read

    def placed(self, path):
        """A path as another crate writes it."""
        start, _, rest = path.partition("::")
        above = f"num_modular::{self.path}".rpartition("::")[0]
        places = {"crate": "num_modular", "core": "core", "super": above, "self": f"num_modular::{self.path}"}
        return f"{places[start]}::{rest}" if start in places else f"num_modular::{self.path}::{path}"


def methods(body, of_trait=True):
    """The names of a block's functions, each with its own types: of the public ones, or of all that a trait asks for."""
    found = [it for it in FUNCTION.finditer(body) if (it[3] or of_trait) and not re.search(r"cfg\(test\)|doc\(hidden\)", it[1])]
    return [it[4] + (f"::<{OWN[flat(it[5])]}>" if it[5] else "") for it in found]


class Call:
    """A call: its name, what is called, and the file whose names this uses, where it uses some; `lost` tells why nothing can be
    called."""

    def __init__(self, name, called="", file=None, lost=""):
        self.name, self.called, self.file, self.lost = name, called, file, lost

    def paths(self):
        """What patterns of lists may name: the call, and its function in its module."""
        of_file = [f"{self.file.path}::{re.match('[^<]*', self.name)[0].rstrip(':')}"] if self.file else []
        return [self.name, *of_file]


class Sources:
    """The Cargo crate of a copy of the repository, or of the repository: its types and their calls."""

    def __init__(self, top):
        source = top / "rust/src"
        files = [it for it in sorted(source.rglob("*.rs")) if {"proved_tests", "num_modular_c"}.isdisjoint(it.relative_to(source).parts)]
        self.text = "\n".join(it.read_text(encoding="utf-8") for it in files)
        files = [File(it, source) for it in files if it.stem not in ("proved_tests", "num_modular_c", "lib", "laws")]
        self.files = [it for it in files if not any(it.path in other.tests for other in files)]
        self.additions = (top / "rust/additions.rs").read_text(encoding="utf-8")
        self.traits = {name: methods(body) for it in self.files for name, body in it.traits.items()}
        self.aliases = dict(re.findall(r"^pub type (\w+)<[^=]*> = (\w+<[^;]*);", self.text, re.M))
        self.reducers = set(re.findall(r"^impl.* Reducer<\w+> for (\w+)", self.text, re.M))
        words = self.words("PlainWord")
        self.types = {**{it: dict(zip(words, words)) for it in AT_WIDTHS}, **FIXED}

    @lru_cache(None)
    def words(self, trait):
        """The words that have a trait."""
        blanket = re.search(rf"^impl<T: (\w+)> {trait} for T\b", self.text, re.M)
        return self.words(blanket[1]) if blanket else re.findall(rf"^impl {trait} for (\w+)", self.text, re.M)

    @lru_cache(None)
    def names(self, of):
        """The names in what a type is an alias of; the last is the struct's."""
        text = self.aliases.get(of, of)
        written = re.findall(r"\w\w+", text)
        return written + self.names(written[0]) if of in self.aliases else written

    def of_type(self, file, generics, trait, of, names):
        """Functions of an impl at each type of the tables that has it."""
        parameters = {name for name, _ in PARAMETER.findall(generics or "")}
        named = [it for it in re.findall(r"\w\w+", re.sub(r"\$\w+", "", of)) if it not in parameters]
        has_it = [it for it in self.types if named[:1] in ([it], self.names(it)[-1:]) and {*named} <= {it, *self.names(it)}]
        for it, shown, given in ((it, *choice) for it in has_it for choice in self.types[it].items()):
            for name in names:
                is_other = not trait and name in self.traits["Reducer"] and self.names(it)[-1] in self.reducers
                of_trait = re.match(r"\w+", trait)[0] + "::" if trait else "const " * is_other
                called = f"<{it}<{given}> as {re.sub('<.*', '<_>', trait)}>" if trait else f"<{it}<{given}>>"
                yield Call(f"{it}<{shown}>::{of_trait}{name}", f"{called}::{name}", file)
        if not has_it:
            yield from (Call(f"{of}::{name}", lost="has no parameters here, at which it is called") for name in names)

    def assignments(self, generics):
        """What the parameters of a function or impl may be, each as a table."""
        generics = re.sub(r"for<'r> ModularOps<[^>]*>", "PlainWord + SymbolWord", flat(generics or ""))
        bounds = {name: bound for name, bound in PARAMETER.findall(generics) if not name.startswith("'")}
        word = next(iter(bounds), "")
        if any(re.match(r"(\w+)<u64>|ModularInteger", it) for it in bounds.values()) or bounds.get(word) == "usize":
            bounds, word = {"": "", **bounds}, ""
        of_words = [self.words(it) for it in re.findall(r"\w*Word|LowPart", bounds.get(word, ""))]
        of_words = of_words or [RINGS if word else ["u64"]]
        for one in of_words[0]:
            if all(one in it for it in of_words):
                found = []
                for name, bound in ((name, bound) for name, bound in bounds.items() if name != word):
                    kind = re.match(r"\w*", bound)[0]
                    choices = RINGS.get(one, ()) if kind == "Reducer" else CHOICES.get(kind, () if bound else (one,))
                    found.append([(name, it.format(one)) for it in choices])
                yield from ({word: one, **dict(it)} for it in itertools.product(*found))

    def of_impl(self, file, generics, trait, of, names):
        """Functions of an impl at each choice of its parameters."""
        at = 0
        for at, given in enumerate(self.assignments(generics), 1):
            def placed(text):
                text = re.sub(r"\b[A-Z]\w*", lambda it: given.get(it[0], it[0]), text)
                return re.sub(r"&(?!')", "&'static ", re.sub(r"'(?:a|_)\b", "'static", text))

            called = f"<{placed(of)} as {placed(trait)}>" if trait else f"<{placed(of)}>"
            shown = re.sub(r"'static[ ,]*|^<|>$", "", called) if not trait else re.sub("'static[ ,]*", "", called)
            yield from (Call(f"{shown}::{name}", f"{called}::{name}", file) for name in names)
        if not at:
            yield from (Call(f"{of}::{name}", lost="has parameters that have no choice here") for name in names)

    def of_file(self, file):
        """The calls of a file."""
        if file.unread:
            yield Call(file.path, lost=f"has {file.unread} public functions that weren't read")
        for it in file.functions:
            path, at = f"{file.path}::{it[4]}", 0
            for at, given in enumerate(self.assignments(it[5]), 1):
                words = ", ".join(value for name, value in given.items() if name)
                given = f"::<{words}>" if words else ""
                yield Call(it[4] + given, f"num_modular::{path}{given}", file)
            if not at:
                yield Call(path, lost="has parameters that have no choice here")
        for generics, trait, of, body in file.impls:
            kind = re.match(r"\w*", trait or "")[0]
            names = self.traits.get(kind, methods(body, of_trait=trait))
            of_table = any(re.search(r"\w+", of)[0] == self.names(it)[-1] for it in self.types)
            if kind == "Reducer" and re.search(r"\w+", of)[0] in self.reducers:
                continue
            yield from (self.of_type if of_table else self.of_impl)(file, generics, trait, of, names)

    def of_additions(self):
        """The calls of additions.rs, whose macros name no type."""
        of = ""
        for line in self.additions.splitlines():
            if head := re.match(r" *impl(?:<.*?>)? (?:.* for )?([^{]*)", line):
                of = head[1].strip()
            elif (found := re.match(r" *pub (?:const )?fn (\w+)", line)) and not re.match(r"crate::\$|FoldRing<\$", of):
                yield from self.of_type(None, "", "", of, [found[1]])

    def of_trait(self, of):
        """The methods of the trait `Reducer`, and what a macro writes."""
        for shown, given in self.types[of].items():
            names = self.traits["Reducer"] if self.names(of)[-1] in self.reducers else ()
            for name in (it for it in names if is_tried(it, shown, self.types[of])):
                yield Call(f"{of}<{shown}>::{name}", f"<{of}<{given}> as Reducer<_>>::{name}")
            if of in REDUCE_SINGLE:
                yield Call(f"{of}<{shown}>::reduce_single", f"<{of}<{given}>>::reduce_single")

    def of_any(self):
        """The calls of the types whose parameters are hidden from LLVM, but `inv`: where no parameters make them divide."""
        for of in (it for it in FIXED if re.match("Fixed(Mersenne|Montgomery|Proth)", it)):
            given = [*FIXED[of].values()][len(FIXED[of]) // 2]
            for name in (it for it in self.traits["Reducer"] if it != "inv"):
                yield Call(f"{of}<any>::{name}", f"<{of}<{given}> as Reducer<_>>::{name}")
            for name in FOLDS if re.fullmatch(r"FixedMersenne\d+", of) else ():
                yield Call(f"{of}<any>::{name}", f"<{of}<{given}>>::{name}")

    def calls(self):
        """The calls that are followed, each under a name of its own."""
        found = [call for file in self.files for call in self.of_file(file)] + list(self.of_additions())
        found = [it for it in found if not any(fnmatchcase(path, out) for path in it.paths() for out in LEFT_OUT)]
        found += [call for of in self.types for call in self.of_trait(of)]
        inner = {re.match(r"\w+", it)[0] for it in self.aliases.values()}
        lost = {*self.reducers, *self.aliases} - inner - {*self.types}
        lost = [it for it in sorted(lost) if self.names(it)[-1] in self.reducers]
        found += [Call(it, lost="has no parameters here, at which it is called") for it in lost]
        for shown in (lambda it: it.file.path.rpartition("::")[2], lambda it: it.file.path):
            count = Counter(it.name for it in found)
            for it in (it for it in found if it.file and count[it.name] > 1):
                it.name = f"{shown(it)}::{it.name}"
        return found
