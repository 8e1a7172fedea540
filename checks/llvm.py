"""Reads LLVM's text of programs, for `checks/divisions`: who calls whom, which functions divide, and which have loops.

A way that can only end in a panic doesn't count: its message may format numbers.
"""
import re
from collections import defaultdict

NAME = r'(?:"[^"]*"|[-\w.$]+)'
DECLARED = re.compile(rf"^declare [^@]*@({NAME})\(.*?(?: #(\d+))?$", re.M)
# (the path of a function that rustc names otherwise stands in a comment above it)
PATH = re.compile(rf"^; (?!Function Attrs)(.*)\n(?:;.*\n)?define [^@]*@({NAME})\(", re.M)
ALIAS = re.compile(rf"^@({NAME}) = .*?\balias\b.*?@({NAME})", re.M)
ATTRIBUTES = re.compile(r"^attributes #(\d+) = \{(.*)\}$", re.M)
DIVISION = re.compile(r"= ((?:[us]div|[us]rem|fdiv|frem) .*)")
CALL = re.compile(rf"\b(?:call|invoke|callbr) .*?(?:([@%]){NAME}\(|\basm\b)")
BLOCK = re.compile(rf"^({NAME}):.*\n", re.M)
GLOBAL = re.compile(rf"@({NAME})")
LABEL = re.compile(rf"\blabel %({NAME})")
# Routines of compilers and intrinsics of LLVM that divide, and the functions of C that move bytes or compare them.
ROUTINE = re.compile(r"__(?:aeabi_)?u?l?(?:div|mod)\w*|llvm\..*(?:div|rem)\b.*|f(?:mod|modf|modl)")
MOVES = {"bcmp", "memcmp", "memcpy", "memmove", "memset"}


def bare(name):
    """A name without quotes, and without the spaces that rustc prints in a type."""
    return re.sub(r" ?([<>]) ?", r"\1", name[1:-1]) if name[0] == '"' else name


def reached(start, after):
    """What may come after a block or function, by what comes next after each."""
    found, queue = set(), [start]
    while queue:
        new = set(after.get(queue.pop(), ())) - found
        found |= new
        queue += new
    return found


class Program:
    """What LLVM's texts say: whom each function calls, and what it does that divides or isn't known, of both whether that is
    in a loop; and which functions have a loop."""

    def __init__(self, texts):
        self.called, self.found, self.paths, self.looped = defaultdict(dict), defaultdict(dict), {}, set()
        returning = set()  # functions whose texts are elsewhere
        for text in texts:
            for block in re.split(r"^define ", text, flags=re.M)[1:]:
                self.read(block.partition("\n}\n")[0])
            self.paths.update((bare(name), path) for path, name in PATH.findall(text))
            for name, other in ALIAS.findall(text):
                self.called[bare(name)][bare(other)] = False
            kinds = dict(ATTRIBUTES.findall(text))
            returning |= {bare(name) for name, kind in DECLARED.findall(text) if "noreturn" not in kinds.get(kind, "")}
        for name in returning - set(self.called) - MOVES:
            if ROUTINE.fullmatch(name):
                self.found[name][f"the routine {name}"] = False
            elif not name.startswith("llvm."):
                self.found[name][f"the function {name}, whose text isn't there"] = False
        self.looped |= {name for name, others in self.called.items() if others and name in reached(name, self.called)}

    def read(self, function):
        """Reads a function."""
        head, _, body = function.partition("\n")
        name = bare(re.search(rf"@({NAME})\(", head)[1])
        called, found = self.called[name], self.found[name]
        _, *parts = BLOCK.split(re.sub(r"^ *;.*\n", "", f"start:\n{body}\n", flags=re.M))
        blocks = dict(zip(parts[::2], parts[1::2]))
        after = {block: set(LABEL.findall(text)) if "label" in text else () for block, text in blocks.items()}
        ends = {block for block, text in blocks.items() if re.search(r"^ +ret\b", text, re.M)}
        for block, text in blocks.items():
            following = reached(block, after)
            # other ways end in a panic, whose message may be formatted there
            if block not in ends and ends.isdisjoint(following):
                continue
            is_looped = block in following
            if is_looped:
                self.looped.add(name)
            if "@" in text:
                names = {it for it in GLOBAL.findall(text) if not it.startswith("llvm.") or ROUTINE.fullmatch(it)}
                for it in map(bare, names):
                    called[it] = called.get(it, False) or is_looped
            divisions = DIVISION.findall(text)
            if "call" in text or "invoke" in text:
                unknown = [it.strip() for it in text.splitlines() if (call := CALL.search(it)) and call[1] != "@"]
                divisions += [f"a call that isn't known: {it}" for it in unknown]
            for it in divisions:
                found[it] = found.get(it, False) or is_looped

    def way(self, call, ends):
        """The shortest way from a call to what `ends` names, of a function and whether a loop was on the way; nothing if there
        is none."""
        before = {(call, False): None}
        queue = list(before)
        for state in queue:
            name, is_looped = state
            if text := ends(name, is_looped):
                way = [text]
                while before[state]:
                    way.insert(0, self.paths.get(state[0], state[0]))
                    state = before[state]
                return " -> ".join(way)
            for other, is_own in self.called.get(name, {}).items():
                more = other, is_looped or is_own
                if more not in before:
                    before[more] = state
                    queue.append(more)
        return ""

    def division(self, call, looped=False):
        """The shortest way from a call to a division or to what isn't known, with that. With `looped` it must lead through a
        loop."""
        def ends(name, is_looped):
            return next((it for it, is_own in self.found.get(name, {}).items() if is_looped or is_own or not looped), "")

        return self.way(call, ends)

    def loop(self, call):
        """The shortest way from a call to a function that has a loop, or calls itself."""
        return self.way(call, lambda name, _: f"a loop of {self.paths.get(name, name)}" if name in self.looped else "")
