"""Reads what a proved source and its marks say of the Cargo crate, as tokens, and finds its parts: for rust/erase.

Ghost text isn't read: clauses, ghost members and fields, `ghost use`, tactics, `prove!`, `final`, labels of loops that no
`break` or `continue` names, the handle `rt` of assertions, and `?` behind `clone()`. ERASING.md lists the marks.
"""
import re
from dataclasses import dataclass

TOKEN = re.compile(
    r"""(?P<space>\s+)|(?P<comment>//[^\n]*)
    |(?P<text>b?r(?P<marks>\#*)".*?"(?P=marks)|[bc]?"(?:\\.|[^"\\])*"|b?'(?:\\(?:u\{[^}]*\}|x..|.)|[^'\\])')
    |(?P<label>'[A-Za-z_]\w*)|(?P<name>[A-Za-z_]\w*)|(?P<number>\d\w*(?:\.\d\w*)?)|(?P<sign>::|->|=>|.)""",
    re.X | re.S,
)
BRACES = r"\{(?:[^{}]|\{(?:[^{}]|\{(?:[^{}]|\{(?:[^{}]|\{[^{}]*\})*\})*\})*\})*\}"
PLACES = r"\((?:[^()]|\((?:[^()]|\((?:[^()]|\((?:[^()]|\([^()]*\))*\))*\))*\))*\)"
PUBLIC = r"(?:pub(?:\(crate\))?\s+)?"
ATTRIBUTES = "allow cfg cfg_attr cold derive doc forbid inline macro_use must_use path repr test track_caller unsafe".split()
GHOST = re.compile(
    rf"""(?P<clause>\b(?:requires|ensures)(?:\s+[a-z_]\w*)?\s*{BRACES})
    |(?P<item>\b{PUBLIC}ghost\s+(?:use\b[^;]*;|[a-z_]\w*\s*[:=]\s*{BRACES}\s*[;,]))
    |(?P<tactic>\#!?\[(?:tactic|rattlefmt)\b(?:[^][]|\[[^]]*\])*\]|\bfinal\s+(?=fn\b)|\bprove!{PLACES};?
        |(?<=\.clone\(\))\?|(?<=\()\$?rt;\s*
        |'(?P<loop>\w+):\s+(?=(?:for|while|loop)\b)(?![\s\S]*(?:break|continue)\ '(?P=loop)\b))
    |(?P<unknown>\b(?:requires|ensures|ghost)\b|\#!?\[(?!(?:{'|'.join(ATTRIBUTES)})\b))""",
    re.X,
)
MARK = re.compile(r"( *)// (?:rust(?P<instead> instead)?:(?P<code> .*|)|(?P<only>rattle|tests): (?P<kind>line|item))")
GONE = "//-"  # a line that a mark takes away
BRACKETS = {"(": ")", "{": "}", "[": "]"}


class Unknown(Exception):
    """Something that no rule says how to erase."""


@dataclass
class Token:
    """A token of code, with the space and the comments before it; `put`: it stands in a mark."""

    lead: str
    kind: str
    text: str
    put: bool = False


def attached(lead):
    """Where the comments begin that stand right above an item; the module's own docs don't count."""
    return re.search(r"(?:^[ \t]*//(?!!).*\n)*.*\Z", lead, re.M).start()


def without_attached(lead):
    """What comes before an item, without the comments that stand right above it."""
    return lead[: attached(lead)] + lead[lead.rfind("\n") + 1 :]


def joined(first, second):
    """The space before what follows something that was taken away, from the space before both."""
    return first.rstrip() + "\n" * max(first[len(first.rstrip()) :].count("\n"), 1) + second.lstrip("\n")


def marked(text, is_test=False):
    """The lines of a text as its marks change it, one for one, and the numbers of those that marks put in. `is_test`: the
    crate's tests are written, too."""
    lines, put, end = [], set(), ""  # `end`: what ends the lines that are left out
    text = text.replace("// tests: item", "// rust: #[cfg(test)]") if is_test else text
    for number, line in enumerate(text.split("\n")):
        found = MARK.fullmatch(line)
        if not found and re.search(r"(?<!/)//\s*(?:rust|rattle|tests)(?: instead)?\s*:", line):
            raise Unknown(f"line {number + 1} looks like a mark, and isn't one: {line.strip()}")
        if found and found["kind"]:
            # in rt fmt's layout an item ends where a line of its own indent ends so
            item = found[1] + r"(?=\S)(?!//|#\[).*[;}]\)?"
            end, line = ".*" if found["kind"] == "line" else item, GONE
        elif found:
            line, is_gone = found[1] + found["code"][1:], end not in ("", ".*")
            put |= set() if is_gone else {number}
            end = "" if is_gone and re.fullmatch(end, line) else ".*" if found["instead"] and not is_gone else end
            line = GONE if is_gone else line
        elif end:
            line, end = GONE, "" if re.fullmatch(end, line) else end
        lines.append(line)
    return lines, put


def read(text, is_test=False):
    """The tokens of the code, without ghost text. The last token is empty. `is_test`: the crate's tests are written too."""
    lines, put = marked(text, is_test)
    text = "\n".join(lines)
    tokens, at, line, lead, above, clause = [], 0, 0, "", None, False
    while at < len(text):
        found = GHOST.match(text, at) if not clause or text[at] != "{" else None
        found = found or TOKEN.match(text, at)
        kind, word, at, here = found.lastgroup, found.group(), found.end(), line
        line += word.count("\n")
        if kind in ("space", "comment"):
            lead = (lead + word).replace(f"\n{GONE}\n", "\n")
            continue
        if kind == "unknown" or kind in ("name", "sign", "label") and not word.isascii():
            raise Unknown(f"line {here + 1}: ghost text of an unknown kind, or an attribute, {word}")
        if above is not None:
            lead, above = joined(above, lead), None
        if kind == "clause":
            lead = ""
        elif kind in ("item", "tactic", "loop"):
            above, lead = without_attached(lead) if kind == "item" else lead, ""
        else:
            tokens.append(Token(lead, kind, word, here in put))
            lead = ""
    tokens.append(Token(lead, "end", ""))
    return tokens


def lexed(text):
    """The tokens of a text that is put in."""
    return read(text)[:-1]


def backwards(tokens, *words):
    """The indexes of the tokens that are one of these words, the last first: what stands behind may be changed."""
    return (at for at in range(len(tokens) - 1, -1, -1) if at < len(tokens) and tokens[at].text in words)


def beyond(tokens, at, brackets=BRACKETS):
    """The index behind what the bracket at `at` opens; behind the token there where it is none."""
    opening, depth = tokens[at].text, 0
    closing = brackets.get(opening, opening)
    while True:
        depth += (tokens[at].text == opening) - (tokens[at].text == closing)
        at += 1
        if depth == 0:
            return at


def past_angles(tokens, at):
    """The index behind the angle brackets that open at `at`; the same where none do."""
    return beyond(tokens, at, {"<": ">"}) if tokens[at].text == "<" else at


def said(tokens, at, words):
    """Whether these words stand at `at`."""
    words = words.split()
    return [it.text for it in tokens[at : at + len(words)]] == words


@dataclass
class Item:
    """A function, trait, impl, module or import: its name, of an impl its trait's or ""; and the indexes of its first token, of
    that behind its attributes, of its keyword, of what follows its name and angle brackets, and of its body or semicolon."""

    name: str
    first: int
    begin: int
    at: int
    opened: int
    body: int


def trait_of(tokens, at):
    """The name of the trait whose impl has its trait or type at `at`; "" where it is of no trait."""
    name = ""
    while tokens[at].text not in ("for", "{", "!"):
        name = tokens[at].text if tokens[at].kind == "name" else name
        at = past_angles(tokens, at + 1)
    return name if tokens[at].text == "for" else ""


def items(tokens, keyword):
    """The items with this keyword, the last first: what stands behind one's beginning may be changed."""
    is_impl, ends = keyword == "impl", (";",) if keyword == "use" else ("{", ";")
    for at in backwards(tokens, keyword):
        if not is_impl and tokens[at + 1].kind != "name":
            continue
        begin = body = at
        while tokens[begin - 1].text in ("pub", "(", "crate", ")", "const"):
            begin -= 1
        first = begin
        while tokens[first - 1].text == "]":
            first = next(backwards(tokens[:first], "#"))
        while tokens[body].text not in ends:
            body = beyond(tokens, body)
        opened = past_angles(tokens, at + 2 - is_impl)
        yield Item(trait_of(tokens, opened) if is_impl else tokens[at + 1].text, first, begin, at, opened, body)


def cut(tokens, begin, end):
    """Takes an item away, with the comments right above it."""
    tokens[end].lead = joined(without_attached(tokens[begin].lead), tokens[end].lead)
    del tokens[begin:end]
