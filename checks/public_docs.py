"""What the docs of the public items say, for checks/reference: of each item the call, what it returns, and its conditions."""
import re

from public_items import CRATES, names_of, text_of

DOCS = r"(?P<docs>(?:^ *//(?:/| rattle: | rust).*\n)*)(?:^ *(?:#\[|// ).*\n)*"
BLOCK = re.compile(r"^((?:pub (?:trait|enum)|impl)\b(?:[^{;\[]|\[[^\]]*\])*)\{\n(.*?)^\}", re.M | re.S)

def call_of(text, front):
    """A call of the function whose text begins with its name; that of a method begins with a dot."""
    name, rest = re.match(r"(\w+)(?:<[^(]*>)?\((.*)", text, re.S).groups()
    depth, parts = 0, [""]
    for c in rest.replace("->", ""):
        depth += (c in "([<") - (c in ")]>")
        if depth < 0:
            break
        parts = [*parts, ""] if c == "," and not depth else [*parts[:-1], parts[-1] + c]
    found = [re.match(r"\s*(?:mut )?(\w+):\s*(&(?!\s*(?:'\w+ )?mut\b))?", it) for it in parts if it.strip()]
    return f"{front if all(found) else '.'}{name}({','.join((it[2] or '') + it[1] for it in found if it)})"


def variant_of(text, front):
    """A variant of an enum, with the names of its fields."""
    name, fields = re.match(r"(\w+)(?: \{\n(.*?)^    \})?", text, re.M | re.S).groups()
    names = ",".join(re.findall(r"^ *(\w+):", fields or "", re.M))
    return front + name + (f"{{{names}}}" if names else "")


def conditions_in(text):
    """The conditions that docs list, each up to a colon, without the names of the calls that test them."""
    parts = re.split(r"^# (?:Conditions|Preconditions)\n", text, flags=re.M)[1:]
    found = [it.split("\n\n")[0] for part in parts for it in part.split("\n- ")[1:]]
    plain = [re.sub(r"^\(debug\) | \([^()]*`[^()]*\)", "", " ".join(it.split())) for it in found]
    return [re.sub(r"^(?:the|there are|there is) ", "", it.partition(": ")[0].rstrip(".")) for it in plain]


def said_in(docs):
    """What an item's docs begin with, with the case of None or false, and its conditions but those of checked forms."""
    text = re.sub(r"^ *// .*\n|^ */// ?", "", docs, flags=re.M).split("\n# Examples")[0]
    text = re.sub(r"\[(`[^`]*`)\](?!\()", r"\1", text)  # a link of rustdoc's
    first, *sentences = re.split(r"(?<=[^.]\.)\s+", " ".join(re.split(r"^# ", text, flags=re.M)[0].split()))
    first, tail = re.fullmatch(r"(.*?)(?:: .*?)?(; `None` .*)?", first.rstrip(".")).groups()
    first = re.sub(r"^The (\w)(?=\w)", lambda it: it[1].upper(), first) + (tail or "")
    none = [it.partition(": ")[0].rstrip(".") for it in sentences if re.match("`None` |Returns false[ ,]", it)]
    said = re.sub("Returns false(?:, with .*? unchanged,)? ", "`false` ", "; ".join([first, *none[:1]]))
    conditions = [it for it in conditions_in(text) if "checked form" not in it]
    return re.sub(r"(; `(?:None|false)`)(?: exactly)?( where)?", lambda it: it[1] + (":" if it[2] else ""), said), conditions


def members(crate, name):
    """The call and the docs of each function of a trait or of a type's own impls, and of each variant of an enum."""
    for file in sorted((CRATES / crate / "src").glob("**/*.rt")):
        for head, body in BLOCK.findall(file.read_text(encoding="utf-8").split("\n#[cfg(test)]")[0]):
            if re.match(rf"pub trait {name}\b", head):
                found, read = r"(?:final )?fn (?=\w)", call_of
            elif re.match(rf"pub enum {name}\b", head):
                found, read = "(?=[A-Z])", variant_of
            elif re.match(rf"impl(?:<.*>)? {name}(?:<.*>)?\s*$", " ".join(head.split())) and " for " not in head:
                found, read = r"pub (?:const )?fn (?=\w)", call_of
            else:
                continue
            for it in re.finditer(rf"{DOCS}^    {found}", body, re.M):
                yield read(body[it.end() :], f"{name}::"), it["docs"]


def rows_of(item, path, front):
    """The lines of an item and of what belongs to it: whose they are, the path, the call, what the docs say, the conditions."""
    crate, *module, name = item.split("::")
    text = text_of(crate, module, read=str)
    it = re.search(rf"{DOCS}^pub (?:unsafe |const )?(?P<kind>fn|struct|enum|trait|type|const) (?={name}\b)", text, re.M)
    if not it:  # another module's, which is exported there, too
        uses = re.findall(r"^pub use ([^;]*);", text, re.M)
        return rows_of(next(at for use in uses for at, known in names_of(use) if known == name), path, front)
    shown = front + path.rpartition("::")[2]
    if it["kind"] == "fn":
        return [("", path, shown + call_of(text[it.end() :], "")[len(name) :], *said_in(it["docs"]))]
    inside = {}
    for call, docs in members(crate, name):
        inside.setdefault(call, docs)
    below = {call: f"{path}::{re.split('[.]|::', re.split('[({ ]', call)[0])[-1]}" for call in inside}
    said, conditions = said_in(it["docs"])
    if it["kind"] == "enum":  # the names of the variants say enough
        return [(name, path, shown, f"{said}: {', '.join(re.split('::', call)[-1] for call in inside)}", conditions)]
    rows = [(name, below[call], call, *said_in(inside[call])) for call in sorted(inside, key=lambda it: it[0] == ".")]
    return [(name if rows else "", path, shown, said, conditions), *rows]
