"""The public items: what users reach by a path that begins with num_modular or a crate of USERS. These are what its modules
export with `pub use`, their own public functions, types, traits and constants, and each of these in a module that is
exported whole."""
import re

from libraries import TOP, leaves

CRATES = TOP / "crates"
ROOT = "num_modular"
USERS = ("check_digits", "ring_codes", "ring_decoder", "ring_correction", "ring_erasures", "residue_numbers", "mersenne_hash", "long_product", "lattice_rings", "examples")
# Of the modules w8, w16, w32, w64 and wsize, which have the same names, one is looked at.
OTHER_WIDTHS = re.compile(r"\b(?:w8|w16|w32|wsize)\b")
ITEM = re.compile(r"^pub (?:unsafe |const )?(?:fn|struct|enum|trait|type|const)\s+(\w+)", re.M)


def plain(text):
    """A source without its comments and its ghost imports."""
    return re.sub(r"^\s*ghost use [^;]*;", "", re.sub(r"//.*", "", text), flags=re.M)


def names_of(uses):
    """The paths that the text of a `use` stands for, each with the name that it gets."""
    for it in leaves(uses):
        path, _, name = it.partition(" as ")
        path = re.sub("::self$", "", path)
        yield path, name or path.rpartition("::")[2]


def bodies(text):
    """The text of each inline public module, by name, and the text without them."""
    found = dict(re.findall(r"^pub mod (\w+) \{\n(.*?)^\}", text, re.M | re.S))
    rest = re.sub(r"^pub mod \w+ \{\n.*?^\}", "", text, flags=re.M | re.S)
    return {name: re.sub(r"^    ", "", body, flags=re.M) for name, body in found.items()}, rest


def text_of(crate, module, read=plain):
    """The text of a module, which has a file or stands inside its parent's; None where there is none."""
    file = CRATES.joinpath(crate, "src", *(module or ["lib"])).with_suffix(".rt")
    if file.exists():
        return read(file.read_text(encoding="utf-8"))
    above = text_of(crate, module[:-1], read) if module else None
    return bodies(above)[0].get(module[-1]) if above else None


def items(crate, module, at):
    """The public items of a module, whose path for users is `at`: where each stands, and its path."""
    text = text_of(crate, module)
    if text is None:
        return
    inner, text = bodies(text)
    for name in (*inner, *re.findall(r"^pub mod (\w+);", text, re.M)):
        yield from items(crate, [*module, name], f"{at}::{name}")
    for path, name in (it for uses in re.findall(r"^pub use ([^;]*);", text, re.M) for it in names_of(uses)):
        first, *rest = path.split("::")
        if first == "crate":
            # what another module exports too
            exported = items(crate, rest[:-1], "")
            yield from ((item, f"{at}::{name}") for item, other in exported if other == f"::{rest[-1]}")
            continue
        if first == "self":
            first, rest = crate, module + rest
        elif re.search(rf"^(?:pub )?mod {first};", text, re.M):
            first, rest = crate, [*module, first, *rest]
        within = list(items(first, rest, f"{at}::{name}")) if name[0].islower() else []
        yield from within or [("::".join([first, *rest]), f"{at}::{name}")]
    for name in ITEM.findall(text):
        yield "::".join([crate, *module, name]), f"{at}::{name}"


def paths_of(root):
    """The paths of each item below a crate, by where it stands."""
    found = {}
    for item, path in items(root, [], root):
        found.setdefault(item, []).append(path)
    return found
