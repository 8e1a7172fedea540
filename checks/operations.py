"""The operations of commands, where C's header, the Python package and the help of modrun list them: for checks/reference.

The constants of the source, their docs, and the arms that make commands of them say each operation's name, number and fields,
and what it writes.
"""
import re

from libraries import TOP

SOURCE = TOP / "crates/num_modular_c/src/commands.rt"
HEADER, PYTHON, HELP = TOP / "c/include/num_modular.h", TOP / "python/src/num_modular/_rings.py", TOP / "modrun"
CONSTANT = re.compile(r"^/// Writes (.*)\.\npub const (NM_\w+): u32 = (\d+);$", re.M)
ARM = re.compile(r"^ +(?:NM_\w+|_) => RingCommand::(\w+) \{ (.*) \},$", re.M)
# The lines of each list.
IN_HEADER = re.compile(r"(?<=so dst may be an operand\. \*/\n)(?:#define .*\n)+")
IN_PYTHON = re.compile(r"(?<=^_OPERATIONS = \{\n)(?:    .*\n)+", re.M)
IN_HELP = re.compile(r"(?<=all in decimal digits\.\n)(?:  \w+,D,.*\n)+")
WORDS = {"m": "MODULUS", "dst": "D"}  # a field or the modulus, as the help has it, where that isn't its capital


def operations():
    """The constant of each operation, its number, its fields, and what it writes, in the order of the numbers."""
    text = SOURCE.read_text(encoding="utf-8")
    fields = {f"NM_{name.upper()}": [it.split(": ")[-1] for it in words.split(", ")] for name, words in ARM.findall(text)}
    return [(name, number, fields[name], said) for said, name, number in CONSTANT.findall(text)]


def in_help(word):
    return WORDS.get(word, word.upper())


def lists():
    """The text of each file, with the lines that list the operations as the source has them."""
    found, listed = {HEADER: [], PYTHON: [], HELP: []}, operations()
    width = max(len(f"{name} {number}u") for name, number, _, _ in listed)
    for name, number, fields, said in listed:
        own = name.removeprefix("NM_").lower()
        given = ", ".join(f'"{it}"' for it in fields)
        called, told = ",".join([own, *map(in_help, fields)]), re.sub(r"\b(?:m|n|a|b)\b", lambda it: in_help(it[0]), said)
        found[HEADER].append(f"#define {f'{name} {number}u':<{width}} /* {said} */\n")
        found[PYTHON].append(f'    "{own}": (lib.{name}, ({given})),\n')
        found[HELP].append(f"  {called:<10}  D becomes {told}\n")
    for file, pattern in ((HEADER, IN_HEADER), (PYTHON, IN_PYTHON), (HELP, IN_HELP)):
        text, count = pattern.subn(lambda _: "".join(found[file]), file.read_text(encoding="utf-8"))
        if count != 1:
            raise SystemExit(f"{SOURCE.name}: {file.name} has {count} lists of operations")
        yield file, text


def write():
    for file, text in lists():
        file.write_text(text, encoding="utf-8")


def faults():
    """The files that list other operations."""
    found = [file.name for file, text in lists() if text != file.read_text(encoding="utf-8")]
    return [f"{it} isn't current: run checks/reference --write" for it in found]
