"""What a C program sees of the library for C, however it was built: for the scripts that try it."""
import os
import re
import shlex
import shutil
import sys

from libraries import TOP
from results import report, run

WARNINGS = ["-Wall", "-Wextra", "-pedantic", "-Werror"]
SANITIZERS = ["-g", "-pthread", "-fsanitize=address,undefined", "-fno-sanitize-recover=all"]
MARK = re.compile(r"^ *// (?:rust|rust instead|rattle|tests): .*\n", re.M)  # for the Cargo crate, also between attributes
SOURCES = MARK.sub("", "".join(it.read_text() for it in sorted(TOP.glob("crates/num_modular_c/src/*.rt"))))
TYPES = {"usize": "size_t", "i32": "int32_t", "i64": "int64_t", **{f"u{it}": f"uint{it}_t" for it in (8, 16, 32, 64)}}
PARAMETER = re.compile(r"(\w+): ((?:&(?:'a )?|\*)(?:mut |const )?|)(\[?)(?:\w+::)*(\w+)")
COUNT = re.compile(r"(\d+) passed, (\d+) failed")
IN_HEADER = """#include <num_modular.h>
static size_t room(int n, int s, int k) {
    return NM_ERASURE_ENCODE_SCRATCH(n, k) + NM_ERASURE_RESTORE_SCRATCH(n, s, k) + NM_ERASURE_CORRECT_SCRATCH(n, s, k)
        + NM_CORRECTOR_SCRATCH(n, k);
}
int main(void) {
    uint64_t sum;
    (void)nm_addm(1, 1, 97, &sum);
    return room(1, 1, 1) == 0 || nm_kronecker(0, 0, 0);
}
"""
UNUSED = ("(void)nm_addm", "nm_addm")
IN_C = """the keys are equal
(1 + 2X + 3X^2)(4 + 5X) has the coefficients 4 13 22 15
the message is 1 2 3
a sum modulo 0 returns 2, and 7 stays
"""
IN_PYTHON = """code 0: 18446744073709551556
code 2: 18446744073709551556 stays
"""


def flags(prefix):
    """How a program is compiled and linked with what is installed, by pkg-config where that is at hand."""
    if shutil.which("pkg-config"):
        env = {**os.environ, "PKG_CONFIG_PATH": f"{prefix}/lib/pkgconfig"}
        said, status = run("pkg-config", "--cflags", "--libs", "num_modular", env=env)
        return shlex.split(said) if status == 0 else ["pkg-config-failed"]
    return [f"-I{prefix}/include", f"-L{prefix}/lib", "-lnum_modular"]


def in_c(name):
    """A type of the sources, as the header names it."""
    return TYPES.get(name) or re.sub(r"(?<=[a-z])(?=[A-Z])", "_", name).lower() + "_t"


def exports(text=SOURCES):
    """The parameters of each function for C, as type and name in C. A list is a pointer, and then a length without a name."""
    found = {}
    for name, parameters in re.findall(r'\bpub (?:unsafe )?extern "C" fn (\w+)(?:<\'a>)?\(([^)]*)\) -> u32\b', text):
        found[name] = []
        for own, pointer, is_list, kind in PARAMETER.findall(parameters):
            constant = "const " if pointer and "mut" not in pointer else ""
            found[name].append((constant + in_c(kind) + (" *" if pointer else " "), own))
            found[name] += [("size_t ", None)] if is_list else []
    return found


def without_comments(text):
    return re.sub(r"/\*.*?\*/", "", text, flags=re.S)


def declarations(header):
    """The parameters of each function that the header declares, as type and name."""
    text = without_comments(header)
    for kind, name in re.findall(r"^typedef (\w+) (\w+);$", text, re.M):
        text = re.sub(rf"\b{name}\b", kind, text)
    declared = re.findall(r"^(?:NM_CHECK )?uint32_t (\w+)\(([^)]*)\);", text, re.M)
    return {name: re.findall(r"((?:const )?\w+ \*?)(\w+)(?:,\s*|$)", words) for name, words in declared}


def signatures(header, text):
    """What the header declares in another way than a text in Rattle or in Rust. Names are compared with Rattle's alone, in
    which a length has none."""
    wanted, declared = exports(text), declarations(header)
    for name in sorted({*wanted, *declared}):
        own, other = wanted.get(name), declared.get(name)
        if own and other and len(own) == len(other):
            other = [(kind, it if text is SOURCES and of else of) for (kind, it), (_, of) in zip(other, own)]
        if own != other:
            yield f"{name}({other}) is {own} in the sources"


def layouts(header, folder, text):
    """What a C compiler says where a struct or a constant of the header isn't that of a text in Rattle or in Rust."""
    constants = re.findall(r"^pub const (NM_\w+): u\d+ = (\d+);$", text, re.M)
    lines = [f'_Static_assert({name} == UINT64_C({value}), "{name}");' for name, value in constants]
    structs = re.findall(r"#\[repr\(C\)\]\n(?:#[^\n]*\n)?pub struct (\w+)(?:<'a>)? \{\n(.*?)\n\}", text, re.S)
    for name, body in structs:
        fields = []
        for own, pointer, kind in re.findall(r"^ +(?:pub )?(\w+): (&'a \[|\*const |)(?:\w+::)*(\w+)\]?,$", body, re.M):
            fields.append((own, f"const {in_c(kind)} *" if pointer else in_c(kind)))
            fields += [(f"{own}_length", "size_t")] if "[" in pointer else []
        lines.append(f"struct {name} {{ {' '.join(f'{kind} {own};' for own, kind in fields)} }};")
        lines.append(f'_Static_assert(sizeof({in_c(name)}) == sizeof(struct {name}), "{name}");')
        for own, kind in fields:
            place = f"offsetof({in_c(name)}, {own}) == offsetof(struct {name}, {own})"
            lines.append(f'_Static_assert({place}, "the place of {name}.{own}");')
            lines.append(f'_Static_assert(_Generic((({in_c(name)} *)0)->{own}, {kind}: 1, default: 0), "{name}.{own}");')
    (folder / "num_modular.h").write_text(header)
    (folder / "layout.c").write_text("\n".join(["#include <num_modular.h>", *lines, ""]))
    said, status = run("cc", "-std=c11", *WARNINGS, f"-I{folder}", "-fsyntax-only", f"{folder}/layout.c")
    defined = {*re.findall(r"^#define (NM_\w+) (?:UINT64_C|\d)", header, re.M), *re.findall(r"^\} (nm_\w+);", header, re.M)}
    wanted = {*(it for it, _ in constants), *(in_c(it) for it, _ in structs)}
    differs = wanted != defined if text is SOURCES else wanted - defined
    return [said] * (status != 0) + [f"{defined} {wanted}"] * bool(differs)


def differences(header, folder, text=SOURCES):
    return [*signatures(header, text), *layouts(header, folder, text)]


def compared(name, text, wrong, differences):
    """Whether a text has no differences, and each wrong one has some."""
    found = differences(text)
    yield report(name, not found, "\n".join(found))
    for one, other in wrong:
        changed = text.replace(one, other)
        yield report(f"it is wrong with {other.strip()!r}", changed != text and differences(changed))


def names(prefix):
    """Whether the archive, the header and the tests name the same functions, and the tests each list as an empty one."""
    said, status = run("nm", "-g", "--defined-only", f"{prefix}/lib/libnum_modular.a")
    exported, wanted = set(re.findall(r"^\w+ T (\w+)$", said, re.M)), exports()
    tests = "".join(without_comments(it.read_text()) for it in sorted(TOP.glob("c/tests/*.c")))
    calls = [(name, [it.strip() for it in words.split(",")]) for name, words in re.findall(r"\b(nm_\w+)\(([^()]*)\)", tests)]
    empty = {(name, place) for name, words in calls for place in range(len(words)) if words[place : place + 2] == ["NULL", "0"]}
    lists = {(name, place - 1) for name, found in wanted.items() for place, (_, own) in enumerate(found) if own is None}
    called = set(re.findall(r"\b(nm_\w+)\(", tests))
    yield report("the archive exports what the sources export", status == 0 and exported == {*wanted}, f"{exported ^ {*wanted}}")
    yield report("the tests call what the sources export", wanted and {*wanted} <= called, f"{ {*wanted} - called}")
    yield report("the tests pass NULL for each list", lists and lists <= empty, f"{sorted(lists - empty)}")


def counts_in(said):
    """How many passed and failed, by the last line of what a program said; None where it has no such line."""
    counts = COUNT.fullmatch(said.strip().rpartition("\n")[2])
    return counts and (int(counts[1]), int(counts[2]))


def page(prefix, folder):
    """The example of c/README.md, which prints what the page says."""
    text = (TOP / "c/README.md").read_text()
    code, output = re.findall(r"^```c\n(.*?)^```$", text, re.S | re.M), re.findall(r"^```text\n(.*?)^```$", text, re.S | re.M)
    if len(code) != 1 or len(output) != 1:
        return [report("c/README.md has an example and its output", False)]
    (folder / "page.c").write_text(code[0])
    return program(prefix, folder, "the example of c/README.md", [folder / "page.c"], output[0])


def program(prefix, folder, name, sources, want):
    """Compiles a program under the sanitizers, runs it, and compares what it prints; where nothing is wanted, its last line
    counts."""
    file = f"{folder}/{os.path.basename(name)}.out"
    said, status = run("cc", "-std=c11", *WARNINGS, *SANITIZERS, "-o", file, *sources, *flags(prefix))
    if status:
        yield report(f"{name} is compiled", False, said)
        return
    said, status = run(file)
    counts = counts_in(said)
    yield report(f"{name} under the sanitizers", status == 0 and (counts if want is None else said == want), said)
    if want is None and counts:
        yield counts


def header(prefix, folder):
    """Whether the header stands by itself in C and in C++, its macros convert their arguments, and a call whose code isn't
    used is warned of, unless it is cast to void."""
    compilers = {"cc": "c", "clang": "c", "c++": "cpp", "clang++": "cpp"}
    standards = {"c": ("c99", "c17", "c2x"), "cpp": ("c++11", "c++17")}
    for compiler, suffix, standard in ((it, kind, f"-std={one}") for it, kind in compilers.items() for one in standards[kind]):
        if not shutil.which(compiler):
            print(f"no {compiler}: the header wasn't tried with it")
            continue
        source = folder / f"header.{suffix}"
        source.write_text(IN_HEADER)
        words = (*WARNINGS, "-Wconversion", "-Wsign-conversion", f"-I{prefix}/include", "-c", "-o", f"{folder}/header.o")
        words = (*words, *(["-Wold-style-cast"] if suffix == "cpp" else []))
        said, status = run(compiler, standard, *words, source)
        yield report(f"the header with {compiler} {standard}", status == 0, said)
        source.write_text(IN_HEADER.replace(*UNUSED))
        said, status = run(compiler, standard, *words, source)
        yield report(f"a code that isn't used, with {compiler} {standard}", status and "unused-result" in said, said)


def programs(prefix, folder, options=()):
    """The header, c/tests, compiled with options more, and the examples, over what is installed."""
    yield from header(prefix, folder)
    yield from program(prefix, folder, "c/tests", [*options, *sorted(TOP.glob("c/tests/*.c"))], None)
    yield from program(prefix, folder, "c/examples/example.c", [TOP / "c/examples/example.c"], IN_C)
    yield from page(prefix, folder)
    said, status = run(sys.executable, TOP / "c/examples/example.py", prefix)
    yield report("c/examples/example.py", status == 0 and said == IN_PYTHON, said)
    said, status = run(sys.executable, TOP / "c/examples/example.py")
    yield report("c/examples/example.py without its word", status == 2 and "example.py PREFIX" in said, said)
