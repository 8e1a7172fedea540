"""Where a source and its generated file differ, but for ghost text, marks and the rules of rust/ERASING.md: for checks/rust.

Tokens, ghost text and marks are those of rust/erase_tokens.py. All else is done anew, on texts of tokens with single spaces
between them.
"""
import re

from erase_tokens import GHOST, TOKEN, marked
from libraries import leaves

BLOCK = r"\{(?:[^{}]|\{(?:[^{}]|\{(?:[^{}]|\{(?:[^{}]|\{[^{}]*\})*\})*\})*\})*\}"
LAW = re.compile(r"(?<= )(?:# \[ [^\]]* \] )*(?:pub (?:\( crate \) )?)?fn (\w+) (?:< [^{()]* > )?\( (?:[^{}()]* )?\) \{ \} ")
LISTED = re.compile(r'((?:# \[ (?:[^\[\]]|\[[^\]]*\])* \] )*)((?:pub (?:\( crate \) )?)?(?:use|mod) )([^;{]*(?:\{ [^;]*)?); ')
# The rules, each as what it makes of the source, or undoes in the generated file.
OF_SOURCE = (
    (r'# \[ unsafe \( no_mangle \) \] ((?:# \[ [^\]]* \] )*)pub extern "C" fn', r"\1pub fn"),
    (r"\( rt : HostRuntime \)", "( )"),
)
OF_BOTH = (
    (r"# \[ (?:inline|must_use) \] ", ""),
    (r"\) \] # \[ derive \(", ","),
    (rf"let (?:Some \( ((?:mut )?\w+) \)) = ([^{{}};]*) else ({BLOCK}) ;", r"let \1 = match \2 { Some ( it ) => it , None => \3 } ;"),
    (r"=> \{ ([^{};]+) \} (?:, )?", r"=> \1 , "),
    (r", (?=[\])}>{])", ""),
    (r"let rt = crate :: runtime :: HostRuntime ; ", ""),
)


def code_of(text):
    """The tokens of a text."""
    return f" {' '.join(it.group() for it in TOKEN.finditer(text) if it.lastgroup not in ('space', 'comment'))} "


def code_of_source(text, heads):
    """The tokens of a source as its marks change it, without ghost text, and with heads of paths as the crate has them."""
    lines, put = marked(text, is_test=True)
    lines = [line if number in put else heads(line.partition("//")[0]) for number, line in enumerate(lines)]
    return code_of(GHOST.sub(lambda it: it[0] if it["unknown"] else " ", "\n".join(lines)))


def without_laws(codes):
    """Takes laws away from the codes, functions that return nothing and do nothing, and their calls. Returns their names."""
    names = set()
    while found := {name for code in codes.values() for name in LAW.findall(code)}:
        names |= found
        call = re.compile(rf"(?<=[;{{}}] )(?:{'|'.join(names)}) (?::: < [^>]* > )?\( (?:[^()]* )?\) ; ")
        for key, code in codes.items():
            code = LAW.sub("", code)
            while call.search(code):
                code = call.sub("", code)
            codes[key] = code
    return names


def markers(codes):
    """The traits without members, with what each leaves as a bound; None for one that requires a trait with methods."""
    found = {name: head for code in codes.values() for name, head in re.findall(r"\btrait (\w+) ([^{;]*)\{ \}", code)}
    rest = {name: set(re.findall(r"\w+", head)) - set(found) - {"Sized"} for name, head in found.items()}
    return {name: " + ".join(sorted(it)) if it <= {"Copy", "Eq"} else None for name, it in rest.items()}


def without_markers(code, found):
    """The code without these traits, without their impls, and without them as bounds."""
    code = re.sub(rf"(?<= )impl (?:< (?:(?! impl ).)*? > )?(?:{'|'.join(found)}) (?:< [^{{]*? > )?for (?!Any )[^{{]*\{{ \}} ", "", code)
    for name, other in found.items():
        if other is None:
            continue
        code = re.sub(rf"(?<= )(?:# \[ [^\]]* \] )*(?:pub )?trait {name} [^{{;]*\{{ \}} ", "", code)
        code = re.sub(rf"(?<= [:+] ){name}(?= )", other, code) if other else code
        code = re.sub(rf"(?<= : ){name} \+ ", "", code)
        code = re.sub(rf"(?<= )[:+] {name} (?=[,>{{=;+])", "", code)
    return code


def listed(code):
    """The code without its imports and modules, whose order rustfmt chooses, and the paths of these, with their attributes."""
    found = {f"{one}{two}{path}" for one, two, paths in LISTED.findall(code) for path in leaves(paths)}
    return LISTED.sub("", code), found


def replaced(text, rules):
    for pattern, new in rules:
        text = re.sub(pattern, new, text)
    return text


def fault_of(code, output, gone):
    """The first place where the code of a source and its generated file differ, or where what they import, export or declare
    does; None for none. `gone`: names that only proofs import."""
    code, wanted = listed(replaced(replaced(code, OF_SOURCE), OF_BOTH))
    found, public = listed(replaced(code_of(output), OF_BOTH))
    code, found = code.split(), found.split()
    for at, (one, other) in enumerate(zip([*code, "(end)"], [*found, "(end)"])):
        if one != other:
            return f"the source has {' '.join(code[max(at - 8, 0) : at + 6])}, the crate {' '.join(found[max(at - 8, 0) : at + 6])}"
    differing = {it for it in wanted if re.split(r"::| ", it)[-1] not in gone} ^ public
    return f"one side imports, exports or declares {min(differing)}" if differing else None
