"""The names in C and in Python of the public items, as checks/languages.txt has them, for checks/reference."""
import ast
import re

from libraries import TOP

LIST, HEADER, PACKAGE = TOP / "checks/languages.txt", TOP / "c/include/num_modular.h", TOP / "python/src/num_modular"


def names_in_c():
    """The functions that the header declares."""
    return set(re.findall(r"\b(nm_\w+)\(", re.sub(r"/\*.*?\*/", "", HEADER.read_text(encoding="utf-8"), flags=re.S)))


def names_in_python():
    """What the package exports, and the public methods of its classes."""
    body = [it for file in sorted(PACKAGE.glob("*.py")) for it in ast.parse(file.read_text(encoding="utf-8")).body]
    exported = next(it for it in body if isinstance(it, ast.Assign) and ast.unparse(it.targets[0]) == "__all__")
    names = set(ast.literal_eval(exported.value))
    inside = [(it.name, one) for it in body if isinstance(it, ast.ClassDef) and it.name in names for one in it.body]
    return names | {f"{name}.{one.name}" for name, one in inside if isinstance(one, ast.FunctionDef) and one.name[0] != "_"}


class Names:
    """The names of the items that are asked for, and what is wrong with the list once all were."""

    def __init__(self):
        lines = [it.split() for it in LIST.read_text(encoding="utf-8").splitlines() if it and it[0] != "#"]
        lines = [(path, [names.split(",") if names != "-" else [] for names in both]) for path, *both in lines]
        self.listed = {path: both for path, both in lines if path != "-"}
        self.known = names_in_c(), names_in_python()
        self.used = [{it for path, both in lines if path == "-" for it in both[at]} for at in (0, 1)]
        self.asked = set()

    def of(self, path):
        """The names of an item in C and in Python: those of its own line, or those that exist of a line with a `*`."""
        parts = path.split("::")
        fronts = ["::".join([*parts[:count], "*"]) for count in range(len(parts) - 1, 0, -1)]
        key = next((it for it in (path, *fronts) if it in self.listed), None)
        found = [[it.replace("*", parts[-1]) for it in names] for names in self.listed.get(key, ([], []))]
        if key != path:
            found = [[it for it in names if it in known] for names, known in zip(found, self.known)]
        self.asked.add(path)
        for names, used in zip(found, self.used):
            used.update(names)
        return found

    def faults(self):
        for known, used in zip(self.known, self.used):
            yield from (f"{LIST.name}: {it} doesn't exist" for it in sorted(used - known))
            yield from (f"{LIST.name}: {it} belongs to no item, and isn't in the last lines" for it in sorted(known - used))
        yield from (f"{LIST.name}: {it} is no item" for it in self.listed if it[-1] != "*" and it not in self.asked)
