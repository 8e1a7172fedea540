"""Reads the attacks of attacks/, by which `checks/promises` and `checks/divisions` are tried.

An attack is a file. Its head has lines `word: text`; then follow its edits, each with the lines `file: PATH`, `--- old`
and `--- new` before a text. An empty old text makes a file.
"""
import re

from libraries import TOP, edited


class Attack:
    """An attack: its name, what its head says for each word, and its edits."""

    def __init__(self, file):
        head, *edits = re.split(r"^file: ", file.read_text(encoding="utf-8"), flags=re.M)
        self.name, self.head = file.name, {}
        for line in head.splitlines():
            word, _, text = line.partition(": ")
            self.head.setdefault(word, []).append(text)
        self.edits = [re.fullmatch(r"(.*?)\n--- old\n(.*?)--- new\n(.*)", it, re.S).groups() for it in edits]

    def apply(self, top):
        """Makes the edits in a copy of the repository."""
        for name, old, new in self.edits:
            edited(top / name, old, new)


def attacks(words, names=()):
    """The attacks whose heads have one of these words, or those of them that are named."""
    found = [it for it in map(Attack, sorted((TOP / "checks/attacks").iterdir())) if not it.head.keys().isdisjoint(words)]
    if lost := {*names}.difference(it.name for it in found):
        raise SystemExit(f"attacks: there is no attack {', '.join(sorted(lost))} of this kind")
    return [it for it in found if not names or it.name in names]
