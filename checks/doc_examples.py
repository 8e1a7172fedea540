"""Which public functions, types and traits of the Cargo crate have no example in their docs, for checks/rust."""
import json
import os
import tempfile
from pathlib import Path

from results import run

OPTIONS = ("-Z", "unstable-options", "--output-format", "json", "--document-hidden-items")
KINDS = ("function", "struct", "enum", "union", "trait", "type_alias", "macro")


def without_example(index, root):
    """The paths of the items without an example, of those that rustdoc's index has below a root."""
    queue, seen = [(root, "")], set()
    for key, above in queue:
        item = index.get(str(key))
        if item is None or "hidden" in str(item["attrs"]):
            continue
        ((kind, inner),) = item["inner"].items()
        if kind == "use":
            queue.append((inner["id"], above))  # an item that has another path, too
        elif key not in seen:
            seen.add(key)
            path = f"{above}::{item['name']}"
            if kind in KINDS and "```" not in (item["docs"] or ""):
                yield path
            inside = inner["items"] if kind in ("module", "trait") else []
            for block in inner["impls"] if kind in ("struct", "enum", "union") else ():
                found = index[str(block)]["inner"]["impl"] if str(block) in index else {"trait": True}
                inside += [] if found["trait"] else [it for it in found["items"] if index[str(it)]["visibility"] == "public"]
            queue += [(it, path) for it in inside]


def lacking(folder):
    """The paths of the items without an example, of the crate in a folder; none where this rustdoc can't list them."""
    with tempfile.TemporaryDirectory() as target:
        environment = {**os.environ, "RUSTC_BOOTSTRAP": "1", "CARGO_TARGET_DIR": target}
        run("cargo", "rustdoc", "--offline", "--lib", "--", *OPTIONS, cwd=folder, env=environment)
        try:
            docs = json.loads(next((Path(target) / "doc").glob("*.json")).read_text(encoding="utf-8"))
            return list(without_example(docs["index"], docs["root"]))
        except (KeyError, StopIteration, TypeError, ValueError):  # another version of the format
            print("this rustdoc doesn't list a crate's items: whether each has an example wasn't checked")
            return []
