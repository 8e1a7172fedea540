#!/usr/bin/env -S python3 -B
"""Keeps what bench/ measures, and shows it.

    bench/speed.py record PART     keeps what standard input has in bench/results/PROCESSOR/PART.json, with the processor, the
                                   commit, the date and the compiler
    bench/speed.py show [PART..]   prints the tables of these parts, or of all, as Markdown
    bench/speed.py goals           compares the goals of bench/thresholds.txt with the results; the status is 1 if one is missed
    bench/speed.py page [--check]  writes the tables of the goals and of corrections into docs/speed.md; with --check, the status
                                   is 1 if they differ

The parts are crate, peers, codes, plans, crossings, calls, random, secrets and widths. What is shown is of the processor that
bench/thresholds.txt names.
"""
import datetime
import json
import math
import os
import re
import subprocess
import sys
from collections import defaultdict
from pathlib import Path

HERE = Path(__file__).resolve().parent
RESULTS, THRESHOLDS, PAGE = HERE / "results", HERE / "thresholds.txt", HERE.parent / "docs/speed.md"
BEGIN, END = "<!-- written by bench/speed.py page -->", "<!-- end of what bench/speed.py page writes -->"
PARTS = ("crate", "peers", "codes", "plans", "crossings", "calls", "random", "secrets", "widths")
ABOVE = 1.05
KINDS = (("words", r"u\d+ modulo .*"), ("Vanilla", r"Vanilla.*"), ("PreMulInv2by1", r"PreMul.*"), ("Montgomery", r"Montgomery.*"),
         ("OddMontgomery", r"OddMontgomery.*"), ("Mersenne", r"FixedMersenne.*"), ("Solinas", r"FixedTrinomial.*"), ("Proth", r"FixedProth.*"),
         ("fixed Montgomery", r"FixedMont.*"))


def mean(ratios):
    """The geometric mean."""
    return math.exp(sum(map(math.log, ratios)) / len(ratios))


# ------------------------------------------------------------------------------------------------ recording
def output(*words):
    return subprocess.run(words, stdout=subprocess.PIPE, text=True, check=True, cwd=HERE).stdout.strip()


def processor():
    """The folder of this processor's results, and what the system calls it."""
    text = Path("/proc/cpuinfo").read_text(encoding="utf-8")
    field = lambda name: re.search(rf"^{name}\s*: (.*)$", text, re.M)[1]
    family, model, cores = field("cpu family"), field("model"), len(re.findall(r"^processor\s", text, re.M))
    return f"model-{model}", f"{field('model name')}, family {family}, model {model}, {cores} cores"


def of_lines(text):
    """What is kept of the lines of bench/matrix: how many there are, their mean, and those above the limit."""
    lines = [json.loads(it) for it in text.splitlines()]
    ratios = [it["ratio"] for it in lines]
    return {"beside": "num-modular 0.7.0", "count": len(lines), "mean": round(mean(ratios), 4), "slower": [it for it in lines if it["ratio"] > ABOVE]}


def of_rows(text):
    """The table that bench/erased prints: a type, a line, two times and their quotient."""
    rows = re.findall(r"^\| (\S+) \| (.*) \| ([\d.]+) \| ([\d.]+) \| ([\d.]+) \|$", text, re.M)
    lines = [{"name": f"{word}: {name.replace('`', '')}", "numbers": [float(it) for it in numbers]} for word, name, *numbers in rows]
    heads = ["crate ns", "Cargo crate ns", "Cargo crate/crate"]
    title = "The Cargo crate over lists of random operands, and lists of commands"
    return {"beside": "num-modular 0.7.0", "tables": [{"key": "words", "title": title, "heads": heads, "lines": lines}]}


def record(part):
    text = sys.stdin.read()
    found = {"calls": of_lines, "random": of_rows}.get(part, json.loads)(text)
    folder, name = processor()
    head = {
        "part": part,
        "processor": name,
        "commit": os.environ.get("COMMIT") or output("git", "describe", "--always", "--dirty", "--abbrev=12"),
        "date": datetime.date.today().isoformat(),
        "compiler": " ".join(output("rustc", "--version").split()[:2]),
    }
    written(RESULTS / folder / f"{part}.json", {**head, **found})


def written(file, found):
    """Writes a run, a line for each line of a table."""
    inner = lambda items: "[\n" + ",\n".join(f"  {json.dumps(it, ensure_ascii=False)}" for it in items) + "\n]"
    tables = lambda items: "[" + ", ".join(
        "{" + ", ".join(f"{json.dumps(key)}: {inner(value) if key == 'lines' else json.dumps(value, ensure_ascii=False)}" for key, value in it.items()) + "}"
        for it in items) + "]"
    shown = {"tables": tables, "growth": tables, "slower": inner}
    text = ",\n".join(f"{json.dumps(key)}: {shown.get(key, lambda it: json.dumps(it, ensure_ascii=False))(value)}" for key, value in found.items())
    file.parent.mkdir(parents=True, exist_ok=True)
    file.write_text(f"{{\n{text}\n}}\n", encoding="utf-8")


# ------------------------------------------------------------------------------------------------ reading
def goals():
    """The processor that is shown, and the goals: each a limit, a part, its tables, a column, lines, and what it is about."""
    lines = [it for it in THRESHOLDS.read_text(encoding="utf-8").splitlines() if it and not it.startswith("#")]
    return lines[0].split()[-1], [[cell.strip().replace("\\|", "|") for cell in re.split(r"(?<!\\)\|", it)] for it in lines[1:]]


def run_of(part):
    """A run of the processor that is shown, or None."""
    file = RESULTS / goals()[0] / f"{part}.json"
    return json.loads(file.read_text(encoding="utf-8")) if file.exists() else None


def column_of(place):
    """The kind and the width of a place of the map."""
    kind = next(name for name, pattern in KINDS if re.fullmatch(pattern, place))
    return kind, int(re.search(r"u(8|16|32|64)\b|Fixed\w*?(32|64)\b", place)[0][-2:].lstrip("u"))


def shown(number, is_ratio):
    if number is None:
        return ""
    places = 2 if is_ratio or 1 <= number < 10 else 3 if number < 1 else 1 if number < 1000 else 0
    return f"{number:,.{places}f}"


def table(it):
    """A table of a run, as Markdown; below ratios to the Rust crate, their means."""
    heads = it["heads"]
    are_ratios = ["/" in head and "MB/s" not in head or head == "quotient" for head in heads]
    yield f"{it['title']}:\n\n| operation | {' | '.join(heads)} |\n|---|{'---:|' * len(heads)}\n"
    for line in it["lines"]:
        yield f"| {line['name']} | {' | '.join(map(shown, line['numbers'], are_ratios))} |\n"
    if "port/crate" in heads:
        means = [f"{mean(values(it, head)):.2f}" if is_ratio else "" for head, is_ratio in zip(heads, are_ratios)]
        yield f"| geometric mean | {' | '.join(means)} |\n"
    yield "\n"


def slower(run):
    """The lines of the map above the limit, as Markdown: by call and side, with the greatest ratio by kind and width."""
    yield f"{run['count']:,} lines, mean {run['mean']:.2f}; {len(run['slower'])} above {ABOVE}, {sum(it['ratio'] > 1.2 for it in run['slower'])} above 1.2.\n\n"
    yield f"| Call | Side | Where (lines above {ABOVE}, greatest) |\n|---|---|---|\n"
    rows = defaultdict(lambda: defaultdict(list))
    for it in run["slower"]:
        rows[it["call"], it["side"]][column_of(it["place"])].append(it["ratio"])
    for (call, side), places in rows.items():
        yield f"| {call} | {side} | {'; '.join(f'{kind} {width}: {len(it)}, {max(it):.2f}' for (kind, width), it in places.items())} |\n"


def show(*parts):
    for part in parts or PARTS:
        run = run_of(part)
        if not run:
            continue
        print(f"## {part}\n\nOn {run['processor']}, commit {run['commit']}, {run['date']}, {run['compiler']}, beside {run['beside']}.\n")
        print("".join(slower(run) if part == "calls" else (text for it in run["tables"] for text in table(it))))


# ------------------------------------------------------------------------------------------------ goals
def values(it, head, lines=".*"):
    """The numbers of a column, or of one `by` another, of the lines that match. A plain line of Rust is beside no other crate."""
    of, _, to = head.partition(" by ")
    at, by = it["heads"].index(of), it["heads"].index(to) if to else None
    named = ((line["name"], line["numbers"][at] / (line["numbers"][by] if to else 1)) for line in it["lines"])
    return [number for name, number in named if number and re.fullmatch(lines, name) and not name.endswith("(plain line)")]


def measured(part, keys, heads, lines):
    """The ratios that a goal is about."""
    run = run_of(part)
    if not run:
        return []
    if part == "calls":
        return [run["mean"], *(it["ratio"] for it in run["slower"] if re.fullmatch(lines, it["call"]))]
    tables = [it for it in run["tables"] if it["key"] in keys.split()]
    return [number for it in tables for head in heads.split(", ") for number in values(it, head, lines)]


def compared():
    """Each goal: what it is about, the least ratio in words, the greatest, and the limit. Missed ones are first."""
    rows = []
    for limit, part, keys, heads, lines, what in goals()[1]:
        found = measured(part, keys, heads, lines)
        if limit.startswith("mean "):
            found = [mean(found)]
        if not found:
            raise SystemExit(f"{THRESHOLDS.name}: nothing was measured for: {what}")
        limit = float(limit.removeprefix("mean "))
        least = f"mean {found[0]:.2f}, greatest " if part == "calls" else f"{min(found):.2f} to "
        rows.append((what, least, max(found), limit))
    return sorted(rows, key=lambda it: (it[2] <= it[3], -it[2]))


def measured_on():
    """The processor, the compiler, and the parts by the commit of which they were measured."""
    commits = defaultdict(list)
    for part, run in ((it, run_of(it)) for it in PARTS):
        if run:
            commits[run["commit"], run["date"]].append(f"`{part}`")
            name, compiler = run["processor"], run["compiler"]
    shown = [f"{', '.join(parts)}: commit {commit}, {date}" for (commit, date), parts in commits.items()]
    return f"{name}; {compiler}.\nParts: {'; '.join(shown)}."


def text_of_goals():
    yield "| Work | Ratio | Goal |\n|---|---:|---:|\n"
    for what, least, most, limit in compared():
        places = 3 if round(most, 2) <= limit < most else 2
        before = "" if least == f"{most:.2f} to " else least
        ratio = f"{before}{most:.{places}f}"
        yield f"| {what} | {ratio if most <= limit else f'**{ratio}**'} | {limit:g} |\n"


# The tables of corrections: what is in each line's name before the number of wrong symbols, the row, and the column.
CORRECTIONS = (
    ("libfec_corrections", "", "255, 8, libfec", "with checks/libfec"),
    ("corrections", r"(16|32|64) bits.*, ", r"255, \1, FLINT", "with checks/FLINT"),
    ("long_corrections", r"(16|32|64) bits.*, ", r"4096, \1, FLINT", "by transform/FLINT"),
)
CORRECTED = """`Corrector::correct` with a table of checks, or of 4096 symbols by a transform:"""


def text_of_corrections():
    """The ratios of `Corrector::correct`, by the code and the number of wrong symbols."""
    tables = {it["key"]: it for it in run_of("codes")["tables"]}
    rows = defaultdict(dict)
    for key, before, row, head in CORRECTIONS:
        place = tables[key]["heads"].index(head) if key in tables else None
        for line in tables[key]["lines"] if key in tables else ():
            found = re.fullmatch(f"{before}(\\d+) wrong", line["name"])
            if found:
                rows[found.expand(row)][found[found.lastindex]] = line["numbers"][place]
    wrong = [*next(iter(rows.values()))]
    yield f"| Symbols, bits, peer; wrong: | {' | '.join(wrong)} |\n|---|{'---:|' * len(wrong)}\n"
    for row, ratios in rows.items():
        yield f"| {row} | {' | '.join(f'{ratios[it]:.2g}' for it in wrong)} |\n"


def page(*words):
    """Writes the table into the page; with --check, whether it stands there."""
    text = PAGE.read_text(encoding="utf-8")
    before, rest = text.split(f"{BEGIN}\n")
    new = f"{before}{BEGIN}\n\n{measured_on()}\n\n{''.join(text_of_goals())}\n{CORRECTED}\n\n{''.join(text_of_corrections())}\n{END}{rest.split(END)[1]}"
    if words == ("--check",):
        print("docs/speed.md has what was measured" if new == text else "docs/speed.md doesn't have what was measured: run bench/speed.py page")
        return int(new != text)
    PAGE.write_text(new, encoding="utf-8")
    return 0


def show_goals():
    print("".join(text_of_goals()), end="")
    return int(any(most > limit for *_, most, limit in compared()))


def main():
    commands = {"record": record, "show": show, "goals": show_goals, "page": page}
    words = sys.argv[1:]
    if words in (["--help"], ["-h"]):
        print(__doc__.strip())
        return 0
    if not words or words[0] not in commands or words[0] == "record" and (len(words) != 2 or words[1] not in PARTS):
        print(__doc__.strip(), file=sys.stderr)
        return 2
    return commands[words[0]](*words[1:]) or 0


if __name__ == "__main__":
    sys.exit(main())
