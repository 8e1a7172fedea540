#!/usr/bin/env python3
"""Reads the lines of bench/matrix, as JSON, from standard input, and draws docs/speed-matrix.svg; `bench/run --matrix` calls it.
It needs matplotlib."""
import json
import math
import sys
from collections import defaultdict

from draw_speed import plt, save
from speed import KINDS, column_of, mean


def grouped(lines):
    """The ratios by side and call, kind and width."""
    groups = defaultdict(list)
    for it in lines:
        groups[it["side"], it["call"], column_of(it["place"])].append(it["ratio"])
    return groups


def draw(lines):
    """A map of the means: calls by kinds of reducers and widths, for chains and for eight chains."""
    groups = grouped(lines)
    calls = list(dict.fromkeys(it["call"] for it in lines))
    columns = sorted({column for _, _, column in groups}, key=lambda it: ([name for name, _ in KINDS].index(it[0]), it[1]))
    figure, parts = plt.subplots(1, 2, figsize=(12, 0.2 * len(calls) + 1.2), sharey=True)
    for part, side in zip(parts, ("chain", "eight")):
        means = [[mean(groups[side, call, it]) if (side, call, it) in groups else math.nan for it in columns] for call in calls]
        shown = [[math.log2(it) if it == it else math.nan for it in row] for row in means]
        shade = part.imshow(shown, cmap="RdBu_r", vmin=-1, vmax=1, aspect="auto")
        part.set_xticks(range(len(columns)), [f"{kind} {width}" for kind, width in columns], rotation=90, fontsize=7)
        part.set_yticks(range(len(calls)), calls, fontsize=7)
        part.set_title({"chain": "a chain", "eight": "eight chains side by side"}[side], fontsize=9)
    bar = figure.colorbar(shade, ax=parts, fraction=0.02, ticks=[-1, -0.5, 0, 0.5, 1])
    bar.ax.set_yticklabels(["0.5", "0.7", "1", "1.4", "2"])
    save(figure, "speed-matrix.svg", "Every small call beside the Rust crate",
         "A map of the time of each call, by kind of reducer and width, divided by the Rust crate's: blue is faster, red slower.")


if __name__ == "__main__":
    draw([json.loads(it) for it in sys.stdin])
