#!/usr/bin/env python3
"""Draws docs/speed-ratios.svg and docs/speed-growth.svg from what `bench/run` measured on the processor of bench/thresholds.txt.

It needs matplotlib (Debian's python3-matplotlib). The pictures keep their words as text, have no ground of their
own, and take their ink from the page's light or dark scheme.
"""
import math
import pathlib
import re
from html import escape

import matplotlib

matplotlib.use("svg")
import matplotlib.pyplot as plt

from speed import run_of

FOLDER = pathlib.Path(__file__).resolve().parent.parent / "docs"
INK = "#24292f"
PORT, CRATE, THIRD = "#1f77b4", "#d1742c", "#3a9a5b"
LIMIT = 1.05
STYLE = """
text { fill: #24292f; }
@media (prefers-color-scheme: dark) {
  text { fill: #d7dde3; }
  [style*="stroke: #24292f"] { stroke: #d7dde3 !important; }
}
"""
TABLES = (("any", "any modulus"), ("fixed", "fixed moduli"), ("symbols", "symbols, short operands"),
          ("narrow", "words of 8 and 32 bits"), ("throughput", "eight chains side by side"))

plt.rcParams.update({
    "svg.fonttype": "none", "svg.hashsalt": "speed", "font.family": "sans-serif", "font.size": 10,
    "text.color": INK, "axes.edgecolor": INK, "axes.labelcolor": INK, "xtick.color": INK, "ytick.color": INK,
    "axes.spines.top": False, "axes.spines.right": False, "legend.frameon": False,
})


def save(figure, name, title, words):
    """Writes a picture with a title, a description and the colours of both schemes."""
    path = FOLDER / name
    figure.savefig(path, transparent=True, bbox_inches="tight", metadata={"Date": None, "Creator": None})
    plt.close(figure)
    text = path.read_text(encoding="utf-8")
    head = f'<title id="title">{escape(title)}</title>\n<desc id="desc">{escape(words)}</desc>\n<style>{STYLE}</style>\n'
    # the words take their ink from the style alone
    text = re.sub(r"fill: %s; *" % INK, "", text)
    text = re.sub(r"(<svg\b[^>]*)>", lambda found: found[1] + ' role="img" aria-labelledby="title desc">\n' + head, text, count=1)
    path.write_text("\n".join(line.rstrip() for line in text.split("\n")), encoding="utf-8")
    return words


def ratios(tables):
    shown = []
    for key, title in TABLES:
        if key in tables:
            column = tables[key]["heads"].index("port/crate")
            shown.append((title, [(line["name"], line["numbers"][column]) for line in tables[key]["lines"]]))
    heights = [len(lines) for _, lines in shown]
    figure, parts = plt.subplots(len(shown), 1, figsize=(8.6, 0.24 * sum(heights) + 0.75 * len(shown)), sharex=True,
                                 gridspec_kw={"height_ratios": heights, "hspace": 0.28})
    greatest = max(ratio for _, lines in shown for _, ratio in lines)
    for part, (title, lines) in zip(parts, shown):
        names, values = zip(*lines)
        places = range(len(lines))
        part.barh(places, values, color=[PORT if v <= LIMIT else CRATE for v in values], height=0.7)
        for place, value in zip(places, values):
            part.text(value + 0.01 if not 0.9 < value < 1 else 1.01, place, f"{value:.2f}", va="center", fontsize=9)
        part.set_yticks(list(places), names)
        part.invert_yaxis()
        part.axvline(1, color=INK, linewidth=1)
        part.set_title(title, loc="left", fontsize=10, fontweight="bold")
        part.set_xlim(0, max(1.15, greatest + 0.1))
        part.tick_params(axis="y", length=0)
    parts[-1].set_xlabel("time of the port / time of the Rust crate; the line is at 1, bars above 1.05 are orange")
    said = (f"{title}: " + ", ".join(f"{name} {ratio:.2f}" for name, ratio in lines) for title, lines in shown)
    words = "Bars of the time of each operation divided by the Rust crate's, with a line at 1. " + ". ".join(said) + "."
    return save(figure, "speed-ratios.svg", "Time of each operation beside the Rust crate's", words)


def columns(growth):
    return [list(column) for column in zip(*growth["lines"])]


def growths(growth):
    figure, parts = plt.subplots(3, 2, figsize=(9.6, 11.2), gridspec_kw={"hspace": 0.42, "wspace": 0.3})
    (powers, inverses), (symbols, transforms), (products, searches) = parts
    digits, port, crate, montgomery = columns(growth["powers"])
    powers.plot(digits, port, "o-", color=PORT, label="powm", markersize=3.5)
    powers.plot(digits, montgomery, "s-", color=THIRD, label="Montgomery::pow", markersize=3.5)
    powers.plot(digits, crate, "^-", color=CRATE, label="powm of the crate", markersize=3.5)
    slope = port[-1] / digits[-1]
    powers.plot(digits, [slope * d for d in digits], ":", color=INK, label="in proportion to the digits")
    powers.set(title="A power, by its exponent's digits", xlabel="binary digits of the exponent", ylabel="ns", yscale="log")
    said = [f"powm takes {port[0]:.0f} ns for {digits[0]:.0f} binary digits of the exponent and {port[-1]:.0f} ns for "
            f"{digits[-1]:.0f}, the crate's {crate[-1]:.0f} ns"]
    for part, key, title, what in ((inverses, "inverses", "An inverse, by its operands' bits", "divisions"),
                                   (symbols, "symbols", "A Jacobi symbol, by its operands' bits", "halvings and swaps")):
        bits, port, crate, mean, most, bound = columns(growth[key])
        part.plot(bits, bound, "-", color=INK, label="proved bound")
        part.plot(bits, most, "^", color=CRATE, label="most that was counted", markersize=4)
        part.plot(bits, mean, "o-", color=PORT, label="mean", markersize=3.5)
        part.set(title=title, xlabel="bits of the operands", ylabel=what)
        said.append(f"at {bits[-1]:.0f} bits {title[0].lower()}{title[1:].split(',')[0]} takes {mean[-1]:.1f} {what} in the mean and "
                    f"{most[-1]:.0f} at most in 2,000 trials, the proved bound is {bound[-1]:.0f}")
    entries, solinas, montgomery = columns(growth["transforms"])
    shares = lambda times: [time / (n * math.log2(n)) for n, time in zip(entries, times)]
    transforms.plot(entries, shares(solinas), "o-", color=PORT, label="over FixedTrinomialSolinas64", markersize=3.5)
    transforms.plot(entries, shares(montgomery), "s-", color=THIRD, label="over Montgomery", markersize=3.5)
    transforms.set(title="A transform, by its length", xlabel="entries, n", ylabel="ns / (n log n)")
    transforms.set_ylim(0, 1.25 * max(shares(solinas) + shares(montgomery)))
    transforms.set_xscale("log", base=2)
    said.append(f"a transform of 2^{math.log2(entries[0]):.0f} entries takes {solinas[0] / 1e3:.2f} microseconds and of "
                f"2^{math.log2(entries[-1]):.0f} {solinas[-1] / 1e6:.2f} ms, close to n log n")
    digits, port, school = columns(growth["products"])
    products.plot(digits, port, "o-", color=PORT, label="long_product::product", markersize=3.5)
    products.plot(digits, school, "^-", color=CRATE, label="the schoolbook's, in Rust", markersize=3.5)
    products.set(title="A product, by its factors' digits", xlabel="digits of 64 bits", ylabel="ns", yscale="log")
    products.set_xscale("log", base=2)
    said.append(f"a product of numbers of 2^{math.log2(digits[-1]):.0f} digits of 64 bits takes {port[-1] / 1e6:.2f} ms by transforms "
                f"and {school[-1] / 1e6:.2f} ms by the schoolbook's way")
    lengths, port, loop, windows, strings = columns(growth["searches"])
    searches.plot(lengths, port, "o-", color=PORT, label="hashes::find", markersize=3.5)
    searches.plot(lengths, loop, "^-", color=CRATE, label="a loop in Rust", markersize=3.5)
    searches.plot(lengths, windows, "s-", color=THIRD, label="windows(n).position", markersize=3.5)
    searches.plot(lengths, strings, ":", color=INK, label="str::find")
    searches.set(title="A search in one letter, by the pattern's length", xlabel="bytes of the pattern", ylabel="ms", yscale="log")
    searches.set_xscale("log", base=2)
    said.append(f"a search in 1,000,000 equal letters takes {port[0]:.1f} ms for a pattern of {lengths[0]:.0f} bytes and {port[-1]:.1f} ms "
                f"for one of {lengths[-1]:.0f}, a loop {loop[0]:.1f} and {loop[-1]:.1f} ms")
    for part in parts.flat:
        part.legend(fontsize=8.5)
        part.title.set_fontsize(10.5)
    words = "Six curves against a size: " + "; ".join(said) + "."
    return save(figure, "speed-growth.svg", "Times and counted steps against sizes", words)


def main():
    run = run_of("crate")
    ratios({table["key"]: table for table in run["tables"]})
    growths({growth["key"]: growth for growth in run["growth"]})


if __name__ == "__main__":
    main()
