#!/usr/bin/env python3
"""Draws the pictures of docs/pictures.

    tools/pictures.py            draws them (apt-get install -y python3-rich python3-matplotlib graphviz)
    tools/pictures.py --check    fails if one is of another source, or a figure isn't in BENCHMARKS,
                                 or README.md has one that isn't in docs/pictures/speed.tsv

session.svg   the commands of SESSION, with the output that runs/zimgasol/expected.txt has of them
speed.svg     the figures of docs/pictures/speed.tsv, but those of the panel `-`
page.svg      docs/pictures/page.dot

Each ends with the SHA-256 of its source, which --check compares, without any of these packages.
Only a picture whose source has changed is drawn again. It needs the system's Python, where the
packages are.
"""
import csv
import hashlib
import io
import re
import subprocess
import sys
from pathlib import Path

TOP = Path(__file__).resolve().parent.parent
PICTURES = TOP / "docs" / "pictures"
EXPECTED = TOP / "runs" / "zimgasol" / "expected.txt"
SPEED, BENCHMARKS = PICTURES / "speed.tsv", TOP / "docs" / "build" / "BENCHMARKS.md"
SESSION = ("zimgasol verify guest.sav", "head -c 50000 guest.sav > cut.sav", "zimgasol verify cut.sav",
           "echo $?", "zimgasol inspect guest.sav", "zimgasol extract guest.sav memory", "ls memory/state")
COLUMNS = 100
MARK = "<!-- drawn from {} -->"
TITLES = {"file": "A guest of 1 GiB without pages of zeros, files in memory: CPU seconds (grey: QEMU)",
          "live": "The library for C over sockets, 512 MiB: time beside a plain transfer (1.0)"}
# (no part of a version)
FIGURE = re.compile(r"(?<![\d.])\d+\.\d\d(?![\d.])")
COLOURS = {"ours": "#2f7d4f", "other": "#8a8a8a"}


def output_of(command, lines):
    """The lines that a command printed, where expected.txt has it first."""
    at = lines.index(f"$ {command}") + 1
    end = next((i for i in range(at, len(lines)) if lines[i].startswith("$ ")), len(lines))
    return lines[at:end]


def session():
    """The recorded session: each command, and what it printed."""
    lines = EXPECTED.read_text().splitlines()
    return "\n".join(line for it in SESSION for line in (f"$ {it}", *output_of(it, lines)))


def figures():
    return list(csv.DictReader(SPEED.open(), delimiter="\t"))


def draw_session(text):
    from rich.console import Console
    from rich.terminal_theme import DIMMED_MONOKAI
    from rich.text import Text
    console = Console(record=True, width=COLUMNS, file=io.StringIO(), force_terminal=True,
                      color_system="truecolor")
    for line in text.splitlines():
        colour = "bold green" if line.startswith("$ ") else "red" if "fault" in line else None
        console.print(Text(line, style=colour or "", overflow="fold"))
    drawn = console.export_svg(title="zimgasol", theme=DIMMED_MONOKAI, unique_id="session")
    # (no font from another site)
    return re.sub(r"@font-face \{.*?\}\s*", "", drawn, flags=re.DOTALL)


def draw_speed(_):
    import matplotlib
    matplotlib.use("svg")
    from matplotlib import pyplot
    pyplot.rcParams.update({"svg.fonttype": "none", "svg.hashsalt": "zimgasol", "font.size": 10,
                            "font.family": "sans-serif"})
    rows = {panel: [it for it in figures() if it["panel"] == panel] for panel in TITLES}
    figure, axes = pyplot.subplots(len(rows), 1, figsize=(8.6, 4.6), layout="constrained",
                                   height_ratios=[len(them) for them in rows.values()])
    for axis, (panel, them) in zip(axes, rows.items()):
        values = [float(it["figure"]) for it in them]
        bars = axis.barh([it["work"] for it in them], values, height=0.62,
                         color=[COLOURS[it["kind"]] for it in them])
        if panel == "live":
            spread = [[value - float(it["least"]) for it, value in zip(them, values)],
                      [float(it["most"]) - value for it, value in zip(them, values)]]
            axis.errorbar(values, range(len(them)), xerr=spread, fmt="none", ecolor="black",
                          elinewidth=1, capsize=3)
            axis.axvline(1, color="#8a8a8a", linewidth=1)
        else:
            axis.bar_label(bars, [it["figure"] for it in them], padding=3)
        axis.invert_yaxis()
        axis.set_title(TITLES[panel], loc="left", fontsize=10)
        axis.margins(x=0.09)
        axis.spines[["top", "right"]].set_visible(False)
    drawn = io.StringIO()
    figure.savefig(drawn, format="svg", metadata={"Date": None, "Creator": None})
    return drawn.getvalue()


def draw_page(text):
    return subprocess.run(["dot", "-Tsvg"], input=text, capture_output=True, text=True, check=True).stdout


PARTS = {"session": (session, draw_session), "speed": (SPEED.read_text, draw_speed),
         "page": ((PICTURES / "page.dot").read_text, draw_page)}


def unmeasured():
    """The figures that BENCHMARKS doesn't have, and those of README that the table doesn't have."""
    measured, ours = set(FIGURE.findall(BENCHMARKS.read_text())), set()
    for it in figures():
        ours |= {it["figure"], it["least"], it["most"]} - {""}
    front = set(FIGURE.findall((TOP / "README.md").read_text()))
    return [f"{it} isn't in docs/build/BENCHMARKS.md" for it in sorted(ours - measured)] + [
        f"README.md: {it} isn't in docs/pictures/speed.tsv" for it in sorted(front - ours)]


def main(words):
    if words not in ([], ["--check"]):
        sys.exit(__doc__)
    wrong = unmeasured()
    for name, (source, draw) in PARTS.items():
        text, file = source(), PICTURES / f"{name}.svg"
        mark = MARK.format(hashlib.sha256(text.encode()).hexdigest())
        if file.is_file() and file.read_text().rstrip().endswith(mark):
            continue
        if words:
            wrong.append(f"docs/pictures/{name}.svg is of another source: make pictures")
        else:
            drawn = "\n".join(line.rstrip() for line in draw(text).rstrip().splitlines())
            file.write_text(f"{drawn}\n{mark}\n")
            print(f"drawn: {file.relative_to(TOP)}")
    sys.exit("\n".join(wrong) if wrong else 0)


if __name__ == "__main__":
    main(sys.argv[1:])
