#!/usr/bin/env python3
"""The map of the proof: docs/trust/proof.svg, which graphviz draws from docs/trust/proof.dot.

    tools/proof_map.py            draws it (apt-get install -y graphviz)
    tools/proof_map.py --check    fails if an arrow's evidence isn't in its file, if a name in a box
                                  is in no source, or if the drawing is of another map

The tooltip of an arrow is its evidence: a file, and words of it.
"""
import html
import re
import shutil
import subprocess
import sys

from crates import CRATES, TOP

MAP, DRAWING = TOP / "docs" / "trust" / "proof.dot", TOP / "docs" / "trust" / "proof.svg"
ARROW = re.compile(r'^ *(\w+) -> (\w+) \[.*tooltip="(\S+): ([^"]+)"\];$', re.MULTILINE)
BOX = re.compile(r'^ *(\w+) \[label="([^"]+)"', re.MULTILINE)


def words(text):
    return set(re.findall(r"[\w-]+", text)) | set(re.findall(r"\w+", text))


def problems(text):
    """Evidence that doesn't stand in its file, and names of boxes that stand in no source."""
    found = []
    if len(ARROW.findall(text)) != text.count(" -> ") - 1:  # one stands in the comment above
        found.append("an arrow without evidence")
    for begin, end, file, cited in ARROW.findall(text):
        there = words((TOP / file).read_text()) if (TOP / file).is_file() else set()
        found += [f"{begin} -> {end}: {word} isn't in {file}" for word in cited.split()
                  if word not in there]
    sources = [it for kind in ("src/**/*.rt", "specs/**/*.antt") for it in CRATES.glob(f"*/{kind}")]
    known = words(" ".join(it.read_text() for it in sources))
    for box, label in BOX.findall(text):
        names = re.findall(r"\w+", label.split("\\n")[-1])
        found += [f"{box}: there is no {name}" for name in names if name not in known | {"clause"}]
    return found


def titles(drawing):
    """The boxes and arrows of a drawing."""
    return sorted(html.unescape(it) for it in re.findall(r"<title>(.*?)</title>", drawing))


def main(args):
    if args not in ([], ["--check"]):
        sys.exit(__doc__)
    text = MAP.read_text()
    if not args and shutil.which("dot"):
        subprocess.run(["dot", "-Tsvg", MAP, "-o", DRAWING], check=True)
    elif not args:
        print("not drawn, since graphviz isn't there: apt-get install -y graphviz")
    wrong = problems(text)
    boxes = [name for name, _ in BOX.findall(text)]
    arrows = [f"{begin}->{end}" for begin, end, _, _ in ARROW.findall(text)]
    drawing = DRAWING.read_text() if DRAWING.is_file() else ""
    if titles(drawing) != sorted(["proof", *boxes, *arrows]):
        wrong.append("docs/trust/proof.svg is of another map: run tools/proof_map.py")
    print(f"{len(boxes)} boxes and {len(arrows)} arrows of docs/trust/proof.dot, each arrow with its evidence")
    sys.exit("\n".join(wrong) if wrong else 0)


main(sys.argv[1:])
