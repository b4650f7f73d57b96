#!/usr/bin/env python3
"""The files of cases: what crates/mig_rows/README.md says of them, and the names of the cases.

    tools/case_lists.py            prints the names of all cases, by file and heading
    tools/case_lists.py --check    fails if the page lacks a file, or a word with which a line begins,
                                   or has a word that no case uses, or if the stored run of mig_rows
                                   leaves out a file
"""
import re
import sys
import textwrap
from pathlib import Path

TOP = Path(__file__).resolve().parent.parent
ROWS = TOP / "crates" / "mig_rows"
TOOL = TOP / "runs" / "tool"
PAGE = ROWS / "README.md"
# Words of the page that no case in the repository uses.
BY_HAND = {"file"}


def groups(text):
    """The headings of a file of cases (`# ---- HEADING`), each with the names of the cases below it."""
    found = [("cases", [])]
    for line in text.splitlines():
        word, _, name = line.strip().partition(" ")
        if line.startswith("# ---- "):
            found.append((line[len("# ---- "):], []))
        elif word == "case":
            found[-1][1].append(name)
    return [(heading, names) for heading, names in found if names]


def part(file):
    listed = groups(file.read_text())
    lines = [f"{file.relative_to(TOP)}: {sum(len(names) for _, names in listed)} cases\n"]
    for heading, names in listed:
        names = f"- {heading}: {'; '.join(names)}"
        lines.append(textwrap.fill(names, 100, subsequent_indent="  ", break_on_hyphens=False) + "\n")
    return "".join(lines)


def first_words(file):
    lines = [line.split() for line in file.read_text().splitlines()]
    return {words[0] for words in lines if words and not words[0].startswith("#")}


def problems(files):
    """What the page, the stored run and the files of cases don't say alike."""
    page = PAGE.read_text()
    # a row of a table begins with one or more words in backticks, each a kind of line or a file
    cells = " ".join(re.findall(r"^\| (`[^|]*) \|", page, re.MULTILINE))
    said = {it.split()[0] for it in re.findall(r"`([^`]+)`", cells)}
    used = set().union(*map(first_words, files)) - {"case", "text", "from"}
    names = {it.name for it in files}
    run = {ROWS / "data" / it for it in (ROWS / "args").read_text().split()}
    for word in sorted((used | names) - said):
        yield f"{PAGE.relative_to(TOP)} lacks {word}"
    for word in sorted(said - used - names - BY_HAND):
        yield f"{PAGE.relative_to(TOP)} has {word}, which no case uses"
    for file in sorted({*(ROWS / "data").glob("*.txt")} - run):
        yield f"crates/mig_rows/args doesn't name {file.name}"


def main(words):
    if words not in ([], ["--check"]):
        sys.exit(__doc__)
    files = [*sorted((ROWS / "data").glob("*.txt")), *sorted(TOOL.glob("*.txt"))]
    if not words:
        print("\n".join(map(part, files)), end="")
    elif wrong := list(problems(files)):
        sys.exit("\n".join(wrong))


if __name__ == "__main__":
    main(sys.argv[1:])
