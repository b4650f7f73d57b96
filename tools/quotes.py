#!/usr/bin/env python3
"""Compares the quotations in pages and documentation comments with the code.

A block of code that follows a line `<!-- quoted from FILE -->` has to be in that file line by line,
except for its indentation and its imports. This is compared in the pages below, and in
documentation comments (`//!`, `///`) of `crates/*/src`. There each block of Rattle needs such a
mark, and each type in `TYPES` needs at least one block.

Of README.md the lines that begin with `make NAME` and several spaces have to be lines of `make
help`, and the commands of `zimgasol` have to be in runs/zimgasol/expected.txt with their output.
"""
import re
import subprocess
import sys
from pathlib import Path

TOP = Path(__file__).resolve().parent.parent
MARK = "<!-- quoted from "
QUOTE = re.compile(rf"^{MARK}(\S+) -->\n+```(?:rust|c)\n(.*?)^```$", re.MULTILINE | re.DOTALL)
IMPORT = re.compile(r"use [\w:]+(::\{.*\})?;$")
PAGES = ("README.md", "docs/use/EMBEDDING.md", "docs/use/C.md", "bindings/rust/README.md")
FRONT, EXPECTED = "README.md", "runs/zimgasol/expected.txt"
FACADE = "crates/zimgasol/src/lib.rt"
# the main types, each with an example
TYPES = """Table Memory LentMemory LentMemoryMut Dirty SingleSender MultiSender LoadSettings
    SingleLoader InPlaceLoader InPlaceState Session InPlaceSession StreamReader
    StreamWriter""".split()
EXAMPLE = re.compile(r"^/// ```\n(?:#\[.*\]\n)*pub struct (\w+)", re.MULTILINE)


def lines(text):
    return [line.strip() for line in text.splitlines()]


def stands_in(quote, text):
    return quote != [] and any(text[at:at + len(quote)] == quote for at in range(len(text)))


def comments(file):
    """The documentation comments of a source, without their marks."""
    found = re.findall(r"^ *//[/!](?: (.*)| *)$", file.read_text(), re.MULTILINE)
    return "\n".join(found) + "\n"


def quotes_of(name, text):
    """The quotations of a text: each with where it stands, its file and the lines to look for."""
    found = QUOTE.findall(text)
    if len(found) != text.count(MARK):
        sys.exit(f"{name} has a mark of a quotation without a block of code after it")
    for file, quote in found:
        wanted = lines(quote)
        while wanted and (IMPORT.match(wanted[0]) or not wanted[0]):
            wanted = wanted[1:]
        yield name, file, wanted


def front_page(text):
    """What README.md repeats of `make help` and of the stored runs, and differs."""
    ran = subprocess.run(["make", "-s", "help"], cwd=TOP, capture_output=True, text=True, check=True)
    helped, run = set(lines(ran.stdout)), lines((TOP / EXPECTED).read_text())
    wrong = [f"{FRONT}: not in `make help`: {it}" for it in lines(text)
             if re.match(r"make \w+ {2,}", it) and it not in helped]
    for block in re.findall(r"(?:^    .+\n)+", text, re.MULTILINE):
        commands = re.split(r"^(?=\$ )", "\n".join(lines(block)), flags=re.MULTILINE)[1:]
        wrong += [f"{FRONT}: not in {EXPECTED}: {it.splitlines()[0]}" for it in commands
                  if not stands_in(lines(it), run)]
    return wrong


def main():
    texts = {page: (TOP / page).read_text() for page in PAGES}
    have = set()
    for file in sorted(TOP.glob("crates/*/src/**/*.rt")):
        said = comments(file)
        if said.count("\n```rust\n") != said.count(MARK):
            sys.exit(f"{file.relative_to(TOP)} has an example that names no file that it is from")
        if MARK in said:
            texts[str(file.relative_to(TOP))] = said
            have |= set(EXAMPLE.findall(file.read_text()))
    quotes = [it for name, text in texts.items() for it in quotes_of(name, text)]
    if lacking := [it for it in [*TYPES, FACADE] if it not in have | texts.keys()]:
        sys.exit(f"without an example: {', '.join(lacking)}")
    wrong = [f"{name}: {file}: {' '.join(quote[:1])}" for name, file, quote in quotes
             if not stands_in(quote, lines((TOP / file).read_text()))]
    wrong += front_page(texts[FRONT])
    if wrong:
        sys.exit("\n".join(["quoted, but doesn't stand there any more:", *wrong]))
    print(f"{len(quotes)} quotations of {len(texts)} pages and sources stand in the code")


main()
