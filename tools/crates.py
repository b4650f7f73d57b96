"""Reads crates.txt: the crates, lowest first, and the crates below each."""
from pathlib import Path

TOP = Path(__file__).resolve().parent.parent
CRATES = TOP / "crates"


def uses():
    """Returns each crate's libraries, of the repository and of the kit, in the order of crates.txt."""
    found = {}
    for line in (TOP / "crates.txt").read_text().splitlines():
        head, colon, libraries = line.partition("#")[0].partition(":")
        if colon:
            found[head.split()[0]] = libraries.split()
    return found


def below(name, known):
    """Returns the repository's crates that this one stands on, each after those below it."""
    found = []
    for it in known[name]:
        if it in known:
            found += below(it, known) + [it]
    return list(dict.fromkeys(found))


def is_program(name):
    return (CRATES / name / "src" / "main.rt").is_file()
