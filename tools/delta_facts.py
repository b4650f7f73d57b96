#!/usr/bin/env python3
"""An independent decoder of XBZRLE deltas: it shares nothing with the library.

    tools/delta_facts.py [--check]

`decode` reads a delta as the definition of its bytes says, and names the first fault with the offset
of the length at fault. It prints, for each worked delta below, the row of crates/mig_xbzrle's tests:
the page's size, the delta, and which bytes of the page change, or the fault. --check compares the
rows with those that stand there, and ends with 1 if they differ. The page that a row starts from has
the byte `i % 251` at position `i`.
"""
import re
import sys
from pathlib import Path

TESTS = Path(__file__).resolve().parent.parent / "crates" / "mig_xbzrle" / "src" / "tests.rt"

# a page's size and a delta, by what the row shows
WORKED = [
    ("no runs", 8, ""),
    ("one byte after two", 8, "02 01 aa"),
    ("the first run skips nothing", 8, "00 01 aa"),
    ("the whole page", 4, "00 04 aa bb cc dd"),
    ("two runs, the second up to the page's end", 8, "01 02 aa bb 03 02 cc dd"),
    ("a byte replaced by itself", 8, "03 01 03"),
    ("lengths below 128 in two bytes", 8, "82 00 81 00 aa"),
    ("a first skip of 0 in two bytes", 8, "80 00 01 aa"),
    ("a skip of 127 and one of 128", 257, "7f 01 aa 80 01 01 bb"),
    ("the longest skip", 16384, "ff 7f 01 aa"),
    ("a run of 128 bytes, the last of which changes", 129, "00 80 01 " + bytes(range(127)).hex(" ") + " 5a"),
    ("one byte", 8, "00"),
    ("a skip alone", 8, "02"),
    ("a skip without a run", 8, "82 00"),
    ("a second skip without a run", 8, "00 01 aa 02"),
    ("a skip and half a run", 8, "02 01"),
    ("a skip in three bytes", 8, "80 80 01 01 aa"),
    ("a run's length in three bytes", 8, "02 81 80 00 aa"),
    ("a second skip of 0", 8, "00 01 aa 00 01 bb"),
    ("a second skip of 0 in two bytes", 8, "00 01 aa 80 00 01 bb"),
    ("a run of no bytes", 8, "02 00 aa"),
    ("a run of no bytes, in two", 8, "02 80 00 aa"),
    ("a skip to behind the page", 8, "09 01 aa"),
    ("a skip to the page's end, and a byte", 8, "08 01 aa"),
    ("a second skip past the page", 8, "06 01 aa 02 01 bb"),
    ("a run past the page", 4, "01 04 aa bb cc dd"),
    ("a run past the page whose bytes are missing too", 4, "01 04 aa"),
    ("a byte missing", 8, "00 03 aa bb"),
    ("all bytes of a run missing", 8, "02 81 00"),
    ("a byte too many", 8, "00 01 aa 01"),
    ("a run of no bytes after a lawful one", 8, "00 01 aa 01 00 bb"),
]


class Fault(Exception):
    """The name of a fault, and where the length at fault begins."""


def length_at(delta, at):
    """The length at a byte of the delta, and where it ends."""
    if len(delta) - at < 2:
        raise Fault("Cut", at)
    low, high = delta[at], delta[at + 1]
    if not low & 0x80:
        return low, at + 1
    if high & 0x80:
        raise Fault("LongLength", at)
    return low & 0x7F | high << 7, at + 2


def decode(delta, old):
    """The page after a delta, or a Fault."""
    page, at, place = bytearray(old), 0, 0
    while at < len(delta):
        skip, then = length_at(delta, at)
        if at and not skip:
            raise Fault("NoSkip", at)
        place += skip
        if place > len(old):
            raise Fault("PastPage", at)
        count, begin = length_at(delta, then)
        if not count:
            raise Fault("NoBytes", then)
        if place + count > len(old):
            raise Fault("PastPage", then)
        if begin + count > len(delta):
            raise Fault("BytesMissing", then)
        page[place:place + count] = delta[begin:begin + count]
        place, at = place + count, begin + count
    return bytes(page)


def rows():
    """The rows of the lawful deltas, and those of the others."""
    lawful, faulty = [], []
    for name, size, text in WORKED:
        delta = bytes.fromhex(text)
        old = bytes(i % 251 for i in range(size))
        spelled = "&[" + ", ".join(f"0x{b:02x}" for b in delta) + "]"
        try:
            new = decode(delta, old)
        except Fault as fault:
            faulty.append(f"    // {name}\n    ({size}, {spelled}, DeltaFault::{fault.args[0]}({fault.args[1]})),\n")
            continue
        changes = ", ".join(f"({i}, 0x{b:02x})" for i, b in enumerate(new) if b != old[i])
        lawful.append(f"    // {name}\n    ({size}, {spelled}, &[{changes}]),\n")
    return lawful, faulty


def bare(text):
    """The text without layout."""
    return re.sub(r",(?=[)\]])", "", re.sub(r"\s+", "", text))


def main():
    lawful, faulty = rows()
    tables = [
        f"const LAWFUL: [(usize, &[u8], &[(usize, u8)]); {len(lawful)}] = [\n" + "".join(lawful) + "];\n",
        f"const FAULTY: [(usize, &[u8], DeltaFault); {len(faulty)}] = [\n" + "".join(faulty) + "];\n",
    ]
    if "--check" not in sys.argv[1:]:
        print("\n".join(tables), end="")
        return 0
    stands = bare(TESTS.read_text())
    differ = [table.split(":")[0] for table in tables if bare(table) not in stands]
    print(f"{len(lawful) + len(faulty)} rows", "differ in: " + ", ".join(differ) if differ else "stand as they are made")
    return 1 if differ else 0


if __name__ == "__main__":
    sys.exit(main())
