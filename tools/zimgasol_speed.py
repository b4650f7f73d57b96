#!/usr/bin/env python3
"""Seconds, processor seconds and peak memory of `zimgasol`, by command, on guests of each size.

    make program
    tools/zimgasol_speed.py [--sparse] [--folder FOLDER] [--zimgasol PROGRAM] [GIB ..]

A guest has one block. It has no page of zeros, or with --sparse one MiB of 16 isn't zeros. Sizes
are 1 and 4 GiB by default. Files are in FOLDER (/dev/shm), where they take up to four times the
bytes of the guest's pages. Channels are written by `save --channels 4`.

A peak is the most memory of the program that was resident, in MiB, as the system counts it for GNU
time (`/usr/bin/time`, of Debian's package `time`). A process that Python starts itself counts
Python's memory, too. Each command has to end with status 0. So `compare` shows that the memory
extracted from one stream and from channels is the same.
"""
import argparse
import os
import shutil
import struct
import subprocess
import sys
import tempfile
from pathlib import Path

TOP = Path(__file__).resolve().parent.parent
PROGRAM = TOP / "crates/zimgasol_cli/out/zimgasol_cli"
TIME = "/usr/bin/time"
PAGE, GIB = 4096, 1 << 30
# pages of a section, and those of the part of it that has bytes in a sparse guest
SECTION, FILLED = 4096, 256


def be(form, *numbers):
    return struct.pack(">" + form, *numbers)


def write_stream(path, pages, is_sparse):
    """Writes a machine's stream of one block."""
    content = os.urandom(64 * PAGE)
    end = be("Q", 0x10) + b"\x7e" + be("I", 2)
    with path.open("wb") as out:
        out.write(be("II", 0x5145564D, 3) + b"\x07" + be("I", 4) + b"none")
        out.write(b"\x01" + be("I", 2) + b"\x03ram" + be("II", 0, 4))
        out.write(be("Q", pages * PAGE | 4) + b"\x02pc" + be("Q", pages * PAGE) + end)
        for page in range(pages):
            if page % SECTION == 0:
                out.write(b"\x02" + be("I", 2))
            has_bytes = not is_sparse or page % SECTION < FILLED
            flags = (0x08 if has_bytes else 0x02) | (0x20 if page else 0)
            at = page % 64 * PAGE
            out.write(be("Q", page * PAGE | flags) + (b"" if page else b"\x02pc"))
            out.write(content[at:at + PAGE] if has_bytes else b"\0")
            if page % SECTION == SECTION - 1 or page == pages - 1:
                out.write(end)
        out.write(b"\x03" + be("I", 2) + end + b"\x00")


class Guest:
    """A guest in a folder, and what each word took."""

    def __init__(self, program, folder, gib, is_sparse):
        self.program, self.folder, self.figures = program, folder, {}
        self.stream, self.saved = folder / "guest.sav", folder / "saved.sav"
        self.memory, self.again = folder / "memory", folder / "again"
        write_stream(self.stream, gib * GIB // PAGE, is_sparse)

    def measure(self, name, *words):
        """Runs the program. Keeps its processor seconds, its peak in KiB, and the seconds that passed."""
        report = self.folder / "time"
        command = [TIME, "-o", report, "-f", "%U %S %M %e", self.program, *words, "--quiet"]
        done = subprocess.run(command, capture_output=True, text=True)
        if done.returncode:
            sys.exit(f"{name}: status {done.returncode}: {done.stderr.strip()[-300:]}")
        user, system, peak, passed = report.read_text().split()[-4:]
        self.figures[name] = float(user) + float(system), int(peak), float(passed)

    def measure_single(self):
        self.measure("verify", "verify", self.stream)
        self.measure("extract --digest", "extract", self.stream, self.memory, "--digest")
        self.measure("extract --fast-digest", "extract", self.stream, self.again, "--fast-digest")
        shutil.rmtree(self.again)
        self.measure("extract", "extract", self.stream, self.again)
        self.measure("compare, two folders", "compare", self.memory, self.again)
        shutil.rmtree(self.again)
        self.measure("compare, a stream and a folder", "compare", self.stream, self.memory)
        self.stream.unlink()
        block = ["--block", f"pc={self.memory / 'pc.bin'}"]
        self.measure("save", "save", *block, "--frame", "machine", self.saved)
        self.measure("save --since", "save", *block, "--since", self.memory, "--replace", self.saved)
        self.measure("extract --since", "extract", self.saved, self.again, "--frame", "ram",
                     "--since", self.memory)
        shutil.rmtree(self.again)
        self.saved.unlink()

    def measure_channels(self):
        block = ["--block", f"pc={self.memory / 'pc.bin'}"]
        files = [f"{self.saved}.{i}" for i in range(4)]
        channels = [word for file in files for word in ("--channel", file)]
        self.measure("save --channels 4", "save", *block, "--frame", "machine", "--channels", "4",
                     self.saved)
        self.measure("verify, 4 channels", "verify", self.saved, *channels)
        self.measure("extract, 4 channels", "extract", self.saved, self.again, *channels)
        for file in files:
            os.unlink(file)
        self.measure("compare, of 4 channels", "compare", self.memory, self.again)


def measured(program, room, gib, is_sparse):
    """What each word took of a guest of a size."""
    with tempfile.TemporaryDirectory(prefix="zimgasol-speed-", dir=room) as folder:
        guest = Guest(program, Path(folder), gib, is_sparse)
        guest.measure_single()
        guest.measure_channels()
    print(f"{gib} GiB measured", file=sys.stderr)
    return guest.figures


def put_table(title, sizes, rows):
    print(f"\n{title}:\n")
    print("| Work |", " | ".join(f"{gib} GiB" for gib in sizes), "|")
    print("|---" * (len(sizes) + 1) + "|")
    for name, cells in rows:
        print(f"| `{name}` |", " | ".join(cells), "|")


def main():
    parser = argparse.ArgumentParser(description=__doc__, formatter_class=argparse.RawTextHelpFormatter)
    parser.add_argument("--sparse", action="store_true")
    parser.add_argument("--folder", default="/dev/shm")
    parser.add_argument("--zimgasol", default=PROGRAM, metavar="PROGRAM")
    parser.add_argument("sizes", type=int, nargs="*", default=[1, 4], metavar="GIB")
    words = parser.parse_args()
    for program, how in ((words.zimgasol, "make program"), (TIME, "apt-get install time")):
        if not os.access(program, os.X_OK):
            sys.exit(f"there is no {program}: {how}")
    program = Path(words.zimgasol).resolve()
    each = [measured(program, words.folder, gib, words.sparse) for gib in words.sizes]
    print("a sparse guest" if words.sparse else "a guest without pages of zeros")
    put_table("seconds", words.sizes, [(name, [f"{it[name][2]:.2f}" for it in each]) for name in each[0]])
    put_table("processor seconds", words.sizes,
              [(name, [f"{it[name][0]:.2f}" for it in each]) for name in each[0]])
    put_table("peak, MiB", words.sizes,
              [(name, [f"{it[name][1] / 1024:.1f}" for it in each]) for name in each[0]])


main()
