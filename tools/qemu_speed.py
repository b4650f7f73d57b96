#!/usr/bin/env python3
"""Times `zimgasol` and QEMU's own migration of the same guest, and prints a table.

    make program
    tools/qemu_speed.py [--turns N] [--mib N] [--qemu PROGRAM] [--zimgasol PROGRAM] [--analyze FILE]

The guest is 1 GiB (N MiB) of machine `none`: once without pages of zeros, once with half of them,
once with nine of ten. In each turn QEMU writes it by `migrate file:`, `save` writes it from the
file of the guest's memory, and QEMU's stream is verified, extracted, and loaded by another QEMU.
All files are in /dev/shm, and take up to three times the guest's size there. Each turn makes new
files.

A figure is the median of N turns (5): processor seconds, user and system together, and after the
slash wall-clock seconds. For `zimgasol` and analyze-migration.py they are those of the complete
program; for QEMU those from the command to the end of the migration. In brackets is the ratio of
the processor seconds to QEMU's for writing or loading. In the first turn memory is compared.

QEMU is 8.2 or later: the one named, or that of SUITE of tools/interop/packages.py. FILE is
scripts/analyze-migration.py of QEMU's sources, which no package of Debian's has; without it apt
downloads the source package, and if it can't, the row is omitted.
"""
import argparse
import json
import os
import shutil
import signal
import statistics
import subprocess
import sys
import tempfile
import time
from pathlib import Path

TOP = Path(__file__).resolve().parent.parent
sys.path.insert(0, str(TOP / "tools" / "interop"))
import packages  # noqa: E402
import qemu  # noqa: E402

PROGRAM = TOP / "crates" / "zimgasol_cli" / "out" / "zimgasol_cli"
# the suite whose QEMU is timed, and the one whose sources have analyze-migration.py
SUITE, SOURCES = "trixie-backports", "trixie"
FILES = "/dev/shm"
PAGE, MIB = 4096, 1 << 20
# a guest's name, and which of each ten pages have bytes
GUESTS = (("no page of zeros", range(10)), ("half zeros", range(0, 10, 2)), ("nine tenths", (0,)))
WRITES, LOADS = "QEMU writes", "QEMU loads"
# more than a file in memory takes: 100 GiB a second
NO_LIMIT = 100 << 30


class Clock:
    """The seconds of a process and of the clock, from when it is made."""

    def __init__(self, pid):
        # (the clock of a process's threads, those that ended among them: clock_getcpuclockid)
        self.number = (~pid << 3) | 2
        self.start = self.now()

    def now(self):
        return time.clock_gettime(self.number), time.perf_counter()

    def passed(self):
        return tuple(end - start for start, end in zip(self.start, self.now()))


def write_memory(path, pages, filled):
    """Writes a guest's memory, whose pages of zeros take memory as the others do."""
    zeros = bytes(PAGE)
    with path.open("wb") as out:
        for first in range(0, pages, 4096):
            noise = os.urandom(4096 * PAGE)
            count = min(4096, pages - first)
            out.write(b"".join(
                noise[at * PAGE:(at + 1) * PAGE] if (first + at) % 10 in filled else zeros
                for at in range(count)))


def run(words, folder=None):
    """Runs a program. Returns its processor seconds, and those of the clock."""
    start = time.perf_counter()
    with tempfile.TemporaryFile() as said:
        program = subprocess.Popen([str(it) for it in words], cwd=folder, stdin=subprocess.DEVNULL,
                                   stdout=subprocess.DEVNULL, stderr=said)
        _, status, used = os.wait4(program.pid, 0)
        program.returncode = os.waitstatus_to_exitcode(status)
        if program.returncode:
            said.seek(0)
            why = said.read().decode(errors="replace")[-500:]
            sys.exit(f"{words}: status {program.returncode}: {why}")
    return used.ru_utime + used.ru_stime, time.perf_counter() - start


def wait_for_end(guest):
    """Waits for the event that a migration has ended, which costs QEMU nothing."""
    while True:
        said = guest.qmp.read()
        status = said.get("data", {}).get("status") if said.get("event") == "MIGRATION" else None
        if status == "completed":
            return
        if status == "failed":
            sys.exit("QEMU's migration failed")


def timed(guest, command, **arguments):
    """Has QEMU do a migration's command. Returns its seconds up to the migration's end."""
    guest.set(["events"], max_bandwidth=NO_LIMIT)
    clock = Clock(guest.process.pid)
    guest.qmp.call(command, **arguments)
    wait_for_end(guest)
    return clock.passed()


def same(path, memory):
    """Compares a file with a guest's memory, which is read from its beginning."""
    with path.open("rb") as file:
        while piece := file.read(16 * MIB):
            if piece != memory.read(len(piece)):
                sys.exit(f"{path} isn't what was loaded")


class Bench:
    """The programs, a folder in memory, and the files in it."""

    def __init__(self, words, folder):
        self.words, self.folder = words, folder
        self.ram, self.stream = folder / "ram", folder / "guest.sav"
        self.saved, self.memory = folder / "saved.sav", folder / "memory"

    def works(self):
        """What is timed, in its order: the name, and the function, passed whether to compare."""
        found = [(WRITES, self.write), ("`zimgasol save`", self.save),
                 ("`zimgasol verify`", self.verify),
                 ("`zimgasol extract`", self.extract),
                 ("`zimgasol extract --digest`", self.extract_digest), (LOADS, self.load)]
        if self.words.analyze:
            found.append(("`analyze-migration.py -x`", self.analyze))
        return found

    def write(self, _):
        self.stream.unlink(missing_ok=True)
        with qemu.Guest(self.words.qemu, self.ram) as guest:
            return timed(guest, "migrate", uri=f"file:{self.stream}")

    def load(self, first):
        size = self.ram.stat().st_size
        with qemu.Guest(self.words.qemu, size, incoming=True) as guest:
            seconds = timed(guest, "migrate-incoming", uri=f"file:{self.stream}")
            if first:
                with guest.opened("ram") as memory:
                    same(self.ram, memory)
        return seconds

    def save(self, first):
        block = f"ram={self.ram}"
        seconds = run([self.words.zimgasol, "save", "--block", block, "--frame", "machine",
                       "--machine", "none", self.saved])
        if first:
            run([self.words.zimgasol, "extract", self.saved, self.memory])
            self.compare()
        self.saved.unlink()
        return seconds

    def verify(self, _):
        return run([self.words.zimgasol, "verify", self.stream])

    def extract(self, first, *words):
        seconds = run([self.words.zimgasol, "extract", self.stream, self.memory, *words])
        if first:
            self.compare()
        else:
            shutil.rmtree(self.memory)
        return seconds

    def extract_digest(self, first):
        return self.extract(first, "--digest")

    def compare(self):
        """Compares what was extracted, and removes it."""
        block, = json.loads((self.memory / "blocks.json").read_text())["blocks"]
        with (self.memory / block["file"]).open("rb") as file:
            same(self.ram, file)
        shutil.rmtree(self.memory)

    def analyze(self, _):
        self.memory.mkdir()
        seconds = run([sys.executable, self.words.analyze, "-f", self.stream, "-x"], self.memory)
        shutil.rmtree(self.memory)
        return seconds


def measure(bench, turns, name):
    """Times all works by turns. Returns the median seconds of each, by its name."""
    found = {work: [] for work, _ in bench.works()}
    for turn in range(turns):
        for work, function in bench.works():
            found[work].append(function(turn == 0))
        print(f"{name}: turn {turn + 1} of {turns}", file=sys.stderr, flush=True)
    return {work: tuple(statistics.median(column) for column in zip(*figures))
            for work, figures in found.items()}


def cell(work, figures):
    """A work's seconds, beside QEMU's that it does the same as."""
    beside = WRITES if work in (WRITES, "`zimgasol save`") else LOADS
    used, passed = figures[work]
    ratio = "" if work == beside else f" ({used / figures[beside][0]:.2f})"
    return f"{used:.2f} / {passed:.2f}{ratio}"


def print_table(words, version, figures):
    names = {WRITES: f"QEMU {version} `migrate file:`", LOADS: f"QEMU {version} loads `file:`"}
    print(f"A guest of {words.mib} MiB, {words.turns} turns.\n")
    print("| Work | " + " | ".join(name for name, _ in GUESTS) + " |")
    print("|---" * (len(GUESTS) + 1) + "|")
    works = list(figures[GUESTS[0][0]])
    for work in sorted(works, key=lambda it: it not in (WRITES, "`zimgasol save`")):
        cells = [cell(work, figures[name]) for name, _ in GUESTS]
        print("| " + " | ".join([names.get(work, work), *cells]) + " |")


def stop_without_room(size):
    """Ends the program where files and the receiving guest have no room in memory."""
    need, known = 3 * size + 256 * MIB, Path("/proc/meminfo").read_text().split()
    available = int(known[known.index("MemAvailable:") + 1]) * 1024
    free = shutil.disk_usage(FILES).free
    if min(available, free) < need:
        sys.exit(f"{need // MIB} MiB are needed: {FILES} has {free // MIB} MiB, "
                 f"{available // MIB} MiB of memory are there: free some, or take a smaller --mib")


def words_given():
    parser = argparse.ArgumentParser(description="Times zimgasol beside QEMU's own migration.")
    parser.add_argument("--turns", type=int, default=5)
    parser.add_argument("--mib", type=int, default=1024)
    parser.add_argument("--qemu", help=f"qemu-system-x86_64 (that of {SUITE})")
    parser.add_argument("--zimgasol", type=Path, default=PROGRAM)
    parser.add_argument("--analyze", help="scripts/analyze-migration.py of QEMU's sources")
    words = parser.parse_args()
    if not os.access(words.zimgasol, os.X_OK):
        sys.exit(f"there is no {words.zimgasol}: make program")
    if words.turns < 1 or words.mib < 1:
        sys.exit("turns and MiB are 1 and more")
    try:
        words.qemu = words.qemu or packages.fetched(SUITE)
        words.analyze = os.path.abspath(words.analyze or packages.analyzer(SOURCES))
    except packages.NoPackages as error:
        print(error, file=sys.stderr)
    if not words.qemu:
        sys.exit("there is no QEMU: name one by --qemu")
    return words


def main():
    words = words_given()
    version = qemu.version(words.qemu)
    if qemu.number(version) < (8, 2):
        sys.exit(f"QEMU {version} has no `migrate file:`: name one of 8.2 or later by --qemu")
    stop_without_room(words.mib * MIB)
    # so that the files are removed, also where this is told to stop
    for number in (signal.SIGTERM, signal.SIGHUP):
        signal.signal(number, lambda number, _: sys.exit(128 + number))
    figures = {}
    with tempfile.TemporaryDirectory(dir=FILES, prefix="qemu_speed-") as room:
        for name, filled in GUESTS:
            bench = Bench(words, Path(room))
            write_memory(bench.ram, words.mib * MIB // PAGE, filled)
            figures[name] = measure(bench, words.turns, name)
    print_table(words, version, figures)


if __name__ == "__main__":
    try:
        main()
    except KeyboardInterrupt:
        sys.exit(130)
