#!/usr/bin/env python3
"""Loads the programs' streams in QEMU, and QEMU's streams in the programs. Prints a table.

    make interop                             # with QEMU 7.2, 10.0 and 11.1 of Debian's packages
    tools/interop/interop.py [--suites 'SUITE ..'] [--qemu 'PROGRAM ..'] [--programs FOLDER]
                             [--library FILE]

SUITE is one of Debian's, for example `trixie-backports`. Its QEMU is downloaded into out/interop if
it isn't there yet (packages.py). PROGRAM is an installed qemu-system-x86_64; with it nothing is
downloaded. Otherwise the one in PATH is used in addition to those of the suites. FOLDER has
`zimgasol_cli` and `mig_tool`, in place of crates/NAME/out. FILE is the library for C, in place of
out/libzimgasol.a. If it isn't there, or no C compiler, its rows are skipped.

Each row has the writer and the reader, and `ok` or the difference. The exit status is 0 if all rows
are `ok` or skipped. The gate doesn't run it.
"""
import argparse
import signal
import sys
import tempfile
from dataclasses import dataclass
from pathlib import Path

import channels
import live
import packages
import qemu
import states
from checks import (NO_CONFIGURATION, Bench, chain, leave_shared_out, load_saved, read_between,
                    load_mapped, load_mapped_of_c, read_mapped_in_c, read_single, read_snapshot, refuse_xbzrle)
from guests import KINDS, NONE, OLD, PC, PC_UUID, PC_WRITING, Q35, SMALL, VIRTIO_MEM, old_files
from ours import TOP, Differs, Programs

CHANNELS = (1, 2, 4)
# QEMU before 8.1 may leave out packets' numbers, and send a page twice in a round: the faults of docs/use/QEMU.md
UNLAWFUL = (54, 55, 56, 59)
SKIPPED = "skipped"
HEADS = ("QEMU", "from, to", "guest", "how", "compared", "")


def say(line):
    print(line, file=sys.stderr, flush=True)


@dataclass
class Row:
    version: str
    way: str
    guest: str
    how: str
    compared: str = ""
    result: str = ""

    def cells(self):
        return self.version, self.way, self.guest, self.how, self.compared, self.result


class Table:
    """The rows of all that was tried."""

    def __init__(self):
        self.rows = []

    def try_(self, row, check):
        """Runs a check, and adds its row."""
        self.rows.append(row)
        try:
            row.compared, row.result = check() or "", "ok"
        except Differs as differs:
            row.result = str(differs)
        except (RuntimeError, OSError, ValueError, KeyError, StopIteration) as error:
            row.result = f"{type(error).__name__}: {error}"
        # (in the table all rows come together, at the end)
        say(f"  {row.way}; {row.guest}; {row.how}: {row.result}")

    def skip(self, row, why):
        """Adds the row of what can't be tried."""
        self.rows.append(row)
        row.compared, row.result = why, SKIPPED
        say(f"  {row.way}: {SKIPPED}: {why}")

    def skipped(self):
        return sum(it.result == SKIPPED for it in self.rows)

    def wrong(self):
        return sum(it.result not in ("ok", SKIPPED) for it in self.rows)

    def show(self):
        lines = [HEADS, *(it.cells() for it in self.rows)]
        widths = [max(len(it) for it in column) for column in zip(*lines)]
        for line in lines:
            cells = [cell.ljust(width) for cell, width in zip(line[:-1], widths)]
            print("  ".join((*cells, line[-1])).rstrip())


def read_files(table, bench, version):
    """QEMU's files, which `zimgasol` extracts."""
    for kind in (*KINDS, *old_files(qemu.number(version))):
        row = Row(version, "QEMU, extract", kind.name, "default words")
        table.try_(row, lambda: read_single(bench, kind))
    table.try_(Row(version, "QEMU, extract", PC_UUID.name, "validate-uuid"),
               lambda: read_single(bench, PC_UUID, ("validate-uuid",)))
    table.try_(Row(version, "QEMU, extract", PC.name, "return-path, between two QEMUs"),
               lambda: read_between(bench, PC))
    if qemu.number(version) >= (8, 0):
        # (7.2 doesn't show where its blocks lie, and this guest's RAM is in no file)
        row = Row(version, "QEMU, extract", PC.name, "background-snapshot")
        table.try_(row, lambda: read_snapshot(bench, PC))
    if qemu.number(version) >= (9, 0):
        row = Row(version, "QEMU, extract", PC.name, "mapped-ram")
        table.try_(row, lambda: read_single(bench, PC, ("mapped-ram",)))
        row = Row(version, "QEMU, extract", PC.name, f"mapped-ram, {on_channels(2)}")
        table.try_(row, lambda: read_single(bench, PC, ("mapped-ram", "multifd"), multifd_channels=2))
        row = Row(version, "QEMU, extract", PC.name, "mode=cpr-reboot")
        table.try_(row, lambda: read_single(bench, PC, mode="cpr-reboot"))
        for way in ("none", "legacy"):
            row = Row(version, "QEMU, extract", PC_WRITING.name, f"zero-page-detection={way}")
            table.try_(row, lambda: read_single(bench, PC_WRITING, zero_page_detection=way))


def refuse_files(table, bench, version):
    """QEMU's files that lack memory, and those of other layouts, which `zimgasol` refuses with the
    faults of QEMU.md.
    """
    row = Row(version, "QEMU, verify, extract --partial", PC.name, "x-ignore-shared")
    table.try_(row, lambda: leave_shared_out(bench, PC))
    if qemu.number(version) >= (8, 1):
        # (7.2 leaves out the pages that come in this form; see compare_written)
        row = Row(version, "QEMU, verify", PC_WRITING.name, "xbzrle")
        table.try_(row, lambda: refuse_xbzrle(bench, PC_WRITING, 27))
        row = Row(version, "QEMU, verify", NONE.name, "the main stream of 2 channels")
        table.try_(row, lambda: channels.refuse_main(bench, 32))


def read_channels(table, bench, version):
    """QEMU's channels, which `zimgasol` extracts."""
    has_flush = qemu.number(version) >= (8, 1)
    tries = [(kind, count, () if has_flush else UNLAWFUL, "" if has_flush else ", rounds end with EOS", {})
             for kind in SMALL for count in CHANNELS]
    if has_flush:
        tries += [(kind, 2, (), ", rounds end with EOS", {}) for kind in OLD]
        tries.append((PC_UUID, 2, (), "", {}))
        tries.append((NONE, 2, (41,), ", zlib", {"multifd_compression": "zlib"}))
    if qemu.number(version) >= (9, 0):
        for way in ("none", "legacy"):
            how = f", zero-page-detection={way}"
            tries.append((SMALL[-1], 2, (), how, {"zero_page_detection": way}))
    for kind, count, faults, how, parameters in tries:
        row = Row(version, "QEMU, extract", kind.name, on_channels(count) + how)
        write = channels.write_several
        table.try_(row, lambda: write(bench, kind, count, faults, **parameters))


def load_ours(table, bench, version):
    """What `zimgasol save` and `mig_tool send` write, which QEMU loads."""
    saves = (("--frame ram", ("--frame", "ram"), NO_CONFIGURATION),
             ("--frame machine", ("--frame", "machine"), NO_CONFIGURATION),
             ("--machine none", ("--frame", "machine", "--machine", "none"), ()))
    for how, words, qemu_words in saves:
        row = Row(version, "save, QEMU", NONE.name, how)
        table.try_(row, lambda: load_saved(bench, words, qemu_words))
    if qemu.number(version) >= (9, 0):
        for count in (0, 2):
            row = Row(version, "save, QEMU", NONE.name, f"mapped-ram, {by(count)}")
            table.try_(row, lambda: load_mapped(bench, count))
    table.try_(Row(version, "mig_tool send, QEMU", NONE.name, "single, 4 rounds"),
               lambda: channels.load(bench, channels.send(bench, 0)))
    has_flush = qemu.number(version) >= (8, 1)
    load = channels.load if has_flush else channels.cannot_load
    for name, write in (("mig_tool send", channels.send), ("save --channels", channels.save)):
        for count in CHANNELS:
            row = Row(version, f"{name}, QEMU", NONE.name, on_channels(count))
            table.try_(row, lambda: load(bench, write(bench, count)))


def run_chains(table, bench, version, programs):
    """QEMU's files, which `zimgasol` extracts and saves, and which a QEMU loads."""
    for other, program in programs.items():
        row = Row(version, f"QEMU, extract, save, QEMU {other}", NONE.name, "and extracted again")
        table.try_(row, lambda: chain(bench, program))
    if qemu.number(version) >= (8, 1):
        row = Row(version, "QEMU, extract, save, QEMU", NONE.name, on_channels(2))
        table.try_(row, lambda: channels.chain_several(bench, 2))


def restore_machines(table, bench, version):
    """QEMU's files, which `zimgasol` extracts and saves with their state, and which QEMU resumes."""
    way = "QEMU, extract, save --state, QEMU"
    for kind in (PC, PC_WRITING, Q35, *old_files(qemu.number(version))):
        table.try_(Row(version, way, kind.name, "a file"), lambda: states.restore(bench, kind))
    row = Row(version, way, VIRTIO_MEM.name, "nothing plugged")
    table.try_(row, lambda: states.restore_virtio_mem(bench, VIRTIO_MEM))
    row = Row(version, way, PC.name, "with other RAM")
    table.try_(row, lambda: states.restore_replaced(bench, PC))
    row = Row(version, way, PC_WRITING.name, "after libvirt's header, made by hand")
    table.try_(row, lambda: states.restore_libvirt(bench, PC_WRITING))
    if qemu.number(version) >= (8, 0):
        row = Row(version, way, PC.name, "background-snapshot")
        table.try_(row, lambda: states.restore_snapshot(bench, PC))
    if qemu.number(version) >= (9, 0):
        for kind in (PC, PC_WRITING, Q35):
            table.try_(Row(version, way, kind.name, "mapped-ram"), lambda: states.restore_mapped(bench, kind))
        row = Row(version, way, PC_WRITING.name, "mapped-ram, after libvirt's header, made by hand")
        table.try_(row, lambda: states.restore_mapped(bench, PC_WRITING, states.HEADER))
    row = Row(version, way, PC_WRITING.name, "a full save and changes")
    table.try_(row, lambda: states.restore_changes(bench, PC_WRITING))
    if qemu.number(version) >= (8, 1):
        row = Row(version, way, PC_WRITING.name, f"{on_channels(2)}, saved as one stream")
        table.try_(row, lambda: states.restore_channels(bench, PC_WRITING, 2))


def connect_library(table, bench, version, built, why):
    """The library for C and QEMU, by live connections; channels with QEMU 8.1 and later, since 7.2
    knows no FLUSH. 7.2's own rounds may be unlawful.
    """
    there, here, kind = "QEMU, library for C", "library for C, QEMU", PC_WRITING
    if not built:
        table.skip(Row(version, there, kind.name, "live"), why)
        return
    has_flush = qemu.number(version) >= (8, 1)
    for count in (0, 2):
        faults = UNLAWFUL if count and not has_flush else ()
        row = Row(version, there, kind.name, f"live, {by(count)}")
        table.try_(row, lambda: live.receive(bench, built, kind, count, faults=faults))
    for count in (0, 2) if has_flush else (0,):
        row = Row(version, there, kind.name, f"live, {by(count)}, return-path")
        table.try_(row, lambda: live.receive(bench, built, kind, count, returns=True))
        row = Row(version, here, NONE.name, f"live, {by(count)}, 2 rounds")
        table.try_(row, lambda: live.send(bench, built, count))
        row = Row(version, there, kind.name, f"{by(count)}, connections are cut")
        table.try_(row, lambda: live.lose_each(bench, built, kind, count))
        row = Row(version, there, kind.name, f"{by(count)}, migrate_cancel")
        table.try_(row, lambda: live.cancel(bench, built, kind, count))
    for threads in (1, 4) if qemu.number(version) >= (9, 0) else ():
        what = f"mapped-ram, {threads} thread{'s' if threads > 1 else ''}"
        table.try_(Row(version, there, NONE.name, what), lambda: read_mapped_in_c(bench, built["mapped"], threads))
        table.try_(Row(version, here, NONE.name, what), lambda: load_mapped_of_c(bench, built["mapped"], threads))


def at_hand(words):
    """The QEMUs, by their versions."""
    named = words.qemu.split() if words.qemu else packages.programs(words.suites.split(), say)
    found = {}
    for program in named:
        found.setdefault(qemu.version(program), program)
    if not found:
        sys.exit("there is no QEMU: name one by --qemu, or a suite of Debian's by --suites")
    return dict(sorted(found.items(), key=lambda it: qemu.number(it[0])))


def on_channels(count):
    return f"multifd, {count} channel{'s' if count > 1 else ''}"


def by(count):
    return on_channels(count) if count else "single"


def main():
    parser = argparse.ArgumentParser(description="Tries the programs with QEMU at the other end.")
    parser.add_argument("--suites", default=" ".join(packages.SUITES))
    parser.add_argument("--qemu", default="")
    parser.add_argument("--programs")
    parser.add_argument("--library", default=TOP / "out" / "libzimgasol.a")
    words = parser.parse_args()
    # so that each QEMU is ended, and files are removed, also where this is told to stop
    for number in (signal.SIGTERM, signal.SIGHUP):
        signal.signal(number, lambda number, _: sys.exit(128 + number))
    programs = Programs(words.programs)
    found, table = at_hand(words), Table()
    with tempfile.TemporaryDirectory(prefix="interop-") as room:
        built, why = live.built(words.library, Path(room))
        for version, program in found.items():
            say(f"QEMU {version}: {program}")
            bench = Bench(program, programs, Path(room))
            read_files(table, bench, version)
            refuse_files(table, bench, version)
            read_channels(table, bench, version)
            load_ours(table, bench, version)
            run_chains(table, bench, version, found)
            restore_machines(table, bench, version)
            connect_library(table, bench, version, built, why)
    table.show()
    wrong, skipped = table.wrong(), table.skipped()
    print(f"{len(table.rows)} rows, {wrong or 'none'} that {'differs' if wrong == 1 else 'differ'}"
          + (f", {skipped} skipped" if skipped else ""))
    return 1 if wrong else 0


if __name__ == "__main__":
    try:
        sys.exit(main())
    except KeyboardInterrupt:
        sys.exit(130)
