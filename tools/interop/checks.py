"""The tests with each QEMU over single streams: a function for each kind of row.

Each takes a `Bench`, and returns the text on what was compared, or raises `Differs`.
"""
import re
import time
from dataclasses import dataclass
from pathlib import Path

import qemu
from guests import MIB, NONE, PAGE, memory, memory_of, words_of
from ours import (Differs, Programs, block_words, compare, extracted, fault_of,
                  pages_that_differ, ran)

# The rounds after which a guest that writes is stopped.
ROUNDS = 6
# How long the firmware of a guest runs before a background snapshot.
SECONDS_OF_FIRMWARE = 2
# What is said of a machine that leaves out its shared memory.
SHARED_OUT = "left out shared memory (`x-ignore-shared`)"
# A stream without a configuration is refused unless the receiver runs with this.
NO_CONFIGURATION = ("-global", "migration.send-configuration=off")


@dataclass(frozen=True)
class Bench:
    """A QEMU, the programs, and a folder for files."""

    qemu: str
    programs: Programs
    folder: Path

    def guest(self, kind, **how):
        words = words_of(kind, self.folder)
        return qemu.Guest(self.qemu, memory_of(kind), words, running=kind.running, **how)

    def waiting(self, size, words):
        """A guest whose memory is zeros, which waits for a migration."""
        return qemu.Guest(self.qemu, bytes(size), words, incoming=True)

    def file(self, name):
        return self.folder / name


def rounds_of(kind):
    return ROUNDS if kind.writes else 0


def write_file(bench, kind, capabilities=(), **parameters):
    """Has QEMU write a guest into a file. Returns the file, and the guest's memory after that."""
    stream = bench.file("guest.sav")
    stream.unlink(missing_ok=True)
    with bench.guest(kind) as guest:
        guest.set(capabilities, **parameters)
        qemu.written_file(guest, stream, rounds_of(kind))
        return stream, guest.blocks()


def load_own(bench, kind, stream):
    """Has a QEMU load a file of its own version's. Returns the memory."""
    with bench.waiting(kind.mib * MIB, words_of(kind, bench.folder)) as guest:
        status, _ = qemu.loaded_file(guest, stream)
        if status != "completed":
            raise Differs(f"QEMU's load of its own file: {status}")
        return guest.blocks()


def compare_written(bench, kind, stream, wanted, came):
    """Compares what came of QEMU's file with the memory of the guest that it wrote.

    QEMU 7.2 leaves out pages that a guest of TCG writes while it is migrated. There `came` has to
    be what QEMU itself loads of the file.
    """
    try:
        return compare(wanted, came)
    except Differs:
        own = load_own(bench, kind, stream) if kind.writes else wanted
        lacking = pages_that_differ(wanted["ram"], own["ram"])
        if not lacking:
            raise
        return f"{compare(own, came)}, as QEMU loads it: {len(lacking)} pages lack"


def read_single(bench, kind, capabilities=(), **parameters):
    """QEMU writes a file, and `zimgasol` verifies and extracts it."""
    stream, wanted = write_file(bench, kind, capabilities, **parameters)
    ran(bench.programs.zimgasol, "verify", stream, "--quiet")
    came = extracted(bench.programs.zimgasol, stream, bench.file("memory"))
    return compare_written(bench, kind, stream, wanted, came)


def write_snapshot(bench, kind):
    """Has QEMU write a background snapshot of a guest, once that has stopped. Returns the file, and the guest's memory then.

    QEMU watches for writes to memory that no file has, and lets the guest run on after the snapshot.
    """
    stream = bench.file("guest.sav")
    stream.unlink(missing_ok=True)
    with qemu.Guest(bench.qemu, kind.mib * MIB, words_of(kind, bench.folder), running=True) as guest:
        time.sleep(SECONDS_OF_FIRMWARE)
        guest.qmp.call("stop")
        guest.set(["background-snapshot"])
        wanted = guest.blocks()
        qemu.written_file(guest, stream)
        return stream, wanted


def read_snapshot(bench, kind):
    """QEMU writes a background snapshot, and `zimgasol` verifies and extracts it."""
    stream, wanted = write_snapshot(bench, kind)
    ran(bench.programs.zimgasol, "verify", stream, "--quiet")
    return compare(wanted, extracted(bench.programs.zimgasol, stream, bench.file("memory")))


def read_between(bench, kind):
    """`zimgasol` extracts the stream that went from one QEMU to another, by a return path."""
    stream, size = bench.file("guest.sav"), kind.mib * MIB
    with bench.guest(kind) as source, bench.waiting(size, words_of(kind, bench.folder)) as target:
        for guest in (source, target):
            guest.set(["return-path"])
        stream.write_bytes(qemu.between(source, target))
        wanted = source.blocks()
        compare(wanted, target.blocks())
    return compare(wanted, extracted(bench.programs.zimgasol, stream, bench.file("memory")))


def leave_shared_out(bench, kind):
    """QEMU writes a file without its shared RAM, which `zimgasol` says, and takes with `--partial`.

    The file has all other blocks. `save --state` doesn't write such a machine again.
    """
    zimgasol, count = bench.programs.zimgasol, kind.mib * MIB // PAGE
    stream, wanted = write_file(bench, kind, ("x-ignore-shared",))
    said = ran(zimgasol, "verify", stream, status=1)
    lacking = re.findall(r'INCOMPLETE: (\d+) of (\d+) pages of block "([^"]*)" have no record', said)
    if lacking != [(str(count), str(count), "ram")] or SHARED_OUT not in said or "fault" in said:
        raise Differs(f"{said}; expected all {count} pages of block ram to lack, and no other")
    folder = bench.file("memory")
    came = extracted(zimgasol, stream, folder, "--partial")
    refused_state = ran(zimgasol, "save", "--state", folder, "--replace", bench.file("again.sav"), status=1)
    if SHARED_OUT not in refused_state:
        raise Differs(f"save --state: {refused_state}")
    said = compare({**wanted, "ram": bytes(len(wanted["ram"]))}, came)
    return f"INCOMPLETE: ram is left out; {said}"


def refuse_xbzrle(bench, kind, fault):
    """QEMU writes a file with pages in the form of xbzrle, and `zimgasol` refuses it.

    It sends pages so from the third round on, so it writes again where a guest wrote too little.
    """
    stream = bench.file("guest.sav")
    for _ in range(5):
        stream.unlink(missing_ok=True)
        with bench.guest(kind) as guest:
            guest.set(["xbzrle"])
            qemu.written_file(guest, stream, rounds_of(kind))
            found = guest.qmp.call("query-migrate")["xbzrle-cache"]
        # (a page that the form makes longer is counted with its own length, and sent as it is)
        if found["bytes"] > found["overflow"] * PAGE:
            return refused(bench, stream, fault)
    raise Differs("QEMU sent no page in the form of xbzrle")


def refused(bench, stream, fault):
    said = ran(bench.programs.zimgasol, "verify", stream, status=1)
    if fault_of(said) != fault:
        raise Differs(f"{said}; expected fault {fault}")
    return f"fault {fault}"


def load_file(bench, stream, wanted, words=NONE.words):
    """Has QEMU load a file, and compares RAM with what it is to be."""
    with bench.waiting(len(wanted), words) as guest:
        status, came = qemu.loaded_file(guest, stream)
    return loaded_as(status, {"ram": wanted}, {"ram": came})


def loaded_as(status, wanted, came):
    if status != "completed":
        raise Differs(f"QEMU's load: {status}")
    return compare(wanted, came)


def saved(bench, words):
    """Has `zimgasol save` write a guest's memory. Returns the file, and the memory."""
    wanted, out = memory(4 * MIB // PAGE, seed=9), bench.file("saved.sav")
    bench.file("ram.bin").write_bytes(wanted)
    ran(bench.programs.zimgasol, "save", "--block", f"ram={bench.file('ram.bin')}", *words,
        "--replace", out)
    return out, wanted


def load_saved(bench, words, qemu_words=()):
    """`zimgasol save` writes a guest's memory, and QEMU loads it."""
    return load_file(bench, *saved(bench, words), (*NONE.words, *qemu_words))


def load_mapped(bench, channels):
    """`zimgasol save` writes a guest's memory with mapped-ram, and QEMU loads it, with several threads by multifd."""
    out, wanted = saved(bench, ("--layout", "mapped-ram", "--machine", "none"))
    with bench.waiting(len(wanted), NONE.words) as guest:
        status, came = qemu.loaded_mapped(guest, out, channels=channels)
    return loaded_as(status, {"ram": wanted}, {"ram": came})


def read_mapped_in_c(bench, program, threads):
    """QEMU writes a file with mapped-ram, and threads of a program in C read its pages into place."""
    stream, wanted = write_file(bench, NONE, ("mapped-ram",))
    came = bench.file("memory.bin")
    came.unlink(missing_ok=True)
    ran(program, "load", stream, came, str(threads))
    return compare(wanted, {"ram": came.read_bytes()})


def load_mapped_of_c(bench, program, threads):
    """Threads of a program in C write a guest's memory with mapped-ram, and QEMU loads it."""
    wanted, out = memory(4 * MIB // PAGE, seed=9), bench.file("saved.mapped")
    bench.file("ram.bin").write_bytes(wanted)
    out.unlink(missing_ok=True)
    ran(program, "save", out, "none", str(threads), f"ram={bench.file('ram.bin')}")
    with bench.waiting(len(wanted), NONE.words) as guest:
        status, came = qemu.loaded_mapped(guest, out)
    return loaded_as(status, {"ram": wanted}, {"ram": came})


def chain(bench, other):
    """`zimgasol` extracts and saves a QEMU's file. Another QEMU loads that, and writes it again."""
    zimgasol, out, last = bench.programs.zimgasol, bench.file("chain.sav"), bench.file("last.sav")
    stream, _ = write_file(bench, NONE)
    wanted, folder = memory_of(NONE), bench.file("memory")
    extracted(zimgasol, stream, folder)
    ran(zimgasol, "save", *block_words(folder), "--frame", "machine", "--machine", "none",
        "--replace", out)
    last.unlink(missing_ok=True)
    with qemu.Guest(other, bytes(len(wanted)), NONE.words, incoming=True) as guest:
        status, came = qemu.loaded_file(guest, out)
        loaded_as(status, {"ram": wanted}, {"ram": came})
        qemu.written_file(guest, last)
    return compare({"ram": wanted}, extracted(zimgasol, last, folder))
