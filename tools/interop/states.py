"""The tests with each QEMU of a whole machine: extracted with its state, saved again, and resumed.

Each takes a `Bench`, and returns the text on what was compared, or raises `Differs`. A guest that
ran runs on in the end: the pages that its firmware writes change.
"""
import struct
import time

import channels
import qemu
from checks import compare_written, rounds_of, write_file, write_snapshot
from guests import MIB, PAGE, memory, words_of
from ours import Differs, compare, extracted, file_of, ran

XML = b"<domain><name>interop</name></domain>\0"
# libvirt's header of a save that is complete, of a guest that ran, not compressed, without a cookie
HEADER = b"LibvirtQemudSave" + struct.pack("<5I", 2, len(XML), 1, 0, 0) + bytes(56) + XML


def resumed(bench, kind, stream, compared, skip=0, load=qemu.loaded_file):
    """Has QEMU resume a machine from a file. `compared` takes its blocks, and returns what was compared."""
    with bench.waiting(kind.mib * MIB, words_of(kind, bench.folder)) as guest:
        status, ram = load(guest, stream, skip)
        if status != "completed":
            raise Differs(f"QEMU's load: {status}")
        said = compared(guest.blocks())
        if kind.writes:
            guest.qmp.call("cont")
            wait_for_change(guest, ram)
            said += ", runs on"
    return said


def wait_for_change(guest, ram):
    until = time.monotonic() + qemu.SECONDS
    while guest.contents() == ram:
        if time.monotonic() > until:
            raise Differs("the guest doesn't run on")
        time.sleep(0.05)


def saved_again(bench, stream, *words):
    """Has `zimgasol` extract a machine's file, and save it with its state."""
    zimgasol, folder, out = bench.programs.zimgasol, bench.file("memory"), bench.file("again.sav")
    extracted(zimgasol, stream, folder, *words)
    ran(zimgasol, "save", "--state", folder, "--replace", out)
    ran(zimgasol, "verify", out, "--quiet")
    return out


def restore(bench, kind):
    """QEMU's file, extracted and saved with its state, resumes."""
    stream, wanted = write_file(bench, kind)
    out = saved_again(bench, stream)
    return resumed(bench, kind, out, lambda came: compare_written(bench, kind, stream, wanted, came))


def restore_virtio_mem(bench, kind):
    """A machine with a virtio-mem, extracted with `--partial` and saved with its state, resumes."""
    stream, wanted = write_file(bench, kind)
    zimgasol = bench.programs.zimgasol
    said = ran(zimgasol, "verify", stream, status=1)
    if "have no record" not in said:
        raise Differs(f"verify: {said!r}")
    out = saved_again(bench, stream, "--partial")
    return resumed(bench, kind, out, lambda came: compare(wanted, came))


def restore_snapshot(bench, kind):
    """A background snapshot, extracted and saved with its state, resumes."""
    stream, wanted = write_snapshot(bench, kind)
    return resumed(bench, kind, saved_again(bench, stream), lambda came: compare(wanted, came))


def restore_replaced(bench, kind):
    """QEMU's file, extracted, with other bytes put into the file of RAM, and saved with its state, resumes with these."""
    zimgasol, folder, out = bench.programs.zimgasol, bench.file("memory"), bench.file("again.sav")
    stream, wanted = write_file(bench, kind)
    extracted(zimgasol, stream, folder)
    other = memory(kind.mib * MIB // PAGE, seed=11)
    file_of(folder, "ram").write_bytes(other)
    ran(zimgasol, "save", "--state", folder, "--replace", out)
    return resumed(bench, kind, out, lambda came: compare({**wanted, "ram": other}, came))


def restore_libvirt(bench, kind):
    """QEMU's file after a header of libvirt's: it comes back, and the bytes after it resume."""
    stream, wanted = write_file(bench, kind)
    file = bench.file("guest.save")
    file.write_bytes(HEADER + stream.read_bytes())
    out = saved_again(bench, file)
    if not out.read_bytes().startswith(HEADER):
        raise Differs("libvirt's header isn't the same")
    return resumed(bench, kind, out, lambda came: compare_written(bench, kind, stream, wanted, came), len(HEADER))


def restore_mapped(bench, kind, header=b""):
    """QEMU's file, after a header of libvirt's if there is one, resumes once it was extracted and saved with mapped-ram."""
    zimgasol, folder, out = bench.programs.zimgasol, bench.file("memory"), bench.file("again.mapped")
    stream, wanted = write_file(bench, kind)
    file = bench.file("guest.save")
    file.write_bytes(header + stream.read_bytes())
    extracted(zimgasol, file, folder)
    ran(zimgasol, "save", "--state", folder, "--layout", "mapped-ram", "--replace", out)
    return resumed(bench, kind, out, lambda came: compare_written(bench, kind, stream, wanted, came), len(header),
                   qemu.loaded_mapped)


def restore_channels(bench, kind, count):
    """QEMU's channels, extracted and saved with the state as one stream, resume."""
    with bench.guest(kind) as guest:
        main, streams = qemu.written(guest, count, rounds_of(kind))
        wanted = guest.blocks()
    files = channels.put(bench, main, streams)
    out = saved_again(bench, files[0], *channels.channel_words(files))
    return resumed(bench, kind, out, lambda came: compare(wanted, came))


def write_twice(bench, kind):
    """Has QEMU write a guest, and the same guest again after it ran on. Returns both files, and the memory of the second."""
    first, second = bench.file("first.sav"), bench.file("second.sav")
    for file in (first, second):
        file.unlink(missing_ok=True)
    with bench.guest(kind) as guest:
        qemu.written_file(guest, first, rounds_of(kind))
        ram = guest.contents()
        guest.qmp.call("cont")
        wait_for_change(guest, ram)
        qemu.written_file(guest, second, rounds_of(kind))
        return first, second, guest.blocks()


def restore_changes(bench, kind):
    """A full save and the changes of a later one, with its state, give the guest as it was then."""
    zimgasol, out = bench.programs.zimgasol, bench.file("again.sav")
    first, second, wanted = write_twice(bench, kind)
    full, later, last = (bench.file(it) for it in ("full", "later", "last"))
    extracted(zimgasol, first, full)
    extracted(zimgasol, second, later)
    changes = bench.file("changes.sav")
    ran(zimgasol, "save", "--state", later, "--since", full, "--replace", changes)
    extracted(zimgasol, changes, last, "--since", full)
    ran(zimgasol, "save", "--state", last, "--replace", out)
    if changes.stat().st_size >= out.stat().st_size:
        raise Differs("the changes are as long as the guest")
    return resumed(bench, kind, out, lambda came: compare_written(bench, kind, second, wanted, came))
