"""The tests with each QEMU over several channels: a function for each kind of row.

Each takes a `Bench`, and returns the text on what was compared, or raises `Differs`.
"""
import sys
from dataclasses import dataclass
from pathlib import Path

import qemu
from checks import NO_CONFIGURATION, load_file, loaded_as, refused, rounds_of, saved
from guests import MIB, NONE, PAGE, memory_of, scenario, uuid_of
from ours import Differs, block_words, compare, extracted, fault_of, ran

sys.path.insert(1, str(Path(__file__).resolve().parent.parent))
import channel_facts  # noqa: E402

FLUSH_REFUSED = "Unknown combination of migration flags: 0x200"
MACHINE = ("--frame", "machine", "--machine", "none")


@dataclass(frozen=True)
class Sent:
    """The files of a main stream and its channels, the guest's RAM, and QEMU's words to load it."""

    files: list
    memory: bytes
    words: tuple = ()


def files_of(main, count):
    return [main, *(Path(f"{main}.{number}") for number in range(count))]


def put(bench, main, streams):
    """Puts what QEMU wrote into files."""
    files = files_of(bench.file("main.sav"), len(streams))
    for file, bytes_ in zip(files, (main, *streams)):
        file.write_bytes(bytes_)
    return files


def channel_words(files):
    return [word for file in files[1:] for word in ("--channel", file)]


def is_lawful(main, streams):
    """Whether an independent reader finds the rounds: each packet numbered once, and no page twice in a round."""
    try:
        return bool(channel_facts.facts(main, streams))
    except (AssertionError, IndexError):
        return False


def write_several(bench, kind, channels, faults=(), **parameters):
    """QEMU writes on several channels, and `zimgasol` extracts that.

    Where there are `faults` and the rounds aren't lawful, it is to be refused with one of these.
    """
    with bench.guest(kind) as guest:
        guest.set((), **parameters)
        main, streams = qemu.written(guest, channels, rounds_of(kind))
        wanted = guest.blocks()
    files = put(bench, main, streams)
    zimgasol, words = bench.programs.zimgasol, channel_words(files)
    if not faults or is_lawful(main, streams):
        uuid = ("--uuid", uuid_of(kind)) if uuid_of(kind) else ()
        return compare(wanted, extracted(zimgasol, files[0], bench.file("memory"), *words, *uuid))
    said = ran(zimgasol, "verify", files[0], *words, status=1)
    if fault_of(said) not in faults:
        raise Differs(f"{said}; expected fault {' or '.join(map(str, faults))}")
    return f"fault {fault_of(said)}"


def refuse_main(bench, fault):
    """The main stream of two channels alone is no single stream."""
    stream = bench.file("main.sav")
    with bench.guest(NONE) as guest:
        stream.write_bytes(qemu.written(guest, 2)[0])
    return refused(bench, stream, fault)


def send(bench, channels):
    """Has the tool send a guest, as a single stream where there are no channels."""
    lines, wanted = scenario(4 * MIB // PAGE)
    bench.file("scenario").write_text(lines)
    out = bench.file("sent")
    ran(bench.programs.tool, "send", bench.file("scenario"), out, "--channels", channels)
    return Sent(files_of(out, channels), wanted, NO_CONFIGURATION)


def save(bench, channels):
    """Has `zimgasol save` write a guest's memory over channels."""
    out, wanted = saved(bench, (*MACHINE, "--channels", channels))
    return Sent(files_of(out, channels), wanted)


def load(bench, sent):
    """QEMU loads what was sent: from a file, or from channels."""
    words = (*NONE.words, *sent.words)
    if len(sent.files) == 1:
        return load_file(bench, sent.files[0], sent.memory, words)
    streams = [it.read_bytes() for it in sent.files]
    with bench.waiting(len(sent.memory), words) as guest:
        status, came = qemu.loaded(guest, streams[0], streams[1:])
    return loaded_as(status, {"ram": sent.memory}, {"ram": came})


def cannot_load(bench, sent):
    """QEMU before 8.1 knows no FLUSH, so its load of our channels fails."""
    streams = [it.read_bytes() for it in sent.files]
    with bench.waiting(len(sent.memory), (*NONE.words, *sent.words)) as guest:
        status, _ = qemu.loaded(guest, streams[0], streams[1:])
        said = guest.process.stderr.read() if status.startswith("ended") else ""
    if FLUSH_REFUSED not in said:
        raise Differs(f"QEMU's load: {status}: {said}")
    return "QEMU refuses FLUSH"


def chain_several(bench, channels):
    """`zimgasol` extracts QEMU's channels, and saves the memory over channels, which QEMU loads."""
    with bench.guest(NONE) as guest:
        files = put(bench, *qemu.written(guest, channels))
    zimgasol, out, folder = bench.programs.zimgasol, bench.file("chain.sav"), bench.file("memory")
    extracted(zimgasol, files[0], folder, *channel_words(files))
    ran(zimgasol, "save", *block_words(folder), *MACHINE, "--channels", channels, "--replace", out)
    return load(bench, Sent(files_of(out, channels), memory_of(NONE)))
