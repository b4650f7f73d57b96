"""Reads captures of QEMU and libvirt with `zimgasol`: `tools/captures.py`.

The expected values of a capture come from its own files: the blocks and the items between the
sections from NAME.blocks, the memory from NAME.image or NAME.sums, the end of RAM from the last footer, and the
counts of sections, records and packets from tools/stream_facts.py and tools/channel_facts.py, which
share nothing with the program. These two readers have to find NAME's memory, too. Of a file with
mapped-ram they read the plain stream that tools/mapped_facts.py makes of it.
"""
import hashlib
import json
import subprocess
import tempfile
import uuid
from pathlib import Path

import channel_facts
import mapped_facts
import stream_facts
import tail_facts

SECONDS = 300
NOTE = "note: a file with mapped-ram; bytes are counted in the plain stream of its memory"
COMMANDS = {1: "OPEN_RETURN_PATH", 2: "PING", 3: "POSTCOPY_ADVISE", 11: "SWITCHOVER_START"}


class Differs(Exception):
    """What isn't as it is expected."""


def expect(what, wanted, came):
    if wanted != came:
        raise Differs(f"{what}: expected {wanted!r}, came {came!r}")


def digest_of(path):
    digest = hashlib.sha256()
    with path.open("rb") as file:
        while piece := file.read(1 << 20):
            digest.update(piece)
    return digest.hexdigest()


def digest_of_pieces(path):
    """The SHA-256 of the SHA-256s of a file's pieces of 64 KiB."""
    digest = hashlib.sha256()
    with path.open("rb") as file:
        while piece := file.read(1 << 16):
            digest.update(hashlib.sha256(piece).digest())
    return digest.hexdigest()


def facts_of(capture):
    """What the readers beside the program find in a capture, compared with its files."""
    file = capture.path.read_bytes()
    data = mapped_facts.plain(file)
    if capture.channels:
        found = channel_facts.facts(data, [it.read_bytes() for it in capture.channels])
    else:
        found = stream_facts.facts(data)
    found["is_mapped"] = mapped_facts.is_mapped(file)
    found["bytes"], found["tail"] = len(data), data[found["end"]:]
    header = found["before"]
    found["state"] = {"before.bin": stream_facts.state_before(data, found), "after.bin": found["tail"],
                      **({"libvirt.bin": data[:header]} if header else {})}
    sizes = [[name, len(it)] for name, it in found["memory"].items()]
    if capture.blocks:
        expect("NAME.blocks, blocks", capture.blocks, sizes)
        expect("NAME.blocks, notes", capture.notes, [said(it) for it in found["notes"]])
    known = capture.image_digests([length for _, length in sizes])
    if known is None:
        raise Differs("there is no NAME.image and no NAME.sums to compare its memory with")
    digests = {it: stream_facts.digest(memory) for it, memory in found["memory"].items()}
    for block, wanted in zip(digests, known):
        if not is_outside(found, block):
            expect(f"NAME.image, block {block}", wanted, digests[block])
    found["digests"] = list(digests.values())
    expect("end of RAM", capture.end, found["end"])
    return found


def is_outside(found, block):
    """Whether a block isn't in the stream: shared memory (x-ignore-shared), or a virtio-mem's of which nothing is plugged."""
    devices = [note[1].removesuffix(stream_facts.VIRTIO_MEM) + "/" for note in found["notes"] if note[0] == "device"]
    is_left_out = found["form"] == stream_facts.ADDRESSED or block.startswith(tuple(devices))
    return is_left_out and not found["pages"][block]


def lacking(name, found):
    """The lines of `verify` on the blocks that aren't in the stream."""
    pages = {it: len(memory) // 4096 for it, memory in found["memory"].items() if is_outside(found, it)}
    return [f'zimgasol: {name}: INCOMPLETE: {count} of {count} pages of block "{it}" have no record: it isn\'t in the stream'
            for it, count in pages.items()]


def said(note):
    """A note as NAME.blocks says it."""
    if note[0] == "machine":
        return f"CONFIGURATION {note[1]}"
    if note[0] == "subsection":
        return f"SUBSECTION {note[1]}"
    if note[0] == "device":
        return f"FULL {note[1]}"
    return f"COMMAND {COMMANDS[note[1]]}"


def note_value(note):
    if note[0] == "machine":
        return {"machine": note[1], "at": note[-1]}
    if note[0] == "subsection":
        return {"subsection": note[1], "content": note[2], "at": note[-1]}
    if note[0] == "device":
        return {"device": note[1], "after_sections": note[2], "at": note[3]}
    number, sections, at = note[1:]
    return {"command": number, "name": COMMANDS[number], "after_sections": sections, "at": at}


def without_lengths(notes):
    """The notes of the JSON, but for how many bytes a COMMAND has, which the readers pass over."""
    return [{key: it[key] for key in it if key != "bytes"} for it in notes]


def whole_line(name, found, capture):
    """The line of `verify` and `extract`."""
    memory = sum(map(len, found["memory"].values()))
    if capture.channels:
        counts = (f"rounds {found['rounds']}, channels {len(capture.channels)}, "
                  f"packets {found['packets']}{channel_facts.passed_over(found['channels'])}")
        ident = f", UUID {uuid.UUID(bytes=found['uuid'])}"
    else:
        counts, ident = f"sections {found['sections']}", ""
    word = "partial" if lacking(name, found) else "complete"
    return (f"{name}: {word}: {counts}, blocks {len(found['memory'])}, memory {memory} bytes{ident}, "
            f"RAM ends at byte {found['end']}, {tail_facts.line(found['tail'])}\n")


def listing(name, found, capture):
    """The JSON of `inspect`, but for the channels and libvirt's header."""
    blocks = [{"id": it, "bytes": len(memory), "pages": found["counts"][it][0],
               "zero_pages": found["counts"][it][1],
               "pages_without_record": len(memory) // 4096 - len(set(found["pages"].get(it, ())))}
              for it, memory in found["memory"].items()]
    listed = {"file": name, "bytes": found["bytes"], "page_size": 4096, "blocks": blocks,
              "notes": [note_value(it) for it in found["notes"]], "end": found["end"],
              "complete": not lacking(name, found), "fault": None, **tail_facts.value(found["tail"])}
    if capture.channels:
        listed.update(rounds=found["rounds"], uuid=str(uuid.UUID(bytes=found["uuid"])))
    else:
        listed.update(sections=found["sections"])
    return listed


def channel_listing(path, channel):
    numbers = channel["numbers"]
    return {"file": path.name, "bytes": path.stat().st_size, "id": channel["id"],
            "packets": len(numbers), "first_number": min(numbers), "last_number": max(numbers),
            "pages": channel["pages"], "zero_pages": channel["zeros"], "end": path.stat().st_size,
            **channel_facts.device_members(channel)}


class Run:
    """The program on one capture, in a folder that has the capture's files."""

    def __init__(self, program, room, capture):
        self.program, self.room, self.capture = program, room, capture
        self.name = capture.path.name
        for it in [capture.path, *capture.channels]:
            (room / it.name).symlink_to(it.resolve())
        # (in the other order: `zimgasol` takes them in any)
        self.channels = [w for it in capture.channels[::-1] for w in ("--channel", it.name)]

    def ran(self, *words, status=0):
        """What the program prints and what it says of errors. It has to end with a status."""
        how = {"cwd": self.room, "capture_output": True, "text": True, "timeout": SECONDS}
        done = subprocess.run([*self.program, *words], stdin=subprocess.DEVNULL, **how)
        if done.returncode != status:
            error = done.stderr.strip()[-300:]
            raise Differs(f"{words[0]}: expected status {status}, came {done.returncode}: {error}")
        return done.stdout, done.stderr

    def complains(self, command, found, error):
        """What a command says of errors: the blocks that aren't in the stream, and why, and how bytes are counted."""
        wanted, lines = lacking(self.name, found), error.splitlines()
        if found["is_mapped"]:
            expect(f"{command}, note", f"zimgasol: {self.name}: {NOTE}", lines.pop() if lines else "")
        expect(f"{command}, error output", wanted, lines[:-1])
        cause = "virtio-mem" if any(note[0] == "device" for note in found["notes"]) else "`x-ignore-shared`"
        if lines and not ("INCOMPLETE" in lines[-1] and cause in lines[-1]):
            raise Differs(f"{command}: expected the cause, came {lines[-1]!r}")

    def verify(self, found):
        printed, error = self.ran("verify", self.name, *self.channels, status=self.status(found))
        expect("verify", whole_line(self.name, found, self.capture), printed)
        self.complains("verify", found, error)
        return f"ends at byte {found['end']}"

    def status(self, found):
        return 1 if lacking(self.name, found) else 0

    def inspect(self, found):
        printed, error = self.ran("inspect", self.name, *self.channels, "--json", status=self.status(found))
        self.complains("inspect", found, error)
        came = json.loads(printed)
        came["notes"] = without_lengths(came["notes"])
        libvirt, channels = came.pop("libvirt", None), came.pop("channels", [])
        expect("inspect", listing(self.name, found, self.capture), came)
        wanted = [channel_listing(*it) for it in zip(self.capture.channels, found.get("channels", []))]
        expect("inspect, channels", wanted[::-1], channels)
        expect("inspect, libvirt's header", found.get("before", 0), libvirt["bytes"] if libvirt else 0)
        pages, zeros = (sum(it[at] for it in found["counts"].values()) for at in (0, 1))
        return f"{pages} pages, {zeros} zeros"

    def extract(self, found):
        more = ["--uuid", self.capture.uuid] if self.channels else []
        if lacking(self.name, found):
            printed, error = self.ran("extract", self.name, "out", *self.channels, *more, status=1)
            self.complains("extract", found, error)
            expect("extract without --partial", ("", False), (printed, (self.room / "out").exists()))
            more.append("--partial")
        printed, _ = self.ran("extract", self.name, "out", "--digest", "--fast-digest", *self.channels, *more)
        expect("extract", whole_line(self.name, found, self.capture), printed)
        listed = json.loads((self.room / "out" / "blocks.json").read_text())["blocks"]
        digests = found["digests"]
        wanted = [(it, len(found["memory"][it])) for it in found["memory"]]
        expect("blocks.json", wanted, [(it["id"], it["bytes"]) for it in listed])
        expect("blocks.json, SHA-256", digests, [it["sha256"] for it in listed])
        files = [self.room / "out" / it["file"] for it in listed]
        expect("SHA-256 of the files", digests, [digest_of(it) for it in files])
        expect("blocks.json, digest of pieces", [digest_of_pieces(it) for it in files], [it["sha256_64k"] for it in listed])
        there = sorted(it.name for it in (self.room / "out").iterdir())
        expect("files", sorted([*(it.name for it in files), "blocks.json", "state"]), there)
        state = {it.name: it.read_bytes() for it in (self.room / "out" / "state").iterdir()}
        expect("state, names", sorted(found["state"]), sorted(state))
        expect("state, bytes", [], [it for it in state if state[it] != found["state"][it]])
        return f"{len(files)} files"

    def refused(self):
        """A capture with a fault: each command names it, and no file stays."""
        wanted, byte = f"fault {self.capture.fault}: ", self.capture.fault_byte
        for command, more in (("verify", []), ("inspect", ["--json"]), ("extract", ["out"])):
            printed, error = self.ran(command, self.name, *more, *self.channels, status=1)
            if wanted not in error or error.count("\n") != 1:
                raise Differs(f"{command}: expected {wanted!r}, came {error!r}")
            if byte is not None and f": byte {byte} (" not in error:
                raise Differs(f"{command}: expected byte {byte}, came {error!r}")
            if command == "inspect":
                came = json.loads(printed)
                expect("inspect", (self.capture.fault, False), (came["fault"]["number"], came["complete"]))
            else:
                expect(f"{command}, output", "", printed)
        if (self.room / "out").exists():
            raise Differs("extract: its folder stays")
        return [f"fault {self.capture.fault}"] * 3

    def row(self):
        if self.capture.fault is not None:
            return self.refused()
        found = facts_of(self.capture)
        return [self.verify(found), self.inspect(found), self.extract(found)]


def try_captures(program, captures):
    """Prints a row for each capture. Returns how many differ."""
    print("| Capture | `verify` | `inspect` | `extract` | Result |\n|---|---|---|---|---|")
    wrong = 0
    for capture in captures:
        with tempfile.TemporaryDirectory(prefix="captures-") as room:
            try:
                cells = [*Run(program, Path(room), capture).row(), "as expected"]
            except (Differs, ValueError, KeyError, subprocess.TimeoutExpired) as why:
                wrong += 1
                cells = ["", "", "", f"DIFFERS: {why}"]
        print("|", " | ".join([capture.path.name, *cells]), "|", flush=True)
    return wrong
