#!/usr/bin/env python3
"""Reads each capture of a folder with `zimgasol`, and compares the result with what is known of it.

    tools/captures.py FOLDER [PROGRAM]

A capture is `NAME.stream`, `NAME.main` with its channels `NAME.0`, `NAME.1` and so on, or libvirt's
`NAME.save`. A single stream or a file of libvirt's may be packed by xz, as `NAME.stream.xz`. With
mapped-ram it is compared with the plain stream that tools/mapped_facts.py makes of it. `NAME.image`
is the guest's memory, in the order of the size list; in its place `NAME.sums` has the SHA-256 of
each block of QEMU's own memory, a line each, or `-` for a block of shared memory that isn't in the
stream (x-ignore-shared). `NAME.blocks` is the guest's description, as JSON. They give the expected
verdict, the memory, and the byte at which RAM ends. A capture without a memory differs.

PROGRAM is `zimgasol`, by default as `make program` builds it. Each capture is verified, listed and
extracted, with its channels by `--channel`. The lines and the JSON that it prints, the exit status,
and the SHA-256 of the file of each block are compared. For a refused capture the fault is compared,
and no file may remain. A table has a row for each capture.

Ends with status 1 if a capture differs.
"""
import hashlib
import json
import lzma
import os
import re
import sys
import tempfile
from pathlib import Path

import mapped_facts
from zimgasol_captures import try_captures

BUILT = Path(__file__).resolve().parent.parent / "crates" / "zimgasol_cli" / "out" / "zimgasol_cli"
NO_UUID = "00000000-0000-0000-0000-000000000000"
# libvirt's header: 92 bytes, of which bytes 20 to 23 are the length of what stands between it and QEMU's stream
LIBVIRT = b"LibvirtQemudSave"
RAM_HEAD = b"\x03ram" + bytes(4) + (4).to_bytes(4, "big")
EOS = (16).to_bytes(8, "big")
PACKED = ".xz"
# how the name of virtio-mem's early state ends
VIRTIO_MEM = "/virtio-mem-device-early"


def stream_of(text):
    """The bytes of QEMU's stream in those of a file."""
    if text.startswith(LIBVIRT):
        return text[92 + int.from_bytes(text[20:24], "little"):]
    return text


def ram_end(stream):
    """Where the footer of RAM's END ends: it is the last one of RAM's section, whose id stands before its name."""
    start = stream.find(RAM_HEAD)
    footer = EOS + b"\x7e" + stream[start - 4:start]
    return stream.rfind(footer) + len(footer)


def expected_fault(known):
    """The number of the fault that a capture has by what is known of it; None where it can be read."""
    words = " ".join(known.get("params", []))
    if "xbzrle" in known.get("caps", []):
        return 27
    if "multifd-compression" in words and "multifd-compression=none" not in words:
        return 41
    # another START, or a device's section that isn't virtio-mem's early state, before RAM's END
    for item in known.get("before", []) + known.get("between", []):
        kind, _, name = item.partition(" ")
        if kind == "START":
            return 13
        if kind == "FULL" and not name.endswith(VIRTIO_MEM):
            return 14
    return None


class Capture:
    """A capture, and what is expected of it: that is in files beside it, or in `folder`."""

    def __init__(self, path, folder):
        self.path, self.beside = path, folder / path.name
        blocks = self.beside.with_suffix(".blocks")
        known = json.loads(blocks.read_text()) if blocks.exists() else {}
        channels = [it for it in path.parent.glob(f"{path.stem}.*") if it.suffix[1:].isdigit()] if path.suffix == ".main" else []
        self.channels = sorted(channels, key=lambda it: int(it.suffix[1:]))
        self.fault = expected_fault(known)
        # of a stream that couldn't be walked `walk` may say at which byte
        at = re.search(r" at (\d+)$", known.get("walk", ""))
        self.fault_byte = int(at[1]) if at else None
        words = known.get("words", [])
        self.uuid = words[words.index("-uuid") + 1] if "-uuid" in words else NO_UUID
        # a list of [id, length]; None where there is no NAME.blocks
        self.blocks = known.get("blocks")
        before = known.get("before", [])
        self.notes = before[before[:1] == ["HEADER"]:] + known.get("between", [])
        if "mapped-ram" in known.get("caps", []):
            # (the capability is the only one, and the plain stream hasn't it)
            self.notes = [it for it in self.notes if it != "SUBSECTION configuration/capabilities"]

    @property
    def end(self):
        """The byte of the file, or of the plain stream, at which RAM ends."""
        text = mapped_facts.plain(self.path.read_bytes())
        stream = stream_of(text)
        return len(text) - len(stream) + ram_end(stream)

    def image_digests(self, lengths):
        """The SHA-256 of each block of QEMU's own memory; None if neither NAME.image nor NAME.sums is there."""
        image, sums = self.beside.with_suffix(".image"), self.beside.with_suffix(".sums")
        if not image.exists():
            return sums.read_text().split() if sums.exists() else None
        with image.open("rb") as image:
            digests = [hashlib.sha256(image.read(length)).hexdigest() for length in lengths]
            return digests if not image.read(1) else []


def unpacked(path, room):
    """The file of a capture: one that is packed is unpacked into `room`."""
    if path.suffix != PACKED:
        return path
    file = Path(room) / path.stem
    file.write_bytes(lzma.decompress(path.read_bytes()))
    return file


def is_capture(path):
    """Whether a file is a single stream, a main stream, or one of libvirt's."""
    return Path(path.stem if path.suffix == PACKED else path.name).suffix in (".stream", ".main", ".save")


def play(program, folder):
    """Reads the captures of a folder. Prints a table. Returns how many passed and failed."""
    found = sorted(filter(is_capture, folder.iterdir()))
    with tempfile.TemporaryDirectory(prefix="unpacked-") as room:
        wrong = try_captures(program, [Capture(unpacked(it, room), folder) for it in found])
    print(f"captures: {len(found)}, {wrong or 'none'} of them other than expected", flush=True)
    return len(found) - wrong, wrong


def main(words):
    if words[:1] in (["--help"], ["-h"]):
        print(__doc__.strip())
        return 0
    if len(words) not in (1, 2):
        sys.exit(__doc__)
    folder, program = Path(words[0]), Path((words[1:] or [BUILT])[0])
    if not folder.is_dir():
        sys.exit(f"there is no folder {folder}")
    if not os.access(program, os.X_OK):
        sys.exit(f"there is no program {program}: make program")
    passed, failed = play([str(program.resolve())], folder)
    if not passed + failed:
        sys.exit(f"{folder} has no capture")
    return 1 if failed else 0


if __name__ == "__main__":
    sys.exit(main(sys.argv[1:]))
