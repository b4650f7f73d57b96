#!/usr/bin/env python3
"""Has QEMU write the captures of runs/captures: guests of machine `none`.

    tools/interop/capture.py FOLDER QEMU ..

Writes for each QEMU `none-VERSION.stream`, and on 2 channels `none-VERSION.main`, `.0` and `.1`,
into FOLDER. Prints the SHA-256 of the guest's memory in QEMU's own file, and the byte at which
RAM's END ends. Machine `none` has no firmware. The guest has 32 pages of 4,096 bytes: in turn a
page of noise, a page of zeros, and a page of one repeated byte.
"""
import hashlib
import sys
from pathlib import Path

from guests import memory
from ours import ram_end
from qemu import Guest, version, written

PAGES = 32


def main():
    folder = Path(sys.argv[1])
    for program in sys.argv[2:]:
        for channels in (0, 2):
            with Guest(program, memory(PAGES)) as guest:
                stream, hellos = written(guest, channels)
                digest = hashlib.sha256(guest.contents()).hexdigest()
            name = f"none-{version(program)}"
            (folder / f"{name}.{'main' if channels else 'stream'}").write_bytes(stream)
            for number, bytes_ in enumerate(hellos):
                (folder / f"{name}.{number}").write_bytes(bytes_)
            print(name, channels, len(stream), ram_end(stream), digest)


main()
