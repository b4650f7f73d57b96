#!/usr/bin/env python3
"""Has QEMU load channels that are damaged, or begin with pages, and counts how each load ends.

    tools/interop/bad_channels.py [--runs N] [--seconds S] [--zimgasol PROGRAM] [QEMU ..]

The streams are made of runs/captures/none-10.0.2: a main stream and two channels, 32 pages. Each is
loaded N times (20) by each QEMU, which is given S seconds (10). With PROGRAM the last column is
what `zimgasol verify` reports. Without QEMU, those of tools/interop/packages.py are taken that know
such channels; apt downloads them.
"""
import argparse
import collections
import struct
import subprocess
import sys
import tempfile
from pathlib import Path

import packages
import qemu
from guests import NONE, PAGE

TOP = Path(__file__).resolve().parent.parent.parent
CAPTURE = TOP / "runs" / "captures" / "none-10.0.2"
SIZE = 32 * PAGE
HELLO, HEAD, SYNC = 64, 64 + 256 + 8 * 128, 1
FLUSH = struct.pack(">Q", 0x200)


def packets(channel):
    """The packets of a channel, after its hello."""
    at, found = HELLO, []
    while at < len(channel):
        normal, = struct.unpack_from(">I", channel, at + 16)
        found.append(channel[at:at + HEAD + normal * PAGE])
        at += len(found[-1])
    return found


def numbered(packet, number):
    return packet[:24] + struct.pack(">Q", number) + packet[32:]


def without_first_round(main, channels):
    """The same pages, without the empty round with which QEMU's streams begin, numbered anew."""
    kept = [packets(it)[1:] for it in channels]
    numbers = sorted(struct.unpack_from(">Q", it, 24)[0] for each in kept for it in each)
    new = {old: at for at, old in enumerate(numbers)}
    streams = [channel[:HELLO] + b"".join(numbered(it, new[struct.unpack_from(">Q", it, 24)[0]])
                                          for it in each) for channel, each in zip(channels, kept)]
    return main.replace(FLUSH, b"", 1), streams


def without_last_packet(main, channels):
    """Channel 1 ends before its last SYNC packet."""
    return main, [channels[0], channels[1][:-len(packets(channels[1])[-1])]]


def with_bad_packet(main, channels):
    """The second packet of channel 0 begins with another magic."""
    at = HELLO + len(packets(channels[0])[0])
    return main, [channels[0][:at] + b"\0" + channels[0][at + 1:], channels[1]]


CASES = {"as QEMU wrote it": lambda main, channels: (main, channels),
         "no empty first round": without_first_round,
         "channel 1 ends early": without_last_packet,
         "a packet with a bad magic": with_bad_packet}


def end_of(program, seconds, main, channels):
    """How a QEMU's load of the streams ends. QEMU has a minute to start."""
    qemu.SECONDS = 60
    with qemu.Guest(program, bytes(SIZE), NONE.words, incoming=True) as guest:
        qemu.SECONDS = seconds
        guest.qmp.socket.settimeout(seconds)
        try:
            status, _ = qemu.loaded(guest, main, channels)
        except subprocess.TimeoutExpired:
            return f"no end in {seconds} s, and no answer of its monitor"
        if status.startswith("ended with"):
            guest.process.wait(seconds)
            code = guest.process.returncode
            return "SIGSEGV" if code in (-11, 139) else f"refused, status {code}"
        return {"no end": f"no end in {seconds} s", "completed": "loaded"}.get(status, status)


def verdict(program, main, channels):
    """What `zimgasol verify` says of the streams."""
    with tempfile.TemporaryDirectory() as room:
        files = [Path(room) / name for name in ("main", "0", "1")]
        for file, stream in zip(files, (main, *channels)):
            file.write_bytes(stream)
        words = [word for it in files[1:] for word in ("--channel", it.name)]
        ran = subprocess.run([program, "verify", "main", *words], cwd=room, capture_output=True,
                             text=True)
    return f"status {ran.returncode}: {(ran.stdout or ran.stderr).splitlines()[0]}"


def main():
    parser = argparse.ArgumentParser(description="Has QEMU load damaged channels.")
    parser.add_argument("--runs", type=int, default=20)
    parser.add_argument("--seconds", type=int, default=10)
    parser.add_argument("--zimgasol")
    parser.add_argument("--case", action="append", choices=CASES, help="one case alone")
    parser.add_argument("qemu", nargs="*")
    given = parser.parse_args()
    programs = given.qemu or [packages.fetched(it) for it in ("trixie", "trixie-backports")]
    capture = Path(f"{CAPTURE}.main").read_bytes()
    channels = [Path(f"{CAPTURE}.{number}").read_bytes() for number in (0, 1)]
    for name in given.case or CASES:
        streams = CASES[name](capture, channels)
        for program in programs:
            ends = collections.Counter(end_of(program, given.seconds, *streams) for _ in range(given.runs))
            told = ", ".join(f"{end}: {count}" for end, count in ends.most_common())
            print(f"| {name} | QEMU {qemu.version(program)} | {told} |", flush=True)
        if given.zimgasol:
            print(f"| {name} | zimgasol verify | {verdict(given.zimgasol, *streams)} |", flush=True)


if __name__ == "__main__":
    sys.exit(main())
