#!/usr/bin/env python3
"""The examples of docs/use/ZIMGASOL.md as commands to run, with what they print: runs/zimgasol.

    tools/zimgasol_page.py            writes both and data/main.sav, and the output in the page
    tools/zimgasol_page.py --check    compares them, and fails if they differ

The expected output of a command is made here from the results of tools/stream_facts.py and
tools/channel_facts.py on the files, and from streams that are written here and files that
tools/mapped_file.py makes: none of this shares anything with the library. tools/runs/runs.py runs the commands and compares their output with it.
In the page long lines are wrapped at 100 columns, and each member of a JSON object is on one line.
"""
import hashlib
import json
import re
import struct
import sys
import textwrap
import uuid
from pathlib import Path

import channel_facts
import mapped_facts
import mapped_file
import stream_facts
import tail_facts

TOP = Path(__file__).resolve().parent.parent
# In the order in which their examples run.
PAGES = [TOP / "docs" / "use" / "ZIMGASOL.md"]
RUNS = TOP / "runs" / "zimgasol"
COMMANDS = {11: "SWITCHOVER_START"}
SIX = " ".join(f"--block {it}=half.bin" for it in "abcdef")
SIZES = "isn't a size from 1 to 1T: bytes, or a number with K, M, G or T behind"
EXISTS = "is there already; `--replace` replaces it"
CUT = "fault 34: the stream ends early; the file was cut, or the save didn't come to its end"
UUID = "00112233-4455-6677-8899-aabbccddeeff"
# What may be the cause that pages have no record.
CHANGES = ("it may be the changes since another stream, which `extract --since` applies; "
           "`--partial` takes it as it is")
NOT_SENT = "RAM isn't in the stream: a `cpr-transfer` migration keeps it outside"
NOT_RECORDED = ("RAM isn't in the stream: its pages may have gone over multifd's channels "
                "(`--channel` names each)")
NO_CONTENTS = ("all records are of pages of zeros: the other pages may have gone over multifd's channels "
               "(`--channel` names each)")
SHARED = ("the save left out shared memory (`x-ignore-shared`): a block without any record is in its own file; "
          "`--partial` takes the stream as it is")
NONE_PLUGGED = ("a block without any record may be virtio-mem with nothing plugged; "
                "`--partial` takes the stream as it is")
NOT_PLUGGED = ("they may be unplugged memory of virtio-mem, free pages of virtio-balloon, or the stream the changes "
               "since another one; `--partial` takes it as it is")
NOT_READ = "a device that saves its state before RAM's END, which isn't read"
LIBVIRT_HEAD = "LibvirtQemudSave" + r"\x02\0\0\0\x05\0\0\0\x01\0\0\0\x01\0\0\0"
RAW_HEAD = LIBVIRT_HEAD.removesuffix(r"\x01\0\0\0") + r"\0\0\0\0"
ADVISE = r"\x08\0\x03\0\x10\0\0\0\0\0\x20\0\0\0\0\0\0\0\0\x10\0"
CAPABILITIES = r"\x05\x1aconfiguration/capabilities\0\0\0\1\0\0\0\2\x03xyz\x0fx-ignore-shared"
CAPABLE = r"\x05\x1aconfiguration/capabilities\0\0\0\1\0\0\0\1\x03xyz"
CAPABLE_MAPPED = r"\x05\x1aconfiguration/capabilities\0\0\0\1\0\0\0\2\x03xyz\x0amapped-ram"
NOT_MAPPED = "doesn't go with `--layout mapped-ram`"
# the bytes of guest.sav that are the last ones of the id of RAM's section
SECOND = (21, 66, 71, 86371, 86381, 86394)
HUGE = r"\0\0\0\0\0\x20\0\0"
ADDRESS = r"\0\0\0\1\0\0\0\0"
# the total of the size list with a block "a" of 8,192 bytes, and its entry
BOTH = r"\0\0\0\0\0\2\x20\4"
SMALL = r"\1a\0\0\0\0\0\0\x20\0"
WHOLE = "complete: sections 3, blocks 1, memory 131072 bytes, RAM ends at byte 86395, devices: whole, 1011 bytes"
# virtio-mem's early state in a version, 99 bytes: a region of 8 MiB with blocks of 2 MiB, of which none is plugged
VIRTIO_MEM = (r"\4\0\0\0\x25\x240000:00:01.0/virtio-mem-device-early\0\0\0\0\0\0\0\{}" + r"\0" * 8
              + r"\0\0\0\0\0\x80\0\0" + r"\0\0\0\0\0\x20\0\0" + r"\0" * 20 + r"\x7e\0\0\0\x25")
VIRTIO_MEM_WHOLE = "complete: sections 3, blocks 1, memory 131072 bytes, RAM ends at byte 86494, devices: whole, 1011 bytes"
TAIL_CUT = "the stream ends early; the file was cut, or the save didn't come to its end"
UNKNOWN = "no valid description follows, so it isn't known whether their state is complete"
DESCRIPTION = "description of the devices"
RAM_ONLY = "`--ram-only` verifies RAM alone"
WHOLE_RAM = "complete: sections 3, blocks 1, memory 131072 bytes, RAM ends at byte 86395"
NO_MAGIC = "not a QEMU migration stream; if compressed: `zstd -dc FILE | zimgasol verify -`"
NO_STREAM = f"byte 0 (before section 1): fault 11: the stream doesn't begin with QEVM; {NO_MAGIC}"
NO_BLOCK = ["page size 4096", "sections 0"]
NOTHING_READ = [*NO_BLOCK, "read up to byte 0"]
POSTCOPY = "fault 49: unsupported COMMAND; a migration that went over to postcopy isn't complete in a file"
TOTAL = "byte 34 (section 1, START): fault 20: RAM total is 0 or above the limit"
PAIR = " --channel pair.sav.0 --channel pair.sav.1"
NO_COMMAND = "(head -c 86372 {0}; tail -c +86378 {0})"
THREE = "".join(f" --channel three.sav.{i}" for i in (2, 0, 1))
SHORT = "zimgasol: short/ram.bin: has 65536 bytes, and `blocks.json` lists 131072"
TWICE = "zimgasol: twice/blocks.json: lists an id twice"
NO_LIST = "zimgasol: short/blocks.json: is no list of blocks that `extract` wrote"


def be(form, *numbers):
    return struct.pack(">" + form, *numbers)


def in_one_line(value):
    """A value as JSON on one line, with its members in order."""
    return json.dumps(value, sort_keys=True, separators=(",", ":"))


def text_page(number):
    """A page of text."""
    return (b"page %d, " % number * 512)[:4096]


# A file with mapped-ram: a block whose page 2 keeps old bytes without its bit, and whose page 5 is zeros with its bit; and a
# block of zeros. The head of `ram` begins at byte 89, and that of `rom` at 36864.
MAPPED_BLOCKS = {b"ram": [(1, text_page(0)), (1, text_page(1)), (0, text_page(2)), (1, text_page(3)), (0, bytes(4096)),
                          (1, bytes(4096)), (0, bytes(4096)), (1, text_page(7))],
                 b"rom": [(0, bytes(4096))] * 2}
MAPPED = mapped_facts.guest(MAPPED_BLOCKS)
MAPPED_PLAIN = mapped_facts.plain(MAPPED)
MAPPED_WHOLE = ("complete: sections 3, blocks 2, memory 40960 bytes, RAM ends at byte {}, devices: none, 1 bytes"
                .format(len(MAPPED_PLAIN) - 1))
MAPPED_NOTE = "note: a file with mapped-ram; bytes are counted in the plain stream of its memory"
FILE_CUT = CUT.replace("stream", "file")
# How many bytes of a sparse file of libvirt's stand before the stream, and the same file in it.
SPARSE_BEFORE = 4096
SPARSE = (b"LibvirtQemudSave" + struct.pack("<4I", 2, SPARSE_BEFORE - 92, 1, 6)).ljust(SPARSE_BEFORE, b"\0")
SPARSE += mapped_facts.guest(MAPPED_BLOCKS, SPARSE_BEFORE)
SPARSE_PLAIN = mapped_facts.plain(SPARSE)
MAPPED_PIPE = "byte 53 (before section 1): fault 47: unsupported capability; give the file by its name, not through a pipe; or save without mapped-ram"


def escaped(content):
    """Bytes as `printf` of a shell writes them."""
    return "".join(f"\\x{it:02x}" for it in content)


def patched(data, *patches):
    """A file in which some bytes are others: of each patch where it is, and its bytes."""
    for at, content in patches:
        data = data[:at] + content + data[at + len(content):]
    return data


def patching(name, *patches):
    """The command that makes bad.sav of the file `name` with other bytes at some places, which ascend."""
    if not patches:
        return f"cp {name} bad.sav"
    parts, last = [], 0
    for at, content in patches:
        parts += [f"tail -c +{last + 1} {name} | head -c {at - last}", f"printf '{escaped(content)}'"]
        last = at + len(content)
    return f"({'; '.join(parts)}; tail -c +{last + 1} {name}) > bad.sav"


def mapped_fault(patch, said):
    """The commands that make a file with mapped-ram with a patch, and what `verify` says of it."""
    return [(patching("fixed.sav", patch), ([], 0)), ("zimgasol verify bad.sav", ([f"zimgasol: bad.sav: {said}"], 1))]


def mapped_cut(size, *patches):
    """The commands that cut such a file among its pages, and what `verify` says of it."""
    plain = len(mapped_facts.plain(patched(MAPPED, *patches)[:size]))
    return [(patching("fixed.sav", *patches), ([], 0)), (f"head -c {size} bad.sav > less.sav", ([], 0)),
            ("zimgasol verify less.sav", (
                [f"zimgasol: less.sav: byte {plain} (section 1, START): {CUT}", f"zimgasol: less.sav: {MAPPED_NOTE}"], 1))]


# The plain stream of a file with a page of `rom` where no file has bytes.
LESS = len(mapped_facts.plain(patched(MAPPED, (36896, be("Q", 1 << 50)), (36904, b"\1"))))


def memory_sum(block):
    """The line of sha256sum on a block of that file."""
    return f"{hashlib.sha256(mapped_facts.memory(MAPPED_BLOCKS[block])).hexdigest()}  {block.decode()}.bin"


def wrong(what):
    """What clap says of wrong arguments of `inspect`."""
    return [f"error: {what}", "", "Usage: zimgasol inspect [OPTIONS] <FILE>", "", "For more information, try '--help'."]


# After those of the pages: commands, and what each prints and its status. None: as it is made here.
CASES = [
    # ---- what the page leaves out
    ("zimgasol verify - < guest.sav", None),
    ("zimgasol inspect machine.sav", None),
    ("zimgasol extract guest.sav digests --digest", None),
    ("cat digests/blocks.json", None),
    ("zimgasol extract full.sav again --digest --replace", None),
    ("cat again/blocks.json", None),
    ("zimgasol extract main.sav no-part", None),
    ("zimgasol extract later.sav restored --since memory --digest --replace", None),
    ("cat restored/blocks.json", None),
    ("zimgasol extract multi.sav channels --channel multi.sav.0 --channel multi.sav.1 --replace", None),
    ("zimgasol extract guest.sav bare --no-digest", None),
    ("cat bare/blocks.json", None),
    ("zimgasol extract guest.sav neither --digest --no-digest", (
        ["error: the argument '--digest' cannot be used with '--no-digest'", "",
         "Usage: zimgasol extract --digest <FILE> <DIR>", "", "For more information, try '--help'."], 2)),
    ("zimgasol extract guest.sav fast --fast-digest", None),
    ("cat fast/blocks.json", None),
    ("zimgasol extract guest.sav digested --digest --fast-digest", None),
    ("cat digested/blocks.json", None),
    # pieces that come again, in parts, in another order, and with zeros; then over other bytes, and on channels
    ("zimgasol extract pieces.sav pieces --digest --fast-digest", None),
    ("cat pieces/blocks.json", None),
    ("zimgasol extract pieces.sav again-pieces --fast-digest --since pieces", None),
    ("cat again-pieces/blocks.json", None),
    ("zimgasol extract multi.sav channels --channel multi.sav.0 --channel multi.sav.1 --fast-digest --replace", None),
    ("cat channels/blocks.json", None),
    ("zimgasol extract guest.sav neither --fast-digest --no-digest", (
        ["error: the argument '--fast-digest' cannot be used with '--no-digest'", "",
         "Usage: zimgasol extract --fast-digest <FILE> <DIR>", "", "For more information, try '--help'."], 2)),
    ("zimgasol verify full.sav --frame ram --quiet", ([], 0)),
    # ---- several files: their statuses, of which the worst is that of the program
    ("zimgasol verify guest.sav cut.sav nowhere.sav main.sav 2>&1", (
        [f"guest.sav: {WHOLE}", f"zimgasol: cut.sav: byte 50000 (section 2, PART, block \"ram\"): {CUT}",
         "zimgasol: nowhere.sav: No such file or directory (os error 2)",
         "main.sav: partial: sections 3, blocks 1, memory 131072 bytes, RAM ends at byte 221, devices: none, 1 bytes",
         'zimgasol: main.sav: INCOMPLETE: 20 of 32 pages of block "pc.ram" have no record',
         f"zimgasol: main.sav: INCOMPLETE: {NO_CONTENTS}", "4 files: 1 passed, 2 refused, 1 not read"], 3)),
    ("zimgasol verify nowhere.sav cut.sav --quiet", (
        ["zimgasol: nowhere.sav: No such file or directory (os error 2)",
         f"zimgasol: cut.sav: byte 50000 (section 2, PART, block \"ram\"): {CUT}"], 3)),
    ("zimgasol verify guest.sav cut.sav --quiet", (
        [f"zimgasol: cut.sav: byte 50000 (section 2, PART, block \"ram\"): {CUT}"], 1)),
    ("zimgasol verify guest.sav guest.sav --quiet", ([], 0)),
    ("zimgasol verify guest.sav main.sav --partial", (
        [f"guest.sav: {WHOLE}",
         "main.sav: partial: sections 3, blocks 1, memory 131072 bytes, RAM ends at byte 221, devices: none, 1 bytes",
         "2 files: 2 passed, 0 refused, 0 not read",
         'zimgasol: main.sav: note: 20 of 32 pages of block "pc.ram" have no record'], 0)),
    ("zimgasol verify - guest.sav < guest.sav", (
        [f"-: {WHOLE}", f"guest.sav: {WHOLE}", "2 files: 2 passed, 0 refused, 0 not read"], 0)),
    ("zimgasol verify - guest.sav -", (['zimgasol: FILE "-": only one FILE can be the standard input'], 2)),
    # ---- the same at once
    ("zimgasol verify -j 3 guest.sav cut.sav nowhere.sav main.sav", (
        [f"guest.sav: {WHOLE}",
         "main.sav: partial: sections 3, blocks 1, memory 131072 bytes, RAM ends at byte 221, devices: none, 1 bytes",
         "4 files: 1 passed, 2 refused, 1 not read",
         f"zimgasol: cut.sav: byte 50000 (section 2, PART, block \"ram\"): {CUT}",
         "zimgasol: nowhere.sav: No such file or directory (os error 2)",
         'zimgasol: main.sav: INCOMPLETE: 20 of 32 pages of block "pc.ram" have no record',
         f"zimgasol: main.sav: INCOMPLETE: {NO_CONTENTS}"], 3)),
    *((f"for i in 1 2 3; do zimgasol verify{jobs} cut.sav guest.sav main.sav --json; done 2>&1 > one; echo $?", (
        [*[line for _ in range(3) for line in (
            f"zimgasol: cut.sav: byte 50000 (section 2, PART, block \"ram\"): {CUT}",
            'zimgasol: main.sav: INCOMPLETE: 20 of 32 pages of block "pc.ram" have no record',
            f"zimgasol: main.sav: INCOMPLETE: {NO_CONTENTS}")], "1"], 0)) for jobs in ("", " --jobs 2", " -j 256")),
    ("zimgasol verify -j 1 - guest.sav --quiet < guest.sav", ([], 0)),
    ("zimgasol verify -j 2 - guest.sav < guest.sav", (
        ['zimgasol: FILE "-": goes without `--jobs`, or is the only FILE'], 2)),
    ("zimgasol verify -j 2 - --quiet < guest.sav", ([], 0)),
    ("zimgasol verify -j 2 -p guest.sav", (
        ["error: the argument '--jobs <N>' cannot be used with '--progress'", "",
         "Usage: zimgasol verify --jobs <N> <FILE>...", "", "For more information, try '--help'."], 2)),
    *((f"zimgasol verify -j {number} guest.sav", (
        [f"error: invalid value '{number}' for '--jobs <N>': {number} is not in 1..=256", "",
         "For more information, try '--help'."], 2)) for number in (0, 257)),
    ("zimgasol verify guest.sav main.sav --channel multi.sav.0", (
        ['zimgasol: --channel "multi.sav.0": goes with one FILE'], 2)),
    ("zimgasol verify guest.sav --json", None),
    ("zimgasol verify guest.sav nowhere.sav main.sav --json 2>&1", None),
    ("zimgasol verify guest.sav --json --quiet", (
        ["error: the argument '--json' cannot be used with '--quiet'", "",
         "Usage: zimgasol verify --json <FILE>...", "", "For more information, try '--help'."], 2)),
    ("zimgasol verify multi.sav --json --channel multi.sav.0 --channel multi.sav.1", None),
    # ---- where no stream or folder can be written
    ("zimgasol extract guest.sav -", (
        ['zimgasol: DIR "-": is no folder, and `extract` writes files; `./-` names a folder of that name'], 2)),
    ("zimgasol extract guest.sav ./- --quiet", ([], 0)),
    # ---- help for terminals of 40 to 80 columns, whose first line is what the command does
    *((command, ([], 0)) for name in ("", " verify", " inspect", " extract", " save", " compare")
      for columns in (40, 57, 80)
      for command in (f"COLUMNS={columns} zimgasol help{name} | awk 'length > {columns}'",)),
    ("COLUMNS=1 zimgasol help save | awk 'length > 40'", ([], 0)),
    ("COLUMNS=200 zimgasol help save | awk 'length > 80'", ([], 0)),
    ("zimgasol help save | awk 'length > 80'", ([], 0)),
    ("zimgasol help save | awk 'length > 60 {wide = 1} END {print wide}'", (["1"], 0)),
    ("zimgasol help extract | grep -A 4 Examples:", (
        ["Examples:", "  zimgasol extract guest.sav memory", "  zimgasol extract day.sav restored \\",
         "    --since memory"], 0)),
    ("zimgasol save --block ram=half.bin --block rom=later.bin two.sav", None),
    ("zimgasol verify two.sav --frame ram", None),
    ("head -c 66000 two.sav > cut.sav", None),
    ("zimgasol verify cut.sav --frame ram", None),
    ("head -c 34000 two.sav > cut.sav", None),
    ("zimgasol verify cut.sav --frame ram", None),
    ("zimgasol save " + SIX + " six.sav", None),
    ("zimgasol extract six.sav six --frame ram", None),
    ("zimgasol save " + SIX + " --since six same.sav", None),
    ("zimgasol verify same.sav --frame ram", None),
    ("zimgasol compare guest.sav machine.sav", None),
    ("zimgasol compare guest.sav machine.sav --quiet", ([], 0)),
    ("zimgasol compare six main.sav", (
        ['zimgasol: main.sav: INCOMPLETE: 20 of 32 pages of block "pc.ram" have no record',
         f"zimgasol: main.sav: INCOMPLETE: {NO_CONTENTS}"], 1)),
    ("zimgasol compare six main.sav --partial", (
        [f'block "{it}": only in six' for it in "abcdef"] + ['block "pc.ram": only in main.sav'] +
        ['zimgasol: main.sav: note: 20 of 32 pages of block "pc.ram" have no record'], 1)),
    ("zimgasol compare memory cut.sav --frame ram", None),
    ("zimgasol compare memory nowhere", (["zimgasol: nowhere: No such file or directory (os error 2)"], 3)),
    ("zimgasol compare - -", (["zimgasol: compare - -: only one of the two can be the standard input"], 2)),
    ("zimgasol save --block ram out.sav", (['zimgasol: --block "ram": isn\'t ID=FILE'], 2)),
    ("zimgasol save --block =half.bin out.sav", (
        ['zimgasol: --block "": the id isn\'t 1 to 255 characters of printable ASCII'], 2)),
    ("zimgasol save --block a=half.bin --block a=later.bin out.sav", (
        ['zimgasol: --block "a": an earlier --block has this id'], 2)),
    ("zimgasol save --block ram=half.bin --machine none out.sav", (
        ['zimgasol: --machine "none": goes with `--frame machine`'], 2)),
    ("zimgasol save --block ram=main.sav out.sav", (
        ["zimgasol: main.sav: has 222 bytes, which is no multiple of the page size 4096 (`--page`)"], 1)),
    ("zimgasol save --block ram=half.bin --since memory out.sav", (
        ["zimgasol: half.bin: has 65536 bytes, and in the folder of `--since` 131072"], 1)),
    ("zimgasol save --block rom=half.bin --since memory out.sav", (["zimgasol: rom: isn't in the folder of `--since`"], 1)),
    ("zimgasol save --block ram=none.bin out.sav", (["zimgasol: none.bin: No such file or directory (os error 2)"], 3)),
    ("zimgasol save --block ram=half.bin full.sav", (["zimgasol: full.sav: " + EXISTS], 3)),
    ("zimgasol save --block ram=half.bin memory", (["zimgasol: memory: not a regular file; not replaced"], 3)),
    ("zimgasol save --block ram=half.bin --replace full.sav", None),
    # ---- laid over a folder, and over several channels
    ("zimgasol save --block ram=half.bin --block rom=later.bin day.sav", None),
    ("zimgasol extract day.sav day --frame ram", None),
    ("zimgasol save --block rom=memory/ram.bin --since day changes.sav", None),
    ("zimgasol extract changes.sav over --frame ram --since day --digest", None),
    ("cat over/blocks.json", None),
    ("zimgasol save --block rom=memory/ram.bin --block ram=half.bin --since over same.sav --replace", None),
    ("zimgasol extract changes.sav day --frame ram --since day", ([f"zimgasol: day/blocks.json: {EXISTS}"], 3)),
    ("zimgasol extract changes.sav both --frame ram --since memory", (
        ["zimgasol: rom: isn't in the folder of `--since`"], 1)),
    ("zimgasol extract day.sav both --frame ram --since memory", (
        ["zimgasol: ram: has 65536 bytes, and in the folder of `--since` 131072"], 1)),
    ("zimgasol extract changes.sav both --frame ram --since nowhere", (
        ["zimgasol: nowhere/blocks.json: No such file or directory (os error 2)"], 3)),
    ("zimgasol extract changes.sav both --frame ram --page 8192 --since day", (
        ["zimgasol: day: page size 4096, other operand 8192"], 3)),
    ("zimgasol save --block ram=half.bin --block rom=later.bin --channels 3 --uuid " + UUID + " three.sav", None),
    ("zimgasol verify three.sav --frame ram" + THREE, None),
    ("zimgasol inspect three.sav --frame ram --json" + THREE, None),
    ("zimgasol verify three.sav --quiet --frame ram --uuid " + UUID + THREE, ([], 0)),
    ("zimgasol extract three.sav both --frame ram" + THREE, None),
    ("zimgasol compare both day", None),
    ("zimgasol save --block rom=memory/ram.bin --since day --channels 1 one.sav", None),
    ("zimgasol verify one.sav --frame ram --channel one.sav.0", None),
    ("zimgasol extract one.sav both --frame ram --channel one.sav.0 --since day --replace", None),
    ("zimgasol compare both over", None),
    # ---- pages without a record
    ("zimgasol verify one.sav --frame ram --channel one.sav.0 --partial", None),
    ("zimgasol verify one.sav --frame ram --channel one.sav.0 --quiet", (
        ['zimgasol: one.sav: INCOMPLETE: 16 of 32 pages of block "rom" have no record', f"zimgasol: one.sav: INCOMPLETE: {CHANGES}"], 1)),
    ("zimgasol inspect one.sav --frame ram --channel one.sav.0", None),
    ("zimgasol inspect one.sav --frame ram --channel one.sav.0 --json", None),
    ("zimgasol inspect one.sav --frame ram --channel one.sav.0 --json --partial", None),
    ("zimgasol extract one.sav gone --frame ram --channel one.sav.0", None),
    ("zimgasol verify gone/rom.bin", (["zimgasol: gone/rom.bin: No such file or directory (os error 2)"], 3)),
    ("zimgasol extract one.sav parts --frame ram --channel one.sav.0 --partial --digest", None),
    ("cat parts/blocks.json", None),
    ("zimgasol verify main.sav --quiet", (
        ['zimgasol: main.sav: INCOMPLETE: 20 of 32 pages of block "pc.ram" have no record',
         f"zimgasol: main.sav: INCOMPLETE: {NO_CONTENTS}"], 1)),
    ("zimgasol verify main.sav --quiet --partial", (
        ['zimgasol: main.sav: note: 20 of 32 pages of block "pc.ram" have no record'], 0)),
    ("zimgasol verify rounds.sav", None),
    ("zimgasol inspect rounds.sav", None),
    ("zimgasol inspect rounds.sav --partial", None),
    ("zimgasol inspect rounds.sav --json", None),
    ("zimgasol inspect rounds.sav --json --partial", None),
    ("zimgasol extract rounds.sav gone", None),
    ("zimgasol verify gone/pc.ram.bin", (["zimgasol: gone/pc.ram.bin: No such file or directory (os error 2)"], 3)),
    ("zimgasol extract rounds.sav rounds --partial --digest", None),
    ("cat rounds/blocks.json", None),
    ("zimgasol verify cpr.sav", (
        ["cpr.sav: partial: sections 2, blocks 1, memory 4194304 bytes, RAM ends at byte 89, devices: whole, 1011 bytes",
         """zimgasol: cpr.sav: INCOMPLETE: 1024 of 1024 pages of block "m0" have no record: it isn't in the stream""",
         f"zimgasol: cpr.sav: INCOMPLETE: {NOT_SENT}"], 1)),
    # (both are told: that RAM isn't there, and that the devices are cut)
    ("head -c 600 cpr.sav > cut-cpr.sav", ([], 0)),
    ("zimgasol verify cut-cpr.sav", (
        ["""zimgasol: cut-cpr.sav: INCOMPLETE: 1024 of 1024 pages of block "m0" have no record: it isn't in the stream""",
         f"zimgasol: cut-cpr.sav: INCOMPLETE: {NOT_SENT}",
         tail_facts.fault_line("cut-cpr.sav", 600, (RUNS / "data" / "cpr.sav").read_bytes()[89:600])], 1)),
    ("zimgasol verify persection.sav", (
        ["persection.sav: partial: sections 3, blocks 1, memory 2097152 bytes, RAM ends at byte 108, devices: whole, 1011 bytes",
         """zimgasol: persection.sav: INCOMPLETE: 512 of 512 pages of block "ram" have no record: it isn't in the stream""",
         f"zimgasol: persection.sav: INCOMPLETE: {NOT_RECORDED}"], 1)),
    ("zimgasol save --block ram=half.bin --block rom=memory/ram.bin --since day --frame machine some.sav", None),
    ("zimgasol verify some.sav", None),
    ("zimgasol save --block rom=memory/ram.bin --since day --frame machine some.sav --replace", None),
    ("zimgasol verify some.sav", None),
    # (2^40 bytes in a size list, and no page)
    (r"(head -c 34 guest.sav; printf '\0\0\1\0\0\0\0\4\1a\0\0\1\0\0\0\0\0'; tail -c +55 guest.sav | head -c 13; "
     r"printf '\3\0\0\0\1'; tail -c +55 guest.sav | head -c 13) > large.sav", ([], 0)),
    ("zimgasol verify large.sav", (
        ["""zimgasol: large.sav: INCOMPLETE: 268435456 of 268435456 pages of block "a" have no record: it isn't in the stream""",
         f"zimgasol: large.sav: INCOMPLETE: {NOT_SENT}",
         tail_facts.fault_line("large.sav", 83, b"")], 1)),
    # ---- a cut between the size list and the first record
    ("head -c 56 guest.sav > listed.sav", None),
    ("zimgasol inspect listed.sav", (
        ["file listed.sav, 56 bytes", 'machine "none"', "page size 4096",
         'block "ram" 131072 bytes, 0 pages, 0 zero pages', "sections 0", "read up to byte 54",
         f"zimgasol: listed.sav: byte 56 (section 1, START): {CUT}"], 1)),
    ("zimgasol extract listed.sav memory", ([f"zimgasol: listed.sav: byte 56 (section 1, START): {CUT}"], 1)),
    # ---- COMMANDs and subsections that are whole are listed, and not one that is cut or has the fault. The COMMAND that
    # is put behind the configuration has its type byte at byte 17, then its number, its length and up to byte 38 its data;
    # the subsection its type byte at 17, its name up to 45, its version up to 49, a count, and capabilities at 53 and 57
    (f"(head -c 17 guest.sav; printf '{ADVISE}') > whole.sav", ([], 0)),
    ("zimgasol inspect whole.sav", (
        ["file whole.sav, 38 bytes", 'machine "none"', "command 3 POSTCOPY_ADVISE after section 0", *NO_BLOCK,
         "read up to byte 38", f"zimgasol: whole.sav: byte 38 (before section 1): {CUT}"], 1)),
    ("head -c 37 whole.sav > cut.sav", ([], 0)),
    ("zimgasol inspect cut.sav", (
        ["file cut.sav, 37 bytes", 'machine "none"', *NO_BLOCK,
         "read up to byte 18", f"zimgasol: cut.sav: byte 37 (before section 1): {CUT}"], 1)),
    (f"(head -c 17 guest.sav; printf '{CAPABILITIES}') > whole.sav", ([], 0)),
    ("zimgasol inspect whole.sav", (
        ["file whole.sav, 73 bytes", 'machine "none"',
         'subsection "configuration/capabilities" 000000020378797a0f782d69676e6f72652d736861726564', *NO_BLOCK,
         "read up to byte 73", f"zimgasol: whole.sav: byte 73 (before section 1): {CUT}"], 1)),
    ("head -c 72 whole.sav > cut.sav", ([], 0)),
    ("zimgasol inspect cut.sav", (
        ["file cut.sav, 72 bytes", 'machine "none"', *NO_BLOCK,
         "read up to byte 57", f"zimgasol: cut.sav: byte 72 (before section 1): {CUT}"], 1)),
    (r"(head -c 17 guest.sav; printf '\x08\0\5\0\0') > whole.sav", ([], 0)),
    ("zimgasol inspect whole.sav", (
        ["file whole.sav, 22 bytes", 'machine "none"', *NO_BLOCK,
         "read up to byte 18", f"zimgasol: whole.sav: byte 18 (before section 1): {POSTCOPY}"], 1)),
    # ---- what a file is that begins otherwise
    ("gzip -c guest.sav > guest.gz", ([], 0)),
    ("zimgasol verify guest.gz", (
        ["zimgasol: guest.gz: byte 0 (before section 1): fault 11: the stream doesn't begin with QEVM; "
         "gzip compressed it: `gzip -dc FILE | zimgasol verify -`"], 1)),
    ("gzip -dc guest.gz | zimgasol verify -", ([f"-: {WHOLE}"], 0)),
    *((command, wanted) for front, what in (
        (r"\xfd7zXZ\0\0\4", "xz compressed it: `xz -dc FILE | zimgasol verify -`"),
        (r"\x28\xb5\x2f\xfd\x24\0\0\0", "zstd compressed it: `zstd -dc FILE | zimgasol verify -`"),
        (r"\x89LZO\0\x0d\x0a\x1a", "lzop compressed it: `lzop -dc FILE | zimgasol verify -`"),
        ("BZh91AY&", "bzip2 compressed it: `bzip2 -dc FILE | zimgasol verify -`"),
        (r"\x16\3\1\2\0\1\0\1", "these are bytes of TLS, which hide the stream: migrate without `tls-creds`"),
        (r"\x7fELF\2\1\1\0", "this is an ELF file, as `dump-guest-memory` writes it: save by `migrate`"),
        (r"QFI\xfb\0\0\0\3", "this is a qcow2 image, and a snapshot in it isn't read: save by `migrate`"),
        ("no stream", NO_MAGIC))
      for command, wanted in (
        (f"printf '{front}' > other", ([], 0)),
        ("zimgasol verify other", ([f"zimgasol: other: byte 0 (before section 1): fault 11: the stream doesn't begin with QEVM; {what}"], 1)))),
    (f"(printf '{LIBVIRT_HEAD}'; head -c 60 /dev/zero; printf '<x/>' ; head -c 1 /dev/zero; gzip -c guest.sav) > packed.save", ([], 0)),
    ("zimgasol verify packed.save", (
        ["zimgasol: packed.save: libvirt compressed the stream with gzip; `tail -c +98 FILE | gzip -dc | zimgasol verify -` reads it, "
         'or save it with save_image_format = "raw"'], 1)),
    ("tail -c +98 packed.save | gzip -dc | zimgasol verify -", ([f"-: {WHOLE}"], 0)),
    ("zimgasol compare packed.save memory", (
        ["zimgasol: packed.save: libvirt compressed the stream with gzip; `tail -c +98 FILE | gzip -dc | zimgasol verify -` reads it, "
         'or save it with save_image_format = "raw"'], 1)),
    # ---- sections that aren't RAM's
    (r"(head -c 17 guest.sav; printf '\4\0\0\0\7\5timer\0\0\0\0\0\0\0\2'; tail -c +18 guest.sav) > device.sav", ([], 0)),
    ("zimgasol verify device.sav", (
        ["zimgasol: device.sav: byte 18 (before section 1): fault 14: the section isn't ram; "
         f'the section of "timer": {NOT_READ}'], 1)),
    (f"(head -c 67 guest.sav; printf '{VIRTIO_MEM.format(2)}'; tail -c +68 guest.sav) > device.sav", ([], 0)),
    ("zimgasol verify device.sav", (
        ["zimgasol: device.sav: byte 68 (after section 1): fault 14: the section isn't ram; "
         'the section of "0000:00:01.0/virtio-mem-device-early": virtio-mem\'s state, which is read in version 1 '
         "and before RAM's first PART alone"], 1)),
    # virtio-mem's state before RAM's pages: as QEMU 11.1 writes it, and as QEMU 10.0 does
    (f"(head -c 17 guest.sav; printf '{VIRTIO_MEM.format(1)}'; tail -c +18 guest.sav) > vmem11.sav", ([], 0)),
    (f"(head -c 67 guest.sav; printf '{VIRTIO_MEM.format(1)}'; tail -c +68 guest.sav) > vmem10.sav", ([], 0)),
    ("zimgasol verify vmem11.sav", ([f"vmem11.sav: {VIRTIO_MEM_WHOLE}"], 0)),
    ("zimgasol verify vmem10.sav", ([f"vmem10.sav: {VIRTIO_MEM_WHOLE}"], 0)),
    ("zimgasol inspect vmem10.sav | grep early", (["device's section \"0000:00:01.0/virtio-mem-device-early\" after section 1"], 0)),
    ("zimgasol extract vmem11.sav vmem11 --quiet", ([], 0)),
    ("zimgasol extract vmem10.sav vmem10 --quiet", ([], 0)),
    ("head -c 153 vmem11.sav | cmp - vmem11/state/before.bin", ([], 0)),
    ("cmp vmem10/state/before.bin vmem11/state/before.bin", ([], 0)),
    ("zimgasol save --state vmem10 device.sav --replace --quiet", ([], 0)),
    ("zimgasol compare device.sav vmem11.sav", (
        ["device.sav and vmem11.sav: the same: blocks 1, memory 131072 bytes"], 0)),
    (r"(head -c 67 guest.sav; printf '\1\0\0\0\2\x0cdirty-bitmap\0\0\0\0\0\0\0\1') > device.sav", ([], 0)),
    ("zimgasol verify device.sav", (
        ["zimgasol: device.sav: byte 67 (after section 1): fault 13: unexpected section type; "
         'the section of "dirty-bitmap": bitmaps of disks, which aren\'t read: save without `dirty-bitmaps`'], 1)),
    # a background snapshot has no END
    ("(head -c 86372 guest.sav; tail -c 1011 guest.sav) > snapshot.sav", ([], 0)),
    ("zimgasol verify snapshot.sav", (
        ["snapshot.sav: complete: sections 2, blocks 1, memory 131072 bytes, RAM ends at byte 86372, devices: whole, 1011 bytes"], 0)),
    ("head -c 86372 snapshot.sav > device.sav", ([], 0)),
    ("zimgasol verify device.sav", (
        ["zimgasol: device.sav: byte 86372 (after section 2): fault 34: the stream ends early; "
         "the file was cut, or the save didn't come to its end"], 1)),
    (r"(head -c 67 guest.sav; printf '\4\0\0\0\3\5ti') > device.sav", ([], 0)),
    ("zimgasol verify device.sav", (
        [f"zimgasol: device.sav: byte 75 (after section 1): fault 34: {TAIL_CUT}"], 1)),
    (r"(head -c 67 guest.sav; printf '\4\0\0\0\3\4\x1b[\x22m\0\0\0\0\0\0\0\2') > device.sav", ([], 0)),
    ("zimgasol verify device.sav", (
        [f'zimgasol: device.sav: byte 68 (after section 1): fault 14: the section isn\'t ram; the section of "%1B[%22m": {NOT_READ}'], 1)),
    (r"(head -c 17 guest.sav; printf '\3\0\0\0\5') > device.sav", ([], 0)),
    ("zimgasol verify device.sav", (
        [f"zimgasol: device.sav: byte 17 (before section 1): fault 13: unexpected section type; the section with the id 5: {NOT_READ}"], 1)),
    (r"(head -c 67 guest.sav; printf '\0') > device.sav", ([], 0)),
    ("zimgasol verify device.sav", (
        ["zimgasol: device.sav: byte 67 (after section 1): fault 13: unexpected section type; the stream ends before RAM's END"], 1)),
    ("zimgasol verify guest.sav --frame ram", (
        ["zimgasol: guest.sav: byte 86372 (after section 2): fault 13: unexpected section type; "
         "this looks like a full machine stream; drop `--frame ram`"], 1)),
    (r"(head -c 17 guest.sav; printf '\1\0\0\0\7\x0aspapr/htab\0\0\0\0\0\0\0\1') > device.sav", ([], 0)),
    ("zimgasol verify device.sav", (
        [f'zimgasol: device.sav: byte 18 (section 1, START): fault 14: the section isn\'t ram; the section of "spapr/htab": {NOT_READ}'], 1)),
    (r"(head -c 67 guest.sav; printf '\2\0\0\0\2'; tail -c +68 guest.sav) > device.sav", ([], 0)),
    ("zimgasol verify device.sav", (
        [f"zimgasol: device.sav: byte 68 (section 2, PART): fault 17: wrong section id; the section with the id 2: {NOT_READ}"], 1)),
    # ---- records that aren't read
    *((command, wanted) for flags, shown, what in (
        (r"\0\x60", "0x60", "the save used xbzrle, which isn't read: save without it"),
        (r"\1\0", "0x100", "the save used the capability compress, which isn't read: save without it"),
        (r"\0\0", "0x0", "the page size may be the other one (`--page`), or the save used mapped-ram"))
      for command, wanted in (
        (f"(head -c 72 guest.sav; printf '" + r"\0\0\0\0\0\0" + f"{flags}') > record.sav", ([], 0)),
        ("zimgasol verify record.sav", (
            [f"zimgasol: record.sav: byte 72 (section 2, PART): fault 27: unexpected record flags: {shown}; {what}"], 1)))),
    # ---- size lists with 8 bytes more: START's own head ends at byte 34, the total at 42, the entry at 54
    (f"(head -c 17 guest.sav; printf '{ADVISE}'; tail -c +18 guest.sav | head -c 37; printf '{HUGE}'; "
     "tail -c +55 guest.sav) > huge.sav", ([], 0)),
    ("zimgasol verify huge.sav", (["huge.sav: complete: sections 3, blocks 1, memory 131072 bytes, RAM ends at byte 86424, "
                                   "devices: whole, 1011 bytes"], 0)),
    ("zimgasol compare huge.sav guest.sav", (["huge.sav and guest.sav: the same: blocks 1, memory 131072 bytes"], 0)),
    (f"(head -c 17 guest.sav; printf '{ADVISE}'; tail -c +18 guest.sav | head -c 17; printf '{BOTH}{SMALL}{HUGE}'; "
     "tail -c +43 guest.sav) > huge.sav", ([], 0)),
    ("zimgasol verify huge.sav", (
        ["huge.sav: partial: sections 3, blocks 2, memory 139264 bytes, RAM ends at byte 86434, devices: whole, 1011 bytes",
         'zimgasol: huge.sav: INCOMPLETE: 2 of 2 pages of block "a" have no record: it isn\'t in the stream',
         f"zimgasol: huge.sav: INCOMPLETE: {NONE_PLUGGED}"], 1)),
    (f"(head -c 17 guest.sav; printf '{ADVISE}'; tail -c +18 guest.sav | head -c 37; printf '{HUGE}{HUGE}') > huge.sav", ([], 0)),
    ("zimgasol verify huge.sav", (
        ["zimgasol: huge.sav: byte 83 (section 1, START): fault 27: unexpected record flags: 0x0; "
         "the page size may be the other one (`--page`), or the save used mapped-ram"], 1)),
    (f"(head -c 17 guest.sav; printf '{CAPABILITIES}'; tail -c +18 guest.sav | head -c 17; "
     f"printf '{BOTH}{SMALL}{ADDRESS}'; tail -c +43 guest.sav | head -c 12; printf '{ADDRESS}'; tail -c +55 guest.sav) > shared.sav",
     ([], 0)),
    ("zimgasol verify shared.sav", (
        ["shared.sav: partial: sections 3, blocks 2, memory 139264 bytes, RAM ends at byte 86477, devices: whole, 1011 bytes",
         'zimgasol: shared.sav: INCOMPLETE: 2 of 2 pages of block "a" have no record: it isn\'t in the stream',
         f"zimgasol: shared.sav: INCOMPLETE: {SHARED}"], 1)),
    ("zimgasol extract shared.sav shared", (
        ['zimgasol: shared.sav: INCOMPLETE: 2 of 2 pages of block "a" have no record: it isn\'t in the stream',
         f"zimgasol: shared.sav: INCOMPLETE: {SHARED}"], 1)),
    ("zimgasol verify shared.sav --partial --quiet", (
        ['zimgasol: shared.sav: note: 2 of 2 pages of block "a" have no record: it isn\'t in the stream'], 0)),
    # (a capability that isn't the last one, in a file without headers)
    (r"(head -c 17 guest.sav; printf '\x05\x1aconfiguration/capabilities\0\0\0\1\0\0\0\2\x0amapped-ram\x03xyz'; "
     "tail -c +18 guest.sav) > mapped.sav", ([], 0)),
    ("zimgasol verify - < mapped.sav", ([f"zimgasol: -: {MAPPED_PIPE}"], 1)),
    ("zimgasol verify mapped.sav", (
        ["zimgasol: mapped.sav: byte 93: fault 72: mapped-ram: the header's version isn't 1"], 1)),
    # ---- channels
    ("zimgasol verify multi.sav", (
        ["zimgasol: multi.sav: byte 72 (section 2, PART): fault 32: FLUSH in a single stream; "
         "the pages of this stream went over multifd's channels; name each by `--channel`"], 1)),
    ("zimgasol verify multi.sav --channel multi.sav.0", (
        ["zimgasol: multi.sav: round 2: fault 56: packet 1 is missing; "
         "each channel is named by `--channel`, and one may be missing or another migration's"], 1)),
    ("zimgasol verify multi.sav --channel multi.sav.1", (
        ["zimgasol: multi.sav.1: byte 0 (hello): fault 38: hello id out of range; "
         "name every channel with `--channel`; one seems to be missing"], 1)),
    ("zimgasol verify multi.sav --channel multi.sav.0 --channel multi.sav.0", (
        ["zimgasol: multi.sav.0: byte 0 (hello): fault 51: hello id of an earlier channel; "
         "two of these files are the same channel"], 1)),
    ("zimgasol verify multi.sav --channel multi.sav.0 --channel multi.sav.1 --uuid " + UUID, (
        ["zimgasol: multi.sav.0: byte 0 (hello): fault 37: hello of another UUID; "
         "this channel belongs to another migration; pick one with `--uuid`"], 1)),
    # END begins at byte 119; its head has 5 bytes, the record that is put behind it 13, and EOS 8
    (r"(head -c 124 multi.sav; printf '\0\0\0\0\0\0\0\2\3ram\0'; tail -c +125 multi.sav) > tail.sav", ([], 0)),
    ("zimgasol verify tail.sav --channel multi.sav.0 --channel multi.sav.1", (
        ["zimgasol: tail.sav: byte 145 (round 3, section 4, END): fault 33: page record after the last FLUSH; "
         "QEMU ends each round by a FLUSH or an EOS; this stream has both, and no FLUSH at its end"], 1)),
    (r"(head -c 72 multi.sav; printf '\0\0\0\0\0\0\0\x60') > record.sav", ([], 0)),
    ("zimgasol verify record.sav --channel multi.sav.0 --channel multi.sav.1", (
        ["zimgasol: record.sav: byte 72 (round 2, section 2, PART): fault 27: unexpected record flags: 0x60; "
         "the save used xbzrle, which isn't read: save without it"], 1)),
    (r"(head -c 67 multi.sav; printf '\4\0\0\0\7\5timer\0\0\0\0\0\0\0\2') > device.sav", ([], 0)),
    ("zimgasol verify device.sav --channel multi.sav.0 --channel multi.sav.1", (
        ["zimgasol: device.sav: byte 68 (round 2, after section 1): fault 14: the section isn't ram; "
         f'the section of "timer": {NOT_READ}'], 1)),
    *((command, wanted) for flags, shown, what in (
        ("x02", "0x2", "zlib compressed the pages; migrate with multifd-compression none"),
        ("x05", "0x5", "zstd compressed the pages; migrate with multifd-compression none"),
        ("x08", "0x8", "qpl compressed the pages; migrate with multifd-compression none"),
        ("x10", "0x10", "uadk compressed the pages; migrate with multifd-compression none"),
        ("x20", "0x20", "qatzip compressed the pages; migrate with multifd-compression none"),
        ("x80", "0x80", "the pages may be compressed; migrate with multifd-compression none"))
      for command, wanted in (
        ("(head -c 72 multi.sav.0; printf '" + r"\0\0\0" + f"\\{flags}'; tail -c +77 multi.sav.0) > flags.0", ([], 0)),
        ("zimgasol verify multi.sav --channel flags.0 --channel multi.sav.1", (
            [f"zimgasol: flags.0: byte 64 (round 1, complete packets 0): fault 41: unexpected packet flags: {shown}; {what}"], 1)))),
    # (a packet of pages whose flags are changed to 0x40 is one of a device without state: its id is in the name and in the
    # last fields, which are 0. Its 276 bytes end before its offsets, at byte 340)
    (r"(head -c 72 multi.sav.0; printf '\0\0\0\x40'; tail -c +77 multi.sav.0) > flags.0", ([], 0)),
    ("zimgasol verify multi.sav --channel flags.0 --channel multi.sav.1", (
        ["zimgasol: flags.0: byte 340 (round 1, complete packets 0): fault 39: bad packet magic; "
         "the page size may be the other one (`--page`)"], 1)),
    # ---- packets of devices: behind the hello, after the last SYNC, and between the rounds of the other channel
    (r"(printf '\x11\x22\x33\x44\0\0\0\1\0\0\0\x40'; head -c 256 /dev/zero; printf '\0\0\0\0\0\0\0\x0a0123456789') > device", None),
    ("wc -c < device", None),
    ("(head -c 64 multi.sav.0; cat device; tail -c +65 multi.sav.0; cat device) > device.0", None),
    ("(head -c 1408 multi.sav.1; cat device; tail -c +1409 multi.sav.1) > device.1", None),
    ("zimgasol verify multi.sav --channel device.0 --channel device.1", None),
    ("zimgasol inspect multi.sav --channel device.0 --channel device.1", None),
    ("zimgasol verify multi.sav --json --channel device.0 --channel device.1", None),
    ("zimgasol extract multi.sav device.memory --channel device.0 --channel device.1 --quiet", None),
    ("zimgasol compare device.memory restored", None),
    # (cut in the state of the last packet, and in its name)
    ("head -c 94775 device.0 > cut.0", None),
    ("zimgasol verify multi.sav --channel cut.0 --channel device.1", None),
    ("head -c 94500 device.0 > cut.0", None),
    ("zimgasol verify multi.sav --channel cut.0 --channel device.1", None),
    # (a fault after such a packet, and one whose flags have SYNC, too)
    (r"(head -c 64 multi.sav.0; cat device; head -c 72 multi.sav.0 | tail -c 8; printf '\0\0\0\x80'; tail -c +77 multi.sav.0) > flags.0",
     ([], 0)),
    ("zimgasol verify multi.sav --channel flags.0 --channel multi.sav.1", (
        ["zimgasol: flags.0: byte 350 (round 1, complete packets 0): fault 41: unexpected packet flags: 0x80; "
         "the pages may be compressed; migrate with multifd-compression none"], 1)),
    (r"(head -c 72 device.0; printf '\0\0\0\x41'; tail -c +77 device.0) > flags.0", ([], 0)),
    ("zimgasol verify multi.sav --channel flags.0 --channel multi.sav.1", (
        ["zimgasol: flags.0: byte 64 (round 1, complete packets 0): fault 41: unexpected packet flags: 0x41; "
         "a packet with the state of a VFIO device has no other flag"], 1)),
    ("zimgasol inspect command.sav --channel multi.sav.0 --channel multi.sav.1", None),
    ("zimgasol inspect command.sav --json --channel multi.sav.0 --channel multi.sav.1", None),
    ("head -c 100 command.sav > cut.main", None),
    ("zimgasol verify cut.main --channel multi.sav.0 --channel multi.sav.1", (
        [f"zimgasol: cut.main: byte 100 (round 2, section 3, PART): {CUT}"], 1)),
    ("head -c 95 command.sav > cut.main", None),
    ("zimgasol verify cut.main --channel multi.sav.0 --channel multi.sav.1", (
        [f"zimgasol: cut.main: byte 95 (round 2, after section 2): {CUT}"], 1)),
    # (START's EOS ends the first round. The COMMAND that is put behind it has its data from byte 72 on, and is cut in the
    # second round, of which the channels have all 32 pages)
    (r"(head -c 67 multi.sav; printf '\x08\0\2\0\4ab') > cut.main", ([], 0)),
    ("zimgasol inspect cut.main --channel multi.sav.0 --channel multi.sav.1", (
        ["file cut.main, 74 bytes", 'machine "none"', "page size 4096", "UUID 00000000-0000-0000-0000-000000000000",
         "channel multi.sav.0, 94208 bytes, id 0, packets 3, numbers 0-3, 22 pages, 10 zero pages",
         "channel multi.sav.1, 2752 bytes, id 1, packets 2, numbers 1-4, 0 pages, 0 zero pages",
         'block "ram" 131072 bytes, 22 pages, 10 zero pages', "rounds 1", "read up to byte 68",
         f"zimgasol: cut.main: byte 74 (round 2, after section 1): {CUT}"], 1)),
    ("head -c 1408 multi.sav.1 > cut.1", None),
    ("zimgasol verify multi.sav --channel multi.sav.0 --channel cut.1", (
        ["zimgasol: cut.1: byte 1408 (round 2, complete packets 1): fault 53: the channel ends before the main stream; "
         "the files may be of different migrations"], 1)),
    # ---- of several channels, size lists with 8 bytes more
    (f"(head -c 17 multi.sav; printf '{CAPABILITIES}'; tail -c +18 multi.sav | head -c 17; "
     f"printf '{BOTH}{SMALL}{ADDRESS}'; tail -c +43 multi.sav | head -c 12; printf '{ADDRESS}'; tail -c +55 multi.sav) > shared.main",
     ([], 0)),
    ("zimgasol verify shared.main --channel multi.sav.0 --channel multi.sav.1", (
        ["shared.main: partial: rounds 2, channels 2, packets 5, blocks 2, memory 139264 bytes, "
         "UUID 00000000-0000-0000-0000-000000000000, RAM ends at byte 219, devices: none, 1 bytes",
         'zimgasol: shared.main: INCOMPLETE: 2 of 2 pages of block "a" have no record: it isn\'t in the stream',
         f"zimgasol: shared.main: INCOMPLETE: {SHARED}"], 1)),
    ("head -c 170 shared.main > cut.main", ([], 0)),
    ("zimgasol verify cut.main --channel multi.sav.0 --channel multi.sav.1", (
        [f"zimgasol: cut.main: byte 170 (round 2, section 2, PART): {CUT}"], 1)),
    *((command, wanted) for more, at in ((HUGE, 117), ("", 109)) for command, wanted in (
        (f"(head -c 17 multi.sav; printf '{ADVISE}'; tail -c +18 multi.sav | head -c 37; printf '{more}'; "
         "tail -c +55 multi.sav | head -c 34) > cut.main", ([], 0)),
        ("zimgasol verify cut.main --channel multi.sav.0 --channel multi.sav.1", (
            [f"zimgasol: cut.main: byte {at} (round 2, section 2, PART): {CUT}"], 1)))),
    (f"(head -c 17 multi.sav; printf '{ADVISE}'; tail -c +18 multi.sav | head -c 17; printf '{BOTH}{SMALL}{HUGE}'; "
     "tail -c +43 multi.sav | head -c 46) > cut.main", ([], 0)),
    ("zimgasol verify cut.main --channel multi.sav.0 --channel multi.sav.1", (
        [f"zimgasol: cut.main: byte 127 (round 2, section 2, PART): {CUT}"], 1)),
    ("head -c 88 multi.sav > cut.main", None),
    ("zimgasol extract cut.main cut --channel multi.sav.0 --channel multi.sav.1", (
        [f"zimgasol: cut.main: byte 88 (round 2, section 2, PART): {CUT}"], 1)),
    ("zimgasol verify cut/ram.bin", (["zimgasol: cut/ram.bin: No such file or directory (os error 2)"], 3)),
    ("zimgasol verify multi.sav --channel none.0", (["zimgasol: none.0: No such file or directory (os error 2)"], 3)),
    ("zimgasol verify multi.sav --uuid " + UUID, ([f'zimgasol: --uuid "{UUID}": goes with `--channel`'], 2)),
    ("zimgasol verify multi.sav --channel multi.sav.0 --uuid 12", (['zimgasol: --uuid "12": isn\'t a UUID'], 2)),
    ("zimgasol save --block ram=half.bin --uuid " + UUID + " out.sav", (
        [f'zimgasol: --uuid "{UUID}": goes with `--channels`'], 2)),
    ("zimgasol save --block ram=half.bin --channels 256 out.sav", (
        ['zimgasol: --channels "256": isn\'t a number from 1 to 255'], 2)),
    ("zimgasol save --block ram=half.bin --channels 2 -", (['zimgasol: --channels "2": OUT has to be a file'], 2)),
    ("zimgasol save --block ram=half.bin --channels 2 multi.sav", (["zimgasol: multi.sav: " + EXISTS], 3)),
    ("zimgasol save --block ram=half.bin --channels 2 multi.sav --replace", None),
    ("zimgasol verify multi.sav --frame ram --channel multi.sav.0 --channel multi.sav.1", None),
    # ---- a folder of another page size, and one whose files aren't those of its list
    ("zimgasol save --block ram=half.bin --page 8192 --since day out.sav", (
        ["zimgasol: day: has pages of 4096 bytes, and the stream would have pages of 8192; save with `--page 4096`"], 3)),
    ("cp -r day wide", None),
    ("sed -i s/4096/8192/ wide/blocks.json", ([], 0)),
    ("zimgasol save --block ram=half.bin --since wide out.sav", (
        ["zimgasol: wide: has pages of 8192 bytes, and the stream would have pages of 4096; save with `--page 8192`"], 3)),
    ("zimgasol save --block ram=half.bin --page 8192 --since wide fits.sav", None),
    ("cp -r memory short", None),
    ("truncate -s 65536 short/ram.bin", ([], 0)),
    ("zimgasol compare memory short", ([SHORT], 3)),
    ("zimgasol compare short memory", ([SHORT], 3)),
    ("zimgasol save --block ram=later.bin --since short out.sav", ([SHORT], 3)),
    ("zimgasol extract later.sav nothing --frame ram --since short", ([SHORT], 3)),
    ("truncate -s 139264 short/ram.bin", ([], 0)),
    ("zimgasol compare short memory", (["zimgasol: short/ram.bin: has 139264 bytes, and `blocks.json` lists 131072"], 3)),
    ("truncate -s 5000 short/ram.bin", ([], 0)),
    ("sed -i s/131072/5000/ short/blocks.json", ([], 0)),
    ("zimgasol compare short short", ([NO_LIST], 3)),
    ("cp -r memory twice", None),
    ("sed -i 's/\"blocks\": \\[/&{\"bytes\": 131072, \"file\": \"ram.bin\", \"id\": \"ram\"},/' twice/blocks.json", ([], 0)),
    ("zimgasol compare memory twice", ([TWICE], 3)),
    ("zimgasol save --block ram=later.bin --since twice out.sav", ([TWICE], 3)),
    ("zimgasol extract later.sav nothing --frame ram --since twice", ([TWICE], 3)),
    ("zimgasol verify nothing/ram.bin", (["zimgasol: nothing/ram.bin: No such file or directory (os error 2)"], 3)),
    # ---- the system doesn't say whether a file is there
    ("ln -s loop loop", ([], 0)),
    ("zimgasol extract guest.sav half.bin --replace", (["zimgasol: half.bin/blocks.json: Not a directory (os error 20)"], 3)),
    ("zimgasol extract guest.sav loop --replace", (
        ["zimgasol: loop/blocks.json: Too many levels of symbolic links (os error 40)"], 3)),
    ("zimgasol save --block ram=half.bin half.bin/out.sav", (["zimgasol: half.bin/out.sav: Not a directory (os error 20)"], 3)),
    ("zimgasol save --block ram=half.bin --channels 2 loop/out.sav", (
        ["zimgasol: loop/out.sav: Too many levels of symbolic links (os error 40)"], 3)),
    ("zimgasol compare memory half.bin/memory", (["zimgasol: half.bin/memory: Not a directory (os error 20)"], 3)),
    # ---- arguments that control a terminal
    ("zimgasol inspect guest.sav $'\\e[2J\\n\"cut.sav'", (wrong("unexpected argument '%1B[2J%0A%22cut.sav' found"), 2)),
    ("zimgasol inspect guest.sav $'gr\\xc3\\xbcn'", (wrong("unexpected argument 'gr%C3%BCn' found"), 2)),
    ("zimgasol $'\\e[2J'", (
        ["error: unrecognized subcommand '%1B[2J'", "", "Usage: zimgasol <COMMAND>", "",
         "For more information, try '--help'."], 2)),
    ("zimgasol verify out.sav", (["zimgasol: out.sav: No such file or directory (os error 2)"], 3)),
    ("zimgasol verify out.sav.partial", (["zimgasol: out.sav.partial: No such file or directory (os error 2)"], 3)),
    # ---- what follows RAM: the devices' sections up to byte 86577, the end byte, and 828 bytes of a description
    ("head -c 86395 guest.sav > short.sav", None),
    ("zimgasol verify short.sav", ([f"zimgasol: short.sav: byte 86395 (devices): {TAIL_CUT}; {RAM_ONLY}"], 1)),
    ("zimgasol verify - < short.sav", ([f"zimgasol: -: byte 86395 (devices): {TAIL_CUT}; {RAM_ONLY}"], 1)),
    ("zimgasol verify short.sav --ram-only", ([f"short.sav: {WHOLE_RAM}, 0 bytes follow"], 0)),
    ("zimgasol inspect short.sav", None),
    ("zimgasol inspect short.sav --json", None),
    ("zimgasol inspect short.sav --ram-only", None),
    ("zimgasol extract short.sav ramalone", ([f"short.sav: {WHOLE_RAM}, devices: cut, 0 bytes"], 0)),
    ("zimgasol compare short.sav ramalone", (["short.sav and ramalone: the same: blocks 1, memory 131072 bytes"], 0)),
    ("head -c 86404 guest.sav > short.sav", None),
    ("zimgasol verify short.sav", ([f"zimgasol: short.sav: byte 86404 (devices): {TAIL_CUT}; {RAM_ONLY}"], 1)),
    ("head -c 86441 guest.sav > short.sav", None),
    ("zimgasol verify short.sav", ([f"zimgasol: short.sav: byte 86441 (devices): {UNKNOWN}; {RAM_ONLY}"], 1)),
    ("head -c 86578 guest.sav > short.sav", None),
    ("zimgasol verify short.sav", ([f"zimgasol: short.sav: byte 86578 (devices): {UNKNOWN}; {RAM_ONLY}"], 1)),
    ("zimgasol inspect short.sav", None),
    ("zimgasol verify short.sav --ram-only --quiet", ([], 0)),
    ("zimgasol extract short.sav ramalone --replace", ([f"short.sav: {WHOLE_RAM}, devices: not known, 183 bytes"], 0)),
    ("head -c 86579 guest.sav > short.sav", None),
    ("zimgasol verify short.sav", ([f"zimgasol: short.sav: byte 86579 (devices): {TAIL_CUT}; {RAM_ONLY}"], 1)),
    ("head -c 86585 guest.sav > short.sav", None),
    ("zimgasol verify short.sav", ([f"zimgasol: short.sav: byte 86585 ({DESCRIPTION}): {TAIL_CUT}; {RAM_ONLY}"], 1)),
    ("head -c 87405 guest.sav > short.sav", None),
    ("zimgasol verify short.sav", ([f"zimgasol: short.sav: byte 87405 ({DESCRIPTION}): {TAIL_CUT}; {RAM_ONLY}"], 1)),
    ("zimgasol inspect short.sav --json", None),
    ("head -c 1 guest.sav > one.bin", None),
    ("cat guest.sav one.bin > long.sav", None),
    ("zimgasol verify long.sav", ([f"zimgasol: long.sav: byte 87406 (after the end): 1 unknown bytes follow; {RAM_ONLY}"], 1)),
    ("zimgasol inspect long.sav", None),
    ("zimgasol inspect long.sav --json", None),
    ("zimgasol extract long.sav long", ([f"long.sav: {WHOLE_RAM}, devices: whole, 1012 bytes, 1 of them unknown"], 0)),
    # (its last byte isn't the brace, so it isn't JSON)
    ("cat short.sav one.bin > broken.sav", None),
    ("zimgasol verify broken.sav", ([f"zimgasol: broken.sav: byte 87406 (devices): {UNKNOWN}; {RAM_ONLY}"], 1)),
    # (a page of zeros, with which a device was filled up)
    ("head -c 8192 later.bin > pages.bin", None),
    ("tail -c 4096 pages.bin > page.bin", None),
    ("cat guest.sav page.bin > long.sav", None),
    ("zimgasol verify long.sav", None),
    ("head -c 86390 machine.sav > short.sav", None),
    ("zimgasol verify short.sav", ([f"zimgasol: short.sav: byte 86390 (devices): {TAIL_CUT}; {RAM_ONLY}"], 1)),
    ("cat machine.sav one.bin > long.sav", None),
    ("zimgasol verify long.sav", ([f"zimgasol: long.sav: byte 86391 (after the end): 1 unknown bytes follow; {RAM_ONLY}"], 1)),
    ("tail -c 828 guest.sav > described.bin", None),
    ("cat machine.sav described.bin > described.sav", None),
    ("zimgasol verify described.sav", ([f"described.sav: {WHOLE_RAM.replace('86395', '86390')}, devices: none, 829 bytes"], 0)),
    ("head -c 87218 described.sav > short.sav", None),
    ("zimgasol verify short.sav", ([f"zimgasol: short.sav: byte 87218 ({DESCRIPTION}): {TAIL_CUT}; {RAM_ONLY}"], 1)),
    ("head -c 86394 described.sav > short.sav", None),
    ("zimgasol verify short.sav", ([f"zimgasol: short.sav: byte 86394 ({DESCRIPTION}): {TAIL_CUT}; {RAM_ONLY}"], 1)),
    ("zimgasol save --block ram=later.bin --channels 2 --frame machine --machine none pair.sav", None),
    ("head -c 137 pair.sav > short.sav", None),
    ("zimgasol verify short.sav" + PAIR, ([f"zimgasol: short.sav: byte 137 (devices): {TAIL_CUT}; {RAM_ONLY}"], 1)),
    ("zimgasol verify short.sav --ram-only --quiet" + PAIR, ([], 0)),
    ("zimgasol inspect short.sav --json" + PAIR, None),
    ("zimgasol extract short.sav pair" + PAIR, None),
    ("cat short.sav page.bin > long.sav", None),
    ("zimgasol verify long.sav" + PAIR, None),
    # ---- inputs without an end, and what is known of a file's length after a fault
    ("zimgasol verify /dev/zero", ([f"zimgasol: /dev/zero: {NO_STREAM}"], 1)),
    ("zimgasol inspect /dev/full", (["file /dev/full", *NOTHING_READ, f"zimgasol: /dev/full: {NO_STREAM}"], 1)),
    ("zimgasol extract /dev/zero nothing", ([f"zimgasol: /dev/zero: {NO_STREAM}"], 1)),
    ("zimgasol inspect /dev/zero --channel pair.sav.0", (
        ["file /dev/zero", "page size 4096", "UUID 00000000-0000-0000-0000-000000000000",
         "channel pair.sav.0, 94208 bytes, id 0, packets 1, numbers 0-0, 0 pages, 0 zero pages", "rounds 0",
         "read up to byte 0", "zimgasol: /dev/zero: byte 0 (round 1, before section 1): fault 11: the stream doesn't begin with QEVM; "
         f"{NO_MAGIC}"], 1)),
    ("cat later.bin later.bin > large.bin", None),
    ("zimgasol inspect large.bin", (["file large.bin, 262144 bytes", *NOTHING_READ, f"zimgasol: large.bin: {NO_STREAM}"], 1)),
    ("zimgasol inspect - < large.bin", (["file -", *NOTHING_READ, f"zimgasol: -: {NO_STREAM}"], 1)),
    ("head -c 9000000 /dev/zero | zimgasol verify -", ([f"zimgasol: -: {NO_STREAM}"], 1)),
    ("echo $?", (["1"], 1)),
    # ---- the most memory of a guest
    ("zimgasol verify guest.sav --limit 131071", ([f"zimgasol: guest.sav: {TOTAL}"], 1)),
    ("zimgasol verify guest.sav --limit 131072 --quiet", ([], 0)),
    ("zimgasol inspect guest.sav --limit 1", (
        ["file guest.sav, 87406 bytes", 'machine "none"', "page size 4096", "sections 0", "read up to byte 34",
         f"zimgasol: guest.sav: {TOTAL}"], 1)),
    ("zimgasol extract guest.sav limited --limit 131071", ([f"zimgasol: guest.sav: {TOTAL}"], 1)),
    ("cat limited/blocks.json", (["cat: limited/blocks.json: No such file or directory"], 1)),
    ("zimgasol verify pair.sav --limit 131071" + PAIR, ([f"zimgasol: pair.sav: {TOTAL.replace('(', '(round 1, ')}"], 1)),
    *((f"zimgasol verify guest.sav --quiet --limit {size}", ([], 0))
      for size in ("128K", "1M", "1G", "1T", "1024G", "1099511627776")),
    *((f"zimgasol verify guest.sav --limit {size}", ([f"zimgasol: guest.sav: {TOTAL}"], 1)) for size in ("1", "1K", "127K")),
    *((f"zimgasol verify guest.sav --limit '{size}'", ([f'zimgasol: --limit "{size}": {SIZES}'], 2))
      for size in ("", "0", "0K", "G", "1025G", "2T", "1g", "1KiB", "1.5G", "+1", "1 K", "99999999999999999999",
                   "18446744073709551615T")),
    # ---- the state of a machine: what is written around RAM has the bytes that were there, and RAM's sections its id
    (f"{NO_COMMAND.format('guest.sav')} | cmp - resumed.sav", ([], 0)),
    (f"cp guest.sav second.sav; for at in {' '.join(map(str, SECOND))}; do "
     r"printf '\2' | dd of=second.sav bs=1 seek=$at conv=notrunc status=none; done", ([], 0)),
    ("zimgasol extract second.sav second", None),
    ("zimgasol save --state second second2.sav --quiet", ([], 0)),
    (f"{NO_COMMAND.format('second.sav')} | cmp - second2.sav", ([], 0)),
    ("zimgasol save --state second - < guest.sav | cmp - second2.sav", ([], 0)),
    (f"(printf '{RAW_HEAD}'; head -c 60 /dev/zero; printf '<x/>'; head -c 1 /dev/zero) > header; cat header guest.sav > virsh.save",
     ([], 0)),
    ("zimgasol extract virsh.save virsh --quiet", ([], 0)),
    ("ls virsh virsh/state; cmp header virsh/state/libvirt.bin", (
        ["virsh:", "blocks.json", "ram.bin", "state", "", "virsh/state:", "after.bin", "before.bin", "libvirt.bin"], 0)),
    ("zimgasol save --state virsh virsh2.save --quiet", ([], 0)),
    ("cat header resumed.sav | cmp - virsh2.save", ([], 0)),
    ("zimgasol extract guest.sav virsh --quiet --replace", ([], 0)),
    ("ls virsh/state", (["after.bin", "before.bin"], 0)),
    ("(cat guest.sav; head -c 512 /dev/zero) > filled.sav", ([], 0)),
    ("zimgasol extract filled.sav filled", (
        ["filled.sav: complete: sections 3, blocks 1, memory 131072 bytes, RAM ends at byte 86395, "
         "devices: whole, 1523 bytes, 512 of them unknown"], 0)),
    ("grep state filled/blocks.json", (['  "state": "extra"'], 0)),
    ("zimgasol save --state filled out.sav", (
        ["zimgasol: filled/state/after.bin: other bytes follow the end of the stream; cut them off"], 1)),
    ("head -c 87000 guest.sav > unended.sav", ([], 0)),
    ("zimgasol extract unended.sav cutstate --quiet", ([], 0)),
    ("grep state cutstate/blocks.json", (['  "state": "cut"'], 0)),
    ("zimgasol save --state cutstate out.sav", (
        ["zimgasol: cutstate/state/after.bin: the description of the devices is cut"], 1)),
    ("zimgasol extract full.sav alone --frame ram --quiet", ([], 0)),
    ("zimgasol save --state alone out.sav", (
        ["zimgasol: alone/blocks.json: lists no state: `extract` keeps that of a machine's stream, without `--block`"], 3)),
    ("zimgasol save --state nowhere out.sav", (
        ["zimgasol: nowhere/blocks.json: No such file or directory (os error 2)"], 3)),
    ("zimgasol save --state memory --page 8192 out.sav", (
        ["zimgasol: memory: has pages of 4096 bytes, and the stream would have pages of 8192; save with `--page 4096`"], 3)),
    ("zimgasol save --state memory --frame ram out.sav", (
        ['zimgasol: --state "memory": goes with `--frame machine`'], 2)),
    ("zimgasol save --state memory --frame machine out.sav --quiet", ([], 0)),
    ("cmp out.sav resumed.sav", ([], 0)),
    *((f"zimgasol save --state memory {option} {value} other.out", (
        [f"error: the argument '--state <DIR>' cannot be used with '{option} <{name}>'", "",
         f"Usage: zimgasol save --state <DIR> <OUT>", "", "For more information, try '--help'."], 2))
      for option, value, name in (("--machine", "none", "NAME"), ("--channels", "2", "N"))),
    ("zimgasol save out.sav", (
        ["error: the following required arguments were not provided:", "  --block <ID=FILE>", "",
         "Usage: zimgasol save --block <ID=FILE> <OUT>", "", "For more information, try '--help'."], 2)),
    ("zimgasol save --state memory resumed.sav", (["zimgasol: resumed.sav: " + EXISTS], 3)),
    ("zimgasol save --state memory --block rom=half.bin other.out", (
        ["zimgasol: rom: isn't a block of the machine in `--state`"], 1)),
    ("zimgasol save --state memory --block ram=half.bin other.out", (
        ["zimgasol: half.bin: has 65536 bytes, and the block of the machine in `--state` 131072"], 1)),
    ("zimgasol save --state memory --block ram=later.bin --block ram=later.bin other.out", (
        ['zimgasol: --block "ram": an earlier --block has this id'], 2)),
    ("zimgasol save --state memory --uuid " + UUID + " other.out", (
        [f'zimgasol: --uuid "{UUID}": goes with `--channels`'], 2)),
    ("cp -r memory torn", ([], 0)),
    *(case for size in (0, 8, 17, 40, 53) for case in (
        (f"head -c {size} memory/state/before.bin > torn/state/before.bin", ([], 0)),
        ("zimgasol save --state torn other.out", (
            ["zimgasol: torn/state/before.bin: isn't a machine's stream up to the end of RAM's size list"], 1)))),
    ("head -c 67 guest.sav > torn/state/before.bin", ([], 0)),
    ("zimgasol save --state torn other.out", (
        ["zimgasol: torn/state/before.bin: isn't a machine's stream up to the end of RAM's size list"], 1)),
    ("cp memory/state/before.bin torn/state; head -c 10 guest.sav > torn/state/libvirt.bin", ([], 0)),
    ("zimgasol save --state torn other.out", (
        ["zimgasol: torn/state/libvirt.bin: isn't a complete header of libvirt's"], 1)),
    ("rm torn/state/libvirt.bin torn/state/after.bin", ([], 0)),
    ("zimgasol save --state torn other.out", (
        ["zimgasol: torn/state/after.bin: No such file or directory (os error 2)"], 3)),
    ("head -c 1 /dev/zero > torn/state/after.bin", ([], 0)),
    ("zimgasol save --state torn bare.sav", (
        ["bare.sav: saved: blocks 1, memory 131072 bytes, pages 32, stream 86391 bytes"], 0)),
    ("cmp bare.sav machine.sav; ls other.out* 2>&1", (["ls: cannot access 'other.out*': No such file or directory"], 0)),
    # ---- a file with mapped-ram: of blocks that begin or end with 256 pages of zeros, and of a machine
    ("head -c 1048576 /dev/zero > zeros.bin", None),
    ("cat zeros.bin half.bin > begins.bin", None),
    ("cat half.bin zeros.bin > ends.bin", None),
    ("zimgasol save --block ram=begins.bin --block rom=ends.bin --layout mapped-ram --machine none two.mapped", None),
    ("sha256sum two.mapped", None),
    ("test $(stat -c %b two.mapped) -lt 1024 && echo sparse", (["sparse"], 0)),
    ("zimgasol save --block ram=half.bin --layout mapped-ram --machine none two.mapped", (["zimgasol: two.mapped: " + EXISTS], 3)),
    ("zimgasol save --block ram=ends.bin --block rom=begins.bin --layout mapped-ram --machine pc-i440fx-10.0 --replace two.mapped", None),
    ("sha256sum two.mapped", None),
    ("zimgasol save --block ram=zeros.bin --layout mapped-ram --machine none zeros.mapped --quiet", None),
    ("sha256sum zeros.mapped", None),
    ("zimgasol save --block ram=half.bin --layout stream --machine none out.mapped", (
        ['zimgasol: --machine "none": goes with `--frame machine`'], 2)),
    ("zimgasol save --state memory --layout mapped-ram guest.mapped", None),
    ("sha256sum guest.mapped", None),
    ("zimgasol save --state memory --block ram=later.bin --layout mapped-ram --frame machine --replace guest.mapped", None),
    ("sha256sum guest.mapped", None),
    ("zimgasol save --state second --layout mapped-ram second.mapped", None),
    ("sha256sum second.mapped", None),
    ("zimgasol extract virsh.save virsh --quiet --replace", None),
    ("zimgasol save --state virsh --layout mapped-ram virsh.mapped", None),
    ("sha256sum virsh.mapped", None),
    (f"(head -c 17 guest.sav; printf '{CAPABLE}'; tail -c +18 guest.sav) > capable.sav", ([], 0)),
    ("zimgasol extract capable.sav capable --quiet", ([], 0)),
    ("zimgasol save --state capable --block ram=later.bin --layout mapped-ram capable.mapped --quiet", ([], 0)),
    (f"(head -c 17 guest.sav; printf '{CAPABLE_MAPPED}'; tail -c +18 guest.sav | head -c 25) | cmp -n 93 - capable.mapped", ([], 0)),
    ("cmp -i 1048576 capable.mapped guest.mapped", ([], 0)),
    *((f"zimgasol save --block ram=half.bin --layout mapped-ram --machine none {words}", (
        [f"zimgasol: {option}: {why}"], 2))
      for words, option, why in (
          ("--channels 2 out.mapped", '--channels "2"', NOT_MAPPED), ("--since memory out.mapped", '--since "memory"', NOT_MAPPED),
          ("--frame ram out.mapped", '--frame "ram"', NOT_MAPPED), ("-", '--layout "mapped-ram"', "OUT has to be a file"))),
    ("zimgasol save --block ram=half.bin --layout mapped-ram out.mapped", (
        ['zimgasol: --layout "mapped-ram": goes with `--machine` or `--state`'], 2)),
    ("zimgasol save --state memory --layout mapped-ram --since memory out.mapped", ([f'zimgasol: --since "memory": {NOT_MAPPED}'], 2)),
    ("zimgasol save --block ram=half.bin --layout qcow2 --machine none out.mapped", (
        ["error: invalid value 'qcow2' for '--layout <LAYOUT>'", "  [possible values: stream, mapped-ram]", "",
         "For more information, try '--help'."], 2)),
    ("zimgasol save --block ram=main.sav --layout mapped-ram --machine none out.mapped", (
        ["zimgasol: main.sav: has 222 bytes, which is no multiple of the page size 4096 (`--page`)"], 1)),
    ("ls out.mapped* 2>&1", (["ls: cannot access 'out.mapped*': No such file or directory"], 2)),
    # ---- size lists with 8 bytes more, and a guest without its shared memory
    (f"(head -c 17 guest.sav; printf '{ADVISE}'; tail -c +18 guest.sav | head -c 37; printf '{HUGE}'; "
     "tail -c +55 guest.sav) > huge.sav", ([], 0)),
    ("zimgasol extract huge.sav huge --quiet", ([], 0)),
    ("zimgasol save --state huge huge2.sav --quiet", ([], 0)),
    ("(head -c 86401 huge.sav; tail -c +86407 huge.sav) | cmp - huge2.sav", ([], 0)),
    ("zimgasol save --state huge --layout mapped-ram other.out", (
        ["zimgasol: huge/state/before.bin: the machine allows postcopy (`postcopy-ram`), with which QEMU has no mapped-ram"], 1)),
    (f"(head -c 17 guest.sav; printf '{CAPABILITIES}'; tail -c +18 guest.sav | head -c 37; printf '{ADDRESS}'; "
     "tail -c +55 guest.sav) > addressed.sav", ([], 0)),
    ("zimgasol extract addressed.sav addressed --quiet", ([], 0)),
    ("zimgasol save --state addressed other.out", (
        ["zimgasol: addressed/state/before.bin: the machine left out shared memory (`x-ignore-shared`), "
         "which isn't written again"], 1)),
    # ---- the memory of one block, or of a stream without a state, isn't that of an old state
    ("zimgasol extract later.sav back --frame ram --since memory --replace --quiet", ([], 0)),
    ("ls back", (["blocks.json", "ram.bin"], 0)),
    ("mkdir -p stale/state; cp memory/state/after.bin stale/state", ([], 0)),
    ("zimgasol extract guest.sav stale", (["zimgasol: stale/state/after.bin: " + EXISTS], 3)),
    ("zimgasol extract guest.sav stale --block ram", (["zimgasol: stale/state/after.bin: " + EXISTS], 3)),
    ("find stale", (["stale", "stale/state", "stale/state/after.bin"], 0)),
    ("zimgasol extract guest.sav stale --block ram --replace --quiet", ([], 0)),
    ("ls stale", (["blocks.json", "ram.bin"], 0)),
    ("zimgasol save --block ram=later.bin --channels 2 --frame machine --machine none joined.sav --quiet", ([], 0)),
    ("zimgasol extract joined.sav withstate --channel joined.sav.0 --channel joined.sav.1 --quiet", ([], 0)),
    ("zimgasol save --state withstate bare.sav --replace", (
        ["bare.sav: saved: blocks 1, memory 131072 bytes, pages 32, stream 90486 bytes"], 0)),
    ("zimgasol compare bare.sav now.sav --quiet", ([], 0)),
    # ---- files with mapped-ram
    ("zimgasol verify fixed.sav", ([f"fixed.sav: {MAPPED_WHOLE}", f"zimgasol: fixed.sav: {MAPPED_NOTE}"], 0)),
    ("zimgasol verify fixed.sav --quiet", ([], 0)),
    ("zimgasol inspect fixed.sav", (
        [f"file fixed.sav, {len(MAPPED_PLAIN)} bytes", 'machine "none"', "command 11 SWITCHOVER_START after section 2",
         "page size 4096", 'block "ram" 32768 bytes, 5 pages, 3 zero pages', 'block "rom" 8192 bytes, 0 pages, 2 zero pages',
         "sections 3", f"RAM ends at byte {len(MAPPED_PLAIN) - 1}, devices: none, 1 bytes", "complete",
         f"zimgasol: fixed.sav: {MAPPED_NOTE}"], 0)),
    ("zimgasol extract fixed.sav mapped --quiet", ([], 0)),
    ("cd mapped && sha256sum ram.bin rom.bin", ([memory_sum(b"ram"), memory_sum(b"rom")], 0)),
    ("(head -c 17 fixed.sav; tail -c +65 fixed.sav | head -c 37; tail -c +36865 fixed.sav | head -c 12) "
     "| cmp - mapped/state/before.bin", ([], 0)),
    ("tail -c 1 fixed.sav | cmp - mapped/state/after.bin; ls mapped/state", (["after.bin", "before.bin"], 0)),
    ("zimgasol compare fixed.sav mapped", (["fixed.sav and mapped: the same: blocks 2, memory 40960 bytes"], 0)),
    ("zimgasol save --state mapped plain.sav --quiet", ([], 0)),
    ("zimgasol compare plain.sav fixed.sav", (["plain.sav and fixed.sav: the same: blocks 2, memory 40960 bytes"], 0)),
    ("zimgasol extract fixed.sav only --block rom --quiet", ([], 0)),
    ("cd only && sha256sum *.bin", ([memory_sum(b"rom")], 0)),
    ("zimgasol verify - < fixed.sav", ([f"zimgasol: -: {MAPPED_PIPE}"], 1)),
    ("cat fixed.sav | zimgasol verify /dev/stdin", ([f"zimgasol: /dev/stdin: {MAPPED_PIPE}"], 1)),
    ("zimgasol verify fixed.sav --limit 4096", (
        [f"zimgasol: fixed.sav: {TOTAL}", f"zimgasol: fixed.sav: {MAPPED_NOTE}"], 1)),
    ("zimgasol verify fixed.sav --page 8192", (
        ["zimgasol: fixed.sav: byte 89: fault 73: mapped-ram: the header's page size isn't the guest's"], 1)),
    # a host whose words have the highest byte first
    (patching("fixed.sav", (129, MAPPED[129:137][::-1])), ([], 0)),
    ("zimgasol compare bad.sav mapped", (["bad.sav and mapped: the same: blocks 2, memory 40960 bytes"], 0)),
    # the faults of heads
    *mapped_fault((89, b"\0"), "byte 89: fault 21: bad block id"),
    *mapped_fault((36866, b"a"), "byte 36864: fault 22: block id twice"),
    *mapped_fault((100, b"\1"), "byte 89: fault 23: bad block length"),
    *mapped_fault((87, b"\x90"), "byte 36864: fault 25: blocks longer than the RAM total"),
    *mapped_fault((104, b"\2"), "byte 89: fault 72: mapped-ram: the header's version isn't 1"),
    *mapped_fault((36879, b"\2"), "byte 36864: fault 72: mapped-ram: the header's version isn't 1"),
    *mapped_fault((111, b"\x20"), "byte 89: fault 73: mapped-ram: the header's page size isn't the guest's"),
    *mapped_fault((120, b"\x82"), "byte 89: fault 74: mapped-ram: the bitmap doesn't follow its header"),
    *mapped_fault((127, b"\0"), "byte 89: fault 75: mapped-ram: bad offset of a block's pages"),
    *mapped_fault((128, b"\1"), "byte 89: fault 75: mapped-ram: bad offset of a block's pages"),
    *mapped_fault((36896, b"\x80"), "byte 36864: fault 75: mapped-ram: bad offset of a block's pages"),
    *mapped_fault((130, b"\1"), "byte 89: fault 76: mapped-ram: a bit is set after the last page's"),
    ("zimgasol verify bad.sav --json 2>/dev/null", (
        [in_one_line({"file": "bad.sav", "complete": False, "status": 1,
                      "error": "bad.sav: byte 89: fault 76: mapped-ram: a bit is set after the last page's"})], 1)),
    ("zimgasol inspect bad.sav", (
        ["zimgasol: bad.sav: byte 89: fault 76: mapped-ram: a bit is set after the last page's"], 1)),
    ("zimgasol extract bad.sav nothing; ls nothing 2>&1", (
        ["ls: cannot access 'nothing': No such file or directory",
         "zimgasol: bad.sav: byte 89: fault 76: mapped-ram: a bit is set after the last page's"], 2)),
    ("zimgasol compare mapped bad.sav", (
        ["zimgasol: bad.sav: byte 89: fault 76: mapped-ram: a bit is set after the last page's"], 1)),
    # files that were cut, or whose pages would lie where no file has bytes
    *(case for size, said in ((88, MAPPED_PIPE), (120, f"byte 89: {FILE_CUT}"), (20000, f"byte 36864: {FILE_CUT}"),
                              (36900, f"byte 36864: {FILE_CUT}")) for case in (
        (f"head -c {size} fixed.sav > less.sav", ([], 0)),
        ("zimgasol verify less.sav", ([f"zimgasol: less.sav: {said}"], 1)))),
    *mapped_cut(49152), *mapped_cut(41000, (36904, b"\1")), *mapped_cut(46000, (36904, b"\3")),
    *mapped_cut(49207, (36896, be("Q", 1 << 50)), (36904, b"\1")),
    ("zimgasol extract less.sav nothing", (
        [f"zimgasol: less.sav: {MAPPED_NOTE}", f"zimgasol: less.sav: byte {LESS} (section 1, START): {CUT}"], 1)),
    ("ls nothing 2>&1", (["ls: cannot access 'nothing': No such file or directory"], 2)),
    # as libvirt saves it sparse
    (f"(printf 'LibvirtQemudSave{escaped(SPARSE[16:32])}'; head -c {SPARSE_BEFORE - 32} /dev/zero; head -c 113 fixed.sav; "
     f"printf '{escaped(SPARSE[SPARSE_BEFORE + 113:SPARSE_BEFORE + 129])}'; tail -c +130 fixed.sav | head -c 36759; "
     f"printf '{escaped(SPARSE[SPARSE_BEFORE + 36888:SPARSE_BEFORE + 36904])}'; tail -c +36905 fixed.sav) > sparse.save",
     ([], 0)),
    ("sha256sum < sparse.save", ([f"{hashlib.sha256(SPARSE).hexdigest()}  -"], 0)),
    ("zimgasol verify sparse.save", (
        ["sparse.save: " + MAPPED_WHOLE.replace(f"byte {len(MAPPED_PLAIN) - 1}", f"byte {len(SPARSE_PLAIN) - 1}"),
         f"zimgasol: sparse.save: {MAPPED_NOTE}"], 0)),
    ("zimgasol extract sparse.save sparse --quiet", ([], 0)),
    ("cd sparse && sha256sum ram.bin rom.bin", ([memory_sum(b"ram"), memory_sum(b"rom")], 0)),
    (f"(head -c 28 sparse.save; head -c 4 /dev/zero; tail -c +33 sparse.save | head -c {SPARSE_BEFORE - 32}) "
     "| cmp - sparse/state/libvirt.bin", ([], 0)),
    ("zimgasol save --state sparse raw.save --quiet", ([], 0)),
    ("zimgasol compare raw.save fixed.sav", (["raw.save and fixed.sav: the same: blocks 2, memory 40960 bytes"], 0)),
    ("zimgasol verify - < sparse.save", (
        ['zimgasol: -: libvirt saved it sparse (mapped-ram); save it with save_image_format = "raw"'], 1)),
]

def block_at_cut(data):
    """The block that the last page record of a cut stream names, or goes on with; None before the first."""
    try:
        stream_facts.facts(data)
    except EOFError as cut:
        step, found = cut.__traceback__, {}
        while step:
            found = step.tb_frame.f_locals.get("found", found)
            step = step.tb_next
        return found.get("last")
    raise ValueError("it isn't cut")


END_OF_RECORDS = be("Q", 0x10) + b"\x7e" + be("I", 1)


def named(block):
    return bytes([len(block)]) + block.encode()


def opening(blocks, machine=None):
    """The bytes of a single stream up to RAM's START: of these blocks with their bytes, and of this machine."""
    out = be("II", 0x5145564D, 3)
    if machine is not None:
        out += b"\x07" + be("I", len(machine)) + machine.encode()
    out += b"\x01" + be("I", 1) + b"\x03ram" + be("II", 0, 4) + be("Q", sum(blocks.values()) | 4)
    for block, length in blocks.items():
        out += named(block) + be("Q", length)
    return out + END_OF_RECORDS


def record(block, page, content, last):
    """A page's record, after one of the block `last`."""
    zero = not any(content)
    flags = (0x02 if zero else 0x08) | (0x20 if last == block else 0)
    head = be("Q", page * 4096 | flags) + (b"" if last == block else named(block))
    return head + (b"\0" if zero else content)


def pieces_digest(memory):
    """The SHA-256 of the SHA-256s of the pieces of 64 KiB."""
    pieces = [bytes(memory[at:at + 65536]) for at in range(0, len(memory), 65536)]
    return hashlib.sha256(b"".join(hashlib.sha256(it).digest() for it in pieces)).hexdigest()


def part(records, number=1):
    return b"\x02" + be("I", number) + records + END_OF_RECORDS[:-4] + be("I", number)


def main_stream():
    """A main stream as QEMU 7.2 writes it where pages go over multifd's channels: zero pages alone are in it."""
    records, last = b"", None
    for page in range(0, 24, 2):
        records += record("pc.ram", page, bytes(4096), last)
        last = "pc.ram"
    return opening({"pc.ram": 32 * 4096}, "none") + part(records) + b"\x03" + be("I", 1) + END_OF_RECORDS + b"\0"


def rounds_stream():
    """A main stream without channels, of 32 pages, that has as many records: four rounds of the same 8 pages of zeros."""
    rounds = b"".join(part(b"".join(record("pc.ram", page, bytes(4096), "pc.ram" if page else None) for page in range(8)))
                      for _ in range(4))
    return opening({"pc.ram": 32 * 4096}, "none") + rounds + b"\x03" + be("I", 1) + END_OF_RECORDS + b"\0"


def pieces_stream():
    """A stream of 1,030 pages, in 65 pieces of 64 KiB: each page in its order, a page of each piece but two with bytes. Then pages
    again. Beside it a block of three pages of zeros."""
    zeros, other = bytes(4096), b"x" * 4096
    filled = {page: bytes([page // 16 + 1]) * 4096 for page in range(5, 1030, 16) if page // 16 not in (7, 20)}
    # a page alone; a whole piece; zeros over bytes, and over zeros; the first bytes of a piece; two pages in the other order; a piece of
    # zeros that gets bytes before its last pages come; the last page
    again = [(5, other), *((page, other if page == 21 else zeros) for page in range(16, 32)), (37, zeros), (330, zeros),
             (320, other), (49, other), (48, other), *((page, zeros) for page in range(112, 120)), (115, other),
             *((page, zeros) for page in range(120, 128)), (1029, other)]
    text = opening({"pc.ram": 1030 * 4096, "rom": 3 * 4096}, "none")
    for pages in ([(page, filled.get(page, zeros)) for page in range(1030)], again):
        text += part(b"".join(record("pc.ram", *it, None if it is pages[0] else "pc.ram") for it in pages))
    text += part(b"".join(record("rom", page, zeros, "rom" if page else None) for page in range(3)))
    return text + b"\x03" + be("I", 1) + END_OF_RECORDS + b"\0"


def main_saved(blocks, machine, between=b""):
    """The main stream that `save --channels` makes: a FLUSH for each of the two rounds, in a section of its own. With what stands
    between these two."""
    flush = part(be("Q", channel_facts.FLUSH))
    return opening(blocks, machine) + flush + between + flush + b"\x03" + be("I", 1) + END_OF_RECORDS + b"\0"


# A main stream as QEMU 11.1 writes it for the channels of `multi.sav`: with the COMMAND SWITCHOVER_START.
COMMANDED = main_saved({"ram": 32 * 4096}, "none", b"\x08" + be("HH", 11, 0))


def changed(content, before):
    """The pages of a block that differ: of each its offset, and its content, or None where it is zeros."""
    pages = [(at, bytes(content[at:at + 4096])) for at in range(0, len(content), 4096)]
    return [(at, page if any(page) else None) for at, page in pages if before is None or page != before[at:at + 4096]]


def saved(memory, before, machine):
    """The stream that `save` makes: 256 pages of a block a section, only those that differ from `before`.
    Returns it with the number of pages in it."""
    out, count = sections(memory, before, 1)
    return opening({it: len(content) for it, content in memory.items()}, machine) + out + b"\0", count


def state_saved(memory, before, state):
    """The stream of a machine that `save --state` makes, and the number of pages in it."""
    number = struct.unpack(">I", state["before.bin"][state["before.bin"].index(b"\x03ram\0") - 4:][:4])[0]
    out, count = sections(memory, before, number)
    start_end = END_OF_RECORDS[:-4] + be("I", number)
    return state.get("libvirt.bin", b"") + state["before.bin"] + start_end + out + state["after.bin"], count


def sections(memory, before, number):
    """RAM's sections after START, with this id, and the number of pages in them."""
    out, last, count = b"", None, 0
    for block, content in memory.items():
        for start in range(0, len(content) // 4096, 256):
            records = b""
            for page in range(start, min(start + 256, len(content) // 4096)):
                at = slice(page * 4096, page * 4096 + 4096)
                if before is None or content[at] != before[block][at]:
                    records += record(block, page, content[at], last)
                    last, count = block, count + 1
            out += part(records, number) if records else b""
    return out + b"\x03" + be("I", number) + END_OF_RECORDS[:-4] + be("I", number), count


def lacking(found):
    """How many pages of each block have neither a record nor a packet's page."""
    return {it: len(memory) // 4096 - len(set(found["pages"].get(it, ()))) for it, memory in found["memory"].items()}


def cause(found, is_ram):
    """What may be the cause that a stream without a fault has pages without a record."""
    pages, zeros = (sum(it[i] for it in found["counts"].values()) for i in (0, 1))
    if found["form"] == stream_facts.ADDRESSED and any(not found["pages"][it] for it in found["memory"]):
        return SHARED
    if is_ram:
        return CHANGES
    if not pages and "channels" not in found:
        return NO_CONTENTS if zeros else NOT_SENT if found["sections"] == 2 else NOT_RECORDED
    return NONE_PLUGGED if any(not found["pages"].get(it) for it in found["memory"]) else NOT_PLUGGED


def ranges(pages):
    """Numbers in ascending order as ranges, at most 16 of them."""
    found = []
    for page in pages:
        if found and found[-1][1] + 1 == page:
            found[-1][1] = page
        else:
            found.append([page, page])
    texts = [str(a) if a == b else f"{a}-{b}" for a, b in found[:16]]
    return ", ".join(texts + [".."] * (len(found) > 16))


class Shell:
    """What the commands of the page print, of the files that lie beside them."""

    def __init__(self):
        self.files = {it.name: it.read_bytes() for it in (RUNS / "data").iterdir()}
        self.files["main.sav"] = main_stream()
        self.files["command.sav"] = COMMANDED
        self.files["rounds.sav"] = rounds_stream()
        self.files["pieces.sav"] = pieces_stream()
        self.files["/dev/zero"] = bytes(1 << 20)
        # (what commands make of it below, by `dd` and by `printf`)
        guest = self.files["guest.sav"]
        self.files["second.sav"] = bytes(2 if at in SECOND else it for at, it in enumerate(guest))
        self.files["virsh.save"] = b"LibvirtQemudSave" + struct.pack("<IIII", 2, 5, 1, 0) + bytes(60) + b"<x/>\0" + guest
        self.status = 0

    def run(self, command):
        said = self.said(command)
        return [it for it in said if it.startswith("zimgasol: ")] if "--quiet" in command.split(" ") else said

    def said(self, command):
        """What a command prints without `--quiet`."""
        words = command.split(" ")
        if command == "echo $?":
            return [str(self.status)]
        if words[0].startswith("("):
            inside, name = command[1:].rsplit(") > ", 1)
            self.files[name] = b"".join(self.piece(*it.split(" ")) for it in inside.split("; "))
            return []
        if words[:2] == ["wc", "-c"]:
            return [str(len(self.files[words[3]]))]
        if words[0] == "head":
            self.files[words[5]] = self.files[words[3]][:int(words[2])]
            return []
        if words[:2] == ["cp", "-r"]:
            inside = [name for name in self.files if name.startswith(f"{words[2]}/")]
            self.files.update({words[3] + name[len(words[2]):]: self.files[name] for name in inside})
            return []
        if words[0] == "tail":
            self.files[words[5]] = self.files[words[3]][-int(words[2]):]
            return []
        if words[0] == "cat" and ">" in words:
            self.files[words[4]] = self.files[words[1]] + self.files[words[2]]
            return []
        if words[0] == "sha256sum":
            return [f"{hashlib.sha256(self.files[words[1]]).hexdigest()}  {words[1]}"]
        if words[0] == "ls":
            return sorted(name[len(words[1]) + 1:] for name in self.files if name.startswith(f"{words[1]}/"))
        if words[0] == "cat":
            return self.files[words[1]].decode().splitlines()
        if words[1] in ("save", "compare"):
            return getattr(self, words[1])(words)
        if words[1] == "verify" and (len(self.names_in(words)) > 1 or "--json" in words):
            return self.verify_each(words)
        if "--channel" in words:
            return getattr(self, words[1] + "_several")(words[2], words)
        given = words[-1] if "<" in words else words[2]
        return getattr(self, words[1])(words[2], self.files[given], words)

    def piece(self, word, *words):
        """What a command prints that a file is made of."""
        if word == "printf":
            return re.sub(rb"\\x(..)|\\(\d)", lambda it: bytes([int(it[1] or it[2], 16)]), words[0].strip("'").encode())
        content = self.files[words[-1]]
        if word == "head":
            return content[:int(words[1])]
        return content[int(words[1]) - 1:] if word == "tail" else content

    # ---- several files

    @staticmethod
    def names_in(words):
        """The files of `verify`: the words before the first option or redirection."""
        ends = [at for at, word in enumerate(words) if word.startswith("--") or "<" in word or ">" in word]
        return words[2:min(ends, default=len(words))]

    def verify_each(self, words):
        """What `verify` prints of several files, in its order (2>&1), and their sum."""
        names, lines, counts = self.names_in(words), [], [0, 0, 0, 0]
        for name in names:
            lines += self.verify_named(name, [*words[:2], name, *words[2 + len(names):]])
            counts[self.status] += 1
        self.status = max(status for status, count in enumerate(counts) if count)
        if "--json" in words or "--quiet" in words or len(names) < 2:
            return lines
        return [*lines, f"{len(names)} files: {counts[0]} passed, {counts[1]} refused, {counts[3]} not read"]

    def verify_named(self, name, words):
        """What `verify` prints of one of its files."""
        if name not in self.files:
            self.status = 3
            said = f"{name}: No such file or directory (os error 2)"
            value = {"complete": False, "error": said, "file": name, "status": 3}
            return [in_one_line(value)] * ("--json" in words) + [f"zimgasol: {said}"]
        if "--json" not in words:
            return self.verify(name, self.files[name], words)
        if "--channel" in words:
            return self.in_line(self.inspect_several(name, words))
        found = self.facts(self.files[name])
        return self.in_line(self.inspect_json(name, self.files[name], found, words) + self.judged(name, found, words)[1])

    @staticmethod
    def in_line(lines):
        """The lines of `inspect --json`, with the object on one line."""
        end = lines.index("}") + 1
        return [in_one_line(json.loads("\n".join(lines[:end]))), *lines[end:]]

    # ---- over several channels

    def several(self, name, words):
        """What a main stream and the channels have that the words name."""
        self.status = 0
        names = [words[i + 1] for i, word in enumerate(words) if word == "--channel"]
        found = channel_facts.facts(self.files[name], [self.files[it] for it in names])
        for it, channel in zip(names, found["channels"]):
            channel.update(name=it, bytes=len(self.files[it]))
        found["uuid"] = str(uuid.UUID(bytes=found["uuid"]))
        found["end"] += "ram" in words
        return found

    @staticmethod
    def tail(data, found, words):
        """The bytes after RAM; None where they aren't checked."""
        return None if "ram" in words or "--ram-only" in words else data[found["end"]:]

    def after(self, data, found, words):
        """Where RAM or the stream ends, and what is known of the bytes that follow."""
        tail, what = self.tail(data, found, words), "the stream" if "ram" in words else "RAM"
        said = f"{len(data) - found['end']} bytes follow" if tail is None else tail_facts.line(tail)
        return f"{what} ends at byte {found['end']}, {said}"

    def tail_wrongs(self, name, data, found, words):
        """The line on what is wrong with the bytes after RAM, if something is. Then the status is 1."""
        tail = self.tail(data, found, words)
        wrong = tail is not None and tail_facts.fault_line(name, len(data), tail)
        self.status = 1 if wrong else self.status
        return [wrong] if wrong else []

    def device_lines(self, data, found, words):
        tail = self.tail(data, found, words)
        return [] if tail is None else tail_facts.device_lines(tail)

    def tail_value(self, data, found, words):
        tail = self.tail(data, found, words)
        return {"devices": None, "tail": None} if tail is None else tail_facts.value(tail)

    def ends(self, name, found, words):
        return self.after(self.files[name], found, words)

    def cut_channel(self, words):
        """The line of a channel that was cut inside a packet; None where none was."""
        for name in [words[i + 1] for i, word in enumerate(words) if word == "--channel"]:
            try:
                channel_facts.channel_rounds(channel_facts.without_devices(self.files[name])[0])
            except (AssertionError, struct.error):
                self.status = 1
                packets, syncs = channel_facts.whole_before_cut(self.files[name])
                return (f"zimgasol: {name}: byte {len(self.files[name])} (round {syncs + 1}, complete packets {packets}): fault 44: "
                        "the channel ends inside a hello or packet; the file was cut, or the migration didn't come to its end")
        return None

    def verify_several(self, name, words):
        cut = self.cut_channel(words)
        if cut:
            return [cut]
        found = self.several(name, words)
        memory = sum(map(len, found["memory"].values()))
        word, lacks = self.judged(name, found, words)
        line = (f"{name}: {word}: rounds {found['rounds']}, channels {len(found['channels'])}, packets {found['packets']}"
                f"{channel_facts.passed_over(found['channels'])}, blocks {len(found['memory'])}, memory {memory} bytes, UUID {found['uuid']}, {self.ends(name, found, words)}")
        is_lacking = self.status
        wrongs = self.tail_wrongs(name, self.files[name], found, words) if words[1] == "verify" else []
        is_told = not wrongs if words[1] == "verify" else not is_lacking
        return [line] * is_told + lacks + wrongs

    def inspect_several(self, name, words):
        found = self.several(name, words)
        word, lacks = self.judged(name, found, words)
        wrongs = self.tail_wrongs(name, self.files[name], found, words)
        said = lacks + wrongs
        if "--json" in words:
            return self.several_json(name, found, words) + said
        lines = [f"file {name}, {len(self.files[name])} bytes", *map(self.note_line, found["notes"]),
                 "page size 4096", f"UUID {found['uuid']}"]
        for it in found["channels"]:
            numbers = f"packets {len(it['numbers'])}, numbers {min(it['numbers'])}-{max(it['numbers'])}"
            lines.append(f"channel {it['name']}, {it['bytes']} bytes, id {it['id']}, {numbers}, "
                         f"{it['pages']} pages, {it['zeros']} zero pages{channel_facts.passed_over([it])}")
        for block, memory in found["memory"].items():
            pages, zeros = found["counts"][block]
            lines.append(f'block "{block}" {len(memory)} bytes, {pages} pages, {zeros} zero pages')
        devices = self.device_lines(self.files[name], found, words)
        return lines + [f"rounds {found['rounds']}", self.ends(name, found, words), *devices, *[word][len(wrongs):], *said]

    def several_json(self, name, found, words):
        channels = [{"file": it["name"], "bytes": it["bytes"], "id": it["id"], "packets": len(it["numbers"]),
                     "first_number": min(it["numbers"]), "last_number": max(it["numbers"]), "pages": it["pages"],
                     "zero_pages": it["zeros"], "end": it["bytes"], **channel_facts.device_members(it)} for it in found["channels"]]
        said = {"file": name, "bytes": len(self.files[name]), "page_size": 4096, "uuid": found["uuid"], "channels": channels,
                "notes": [self.note_value(it) for it in found["notes"]], "blocks": self.block_values(found),
                "rounds": found["rounds"], "end": found["end"], "complete": not self.status, "fault": None,
                **self.tail_value(self.files[name], found, words)}
        return json.dumps(said, indent=2, sort_keys=True).splitlines()

    def extract_several(self, name, words):
        said = self.verify_several(name, words)
        status = self.status
        if not status:
            self.lay_out(self.several(name, words), self.files[name], words)
        self.status = status
        return said

    def fault(self, name, data):
        """Of the files of the page only some are cut, in their second section or before."""
        self.status = 1
        whole = self.whole_sections(data)
        block = block_at_cut(data)
        at = f', block "{block}"' if block else ""
        return f"zimgasol: {name}: byte {len(data)} (section {whole + 1}, {'PART' if whole else 'START'}{at}): {CUT}"

    def whole_sections(self, data):
        """How many sections a cut stream has: the most that any front of it has."""
        try:
            stream_facts.facts(data)
        except EOFError as cut:
            return cut.args[1]
        raise ValueError("it isn't cut")

    def facts(self, data):
        try:
            return stream_facts.facts(data)
        except EOFError:
            return None

    def verify(self, name, data, words):
        found = self.facts(data)
        if found is None:
            return [self.fault(name, data)]
        word, lacks = self.judged(name, found, words)
        memory = sum(map(len, found["memory"].values()))
        is_lacking = self.status
        found["end"] += "ram" in words[3:]
        wrongs = self.tail_wrongs(name, data, found, words[3:]) if words[1] == "verify" else []
        line = (f"{name}: {word}: sections {found['sections']}, blocks {len(found['memory'])}, memory {memory} bytes, "
                f"{self.after(data, found, words[3:])}")
        is_told = not wrongs if words[1] == "verify" else not is_lacking
        return [line] * is_told + lacks + wrongs

    def judged(self, name, found, words):
        """The word for what a stream without a fault is, and the lines of the blocks that lack pages. Sets the status."""
        few = [(it, lack, len(found["memory"][it]) // 4096) for it, lack in lacking(found).items() if lack]
        self.status = 0
        if not few or "--since" in words:
            return "complete", []
        is_meant = "--partial" in words
        mark = "note" if is_meant else "INCOMPLETE"
        lines = [f'zimgasol: {name}: {mark}: {lack} of {pages} pages of block "{it}" have no record' +
                 (": it isn't in the stream" if lack == pages else "") for it, lack, pages in few]
        if is_meant:
            return "partial", lines
        self.status = 1
        return "partial", [*lines, f"zimgasol: {name}: INCOMPLETE: {cause(found, 'ram' in words[3:])}"]

    def save(self, words):
        option, blocks, at = {}, {}, 2
        while words[at].startswith("--"):
            if words[at] == "--block":
                block, file = words[at + 1].split("=")
                blocks[block] = self.files[file]
            option[words[at]] = words[at + 1]
            at += 1 if words[at] == "--replace" else 2
        state = self.state_in(option["--state"]) if "--state" in option else None
        if state:
            blocks = {it: blocks.get(it, content) for it, content in self.memory_of(option["--state"]).items()}
        before = None
        if "--since" in option:
            before = {it: self.files[f"{option['--since']}/{it}.bin"] for it in blocks}
        if "--channels" in option:
            return self.save_channels(words[at], blocks, before, option)
        if option.get("--layout") == "mapped-ram":
            return self.save_mapped(words[at], blocks, state, option)
        if state:
            stream, pages = state_saved(blocks, before, state)
        else:
            stream, pages = saved(blocks, before, option.get("--machine"))
        name, total = words[at], sum(map(len, blocks.values()))
        self.files[name], self.status = stream, 0
        return [f"{name}: saved: blocks {len(blocks)}, memory {total} bytes, pages {pages}, stream {len(stream)} bytes"]

    def save_mapped(self, name, blocks, state, option):
        if state:
            file, pages = mapped_file.state_file(blocks, state)
        else:
            file, pages = mapped_file.plain_file(blocks, option["--machine"])
        total = sum(map(len, blocks.values()))
        self.files[name], self.status = file, 0
        return [f"{name}: saved: blocks {len(blocks)}, memory {total} bytes, pages {pages}, file {len(file)} bytes"]

    def state_in(self, folder):
        """The files of a folder's state."""
        return {name.rpartition("/")[2]: data for name, data in self.files.items() if name.startswith(f"{folder}/state/")}

    def save_channels(self, name, blocks, before, option):
        pages = [(it, changed(content, before and before[it])) for it, content in blocks.items()]
        ident = uuid.UUID(option.get("--uuid", "0" * 32)).bytes
        channels = channel_facts.channels_of(pages, int(option["--channels"]), ident)
        main = main_saved({it: len(content) for it, content in blocks.items()}, option.get("--machine"))
        self.files[name], self.status = main, 0
        self.files.update({f"{name}.{i}": it for i, it in enumerate(channels)})
        total, count = sum(map(len, blocks.values())), sum(len(it) for _, it in pages)
        return [f"{name}: saved: blocks {len(blocks)}, memory {total} bytes, pages {count}, stream {len(main)} bytes, "
                f"channels {len(channels)} of {sum(map(len, channels))} bytes together"]

    def memory_of(self, name):
        if name in self.files:
            return self.facts(self.files[name])["memory"]
        return {it["id"]: self.files[f"{name}/{it['file']}"]
                for it in json.loads(self.files[f"{name}/blocks.json"])["blocks"]}

    def compare(self, words):
        for name in words[2:4]:
            found = self.facts(self.files[name]) if name in self.files else {}
            if found is None:
                return [self.fault(name, self.files[name])]
            assert not found or not any(lacking(found).values())
        a, b = self.memory_of(words[2]), self.memory_of(words[3])
        assert list(a) == list(b) and all(len(a[it]) == len(b[it]) for it in a)
        lines = []
        for block, memory in a.items():
            pages = [page for page in range(len(memory) // 4096)
                     if memory[page * 4096:page * 4096 + 4096] != b[block][page * 4096:page * 4096 + 4096]]
            if pages:
                lines.append(f'block "{block}": {len(pages)} of {len(memory) // 4096} pages differ: {ranges(pages)}')
        self.status = 1 if lines else 0
        total = sum(map(len, a.values()))
        return lines or [f"{words[2]} and {words[3]}: the same: blocks {len(a)}, memory {total} bytes"]

    def inspect(self, name, data, words):
        found = self.facts(data)
        word, lacks = self.judged(name, found, words)
        wrongs = self.tail_wrongs(name, data, found, words)
        said = lacks + wrongs
        if "--json" in words:
            return self.inspect_json(name, data, found, words) + said
        lines = [f"file {name}, {len(data)} bytes"]
        if found["before"]:
            lines.append(f"libvirt header {found['before']} bytes, the guest was running")
        lines += [*map(self.note_line, found["notes"]), "page size 4096"]
        for block, memory in found["memory"].items():
            pages, zeros = found["counts"][block]
            lines.append(f'block "{block}" {len(memory)} bytes, {pages} pages, {zeros} zero pages')
        return lines + [f"sections {found['sections']}", self.after(data, found, words),
                        *self.device_lines(data, found, words), *[word][len(wrongs):], *said]

    @staticmethod
    def note_line(note):
        if note[0] == "machine":
            return f'machine "{note[1]}"'
        return f"command {note[1]} {COMMANDS[note[1]]} after section {note[2]}"

    @staticmethod
    def note_value(note):
        if note[0] == "machine":
            return {"machine": note[1], "at": note[-1]}
        return {"command": note[1], "name": COMMANDS[note[1]], "bytes": 0, "at": note[-1], "after_sections": note[2]}

    @staticmethod
    def block_values(found):
        return [{"id": it, "bytes": len(memory), "pages": found["counts"][it][0], "zero_pages": found["counts"][it][1],
                 "pages_without_record": lacking(found)[it]}
                for it, memory in found["memory"].items()]

    def inspect_json(self, name, data, found, words):
        blocks = self.block_values(found)
        notes = [self.note_value(note) for note in found["notes"]]
        said = {"file": name, "bytes": len(data), "libvirt": None, "notes": notes, "page_size": 4096, "blocks": blocks,
                "sections": found["sections"], "end": found["end"], "complete": not self.status, "fault": None,
                **self.tail_value(data, found, words)}
        return json.dumps(said, indent=2, sort_keys=True).splitlines()

    def extract(self, name, data, words):
        listed = f"{words[3]}/blocks.json"
        if listed in self.files and "--replace" not in words:
            self.status = 3
            return [f"zimgasol: {listed}: is there already; `--replace` replaces it"]
        if "--limit" in words:
            self.status = 1
            return [f"zimgasol: {name}: {TOTAL}"]
        said = self.verify(name, data, words)
        if not self.status:
            self.lay_out(self.facts(data), data, words)
        return said

    def lay_out(self, found, data, words):
        """Puts the files of a folder: of each block its memory, over that in the folder of `--since`, and the state."""
        folder, listed = words[3], f"{words[3]}/blocks.json"
        memories = dict(found["memory"])
        if "--since" in words:
            since = words[words.index("--since") + 1]
            for block, memory in self.memory_of(since).items():
                memories[block] = self.over(memory, block, found)
        blocks = [{"id": it, "file": f"{it}.bin", "bytes": len(memory), "sha256": stream_facts.digest(memory)}
                  for it, memory in memories.items()]
        if "--digest" not in words:
            blocks = [{key: it[key] for key in it if key != "sha256"} for it in blocks]
        if "--fast-digest" in words:
            blocks = [{**it, "sha256_64k": pieces_digest(memories[it["id"]])} for it in blocks]
        state = self.lay_out_state(found, data, words)
        text = json.dumps({"page_size": 4096, "blocks": blocks, **state}, indent=2, sort_keys=True) + "\n"
        self.files[listed] = text.encode()
        for it, memory in memories.items():
            self.files[f"{folder}/{it}.bin"] = bytes(memory)

    def lay_out_state(self, found, data, words):
        """Puts the files of the state of a machine's stream, and returns its member of the list; none where none is kept."""
        for old in [it for it in self.files if it.startswith(f"{words[3]}/state/")]:
            del self.files[old]
        if "ram" in words or "--block" in words:
            return {}
        front, after = data[:found["list_end"]], data[found["end"]:]
        files = {"libvirt.bin": front[:found["before"]], "before.bin": front[found["before"]:], "after.bin": after}
        self.files.update({f"{words[3]}/state/{name}": content for name, content in files.items()
                           if content or name != "libvirt.bin"})
        return {"state": tail_facts.value(after)["tail"]["state"]}

    @staticmethod
    def over(memory, block, found):
        """A block's memory with the pages that a stream has of it."""
        laid = bytearray(memory)
        for offset in found["pages"].get(block, []):
            laid[offset:offset + 4096] = found["memory"][block][offset:offset + 4096]
        return laid


def commands(text):
    return re.findall(r"^    \$ (.*)$", text, re.M)


def printed(shell, text):
    """Each command with what it prints."""
    return [(command, shell.run(command)) for command in commands(text)]


def shown(answer):
    """The output as the page has it: each member of a JSON object on one line."""
    if answer[:1] != ["{"]:
        return answer
    members = [f"  {json.dumps(key)}: {json.dumps(value)}" for key, value in json.loads("\n".join(answer)).items()]
    return ["{", *(f"{it}," for it in members[:-1]), members[-1], "}"]


def wrapped(line):
    """A line of output as the page has it: indented, and wrapped at 100 columns."""
    return textwrap.wrap(line, 100, initial_indent="    ", subsequent_indent="        ", break_long_words=False,
                         break_on_hyphens=False, drop_whitespace=True) if len(line) > 96 else [f"    {line}"]


def made_page(text, said):
    """The page with what its commands print."""
    left, lines, in_answer = list(said), [], False
    for line in text.splitlines():
        if line.startswith("    $ "):
            command, answer = left.pop(0)
            lines += [line, *(part for it in shown(answer) for part in wrapped(it))]
            in_answer = True
        elif not (in_answer and line.startswith("    ")):
            lines.append(line)
            in_answer = False
    return "".join(f"{line}\n" for line in lines)


def of_case(shell, command, wanted):
    """What a case prints, and then its status."""
    said = shell.run(command) if wanted is None else wanted[0]
    status = shell.status if wanted is None else wanted[1]
    if not command.startswith("zimgasol"):
        return [(command, said)]
    return [(command, said), ("echo $?", [str(status)])]


def made():
    shell, answers, files = Shell(), [], {RUNS / "data" / "main.sav": main_stream(), RUNS / "data" / "command.sav": COMMANDED,
                                                         RUNS / "data" / "rounds.sav": rounds_stream(),
                                                         RUNS / "data" / "pieces.sav": pieces_stream(),
                                                         RUNS / "data" / "fixed.sav": MAPPED}
    for page in filter(Path.is_file, PAGES):
        said = printed(shell, page.read_text())
        files[page] = made_page(page.read_text(), said).encode()
        answers += said
    for command, wanted in CASES:
        answers += of_case(shell, command, wanted)
    files[RUNS / "commands.txt"] = "".join(f"{command}\n" for command, _ in answers).encode()
    files[RUNS / "expected.txt"] = "".join(f"$ {command}\n" + "".join(f"{line}\n" for line in answer)
                                     for command, answer in answers).encode()
    return files


def main(words):
    if words not in ([], ["--check"]):
        sys.exit(__doc__)
    for file, content in made().items():
        if not words:
            file.write_bytes(content)
        elif not file.is_file() or file.read_bytes() != content:
            sys.exit(f"{file.relative_to(TOP)} isn't what tools/zimgasol_page.py makes: run it")


if __name__ == "__main__":
    main(sys.argv[1:])
