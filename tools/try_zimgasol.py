#!/usr/bin/env python3
"""Runs the built program `zimgasol` under bad conditions, and compares its output.

    make program
    tools/try_zimgasol.py [PROGRAM]

PROGRAM is by default crates/zimgasol_cli/out/zimgasol_cli. Each row is a command of bash, its
complete expected output, and its exit status: ids and names that control a terminal or lead out of
a folder, full and read-only disks, outputs that are closed, full or end early, inputs that end
early or can't be read, files and folders that exist, and a program that is killed. Differences are
printed. Ends with status 0 if there are none.

A full disk is a tmpfs of 64 KiB, which `unshare -rm` mounts. If that isn't allowed these rows are
omitted, and the last line says so.
"""
import os
import re
import shlex
import struct
import subprocess
import sys
import tempfile
from pathlib import Path

from zimgasol_page import END_OF_RECORDS, be, opening, part, record

TOP = Path(__file__).resolve().parent.parent
BUILT = TOP / "crates" / "zimgasol_cli" / "out" / "zimgasol_cli"
DATA = TOP / "runs" / "zimgasol" / "data"
SECONDS = 60
WHOLE = ("guest.sav: complete: sections 3, blocks 1, memory 131072 bytes, RAM ends at byte 86395, "
         "devices: whole, 1011 bytes\n")
PIPED = WHOLE.replace("guest.sav", "-")
CUT = ("byte 40000 (section 2, PART, block \"ram\"): fault 34: the stream ends early; "
       "the file was cut, or the save didn't come to its end\n")
# erases a terminal's line from the cursor on: the only control characters that a row may want
ERASE = "\x1b[K"
BAD_NUMBER = "Bad file descriptor (os error 9)\n"
FULL = "No space left on device (os error 28)\n"
BROKEN = "zimgasol: the output: Broken pipe (os error 32)\n"
FOLDER = "Is a directory (os error 21)\n"
NOTHING = "No such file or directory (os error 2)\n"
EXISTS = "is there already; `--replace` replaces it\n"
UNPLAIN = "not a regular file; not replaced\n"
OUTPUT = "zimgasol: the output: "
PACKED = ("zimgasol: zstd.save: libvirt compressed the stream with zstd; `tail -c +93 FILE | zstd -dc | zimgasol verify -` "
          "reads it, or save it with save_image_format = \"raw\"\n")
OTHER_COMPARE = ("zimgasol: .zimgasol-compare.partial: note: another `compare` is running; "
                 "if not, delete it\n")
SAVE = "zimgasol save --block ram=memory/ram.bin"
LINKED = "ln -s $PWD/beside"
# a file of `virsh save` whose XML has 64 MiB
LONG = "(cat long.head; head -c 67108864 /dev/zero; cat guest.sav)"
# ids that would lead out of a folder, hide a file or an option, or be too long for a name
IDS = ["../evil", "/etc/x", "..", ".", ".hidden", "a/b", 'q"q', "a b", "%41", "*", "~", "$x", "-rf",
       "blocks.json", "x" * 255, "%" * 255]
NAMES = ["%2E%2E%2Fevil", "%2Fetc%2Fx", "%2E%2E", "%2E", "%2Ehidden", "a%2Fb", "q%22q", "a%20b",
         "%2541", "%2A", "%7E", "%24x", "-rf", "blocks.json", "%long-14", "%long-15"]


def on_terminal(command):
    """A command whose output is a terminal, and then its status."""
    spawn = f"import os, pty; print(os.waitstatus_to_exitcode(pty.spawn({shlex.split(command)!r})))"
    return f"python3 -c {shlex.quote(spawn)} | tr -d '\\r'"


# ---- rows: what is tried, the command, all that it prints (a pattern, where it is compiled), status
STREAMS = (
    ("closed output", "zimgasol verify guest.sav >&-", OUTPUT + BAD_NUMBER, 3),
    ("", "zimgasol --help >&-", OUTPUT + BAD_NUMBER, 3),
    ("", f"{SAVE} - >&- 2>&- <&-", "", 3),
    ("full output", "zimgasol verify guest.sav > /dev/full", OUTPUT + FULL, 3),
    ("", "zimgasol inspect guest.sav > /dev/full", OUTPUT + FULL, 3),
    ("", "zimgasol inspect guest.sav --json > /dev/full", OUTPUT + FULL, 3),
    ("", "zimgasol --version > /dev/full", OUTPUT + FULL, 3),
    ("", "zimgasol compare memory memory > /dev/full", OUTPUT + FULL, 3),
    ("", f"{SAVE} - > /dev/full", OUTPUT + FULL, 3),
    ("full output, the files stay", "zimgasol extract guest.sav full > /dev/full; echo $?; ls full",
     f"{OUTPUT}{FULL}3\nblocks.json\nram.bin\nstate\n", 0),
    ("output that ends early", "zimgasol inspect guest.sav | head -1", "file guest.sav, 87406 bytes\n", 0),
    ("", "(sleep 0.3; zimgasol inspect guest.sav; echo $? >&2) | true", "3\n", 0),
    ("", "(sleep 0.3; zimgasol verify guest.sav guest.sav; echo $? >&2) | true", "3\n", 0),
    ("", "(sleep 0.3; zimgasol --help; echo $? >&2) | true", "3\n", 0),
    # (of a stream that is cut the message stays)
    ("", f"({SAVE} -; echo $? >&2) | head -c 1 > /dev/null", f"{BROKEN}3\n", 0),
    ("output that is a terminal", on_terminal(f"{SAVE} -"),
     'zimgasol: OUT "-": the standard output is a terminal; redirect it, or name a file\n2\n', 0),
    ("", on_terminal("zimgasol verify guest.sav"), f"{WHOLE}0\n", 0),
    ("closed error output", "zimgasol verify cut.sav 2>&-", "", 1),
    ("full error output", "zimgasol verify cut.sav 2> /dev/full", "", 1),
    # the line of --progress must not go into a file that has the number of the error output
    ("closed error output, --progress",
     "(head -c 90000 sparse.sav; sleep 10.2; tail -c +90001 sparse.sav; sleep 0.2) |"
     " zimgasol extract - quiet --progress --quiet 2>&-; echo $?;"
     " zimgasol extract sparse.sav plain --quiet; cmp quiet/ram.bin plain/ram.bin && echo same",
     "0\nsame\n", 0),
    ("progress on a terminal, which is removed",
     on_terminal("sh -c '(head -c 90000 sparse.sav; sleep 1.2; tail -c +90001 sparse.sav) | zimgasol verify - -p -q'"),
     re.compile(r"-: \d+ bytes, \d+ KiB/s\x1b\[K\x1b\[K0\n"), 0),
    ("progress in a log",
     "(head -c 90000 sparse.sav; sleep 1.2; tail -c +90001 sparse.sav; sleep 6) | zimgasol verify - -p -q", "", 0),
    ("", "(head -c 90000 sparse.sav; sleep 10.2; tail -c +90001 sparse.sav) | zimgasol verify - -p -q",
     re.compile(r"-: \d+ bytes, \d+ KiB/s\n"), 0),
    ("closed output, a file", f"{SAVE} closed.sav >&-; echo $?; zimgasol verify --frame ram closed.sav",
     f"{OUTPUT}{BAD_NUMBER}3\nclosed.sav: complete: sections 3, blocks 1, memory 131072 bytes, "
     "the stream ends at byte 86382, 0 bytes follow\n", 0),
    ("input that ends early", "head -c 40000 guest.sav | zimgasol verify -", f"zimgasol: -: {CUT}", 1),
    ("", "head -c 40000 guest.sav | zimgasol extract - early; echo $?; ls early",
     f"zimgasol: -: {CUT}1\nls: cannot access 'early': No such file or directory\n", 2),
    ("", ": | zimgasol verify -", "zimgasol: -: byte 0 (before section 1): fault 34: the stream ends early; "
     "the file was cut, or the save didn't come to its end\n", 1),
    ("input in pieces", "(head -c 9 guest.sav; sleep 0.2; tail -c +10 guest.sav) | zimgasol verify -",
     PIPED, 0),
    ("closed input", "zimgasol verify - <&-", re.compile(r"zimgasol: -: .* \(os error \d+\)\n"), 3),
    ("input that is a folder", "zimgasol verify - < .", f"zimgasol: -: {FOLDER}", 3),
    ("", "zimgasol verify .", f"zimgasol: .: {FOLDER}", 3),
    ("", "zimgasol verify guest.sav --channel .", f"zimgasol: .: {FOLDER}", 3),
    ("input that fails", "zimgasol verify /proc/self/mem",
     "zimgasol: /proc/self/mem: Input/output error (os error 5)\n", 3),
)
IDENTS = (
    ("ids", "zimgasol extract ids.sav deep/ids --quiet; echo $?; ls -A . .. deep | grep -c -e evil -e hidden;"
     " ls -A deep/ids", "0\n0\n" + "".join(f"{it}\n" for it in sorted([*(f"{it}.bin" for it in NAMES), "blocks.json", "state"])), 0),
    ("", "zimgasol extract ids.sav one --block ../evil --quiet; echo $?; ls -A one",
     "0\n%2E%2E%2Fevil.bin\nblocks.json\n", 0),
    ("", "zimgasol extract guest.sav none --block $'\\e[2J'; echo $?; ls none",
     "zimgasol: guest.sav: has no block \"%1B[2J\"\n1\nls: cannot access 'none': No such file or directory\n", 2),
    ("", "zimgasol verify steering.sav", "zimgasol: steering.sav: byte 42 (section 1, START): fault 21: "
     "bad block id\n", 1),
    ("", "zimgasol inspect machine.sav | sed -n 2p", 'machine "%1B[2J%22x"\n', 0),
    ("", "zimgasol save --block $'\\e=memory/ram.bin' out.sav",
     'zimgasol: --block "%1B": the id isn\'t 1 to 255 characters of printable ASCII\n', 2),
    ("names", "zimgasol verify $'\\e[2J\\n\"'", f"zimgasol: %1B[2J%0A%22: {NOTHING}", 3),
    ("", "zimgasol verify $'gr\\xc3\\xbcn'", f"zimgasol: gr%C3%BCn: {NOTHING}", 3),
    ("", "zimgasol verify $'\\xff'", "zimgasol: an argument isn't UTF-8\n", 2),
    ("", "zimgasol verify ''", f'zimgasol: "": {NOTHING}', 3),
    ("", "zimgasol extract guest.sav ''", f'zimgasol: "": {NOTHING}', 3),
    ("", "cp guest.sav ./-x; zimgasol verify -- -x", WHOLE.replace("guest", "-x", 1).replace("-x.sav", "-x"), 0),
    ("arguments", "zimgasol inspect guest.sav $'\\e]0;x\\a' 2>&1 | head -1",
     "error: unexpected argument '%1B]0;x%07' found\n", 0),
    ("", "zimgasol verify guest.sav --page $'4096\\x7f' 2>&1 | head -1",
     "error: invalid value '4096%7F' for '--page <BYTES>'\n", 0),
    ("", "zimgasol verify guest.sav --$'\\e[2J' 2>&1 | head -1", "error: unexpected argument '--%1B[2J' found\n", 0),
)
PLACES = (
    ("no folder", "zimgasol extract guest.sav nowhere/memory", f"zimgasol: nowhere/memory: {NOTHING}", 3),
    ("", f"{SAVE} nowhere/out.sav", f"zimgasol: nowhere/out.sav.partial: {NOTHING}", 3),
    ("a file in place of a folder", "zimgasol extract guest.sav guest.sav",
     "zimgasol: guest.sav/blocks.json: Not a directory (os error 20)\n", 3),
    ("files that exist", "zimgasol extract guest.sav memory", f"zimgasol: memory/blocks.json: {EXISTS}", 3),
    ("", "mkdir old; echo old > old/ram.bin; zimgasol extract guest.sav old; echo $?; ls old; cat old/ram.bin",
     f"zimgasol: old/ram.bin: {EXISTS}3\nram.bin\nold\n", 0),
    ("", "zimgasol extract guest.sav old --replace; ls old", f"{WHOLE}blocks.json\nram.bin\nstate\n", 0),
    ("a fault keeps old files", "zimgasol extract cut.sav old --replace; echo $?; ls old; cmp old/ram.bin memory/ram.bin",
     f"zimgasol: cut.sav: {CUT}1\nblocks.json\nram.bin\nstate\n", 0),
    ("", f"echo old > old.sav; {SAVE} old.sav; echo $?; {SAVE} --since nowhere --replace old.sav; cat old.sav",
     f"zimgasol: old.sav: {EXISTS}3\nzimgasol: nowhere/blocks.json: {NOTHING}old\n", 0),
    ("a folder in place of a file", "mkdir -p dir/ram.bin; zimgasol extract guest.sav dir --replace; echo $?; ls dir",
     f"zimgasol: dir/ram.bin: {UNPLAIN}3\nram.bin\n", 0),
    ("", "mkdir -p part/ram.bin.partial; zimgasol extract guest.sav part; echo $?; ls part",
     "zimgasol: part/ram.bin.partial: File exists (os error 17)\n3\nram.bin.partial\n", 0),
    ("", f"{SAVE} memory --replace", f"zimgasol: memory: {UNPLAIN}", 3),
    ("a link in place of a file", f"mkdir link; {LINKED} link/ram.bin; zimgasol extract guest.sav link --replace; echo $?; ls beside",
     f"zimgasol: link/ram.bin: {UNPLAIN}3\nls: cannot access 'beside': No such file or directory\n", 2),
    ("", f"mkdir linked; {LINKED} linked/ram.bin.partial; zimgasol extract guest.sav linked --quiet; echo $?; ls beside linked",
     "0\nls: cannot access 'beside': No such file or directory\nlinked:\nblocks.json\nram.bin\nstate\n", 2),
    ("", f"{LINKED} linked.sav; {SAVE} --replace linked.sav; echo $?; ls beside",
     f"zimgasol: linked.sav: {UNPLAIN}3\nls: cannot access 'beside': No such file or directory\n", 2),
    ("a pipe in place of a file", f"mkfifo pipe; {SAVE} --replace pipe", f"zimgasol: pipe: {UNPLAIN}", 3),
    ("a device in place of a file", f"{SAVE} --replace /dev/null", f"zimgasol: /dev/null: {UNPLAIN}", 3),
    ("a list that isn't one", "mkdir list; echo '{}' > list/blocks.json; zimgasol compare list memory",
     "zimgasol: list/blocks.json: is no list of blocks that `extract` wrote\n", 3),
    ("a list that leads elsewhere", "mkdir out; sed 's|ram.bin|../memory/ram.bin|' memory/blocks.json > out/blocks.json;"
     " zimgasol compare out memory", "zimgasol: out/blocks.json: is no list of blocks that `extract` wrote\n", 3),
    ("a list without its file", "mkdir gone; cp memory/blocks.json gone; zimgasol compare gone memory",
     f"zimgasol: gone/ram.bin: {NOTHING}", 3),
    ("another `compare`", "mkdir .zimgasol-compare.partial; zimgasol compare guest.sav memory; echo $?;"
     " ls -A | grep compare; rmdir .zimgasol-compare.partial", f"{OTHER_COMPARE}guest.sav and memory: the same: blocks 1, "
     "memory 131072 bytes\n0\n.zimgasol-compare.partial\n", 0),
    ("a `compare` that is killed", "bash -c '(head -c 300000 noise.sav; sleep 1.5) |"
     " timeout -s KILL 0.7 zimgasol compare - memory' 2> /dev/null; ls .zimgasol-compare.partial/a;"
     " zimgasol compare guest.sav memory; ls -A | grep compare; rm -r .zimgasol-compare.partial",
     f"ram.bin.partial\n{OTHER_COMPARE}guest.sav and memory: the same: blocks 1, memory 131072 bytes\n"
     ".zimgasol-compare.partial\n", 0),
    ("libvirt's files", "zimgasol verify never.save", "zimgasol: never.save: libvirt never completed this save\n", 1),
    ("", "zimgasol extract zstd.save zstd; echo $?; ls zstd",
     f"{PACKED}1\nls: cannot access 'zstd': No such file or directory\n", 2),
    ("", "zimgasol compare memory zstd.save; ls -A | grep -c compare", f"{PACKED}0\n", 1),
    ("a program that is killed", "bash -c '(head -c 300000 noise.sav; sleep 1.5) |"
     " timeout -s KILL 0.7 zimgasol extract - killed' 2> /dev/null; ls killed;"
     " zimgasol extract guest.sav killed; ls killed", f"ram.bin.partial\nstate\n{WHOLE}blocks.json\nram.bin\nstate\n", 0),
    ("", "bash -c '(head -c 300000 noise.sav; sleep 1.5) | timeout -s KILL 0.7 zimgasol extract - left' 2> /dev/null;"
     " zimgasol extract ids.sav left --block '*' 2>&1 | sort; ls left left/state",
     "ids.sav: complete: sections 3, blocks 16, memory 65536 bytes, RAM ends at byte 67041, devices: none, 1 bytes\n" +
     "".join(f"zimgasol: left/{it}.partial: note: another `extract` is running; if not, delete it\n"
             for it in ("ram.bin", "state/after.bin", "state/before.bin")) +
     "left:\n%2A.bin\nblocks.json\nram.bin.partial\nstate\n\nleft/state:\nafter.bin.partial\nbefore.bin.partial\n", 0),
    ("a file in place of the state", "mkdir file; echo old > file/state; zimgasol extract guest.sav file; echo $?; ls file",
     "zimgasol: file/state/before.bin.partial: Not a directory (os error 20)\n3\nstate\n", 0),
    ("", "zimgasol extract guest.sav file --block ram --quiet; echo $?; ls file; cat file/state",
     "0\nblocks.json\nram.bin\nstate\nold\n", 0),
    ("a state that exists", "mkdir -p had/state; echo old > had/state/libvirt.bin; zimgasol extract guest.sav had; echo $?; find had",
     f"zimgasol: had/state/libvirt.bin: {EXISTS}3\nhad\nhad/state\nhad/state/libvirt.bin\n", 0),
    ("a fault keeps an old state", "zimgasol extract cut.sav had --replace; echo $?; find had; cat had/state/libvirt.bin",
     f"zimgasol: cut.sav: {CUT}1\nhad\nhad/state\nhad/state/libvirt.bin\nold\n", 0),
    ("a folder in place of the state's file", "mkdir -p held/state/after.bin; zimgasol extract guest.sav held --replace; echo $?; ls held",
     f"zimgasol: held/state/after.bin: {UNPLAIN}3\nstate\n", 0),
    ("a link in place of it", f"mkdir -p led/state; {LINKED} led/state/before.bin;"
     " zimgasol extract guest.sav led --block ram --replace; echo $?; ls led beside",
     f"zimgasol: led/state/before.bin: {UNPLAIN}3\nls: cannot access 'beside': No such file or directory\nled:\nstate\n", 2),
    ("a state that is restored", "zimgasol save --state memory state.sav --quiet; zimgasol compare state.sav guest.sav",
     "state.sav and guest.sav: the same: blocks 1, memory 131072 bytes\n", 0),
    ("", "(zimgasol save --state memory -; echo $? >&2) | head -c 1 > /dev/null", f"{BROKEN}3\n", 0),
    ("a state that is torn", "cp -r memory torn; head -c 50 /dev/zero > torn/state/before.bin; zimgasol save --state torn t.sav;"
     " echo $?; ls t.sav*", "zimgasol: torn/state/before.bin: isn't a machine's stream up to the end of RAM's size list\n1\n"
     "ls: cannot access 't.sav*': No such file or directory\n", 2),
    ("", "rm torn/state/before.bin; mkdir torn/state/before.bin; zimgasol save --state torn t.sav",
     f"zimgasol: torn/state/before.bin: {FOLDER}", 3),
    ("more than 64 MiB before RAM", f"{LONG} | zimgasol extract - long; echo $?; ls long",
     "zimgasol: -: has 67108956 bytes or more before RAM, and `extract` keeps at most 67108864; "
     "`--block` extracts without them\n1\nls: cannot access 'long': No such file or directory\n", 2),
    ("", f"{LONG} | zimgasol extract - long --block ram --quiet; echo $?; cmp long/ram.bin memory/ram.bin", "0\n", 0),
)
DISKS = (
    ("full disk", "zimgasol extract ../guest.sav memory; echo $?; ls -A", f"zimgasol: memory/ram.bin.partial: {FULL}3\n", 0),
    ("", "mkdir memory; zimgasol extract ../guest.sav memory; echo $?; ls -A memory; rmdir memory",
     f"zimgasol: memory/ram.bin.partial: {FULL}3\n", 0),
    ("", "zimgasol extract ../sparse.sav memory; echo $?; ls -A", f"zimgasol: memory/ram.bin.partial: {FULL}3\n", 0),
    ("", "zimgasol save --block ram=../memory/ram.bin out.sav; echo $?; ls -A", f"zimgasol: out.sav.partial: {FULL}3\n", 0),
    ("", "zimgasol save --block ram=../memory/ram.bin --layout mapped-ram --machine none out.sav; echo $?; ls -A",
     f"zimgasol: out.sav.partial: {FULL}3\n", 0),
    ("", "zimgasol save --block ram=../memory/ram.bin --channels 2 out.sav; echo $?; ls -A",
     f"zimgasol: out.sav.0.partial: {FULL}3\n", 0),
    ("", "echo > beside; zimgasol compare ../guest.sav ./guest.sav; echo $?; ls -A; rm beside",
     f"zimgasol: ./.zimgasol-compare.partial/a/ram.bin.partial: {FULL}3\nbeside\n", 0),
    ("full disk, the state", "head -c 70000 /dev/zero > fill 2> /dev/null; zimgasol extract ../machine.sav memory; echo $?; ls -A; rm fill",
     f"zimgasol: memory/state/before.bin.partial: {FULL}3\nfill\n", 0),
    ("", "zimgasol save --state ../memory out.sav; echo $?; ls -A", f"zimgasol: out.sav.partial: {FULL}3\n", 0),
    ("full disk, an output", "zimgasol inspect ../guest.sav > listing; head -c 70000 /dev/zero > fill 2> /dev/null;"
     " zimgasol inspect ../guest.sav --json > more; echo $?; rm *", f"{OUTPUT}{FULL}3\n", 0),
    ("read-only disk", "mount -o remount,ro none . && zimgasol extract ../guest.sav memory",
     "zimgasol: memory: Read-only file system (os error 30)\n", 3),
    ("", "mount -o remount,ro none . && zimgasol extract ../guest.sav .",
     "zimgasol: ./ram.bin.partial: Read-only file system (os error 30)\n", 3),
    ("", "mount -o remount,ro none . && zimgasol save --block ram=../memory/ram.bin out.sav",
     "zimgasol: out.sav.partial: Read-only file system (os error 30)\n", 3),
)


def stream(blocks, machine="none"):
    """A machine's stream of blocks, whose pages that are named have bytes."""
    records, last = b"", None
    for block, (length, filled) in blocks.items():
        for page in range(length):
            records += record(block, page, bytes([page % 255 + 1 if page in filled else 0]) * 4096, last)
            last = block
    sizes = {block: length * 4096 for block, (length, _) in blocks.items()}
    return opening(sizes, machine) + part(records) + b"\x03" + be("I", 1) + END_OF_RECORDS + b"\0"


def libvirt(magic, form, length=0):
    """The header of a file of `virsh save`, whose XML and cookie have this length."""
    return magic + struct.pack("<19I", 2, length, 1, form, *[0] * 15)


def lay_out(room):
    guest = (DATA / "guest.sav").read_bytes()
    # (the first pages, and some far behind them: what is written between is one run)
    filled = [*range(20), *range(400, 420), 900]
    files = {"guest.sav": guest, "cut.sav": guest[:40000], "sparse.sav": stream({"ram": (1000, filled)}),
             "noise.sav": stream({"ram": (100, range(100))}),
             "ids.sav": stream({it: (1, [0]) for it in IDS}), "steering.sav": stream({"\x1b[2J": (1, [0])}),
             "machine.sav": stream({"ram": (1, [0])}, '\x1b[2J"x'),
             "never.save": libvirt(b"LibvirtQemudPart", 0) + guest, "zstd.save": libvirt(b"LibvirtQemudSave", 5) + guest,
             "long.head": libvirt(b"LibvirtQemudSave", 0, 1 << 26)}
    for name, content in files.items():
        (room / name).write_bytes(content)
    for name in ("deep", "disk"):
        (room / name).mkdir()


def without_erasing(wanted, said):
    """What a program printed, but for the control sequence that erases a line, if a pattern has it."""
    names_it = isinstance(wanted, re.Pattern) and re.escape(ERASE) in wanted.pattern.replace(r"\x1b", "\x1b")
    return said.replace(ERASE, "") if names_it else said


class Tries:
    """A folder with the program as `zimgasol`, and how many rows held."""

    def __init__(self, program, folder):
        self.room, self.held, self.failed = folder / "room", 0, 0
        (folder / "bin").mkdir()
        (folder / "bin" / "zimgasol").symlink_to(program)
        self.env = {**os.environ, "PATH": f"{folder / 'bin'}:{os.environ['PATH']}", "LC_ALL": "C"}
        self.room.mkdir()
        lay_out(self.room)

    def ran(self, command):
        how = {"cwd": self.room, "env": self.env, "stdin": subprocess.DEVNULL, "timeout": SECONDS}
        done = subprocess.run(["bash", "-c", command], stdout=subprocess.PIPE, stderr=subprocess.STDOUT, **how)
        return done.stdout.decode(errors="backslashreplace"), done.returncode

    def row(self, what, command, wanted, status):
        said, came = self.ran(command)
        holds = wanted.fullmatch(said) if isinstance(wanted, re.Pattern) else said == wanted
        unprintable = [it for it in without_erasing(wanted, said) if it != "\n" and not " " <= it <= "~"]
        if holds and came == status and not unprintable:
            self.held += 1
            return
        self.failed += 1
        print(f"{what}: {command}\n  wanted {status}: {wanted!r}\n  came   {came}: {said!r}", flush=True)

    def rows(self, rows, wrap=lambda command: command):
        what = ""
        for row in rows:
            what = row[0] or what
            self.row(what, wrap(row[1]), *row[2:])


def on_disk(command):
    """A command in the folder `disk`, where a small disk is mounted."""
    return "unshare -rm bash -c " + shlex.quote(f"mount -t tmpfs -o size=64k none disk && cd disk && {command}")


def main(words):
    if len(words) > 1 or words[:1] in (["--help"], ["-h"]):
        sys.exit(__doc__)
    program = Path(words[0]).resolve() if words else BUILT
    if not os.access(program, os.X_OK):
        sys.exit(f"there is no program {program}: make program")
    with tempfile.TemporaryDirectory(prefix="try-zimgasol-") as folder:
        tries = Tries(program, Path(folder))
        tries.row("extract", "zimgasol extract guest.sav memory", WHOLE, 0)
        for rows in (STREAMS, IDENTS, PLACES):
            tries.rows(rows)
        has_disk = tries.ran(on_disk(":"))[1] == 0
        if has_disk:
            tries.rows(DISKS, on_disk)
    left = "" if has_disk else f", {len(DISKS)} left out: no disk can be mounted"
    print(f"{tries.held} held, {tries.failed} failed{left}")
    return 1 if tries.failed else 0


if __name__ == "__main__":
    sys.exit(main(sys.argv[1:]))
