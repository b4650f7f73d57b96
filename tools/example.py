#!/usr/bin/env python3
"""Builds the C programs of examples/c against out/libzimgasol.a, and runs them.

The worked examples of crates/mig_rows/data (`load.txt`, `several.txt` and `machine.txt`) are run
against the library through C. Each stream of these cases is made here byte by byte, or by the
sender in the header, and fed in pieces of several lengths. The answer has to be the expected one,
for every prefix and every fault, of a load by whole sections, whose blocks have nothing else after
each piece. So has that of a load record by record, whose blocks have every page record up to the
end or the fault. Of several channels the blocks have whole rounds after each piece, and a load page
by page has the same answer. Then the example programs send and load files of memory, a guest is
migrated while it runs, on one stream and on several channels, and a program has each allocation
refused in turn. Connections are lost in the middle of a round, at either end. The three programs of
docs/use/C.md have a peer that is written here, and read files that are made here. Files with
mapped-ram are loaded by 1, 2 and 4 threads: those of QEMU's in runs/captures, and others that
tools/mapped_file.py and tools/mapped_facts.py make. What is saved is the file that
tools/mapped_file.py makes, and saving over it changes no byte. All but the cases
also run under valgrind, if it is installed, and the live migrations with AddressSanitizer, that on
several channels with ThreadSanitizer, too. The binding from Rust is built if rustc is installed.
The names that the archive defines and needs are compared with those in docs/use/C.md.
"""

import contextlib
import ctypes
import hashlib
import itertools
import lzma
import os
import pathlib
import random
import re
import select
import shutil
import socket
import subprocess
import sys
import tempfile
import threading

import mapped_facts
import mapped_file

TOP = pathlib.Path(__file__).resolve().parent.parent
OUT = TOP / "out/c"
LIBRARY = TOP / "out/libzimgasol.a"
FLAGS = ["-std=c11", "-O1", "-g", "-Wall", "-Wextra", "-Werror", f"-I{TOP}/include"]
# beside these, of the programs that docs/use/C.md quotes
STRICT = ["-O2", "-Wpedantic"]
CUTS = (0, 1, 7, 100, 4096)
DATA = TOP / "crates/mig_rows/data"
LIMIT = 1 << 40
PAGE_4K = 4096
MOST_SECONDS = 1200

CC = os.environ.get("CC", "cc")
LIBC = ctypes.CDLL(None)
# a program ends at the first race
os.environ.setdefault("TSAN_OPTIONS", "halt_on_error=1")
VALGRIND = ["valgrind", "-q", "--error-exitcode=99", "--leak-check=full", "--errors-for-leak-kinds=all"] if shutil.which("valgrind") else None


# has the linker pass each allocation to examples/c/tests/refusing.h
REFUSING = "-Wl,--wrap=malloc,--wrap=realloc,--wrap=free"

# what the archive may want of the C library
WANTED = {"malloc", "realloc", "free", "memcpy", "memmove", "memset", "memcmp", "bcmp"}


def build(name, source, *flags):
    OUT.mkdir(parents=True, exist_ok=True)
    subprocess.run([CC, *FLAGS, *flags, "-o", OUT / name, TOP / source, LIBRARY], check=True)


def symbols():
    """The archive's global names: those of the header and no others; and what it wants of the C library."""
    names = {"T": set(), "U": set()}
    for line in subprocess.run(["nm", "--extern-only", LIBRARY], check=True, capture_output=True, text=True).stdout.splitlines():
        *_, kind, name = [""] + line.split() if line.strip() else ["", "", ""]
        if len(kind) == 1:
            names.setdefault(kind, set()).add(name)
    header = re.sub(r"/\*.*?\*/", "", (TOP / "include/zimgasol.h").read_text(), flags=re.S)
    declared = set(re.findall(r"^ZIMGASOL_(?:API|CHECKED) \w+ (zimgasol_\w+)\(", header, re.M))
    others = set().union(*(found for kind, found in names.items() if kind != "U")) - declared
    if others or declared - names["T"] or names["U"] - WANTED:
        sys.exit(f"names: {others} aren't the header's, {declared - names['T']} are missing, {names['U'] - WANTED} are wanted")
    return f"{len(declared)} calls, no other global name; wanted: {', '.join(sorted(names['U']))}"


class Block(ctypes.Structure):
    _fields_ = [("id", ctypes.c_uint8 * 256), ("pages", ctypes.c_uint64)]


class Fault(ctypes.Structure):
    _fields_ = [("round", ctypes.c_uint64), ("source", ctypes.c_uint64), ("number", ctypes.c_uint32), ("first", ctypes.c_uint64), ("second", ctypes.c_uint64),
                ("reserved", ctypes.c_uint64 * 3)]


class Handle(ctypes.Structure):
    _fields_ = [("at", ctypes.c_void_p), ("full", ctypes.c_uint64)]


class Settings(ctypes.Structure):
    _fields_ = [("frame", ctypes.c_uint32), ("round_end", ctypes.c_uint32), ("waiting", ctypes.c_uint64), ("zero_blocks", ctypes.c_uint64),
                ("whole_rounds", ctypes.c_uint64), ("reserved", ctypes.c_uint64 * 4)]


class SendSettings(ctypes.Structure):
    _fields_ = [("channels", ctypes.c_size_t), ("limit", ctypes.c_size_t), ("uuid", ctypes.c_uint8 * 16), ("named", ctypes.c_uint64),
                ("name_len", ctypes.c_size_t), ("name", ctypes.c_uint8 * 1024), ("reserved", ctypes.c_uint64 * 4)]


class Buffer(ctypes.Structure):
    _fields_ = [("bytes", ctypes.c_void_p), ("len", ctypes.c_size_t)]


class Next(ctypes.Structure):
    _fields_ = [("len", ctypes.c_size_t), ("is_page", ctypes.c_uint64), ("block", ctypes.c_size_t), ("offset", ctypes.c_uint64)]


class Fed(ctypes.Structure):
    _fields_ = [("taken", ctypes.c_size_t), ("rounds", ctypes.c_uint64)]


class Standing(ctypes.Structure):
    _fields_ = [(name, ctypes.c_uint64) for name in ("rounds", "missing", "claimed", "has_all_rounds", "is_closed", "closed_at")]
    _fields_ += [("reserved", ctypes.c_uint64 * 4)]


class Text(ctypes.Structure):
    _fields_ = [("bytes", ctypes.c_char_p), ("bytes_len", ctypes.c_size_t)]


class Library:
    """The header's calls, of the shared library."""

    def __init__(self):
        self.calls = ctypes.CDLL(str(TOP / "out/libzimgasol.so"))
        for name in ("send_drain", "table_blocks"):
            getattr(self.calls, "zimgasol_" + name).restype = ctypes.c_size_t
        self.calls.zimgasol_read_fault_text.restype = ctypes.c_uint64
        for name in ("table_new", "table_of_stream", "table_block", "send_new", "load_new", "load_feed", "load_end", "load_page_read", "hello",
                     "put_packet"):
            getattr(self.calls, "zimgasol_" + name).restype = ctypes.c_uint32
        for name in ("load_wanted", "load_takes"):
            getattr(self.calls, "zimgasol_" + name).restype = ctypes.c_bool

    def call(self, name, *arguments):
        return getattr(self.calls, "zimgasol_" + name)(*arguments)

    def done(self, name, *arguments):
        status = self.call(name, *arguments)
        if status != 0:
            raise RuntimeError(f"{name}: {status}")

    def table(self, page_size, named):
        """The table of some blocks, each a number of pages and an id."""
        blocks = (Block * (len(named) + 1))()
        for block, (pages, name) in zip(blocks, named):
            block.pages = pages
            for i, byte in enumerate(name):
                block.id[i] = byte
        table, entry = Handle(), size(0)
        self.done("table_new", ctypes.byref(table), u64(page_size), blocks, size(len(named)), ctypes.byref(entry))
        return table


def u64(number):
    return ctypes.c_uint64(number)


def size(number):
    return ctypes.c_size_t(number)


def numbers(values):
    return (ctypes.c_uint64 * (len(values) + 1))(*values)


# ---- what a case builds


class Guest:
    """A guest's blocks, its memory, and the rounds of its marked pages."""

    def __init__(self):
        self.page, self.blocks, self.memory, self.marked, self.rounds = 4096, [], {}, set(), []

    def content(self, place):
        return self.memory.get(place, bytes(self.page))

    def end_round(self):
        self.rounds.append([(place, self.content(place)) for place in sorted(self.marked)])
        self.marked = set()


def be(number, length):
    return number.to_bytes(length, "big")


EOS = bytes.fromhex("0000000000000010 7e 00000001")


def main_stream(guest):
    """QEMU's main stream of multifd, with one FLUSH a round."""
    total = sum(pages for pages, _ in guest.blocks) * guest.page
    text = b"QEVM" + be(3, 4) + be(1, 1) + be(1, 4) + b"\x03ram" + be(0, 4) + be(4, 4) + be(total | 4, 8)
    for pages, name in guest.blocks:
        text += be(len(name), 1) + name + be(pages * guest.page, 8)
    text += EOS
    for _ in guest.rounds:
        text += be(2, 1) + be(1, 4) + be(0x200, 8) + EOS
    return text + be(3, 1) + be(1, 4) + EOS + b"\0"


class Texts:
    """What the lines of a case build, by the library behind the header."""

    def __init__(self, library):
        self.library, self.named = library, {}

    def sent(self, guest):
        """A single stream of the guest's rounds, by the sender."""
        library = self.library
        table, send, text = library.table(guest.page, guest.blocks), Handle(), b""
        library.done("send_new", ctypes.byref(send), ctypes.byref(table), ctypes.byref(SendSettings()))
        buffer = ctypes.create_string_buffer(1000)

        def drained():
            text = b""
            while length := library.call("send_drain", ctypes.byref(send), size(0), buffer, size(1000)):
                text += buffer.raw[:length]
            return text

        for pages in guest.rounds:
            library.done("send_begin_round", ctypes.byref(send))
            for (block, number), content in pages:
                library.done("send_put_page", ctypes.byref(send), size(block), u64(number), content, size(len(content)))
            library.done("send_end_round", ctypes.byref(send))
            text += drained()
        library.done("send_finish", ctypes.byref(send), ctypes.c_bool(False))
        text += drained()
        library.call("table_free", ctypes.byref(table))
        library.call("send_free", ctypes.byref(send))
        return text

    def hello(self, channel):
        out = ctypes.create_string_buffer(64)
        self.library.done("hello", bytes(16), size(16), ctypes.c_uint8(channel), out, size(64))
        return out.raw

    def packet(self, page_size, number, sync, name, normal, contents, zero):
        out, written = ctypes.create_string_buffer(1 << 20), size(0)
        self.library.done("put_packet", u64(page_size), u64(number), ctypes.c_bool(sync), name, size(len(name)), numbers(normal), size(len(normal)),
                          contents, size(len(contents)), numbers(zero), size(len(zero)), out, size(1 << 20), ctypes.byref(written))
        return out.raw[:written.value]

    def only_channel(self, guest, limit):
        """The text of the only channel of a sender: of each round its batches, and a SYNC packet."""
        text, number = self.hello(0), 0
        for pages in guest.rounds:
            for block, of_block in itertools.groupby(pages, key=lambda page: page[0][0]):
                of_block = list(of_block)
                for at in range(0, len(of_block), limit):
                    batch = of_block[at:at + limit]
                    normal = [page for page in batch if any(page[1])]
                    zero = [page for page in batch if not any(page[1])]
                    text += self.packet(guest.page, number, False, guest.blocks[block][1], [p[0][1] * guest.page for p in normal],
                                        b"".join(p[1] for p in normal), [p[0][1] * guest.page for p in zero])
                    number += 1
            text += self.packet(guest.page, number, True, b"", [], b"", [])
            number += 1
        return text

    def packet_line(self, guest, words):
        number, sync, name, normal, zero, first, other = int(words[0]), False, b"", [], [], 0, 0
        words = words[1:]
        while words:
            word = words.pop(0)
            if word == "sync":
                sync = True
            elif word == "id":
                name = words.pop(0).encode()
            elif word == "normal":
                normal = offsets(guest.page, words.pop(0))
            elif word == "zero":
                zero = offsets(guest.page, words.pop(0))
            elif word == "first":
                first = int(words.pop(0))
            elif word == "fill":
                other = int(words.pop(0))
        content = bytes([first]) + bytes([other]) * (guest.page - 1)
        return self.packet(guest.page, number, sync, name, normal, content * len(normal), zero)


def span(word):
    first, _, last = word.partition("-")
    return range(int(first), int(last or first) + 1)


def offsets(page_size, word):
    return [page * page_size for page in span(word[1:])] if word.startswith("p") else [int(word)]


def hexadecimal(words):
    """Bytes as runs of hexadecimal digits, such as `7e 00*40`."""
    text = b""
    for run in re.split(r"[ ,]+", " ".join(words).strip()):
        digits, _, times = run.partition("*")
        text += bytes.fromhex(digits) * int(times or 1)
    return text


# ---- what is asked


def source_name(source):
    return {0: "main", (1 << 64) - 1: "round"}.get(source, f"channel {source - 1}")


def verdict_name(fault):
    if fault.number == 0:
        return "ok"
    carried = ""
    if fault.number in (27, 31, 41, 54, 55, 56, 57):
        carried = f"({fault.first})"
    elif fault.number == 58:
        carried = f"({fault.first}, {fault.second})"
    return f"fault {fault.number}{carried} round {fault.round} in {source_name(fault.source)}"


def runs_of(content):
    return ",".join(f"{byte:02x}" + (f"*{n}" if n > 1 else "") for byte, n in ((k, len(list(g))) for k, g in itertools.groupby(content)))


def memory_name(pages):
    """What pages hold that aren't zeros: each is a block, a number and a content."""
    told, lines = [(block, number, runs_of(content)) for block, number, content in pages if any(content)], []
    while told:
        block, first, content = told.pop(0)
        last = first
        while told and told[0] == (block, last + 1, content):
            last = told.pop(0)[1]
        lines.append(f"{block}.{first}" + (f"-{last}" if last > first else "") + f"={content}")
    return "; ".join(lines) or "zeros"


class Stopped(Exception):
    """The stream is over, or isn't as it should be."""


SUBSECTIONS = {b"configuration/target-page-bits": 4, b"configuration/uuid": 16}


def page_records(text, page_size, named, frame):
    """The page records of a single stream up to its end or its first fault, each with its block, number and content: read by
    itself, with nothing of the library's."""
    at, names, found = 0, [name for _, name in named], []

    def take(length):
        nonlocal at
        at += length
        if at > len(text):
            raise Stopped
        return text[at - length:at]

    def number(length):
        return int.from_bytes(take(length), "big")

    def want(holds):
        if not holds:
            raise Stopped

    def block_of(length):
        name = take(length)
        want(name in names)
        return names.index(name)

    try:
        kind, last = take(8)[0], None
        while kind != 3:
            kind = number(1)
            if kind == 7:
                take(number(4))
            elif kind == 5 and frame == 1:
                name = take(number(1))
                want(name in SUBSECTIONS and number(4) == 1)
                take(SUBSECTIONS[name])
            elif kind == 8 and frame == 1:
                take(2), take(number(2))
            else:
                want(kind in (1, 2, 3) and number(4) == 1)
                want(kind != 1 or take(12) == b"\x03ram" + be(0, 4) + be(4, 4))
                while (head := number(8)) != 0x10:
                    flags, offset = head % page_size, head // page_size
                    if flags == 4 and kind == 1 and not found:
                        for _ in named:
                            take(number(1)), take(8)
                        continue
                    want(flags & ~0x20 in (2, 8))
                    last = block_of(number(1)) if not flags & 0x20 else last
                    want(last is not None and offset < named[last][0])
                    content = take(page_size) if flags & 8 else take(1) * page_size
                    want(flags & 8 or not any(content))
                    found.append((last, offset, content))
                want(take(5) == b"\x7e" + be(1, 4))
    except Stopped:
        pass
    return found


def pieces(text, cut):
    return [text] if cut == 0 else [text[at:at + cut] for at in range(0, len(text), cut)]


def feed_load(library, load, blocks, piece):
    """Feeds the next piece of one stream to a load into blocks, which takes all of it. Returns how many sections are counted
    then."""
    fed = Fed()
    library.done("load_feed", ctypes.byref(load), blocks, size(len(blocks)), size(0), piece, size(len(piece)), ctypes.byref(fed))
    if fed.taken != len(piece):
        raise RuntimeError(f"load_feed: {fed.taken} of {len(piece)} bytes were taken")
    return fed.rounds


def rounds_counted(library, load):
    """How many rounds or sections a load has counted."""
    standing = Standing()
    library.call("load_standing", ctypes.byref(load), ctypes.byref(standing))
    return standing.rounds


def read_straight(library, load, blocks, text):
    """Reads each page that comes next into its block, and feeds what stands between them: no byte past the stream's end. What
    is left of a page that isn't there whole is fed."""
    at, following = 0, Next()
    while library.call("load_wanted", ctypes.byref(load), ctypes.byref(following)):
        piece = text[at:at + following.len]
        at += len(piece)
        if following.is_page and len(piece) == following.len:
            ctypes.memmove(blocks[following.block].bytes + following.offset, piece, len(piece))
            library.done("load_page_read", ctypes.byref(load), blocks, size(len(blocks)))
        elif piece:
            feed_load(library, load, blocks, piece)
        else:
            break


def differs(buffer, content, length):
    """Whether a buffer holds something else."""
    return LIBC.memcmp(buffer, content, size(length)) != 0


def blocks_of(page_size, named):
    """Buffers of zeros for blocks, each a number of pages and an id, and how a load is passed them."""
    buffers = [ctypes.create_string_buffer(pages * page_size) for pages, _ in named]
    return buffers, (Buffer * len(buffers))(*(Buffer(ctypes.addressof(it), len(it)) for it in buffers))


def pages_of(page_size, buffers):
    """The pages that buffers hold, each with its block and number."""
    for i, buffer in enumerate(buffers):
        content = buffer.raw
        yield from ((i, at // page_size, content[at:at + page_size]) for at in range(0, len(content), page_size))


def load_single(library, page_size, named, frame, text, cut, whole_rounds):
    """A load of one stream into blocks of our own, which are zeros at first, by whole sections or record by record: what is told
    of it. Without a cut it is read by what comes next. By whole sections the blocks change with a section that is counted
    alone: after short pieces that isn't looked at."""
    table, load, fault = library.table(page_size, named), Handle(), Fault()
    settings = Settings(frame=frame, zero_blocks=whole_rounds, whole_rounds=whole_rounds)
    library.done("load_new", ctypes.byref(load), ctypes.byref(table), b"", size(0), size(0), ctypes.byref(settings))
    library.call("table_free", ctypes.byref(table))
    buffers, blocks = blocks_of(page_size, named)
    memory, counted = [it.raw for it in buffers], 0
    if cut is None:
        read_straight(library, load, blocks, text)
    for piece in pieces(text, cut) if cut is not None else ():
        rounds = feed_load(library, load, blocks, piece)
        if rounds != counted:
            memory, counted = [it.raw for it in buffers], rounds
        elif whole_rounds and len(piece) >= 100 and any(differs(it, kept, len(it)) for it, kept in zip(buffers, memory)):
            raise RuntimeError(f"load_feed: blocks changed within section {rounds}")
    library.done("load_end", ctypes.byref(load), size(0))
    library.call("load_verdict", ctypes.byref(load), ctypes.byref(fault))
    rounds = rounds_counted(library, load)
    library.call("load_free", ctypes.byref(load))
    return f"{verdict_name(fault)}; rounds {rounds}; {memory_name(pages_of(page_size, buffers))}"


def table_of(library, page_size, frame, text):
    """The blocks that a stream brings, as the library reads them, each a number of pages and an id; none if it ends or has a
    fault before its table."""
    table, block, at, named = Handle(), Block(), u64(0), []
    if library.call("table_of_stream", ctypes.byref(table), u64(page_size), frame, text, size(len(text)), ctypes.byref(at)) != 0:
        return named
    for i in range(library.call("table_blocks", ctypes.byref(table))):
        library.done("table_block", ctypes.byref(table), size(i), ctypes.byref(block))
        named.append((block.pages, bytes(block.id).partition(b"\0")[0]))
    library.call("table_free", ctypes.byref(table))
    return named


class Several:
    """A load of a main stream and its channels into blocks of our own, which are zeros at first: by whole rounds, or page by
    page."""

    def __init__(self, library, page_size, named, frame, channels, whole_rounds):
        self.library, self.handle, self.whole_rounds = library, Handle(), whole_rounds
        settings = Settings(frame=frame, zero_blocks=1, whole_rounds=whole_rounds)
        self.buffers, self.blocks = blocks_of(page_size, named)
        table = library.table(page_size, named)
        self.done("new", ctypes.byref(table), bytes(16), size(16), size(channels), ctypes.byref(settings))
        library.call("table_free", ctypes.byref(table))
        self.memory, self.rounds = [it.raw for it in self.buffers], 0

    def call(self, name, *arguments):
        return self.library.call(f"load_{name}", ctypes.byref(self.handle), *arguments)

    def done(self, name, *arguments):
        self.library.done(f"load_{name}", ctypes.byref(self.handle), *arguments)

    def feed(self, source, piece):
        """Feeds a piece, and returns how many of its bytes were taken. By whole rounds the blocks change with a round that is
        counted alone: after short pieces that isn't looked at."""
        fed = Fed()
        self.done("feed", self.blocks, size(len(self.blocks)), size(source), piece, size(len(piece)), ctypes.byref(fed))
        if fed.rounds != self.rounds:
            self.memory, self.rounds = [it.raw for it in self.buffers], fed.rounds
        elif self.whole_rounds and len(piece) >= 100 and any(differs(it, kept, len(it)) for it, kept in zip(self.buffers, self.memory)):
            raise RuntimeError(f"load_feed: blocks changed within round {fed.rounds}")
        return fed.taken

    def feed_all(self, texts, cut):
        """Feeds all sources by turns, channels first, each as long as it takes bytes, and ends each once all of it was taken."""
        given, ended = [0] * len(texts), [False] * len(texts)
        moved = True
        while moved:
            moved = False
            for source in reversed(range(len(texts))):
                left = len(texts[source]) - given[source]
                if left == 0 and not ended[source]:
                    self.done("end", size(source))
                    ended[source] = moved = True
                elif left and self.call("takes", size(source)):
                    count = self.feed(source, texts[source][given[source]:given[source] + (cut or left)])
                    given[source] += count
                    moved = moved or count > 0

    def answer(self):
        """Where the load stands, and its rounds."""
        fault = Fault()
        self.call("verdict", ctypes.byref(fault))
        told = f"{verdict_name(fault)}; rounds {rounds_counted(self.library, self.handle)}"
        self.call("free")
        return told


def load_multi(library, page_size, frame, texts, cut):
    """What is told of a load of several channels, with what the blocks hold by whole rounds. Page by page the same is told,
    and the blocks hold the same without a fault."""
    table = table_of(library, page_size, frame, texts[0])
    told = []
    for whole_rounds in (1, 0):
        load = Several(library, page_size, table or [(1, b"other")], frame, len(texts) - 1, whole_rounds)
        load.feed_all(texts, cut)
        told.append((load.answer(), memory_name(pages_of(page_size, load.buffers))))
    (whole, memory), (placed, blocks) = told
    if placed != whole or (whole.startswith("ok") and blocks != memory):
        return f"by whole rounds {whole}; {memory}, and page by page {placed}; {blocks}"
    if not table and memory == "zeros":
        memory = "none"
    return f"{whole}; {memory}"


class Case:
    def __init__(self, texts):
        self.texts_made, self.guest, self.texts, self.limit, self.channels = texts, Guest(), [], LIMIT, 1
        self.frame = 0

    def build(self, word, words):
        """Whether the line builds something that is known here."""
        guest, made = self.guest, self.texts_made
        if word == "page":
            guest.page = int(words[0])
        elif word == "block":
            guest.blocks.append((int(words[0]), words[1].encode()))
        elif word == "set":
            block, offset, byte = (int(it) for it in words)
            place = (block, offset // guest.page)
            content = bytearray(guest.content(place))
            content[offset % guest.page] = byte
            guest.memory[place] = bytes(content)
            guest.marked.add(place)
        elif word in ("fill", "touch"):
            for number in span(words[1]):
                if word == "fill":
                    guest.memory[int(words[0]), number] = bytes([int(words[2])]) * guest.page
                guest.marked.add((int(words[0]), number))
        elif word == "round":
            guest.end_round()
        elif word == "sent":
            self.texts.append(made.sent(guest))
        elif word == "sent_main":
            self.texts.append(main_stream(guest))
        elif word == "sent_channel":
            if self.channels != 1:
                # which packets a channel has is for the threads to settle
                return False
            self.texts.append(made.only_channel(guest, int(words[0])))
        elif word == "channels":
            self.channels = int(words[0])
        elif word == "new":
            self.texts.append(b"")
        elif word == "hello":
            self.texts[-1] += made.hello(int(words[0]))
        elif word == "packet":
            self.texts[-1] += made.packet_line(guest, words)
        elif word == "put":
            self.texts[-1] += hexadecimal(words)
        elif word == "at":
            place, there = int(words[0]), hexadecimal(words[1:])
            text = self.texts[-1]
            self.texts[-1] = text[:place] + there + text[place + len(there):]
        elif word == "insert":
            place = int(words[0])
            self.texts[-1] = self.texts[-1][:place] + hexadecimal(words[1:]) + self.texts[-1][place:]
        elif word == "cut":
            self.texts[-1] = self.texts[-1][:int(words[0])]
        elif word == "repeat":
            first, last = int(words[0]), int(words[1])
            text = self.texts[-1]
            self.texts[-1] = text[:last] + text[first:last] + text[last:]
        elif word == "limit":
            self.limit = int(words[0])
        elif word == "machine":
            self.frame = 1
        else:
            return False
        return True


class Rows:
    """The files of cases, as far as they ask what the header offers."""

    def __init__(self, library):
        self.library, self.made, self.named = library, Texts(library), {}
        self.asked, self.wrong, self.skipped = 0, 0, 0

    def want(self, name, question, got, wanted):
        self.asked += 1
        if got != wanted:
            self.wrong += 1
            print(f"{name}: {question}: {got}, not {wanted}")

    def single(self, name, question, case, text, cut, wanted):
        """A load of one stream into blocks like those that it brings, by whole sections and record by record, and into others."""
        page_size, table = case.guest.page, table_of(self.library, case.guest.page, case.frame, text)
        named = table or [(1, b"other")]

        def loaded(named, way, whole_rounds):
            return load_single(self.library, page_size, named, case.frame, text, way, whole_rounds)

        told, rounds, memory = loaded(named, cut, 1).split("; ", 2)
        self.want(name, question, "; ".join([told, rounds, memory if table or memory != "zeros" else "none"]), wanted)
        # the blocks have the records of a section that isn't complete, too
        written = {(block, number): content for block, number, content in page_records(text, page_size, table, case.frame)}
        blocks = memory_name((block, number, content) for (block, number), content in sorted(written.items()))
        if wanted.startswith("ok"):
            self.want(name, f"{question}, page records", blocks, wanted.split("; ", 2)[2])
        for way in [0, None] if cut == 0 else [cut]:
            self.want(name, f"{question}, record by record", loaded(named, way, 0), "; ".join([*wanted.split("; ")[:2], blocks]))
        for whole_rounds in (0, 1) if table else ():
            into = loaded(table + [(1, b"other")], cut, whole_rounds)
            self.want(name, f"{question}, into others", into, "fault 63 round 0 in main; rounds 0; zeros")

    def ask(self, name, case, question, wanted):
        text = case.texts[-1] if case.texts else b""
        if question == "length":
            self.want(name, question, str(len(text)), wanted)
        elif question == "bytes":
            self.want(name, question, text.hex(), hexadecimal(wanted.split()).hex())
        elif case.limit != LIMIT and wanted.startswith("fault 20"):
            # a load has the table in place of a limit
            self.skipped += 1
        elif question == "load_single":
            for cut in CUTS:
                self.single(name, f"{question} in pieces of {cut}", case, text, cut, wanted)
        elif question == "load_multi":
            for cut in CUTS[:1] + CUTS[2:]:
                self.want(name, f"{question} in pieces of {cut}", load_multi(self.library, case.guest.page, case.frame, case.texts, cut), wanted)
        elif question.startswith("each ") and question.endswith("load_single"):
            _, first, last, _ = question.split()
            for length in range(int(first), int(last) + 1):
                self.single(name, f"{length} bytes", case, text[:length], length // 2, wanted)
        else:
            self.skipped += 1

    def run(self, path):
        case, name, lines, known = None, None, [], True
        for line in path.read_text().splitlines() + ["case"]:
            line = line.split("  #")[0].strip()
            if not line or line.startswith("#"):
                continue
            word, _, rest = line.partition(" ")
            if word in ("case", "text"):
                if lines and lines[0] == "text":
                    self.named[name] = lines[1:]
                case, name, lines, known = Case(self.made), rest, [word], True
            else:
                lines.append(line)
                known = known and self.line(name, case, line)

    def line(self, name, case, line):
        """Whether the case can go on."""
        question, equals, wanted = line.partition(" = ")
        if equals:
            self.ask(name, case, question, wanted)
            return True
        word, *words = line.split()
        if word == "from":
            return all(self.line(name, case, it) for it in self.named[line[5:]] if " = " not in it)
        if case.build(word, words):
            return True
        self.skipped += 1
        return False


# ---- the programs


def run(*words, stdin=None, wanted=None, status=0):
    words = [str(word) for word in words]
    try:
        done = subprocess.run(words, stdin=stdin, capture_output=True, timeout=MOST_SECONDS)
    except subprocess.TimeoutExpired:
        sys.exit(f"{' '.join(words)}: it hasn't ended after {MOST_SECONDS} seconds")
    if done.returncode != status or (wanted is not None and done.stdout.decode(errors="replace").strip() != wanted):
        sys.exit(f"{' '.join(words)}: status {done.returncode}\n{done.stdout.decode(errors='replace')[:2000]}{done.stderr.decode()[:4000]}")
    return done.stdout


def memory_file(name, page_size, pages):
    """A file of memory with pages of zeros among others, the last one short."""
    content = b"".join(bytes(page_size) if i % 5 == 2 else bytes([i % 251 + 1]) * page_size for i in range(pages))[:-100]
    (OUT / name).write_bytes(content)
    return content


def send_and_load(before):
    """The example programs: a file of memory is sent, and loaded by whole sections and record by record."""
    cases = 0
    for page_size, pages, most in ((4096, 1, 256), (4096, 300, 256), (4096, 30, 1), (8192, 40, 7)):
        content = memory_file("memory", page_size, pages)
        stream = OUT / "stream"
        stream.write_bytes(run(*before, OUT / "send", "-p", page_size, "-n", most, OUT / "memory"))
        sections = -(-pages // most) + 2
        for cut in (1, 7, 100, 4096, 65536) if not before else (1000,):
            with stream.open("rb") as file:
                run(*before, OUT / "load", "-p", page_size, "-c", cut, "-o", OUT / "loaded", stdin=file,
                    wanted=f"single {stream.stat().st_size} sections {sections}")
            if (OUT / "loaded").read_bytes().rstrip(b"\0") != content.rstrip(b"\0") or (OUT / "loaded").stat().st_size != pages * page_size:
                sys.exit("the memory that was loaded isn't the one that was sent")
            with stream.open("rb") as file:
                run(*before, OUT / "load", "-p", page_size, "-c", cut, "-o", OUT / "placed", f"pc.ram={pages}", stdin=file,
                    wanted=f"single {stream.stat().st_size} sections {sections}")
            if (OUT / "placed").read_bytes() != (OUT / "loaded").read_bytes():
                sys.exit("the blocks aren't the memory that was sent")
            cases += 1
    shown = page_of_block(before)
    machine_stream(before)
    return cases + shown


def page_of_block(before):
    """The program of README: the second page of a stream's first block, and a fault where there is none or the stream is cut."""
    content = memory_file("memory", 4096, 3)
    stream = run(*before, OUT / "send", "-p", 4096, "-n", 256, OUT / "memory")
    for name, text, wanted, status in (("whole", stream, content[4096:8192], 0), ("cut", stream[:-1], b"", 1)):
        (OUT / name).write_bytes(text)
        with (OUT / name).open("rb") as file:
            if run(*before, OUT / "page", stdin=file, status=status) != wanted:
                sys.exit("page.c doesn't write the page that was sent")
    return 1


def machine_stream(before):
    """RAM of a machine's stream: a configuration after the file header, no end byte, and it is loaded with what follows it."""
    content = memory_file("memory", 4096, 20)
    plain = run(*before, OUT / "send", "-n", 7, OUT / "memory")
    stream = run(*before, OUT / "send", "-n", 7, "-m", "pc-q35-10.0", OUT / "memory")
    if stream != plain[:8] + b"\7" + be(11, 4) + b"pc-q35-10.0" + plain[8:-1]:
        sys.exit("a machine's stream isn't that of RAM with a configuration and no end byte")
    (OUT / "stream").write_bytes(stream + b"\4 and so on")
    with (OUT / "stream").open("rb") as file:
        run(*before, OUT / "load", "-f", "machine", "-o", OUT / "loaded", stdin=file, wanted=f"single {len(stream) + 11} sections 5")
    if (OUT / "loaded").read_bytes() != content + bytes(100):
        sys.exit("the memory of a machine's stream isn't the one that was sent")
    run(*before, OUT / "send", "-m", "m" * 1025, OUT / "memory", status=3)


def failing_read():
    """A file whose third read fails: the stream isn't ended, and the status says so."""
    memory_file("memory", 4096, 5)
    stream = run(OUT / "send_failing", "-p", 4096, "-n", 1, OUT / "memory", status=3)
    (OUT / "stream").write_bytes(stream)
    with (OUT / "stream").open("rb") as file:
        run(OUT / "load", stdin=file, wanted="fault 34 round 3", status=1)


def live():
    """A guest is migrated while it runs: plainly, with AddressSanitizer, and under valgrind."""
    for words in (("-m", 16), ("-m", 3, "-n", 1), ("-m", 16, "-n", 100000), ("-m", 16, "-s"), ("-m", 3, "-n", 1, "-s")):
        run(OUT / "live", *words, wanted="0 pages differ")
    run(OUT / "live_asan", "-m", 4, wanted="0 pages differ")
    run(OUT / "live_asan", "-m", 4, "-s", wanted="0 pages differ")
    if VALGRIND:
        run(*VALGRIND, "--fair-sched=yes", OUT / "live", "-m", 1, wanted="0 pages differ")
        run(*VALGRIND, "--fair-sched=yes", OUT / "live", "-m", 1, "-s", wanted="0 pages differ")
    subprocess.run([OUT / "live", "-m", "64", "-t"], check=True, stdout=subprocess.DEVNULL)


def channels():
    """A guest is migrated on several channels while it runs, with threads for each, or one that loads."""
    for words in ((), ("-c", 1, "-m", 3, "-b", 1), ("-c", 8, "-m", 2), ("-d", 0, "-r", 5), ("-k",), ("-k", "-c", 2, "-m", 2, "-b", 1), ("-p",)):
        run(OUT / "channels", *words, wanted="0 pages differ")
    for words in ((), ("-c", 2), ("-k",), ("-p",), ("-k", "-p")):
        run(OUT / "channels_tsan", "-m", 4, *words, wanted="0 pages differ")
    for words in ((), ("-k",), ("-p",)):
        run(OUT / "channels_asan", "-m", 4, *words, wanted="0 pages differ")
        if VALGRIND:
            run(*VALGRIND, "--fair-sched=yes", OUT / "channels", "-m", 1, *words, wanted="0 pages differ")
        rounds_and_times(words)


def rounds_and_times(words):
    """Prints the last rounds of a migration, and its time beside that of a plain transfer."""
    program = [OUT / "channels", "-m", "64", "-t", *words]
    said = subprocess.run(program, check=True, capture_output=True, text=True).stderr.splitlines()
    print(f"channels {' '.join(map(str, program[1:]))}: {said[-3]}; {said[-2]}; {said[-1]}")


def lost_connections():
    """A connection is lost in the middle of a round: both ends give up, and the load says what it lacks. Returns how often."""
    before_each = [("channels", []), ("channels_tsan", []), ("channels_asan", [])] + [("channels", [*VALGRIND, "--fair-sched=yes"])] * bool(VALGRIND)
    ways = list(itertools.product(("s0", "s1", "l0", "l1"), ((), ("-k",), ("-p",), ("-c", 1))))
    for (program, before), (lost, words) in itertools.product(before_each, ways):
        said = run(*before, OUT / program, "-m", 4, "-x", lost, *words, status=2).decode().strip()
        if not re.fullmatch(r"not loaded: (34|44|45|53), .*, after \d+ rounds", said):
            sys.exit(f"{program} -x {lost} {words}: {said}")
    return len(before_each) * len(ways)


def next_buffer():
    """Pages are read from a file in memory straight into their block: the times, beside plain reads."""
    pages = 16384
    with tempfile.TemporaryDirectory(dir="/dev/shm") as folder:
        memory, stream = pathlib.Path(folder, "memory"), pathlib.Path(folder, "stream")
        memory.write_bytes(os.urandom(pages * 4096))
        stream.write_bytes(run(OUT / "send", "-n", 64, memory))
        return run(OUT / "next_buffer", stream, pages).decode().strip()


def held(library):
    """What a load into blocks takes beside a guest of 64 MiB: of one stream, and of a main stream and 4 channels."""
    pages, texts = 16384, Texts(library)
    content = os.urandom(pages * 4096)
    guest = Guest()
    guest.blocks, guest.rounds = [(pages, b"pc.ram")], [None]
    channels = [texts.hello(j) for j in range(4)]
    for number, at in enumerate(range(0, pages, 128)):
        bytes_of = content[at * 4096:(at + 128) * 4096]
        channels[number % 4] += texts.packet(4096, number, False, b"pc.ram", [4096 * page for page in range(at, at + 128)], bytes_of, [])
    with tempfile.TemporaryDirectory(dir="/dev/shm") as folder:
        memory, stream, main = (pathlib.Path(folder, name) for name in ("memory", "stream", "main"))
        memory.write_bytes(content)
        stream.write_bytes(run(OUT / "send", "-n", 64, memory))
        main.write_bytes(main_stream(guest))
        files = []
        for j, text in enumerate(channels):
            files.append(pathlib.Path(folder, str(j)))
            files[j].write_bytes(text + texts.packet(4096, pages // 128 + j, True, b"", [], b"", []))
        one, several = run(OUT / "held", pages, stream), run(OUT / "held", pages, main, *files)
        return f"{one.decode().strip()} from one stream; {several.decode().strip()} from 4 channels"


def version_and_texts(library):
    """The library has the header's version, and a text for each of its statuses and no other number up to 200."""
    header = (TOP / "include/zimgasol.h").read_text()
    if library.call("version") != int(re.search(r"VERSION_NUMBER (\d+)", header)[1]):
        sys.exit("the library has another version than the header")
    known = {int(number) for number in re.findall(r"^    ZIMGASOL_\w+ = (\d+)", header, re.M)}
    texts = {}
    for number in range(201):
        text = Text(b"", 1)
        library.call("read_status_text", ctypes.c_uint32(number), ctypes.byref(text))
        texts[number] = ctypes.string_at(text.bytes, text.bytes_len)
    if any((texts[n] != b"unknown status\0") != (n in known) or texts[n].count(b"\0") != 1 or not texts[n].endswith(b"\0") for n in texts):
        sys.exit("a status without a text, or a text of none")
    return f"a text for each of {len(known)} statuses, and of {fault_texts(library, texts)} faults"


def fault_texts(library, texts):
    """The texts of faults of each number are those that Python writes, in room of each length. Returns how many were compared."""
    fault = Fault()
    places = [(0, 0, 0, 0), (3, 0, 0x7f, 5), (2**64 - 1, 256, 2**64 - 1, 2**64 - 1), (12, 2**64 - 1, 10, 0x1000)]
    compared = 0
    for number in range(201):
        message = texts[number][:-1].decode()
        for round_, source, first, second in places:
            fault.round, fault.source, fault.number, fault.first, fault.second = round_, source, number, first, second
            carried = {27: f" 0x{first:x}", 31: f" 0x{first:x}", 41: f" 0x{first:x}", 54: f" (packet {first})", 55: f" (packet {first})",
                       56: f" (packet {first})", 57: f" (packet {first})", 58: f" (packet {first}, offset {second})",
                       59: f" (block {first}, page {second})"}.get(number, "")
            channel = "" if source in (0, 2**64 - 1) else f", channel {source - 1}"
            for at in (None, 0, 2**64 - 1):
                place = "" if at is None else f", at byte {at}"
                wanted = f"{number}, {message}{carried}{channel}, after {round_} rounds{place}".encode()
                for room in (0, 1, 7, len(wanted), len(wanted) + 1, 256):
                    out = ctypes.create_string_buffer(b"\xAA" * 300, 300)
                    found = library.call("read_fault_text", ctypes.byref(fault), ctypes.c_bool(at is not None), ctypes.c_uint64(at or 0), out, ctypes.c_size_t(room))
                    kept = (wanted[:room - 1] + b"\0") if room else b""
                    if found != len(wanted) or out.raw != kept + b"\xAA" * (300 - len(kept)):
                        sys.exit(f"the text of fault {number} in room of {room}: {out.raw!r}, not {wanted!r}")
                compared += 1
    return compared


def from_rust():
    """The binding from Rust, where its compiler is there."""
    if not shutil.which("rustc"):
        return "no rustc: the binding from Rust isn't built"
    program = OUT / "from_rust"
    words = ["rustc", "--edition", "2021", "-O", "-L", TOP / "out", "-l", "static=zimgasol", "-o", program]
    subprocess.run([*words, TOP / "examples/c/from_rust.rs"], check=True)
    return run(program).decode().strip()


def stored_scenario(before, rows):
    """The stream of the tool's stored scenario, at several cuts, and what is left of it where it is hostile."""
    stream = OUT / "scenario"
    case = Case(rows.made)
    for line in (TOP / "crates/mig_tool/stdin").read_text().splitlines():
        word, *words = line.split()
        case.build(word, words)
    stream.write_bytes(rows.made.sent(case.guest))
    wanted = (TOP / "crates/mig_tool/stdout").read_text().splitlines()[0]
    blocks = [f"{name.decode()}={pages}" for pages, name in case.guest.blocks]
    for cut in (1, 7, 100, 4096, 9000):
        with stream.open("rb") as file:
            run(*before, OUT / "load", "-c", cut, stdin=file, wanted=wanted)
        with stream.open("rb") as file:
            run(*before, OUT / "load", "-c", cut, *blocks, stdin=file, wanted=wanted)
    for change, told in ((b"\0" + stream.read_bytes()[1:], "fault 11 round 0"), (stream.read_bytes()[:-1], "fault 34 round 3"), (b"", "fault 34 round 0")):
        (OUT / "hostile").write_bytes(change)
        with (OUT / "hostile").open("rb") as file:
            run(*before, OUT / "load", stdin=file, wanted=told, status=1)
        with (OUT / "hostile").open("rb") as file:
            run(*before, OUT / "load", *blocks, stdin=file, wanted=told, status=1)
    with stream.open("rb") as file:
        run(*before, OUT / "load", "other=1", stdin=file, wanted="fault 63 round 0", status=1)


# ---- the programs of the tutorial (docs/use/C.md), with streams that are made and read here


MACHINE = [(2048, b"mem0"), (2048, b"mem1")]
LOADED = bytes.fromhex("0001000400000000")
CONFIGURATION = b"\7" + be(4, 4) + b"none"


def rounds_of(blocks, left_out=0):
    """Three rounds of pages: none; each page but some of the first, of which few aren't zeros; and some of these again. Returns
    them, and the memory after them."""
    contents = random.Random(1)
    places = [(b, n) for b, (pages, _) in enumerate(blocks) for n in range(pages)]
    all_of = {(b, n): contents.randbytes(4096) if n < 300 and n % 5 != 2 else b"" for b, n in places[left_out:]}
    again = {place: b"" if all_of[place] else contents.randbytes(4096) for place in places[left_out + 7::31]}
    memory = all_of | again
    return [{}, all_of, again], b"".join(memory.get(place, b"").ljust(4096, b"\0") for place in places)


def packets_of(rounds, channels):
    """The streams of some channels, whose packets of at most 100 pages go to one after another. Returns them, and where the
    packets of each begin."""
    texts, places, number = [be(0x11223344, 4) + be(1, 4) + bytes(16) + be(j, 1) + bytes(39) for j in range(channels)], [[] for _ in range(channels)], 0

    def put(channel, flags, name, pages):
        nonlocal number
        normal, zero = [n for n in pages if pages[n]], [n for n in pages if not pages[n]]
        head = b"".join(be(it, 4) for it in (0x11223344, 1, flags, 128, len(normal), 4096 * len(normal))) + be(number, 8) + be(len(zero), 4)
        offsets = b"".join(be(4096 * n, 8) for n in normal + zero)
        places[channel].append(len(texts[channel]))
        texts[channel] += head + bytes(28) + name.ljust(256, b"\0") + offsets.ljust(1024, b"\0") + b"".join(pages[n] for n in normal)
        number += 1

    for pages in rounds:
        for block, (_, name) in enumerate(MACHINE):
            numbers = [n for b, n in pages if b == block]
            for at in range(0, len(numbers), 100):
                put(number % channels, 0, name, {n: pages[block, n] for n in numbers[at:at + 100]})
        for channel in range(channels):
            put(channel, 1, b"", {})
    return texts, places


def main_of(rounds):
    """A main stream of the machine up to its end byte."""
    guest = Guest()
    guest.blocks, guest.rounds = MACHINE, rounds
    return main_stream(guest)


def stream_of(blocks, rounds):
    """RAM of a machine's stream: these rounds as sections. Returns it, and where its page records begin."""
    guest, records = Guest(), []
    guest.blocks = blocks
    empty = main_stream(guest)
    text = empty[:8] + CONFIGURATION + empty[8:-19]
    for pages in rounds:
        text, last = text + be(2, 1) + be(1, 4), None
        for (block, number), content in pages.items():
            name = b"" if block == last else be(len(blocks[block][1]), 1) + blocks[block][1]
            records.append(len(text))
            text += be(4096 * number | (8 if content else 2) | (0x20 if block == last else 0), 8) + name + (content or b"\0")
            last = block
        text += EOS
    return text + empty[-19:-1], records


def joined(pairs, program, words, before=()):
    """Starts a program with its ends of some connections."""
    numbers = [str(theirs.fileno()) for _, theirs in pairs]
    started = subprocess.Popen([*before, OUT / program, *words, *numbers], stdout=subprocess.PIPE, stderr=subprocess.PIPE, pass_fds=[int(it) for it in numbers])
    for _, theirs in pairs:
        theirs.close()
    return started


def ended(program):
    out, said = program.communicate(timeout=MOST_SECONDS)
    return program.returncode, said.decode().strip(), out


def live_received(before, texts, wanted, cut=None):
    """Sends streams to receive_live, the main one on its second connection, and the channels in the reverse order. The channel
    that is `cut` ends after its bytes, and the others after the answer, which has to be the one that is wanted."""
    pairs = [socket.socketpair() for _ in texts]
    order = [*range(len(texts) - 1, 0, -1)]
    order.insert(1, 0)
    program = joined([pairs[s] for s in order], "receive_live", [], before)

    def send(s):
        with contextlib.suppress(OSError):
            pairs[s][0].sendall(texts[s])
            if s == cut:
                pairs[s][0].shutdown(socket.SHUT_WR)

    def finish():
        with contextlib.suppress(OSError):
            answers.append(pairs[0][0].recv(8, socket.MSG_WAITALL))
        for mine, _ in reversed(pairs):
            mine.close()

    answers, threads = [], [threading.Thread(target=send, args=[s]) for s in range(len(texts))] + [threading.Thread(target=finish)]
    for thread in threads:
        thread.start()
    found = ended(program)
    for thread in threads:
        thread.join()
    if b"".join(answers) != wanted:
        sys.exit(f"receive_live answered {answers}, not {wanted}: {found[1]}")
    return found


def leaving(before):
    """Before a program that ends at a fault, and leaves its memory to the system."""
    return [*before, "--leak-check=no"] if before else []


def receiving(before):
    """receive_live loads one stream and channels: whole, without some pages, with a fault, and cut."""
    for channels in (0, 1, 3):
        for left_out, last in ((0, 0), (5, 1)):
            rounds, memory = rounds_of(MACHINE, left_out)
            one, records = stream_of(MACHINE, rounds)
            texts, places = packets_of(rounds, channels) if channels else ([], [])
            main = main_of(rounds)
            main = main[:8] + CONFIGURATION + main[8:-1] if channels else one
            counted = "3 rounds" if channels else "5 sections"
            status, said, blocks = live_received(before, [main + b"devices", *texts], LOADED[:-1] + be(last, 1))
            if status != 2 * last or blocks != memory or not re.fullmatch(rf"received: {counted}, {left_out} pages missing, [0-7] bytes after RAM", said):
                found = "same" if blocks == memory else "other"
                sys.exit(f"receive_live, {channels} channels without {left_out} pages: status {status}, {said}, {found} memory")
            if channels and not said.endswith(" 7 bytes after RAM"):
                sys.exit(f"receive_live: {said}")
        # a fault, or the end, in the last source: in its first packet with pages, or in a record of the second round
        *others, text = main, *texts
        at = next(it for it in places[-1] if any(text[it + 16:it + 20])) if channels else records[100]
        where = f"channel 0, after 1 rounds, at byte {at}" if channels else f"after 2 rounds, at byte {at}"
        flags = at + 11 if channels else at + 7
        for number, bad in ((41 if channels else 27, text[:flags] + b"\x44" + text[flags + 1:]), (44 if channels else 34, text[:at + 3])):
            status, said, blocks = live_received(leaving(before), [*others, bad], b"", channels)
            if status != 1 or blocks or not re.fullmatch(f"not received: {number}, .*, {where}", said):
                sys.exit(f"receive_live, a fault {number}, {where}: status {status}, {said}")


def read_channel(text):
    """The rounds of a channel: of each its packets' numbers, and the contents of its pages by block and number."""
    if text[:24] + text[25:64] != be(0x11223344, 4) + be(1, 4) + bytes(55):
        sys.exit(f"send_live: a hello {text[:64].hex()}")
    at, rounds = 64, [([], {})]
    while at < len(text):
        magic, version, flags, _, normal, size, high, low, zero = (int.from_bytes(text[at + 4 * i:at + 4 * i + 4], "big") for i in range(9))
        block = text[at + 64:at + 320].rstrip(b"\0")
        pages = [int.from_bytes(text[at + 320 + 8 * i:at + 328 + 8 * i], "big") // 4096 for i in range(normal + zero)]
        contents = at + 1344
        at = contents + size
        if (magic, version, size) != (0x11223344, 1, 4096 * normal) or flags > 1 or at > len(text):
            sys.exit(f"send_live: a packet {text[contents - 1344:contents - 1024].hex()}")
        rounds[-1][0].append(high << 32 | low)
        for i, page in enumerate(pages):
            rounds[-1][1][block, page] = text[contents + 4096 * i:contents + 4096 * i + 4096] if i < normal else bytes(4096)
        if flags:
            rounds.append(([], {}))
    if rounds.pop() != ([], {}):
        sys.exit("send_live: a channel ends without SYNC")
    return rounds


def filled(theirs):
    """Fills a connection with bytes, as many as it holds, so that no more can be sent until some are read. Returns how many."""
    theirs.setblocking(False)
    count = 0
    with contextlib.suppress(BlockingIOError):
        while True:
            count += theirs.send(bytes(4096))
    theirs.setblocking(True)
    return count


def sending(before, channels, answer):
    """Reads what send_live sends, and compares the memory after the rounds with the guest's. The first bytes of the main stream have
    to come while nothing can be sent on a channel, and the channels end after the answer."""
    pairs = [socket.socketpair() for _ in range(1 + channels)]
    full = [0] + [filled(theirs) for _, theirs in pairs[1:]]
    pairs[0][0].settimeout(120)
    program = joined(pairs, "send_live", [], before)
    texts = [bytearray() for _ in pairs]

    def read(s):
        while piece := pairs[s][0].recv(1 << 16):
            texts[s] += piece

    empty = main_of([])
    start, end = len(empty) - 19, empty[-19:]
    texts[0] += pairs[0][0].recv(start, socket.MSG_WAITALL)
    threads = [threading.Thread(target=read, args=[s]) for s in range(1, len(pairs))]
    for thread in threads:
        thread.start()
    while not texts[0].endswith(end):
        if not (piece := pairs[0][0].recv(26)):
            sys.exit(f"send_live ended its main stream: {ended(program)[:2]}")
        texts[0] += piece
    threads[0].join(0.3)
    if not all(thread.is_alive() for thread in threads):
        sys.exit("send_live ended a channel before the answer")
    pairs[0][0].sendall(answer)
    for thread in threads:
        thread.join()
    status, said, guest = ended(program)
    rounds = [read_channel(bytes(it[more:])) for it, more in zip(texts[1:], full[1:])]
    memory, number, named = {}, 0, []
    for parts in zip(*rounds, strict=True):
        numbers = sorted(it for some, _ in parts for it in some)
        pages = [place for _, some in parts for place in some]
        if numbers != list(range(number, number + len(numbers))) or len(pages) != len(set(pages)):
            sys.exit(f"send_live: numbers {numbers[:3]} .. after {number}, or a page twice in a round")
        number += len(numbers)
        named.append(len(pages))
        for _, some in parts:
            memory.update(some)
    loaded = b"".join(memory.get((name, n), b"") for pages, name in MACHINE for n in range(pages))
    if status != (answer != LOADED) or said or loaded != guest or named[:2] != [0, 4096] or len(named) < 3 or texts[0] != main_of(named):
        found = "same" if loaded == guest else "other"
        sys.exit(f"send_live: status {status}, {said}, rounds of {named} pages, {found} memory")
    for mine, _ in pairs:
        mine.close()


def migrating(sender, receiver, before=()):
    """send_live and receive_live, one with the other: both write the same memory."""
    pairs = [socket.socketpair() for _ in range(4)]
    programs = [joined([(None, pair[i]) for pair in pairs], name, [], before) for i, name in enumerate((sender, receiver))]
    (sent, lost, guest), (got, said, blocks) = (ended(it) for it in programs)
    if (sent, got, lost) != (0, 0, "") or guest != blocks or len(guest) != 4096 * 4096:
        sys.exit(f"{sender} and {receiver}: status {sent} and {got}, {lost}, {said}")


def reading(before):
    """read_file loads files: whole, without some pages, with a fault at a place that is known, and without blocks."""
    blocks = [(300, b"pc.ram"), (7, b"vga.vram")]
    file, output = OUT / "saved", OUT / "blocks"
    for left_out in (0, 5):
        rounds, memory = rounds_of(blocks, left_out)
        stream, records = stream_of(blocks, rounds)
        file.write_bytes(stream + b"\4 devices")
        run(*before, OUT / "read_file", file, output, status=2 if left_out else 0,
            wanted=f"pc.ram: 300 pages\nvga.vram: 7 pages\n5 sections, {left_out} pages missing, RAM ends at byte {len(stream)}")
        if output.read_bytes() != memory:
            sys.exit("read_file's blocks aren't the memory that was saved")
    # QEMU's own files, of one block each, with the checksum of QEMU's memory
    for sums in (TOP / "runs/captures").glob("*.sums"):
        saved, wanted = sums.with_suffix(".stream"), sums.read_text().strip()
        if saved.exists() and wanted != "-":
            run(*before, OUT / "read_file", saved, output)
            if hashlib.sha256(output.read_bytes()).hexdigest() != wanted:
                sys.exit(f"read_file's block of {saved.name} isn't QEMU's memory")
    at = records[50]
    flags = stream[:at + 7] + b"\x44" + stream[at + 8:]
    faults = [(f"27, .* 0x44, after 2 rounds, at byte {at}", flags), (f"34, .*, after 2 rounds, at byte {at}", stream[:at + 3]),
              ("no blocks: .*", stream[:60]), ("no blocks: .*", b"Q" * 100000)]
    for wanted, text in faults:
        file.write_bytes(text)
        done = subprocess.run([*leaving(before), OUT / "read_file", file], capture_output=True, timeout=MOST_SECONDS)
        if done.returncode != 1 or not re.fullmatch(wanted, done.stderr.decode().strip()):
            sys.exit(f"read_file: status {done.returncode}, {done.stderr.decode()}, not {wanted}")


def mapped_guests():
    """Files with mapped-ram, each with the memory of its blocks: of QEMU's, and others."""
    for sums in sorted((TOP / "runs/captures").glob("*mapped.sums")):
        packed = sums.with_suffix(".stream.xz")
        yield packed.name, lzma.decompress(packed.read_bytes()), sums.read_text().strip()
    chance = random.Random(5)
    for blocks in ({b"ram": 1}, {b"pc.ram": 64, b"vga.vram": 65}, {b"a": 2000, b"b" * 255: 3, b"c": 300}):
        for share in (0, 0.05, 0.5, 1):
            pages = {name: [(chance.random() < share, chance.randbytes(PAGE_4K)) for _ in range(count)] for name, count in blocks.items()}
            memory = b"".join(map(mapped_facts.memory, pages.values()))
            yield f"pages of {blocks}, {share} of them", mapped_facts.guest(pages), hashlib.sha256(memory).hexdigest()


def mapped_loads(before):
    """Files with mapped-ram are loaded as they are, by threads, and one that was cut, or is another one, isn't. Returns how many."""
    file, output, count = OUT / "saved", OUT / "blocks", 0
    for what, data, wanted in mapped_guests():
        file.write_bytes(data)
        for threads in (1, 2, 4):
            said = run(*before, OUT / "mapped", "load", file, output, threads).decode()
            end = int(re.search(r"^RAM ends at byte (\d+)$", said, re.M)[1])
            found = hashlib.sha256(output.read_bytes()).hexdigest()
            if found != wanted or data[end - 13:end - 4] != bytes(7) + b"\x10\x7e":
                sys.exit(f"mapped load of {what}, {threads} threads: RAM ends at {end}, another memory: {found != wanted}")
            count += 1
    at = len(data) - 1
    bad = bytearray(data)
    bad[data.index(b"\x01a") + 13] = 9
    cases = [(data[:at - 1], f"34, stream: not closed, at byte {at - 1}"), (data[:300], "34, .*"), (data[:40], "no file with mapped-ram"),
             (stream_of([(3, b"ram")], [])[0], "no file with mapped-ram"), (bytes(bad), f"72, mapped-ram: header version isn't 1, at byte {data.index(bytes([1]) + b'a')}")]
    for text, wanted in cases:
        file.write_bytes(text)
        done = subprocess.run([*leaving(before), OUT / "mapped", "load", file, output], capture_output=True, timeout=MOST_SECONDS)
        if done.returncode != 1 or not re.fullmatch(wanted, done.stderr.decode().strip()):
            sys.exit(f"mapped load: status {done.returncode}, {done.stderr.decode()}, not {wanted}")
    return count


def mapped_saves(before, program="mapped"):
    """What is saved is the file that tools/mapped_file.py makes; loading it gives the memory again."""
    chance = random.Random(6)
    blocks = {name: b"".join(chance.randbytes(PAGE_4K) if chance.random() < share else bytes(PAGE_4K) for _ in range(count))
              for name, count, share in (("pc.ram", 1500, 0.3), ("vga.vram", 70, 0), ("bios", 1, 1))}
    wanted, _ = mapped_file.plain_file(blocks, "none")
    words = []
    for name, memory in blocks.items():
        (OUT / f"{name}.memory").write_bytes(memory)
        words.append(f"{name}={OUT / f'{name}.memory'}")
    file, output = OUT / "saved", OUT / "blocks"
    for threads in (1, 2, 4):
        run(*before, OUT / program, "save", file, "none", threads, *words, wanted="")
        if file.read_bytes() != wanted:
            sys.exit(f"mapped save, {threads} threads: another file than tools/mapped_file.py makes")
        run(*before, OUT / program, "load", file, output, threads)
        if output.read_bytes() != b"".join(blocks.values()):
            sys.exit(f"mapped save and load, {threads} threads: another memory")
    return 3


def as_qemu(before, texts, last, returns):
    """Sends streams to from_qemu, the main one's last byte late, or never where that isn't `last`. Returns how it ended, and
    what it answered before that byte and after it."""
    pairs, file = [socket.socketpair() for _ in texts], OUT / "blocks"
    file.unlink(missing_ok=True)
    program = joined(pairs, "from_qemu", ["-r", file] if returns else [file], before)
    sent = [texts[0][:-1], *texts[1:]]
    threads = [threading.Thread(target=mine.sendall, args=[text]) for (mine, _), text in zip(pairs, sent)]
    for thread in threads:
        thread.start()
    for thread in threads:
        thread.join()
    main, answers = pairs[0][0], []
    early = select.select([main], [], [], 0.5)[0] and main.recv(8)
    if last:
        main.sendall(texts[0][-1:])
    if last and returns:
        answers.append(main.recv(8, socket.MSG_WAITALL))
    for mine, _ in reversed(pairs):
        mine.close()
    return ended(program), early, b"".join(answers)


def from_qemu(before):
    """from_qemu loads one stream and channels: it answers behind the devices' last byte alone, and has no guest without it."""
    description = b'{"devices": []}'
    devices = b"\4 devices\0\6" + be(len(description), 4) + description
    rounds, memory = rounds_of(MACHINE)
    for channels in (0, 3):
        main = main_of(rounds)
        main = main[:8] + CONFIGURATION + main[8:-1] if channels else stream_of(MACHINE, rounds)[0]
        texts = [main + devices, *(packets_of(rounds, channels)[0] if channels else [])]
        for last, returns in ((True, True), (True, False), (False, True), (False, False)):
            (status, said, out), early, answer = as_qemu(before if last else leaving(before), texts, last, returns)
            wanted = (0, b"mem0 8388608\nmem1 8388608\nDONE\n") if last else (2, b"")
            if (status, out) != wanted or early or answer != (LOADED if last and returns else b""):
                sys.exit(f"from_qemu, {channels} channels: status {status}, {said}, answered {early} and {answer}")
            if last and (OUT / "blocks").read_bytes() != memory:
                sys.exit("from_qemu's blocks aren't the memory that was sent")


def tutorial():
    """The programs of docs/use/C.md, with streams that are made and read here, and one with another."""
    for before in [[]] + ([VALGRIND] if VALGRIND else []):
        receiving(before)
        reading(before)
        from_qemu(before)
        slowly = [*before, "--fair-sched=yes"] if before else []
        sending(slowly, 1, LOADED)
        sending(slowly, 3, LOADED[:-1] + b"\1")
        migrating("send_live", "receive_live", slowly)
    migrating("send_live_tsan", "receive_live_asan")
    migrating("send_live_asan", "receive_live_asan")


def main():
    if not LIBRARY.exists():
        sys.exit("out/libzimgasol.a isn't there: make lib")
    build("load", "examples/c/load.c")
    build("send", "examples/c/send.c")
    build("page", "examples/c/page.c")
    build("receive_live", "examples/c/receive_live.c", *STRICT)
    build("send_live", "examples/c/send_live.c", "-pthread", *STRICT)
    build("read_file", "examples/c/read_file.c", *STRICT)
    build("from_qemu", "examples/c/from_qemu.c", *STRICT)
    build("receive_live_asan", "examples/c/receive_live.c", "-fsanitize=address,undefined")
    build("send_live_asan", "examples/c/send_live.c", "-pthread", "-fsanitize=address,undefined")
    build("send_live_tsan", "examples/c/send_live.c", "-pthread", "-fsanitize=thread")
    build("mapped", "examples/c/mapped.c", "-pthread", *STRICT)
    build("mapped_asan", "examples/c/mapped.c", "-pthread", "-fsanitize=address,undefined")
    build("mapped_tsan", "examples/c/mapped.c", "-pthread", "-fsanitize=thread")
    build("mapped_calls", "examples/c/tests/mapped.c", REFUSING)
    build("live", "examples/c/live.c", "-pthread")
    build("live_asan", "examples/c/live.c", "-pthread", "-fsanitize=address,undefined")
    build("channels", "examples/c/channels.c", "-pthread")
    build("channels_asan", "examples/c/channels.c", "-pthread", "-fsanitize=address,undefined")
    build("channels_tsan", "examples/c/channels.c", "-pthread", "-fsanitize=thread")
    build("channel_calls", "examples/c/tests/channels.c")
    build("heads", "examples/c/tests/heads.c")
    build("round_ends", "examples/c/tests/round_ends.c")
    build("whole_rounds", "examples/c/tests/whole_rounds.c", REFUSING)
    build("zero_blocks", "examples/c/tests/zero_blocks.c")
    build("loads", "examples/c/tests/loads.c")
    build("apart", "examples/c/tests/apart.c", "-pthread")
    build("apart_asan", "examples/c/tests/apart.c", "-pthread", "-fsanitize=address,undefined")
    build("apart_tsan", "examples/c/tests/apart.c", "-pthread", "-fsanitize=thread")
    build("next_buffer", "examples/c/tests/next_buffer.c")
    build("held", "examples/c/tests/held.c")
    build("send_failing", "examples/c/send.c", TOP / "examples/c/tests/failing_read.c", "-Wl,--wrap=fread")
    build("refused", "examples/c/tests/refused.c", REFUSING)
    build("tables", "examples/c/tests/tables.c", REFUSING)
    build("channels_refused", "examples/c/tests/channels_refused.c", REFUSING)
    print(symbols())
    library = Library()
    print(version_and_texts(library))
    rows = Rows(library)
    for name in ("load.txt", "several.txt", "machine.txt"):
        rows.run(DATA / name)
    print(f"worked examples through C: {rows.asked} asked, {rows.wrong} wrong, {rows.skipped} not of this header")
    for before in [[]] + ([VALGRIND] if VALGRIND else []):
        under = " under valgrind" if before else ""
        stored_scenario(before, rows)
        print(f"the stored scenario's stream, and three hostile ones: as the tool{under}")
        print(f"files of memory sent and loaded: {send_and_load(before)} as they were{under}")
        print(run(*before, OUT / "refused").decode().strip() + under)
        print(run(*before, OUT / "channels_refused").decode().strip() + under)
        print(run(*before, OUT / "channel_calls").decode().strip() + under)
        print(run(*before, OUT / "heads").decode().strip() + under)
        print(run(*before, OUT / "round_ends").decode().strip() + under)
        print(run(*before, OUT / "whole_rounds").decode().strip() + under)
        print(run(*before, OUT / "zero_blocks").decode().strip() + under)
        print(run(*before, OUT / "loads").decode().strip() + under)
        print(run(*before, OUT / "tables").decode().strip() + under)
        print(run(*before, OUT / "apart").decode().strip() + under)
        print(run(*before, OUT / "mapped_calls").decode().strip() + under)
        print(f"files with mapped-ram: {mapped_loads(before)} loads, {mapped_saves(before)} saves as they should be{under}")
    failing_read()
    tutorial()
    print("the programs of docs/use/C.md: with a peer in Python, and one with another, each as it should be")
    live()
    print("a guest migrated while it ran: no page differs")
    channels()
    run(OUT / "apart_asan")
    run(OUT / "apart_tsan")
    mapped_saves([], "mapped_asan")
    mapped_saves([], "mapped_tsan")
    print("a guest migrated while it ran, on several channels: no page differs")
    print(f"connections lost in the middle of a round, {lost_connections()} times: both ends gave up")
    print(f"64 MiB of pages read straight into their block: {next_buffer()}")
    print(f"memory of loads into blocks of 64 MiB: {held(library)}")
    print(from_rust())
    sys.exit(1 if rows.wrong else 0)


main()
