"""An independent reader of QEMU's single stream: it shares nothing with the library.

If the bytes end too early, it raises EOFError with the place and the number of complete sections.
`facts` reads the bytes as QEMU's migration/savevm.c and migration/ram.c write them, up to the
footer of RAM's END, or in a background snapshot to the first device's section, and raises on
anything else. Of devices' sections before that it reads the one of hw/virtio/virtio-mem.c. It reads
pages of 4,096 bytes.
"""
import hashlib
import struct

PAGE = 4096
ZERO, SIZES, NORMAL, EOS, CONTINUE = 0x02, 0x04, 0x08, 0x10, 0x20
LIBVIRT = b"LibvirtQemudSave"
# what an entry of the size list has after the length of its block
PLAIN, ADDRESSED, SIZED = "nothing", "its guest address", "its page size, where that isn't the host's"
POSTCOPY_ADVISE = 3
# how the name of virtio-mem's early state ends
VIRTIO_MEM = "/virtio-mem-device-early"


class Reader:
    def __init__(self, data, at):
        self.data, self.at, self.sections = data, at, 0

    def take(self, length):
        taken = self.data[self.at:self.at + length]
        if len(taken) < length:
            raise EOFError(self.at, self.sections)
        self.at += length
        return taken

    def number(self, length):
        return int.from_bytes(self.take(length), "big")

    def text(self, length=1):
        return self.take(self.number(length)).decode("ascii")


def libvirt_len(data):
    """How many bytes libvirt's header has; 0 where there is none. Its numbers are little-endian here."""
    if not data.startswith(LIBVIRT):
        return 0
    version, length, _, form = struct.unpack_from("<4I", data, 16)
    assert (version, form) == (2, 0)
    return 92 + length


def has_page_size(reader):
    """Whether the next bytes are the page size of a block of huge pages: a power of two above the host's."""
    ahead = int.from_bytes(reader.data[reader.at:reader.at + 8], "big")
    return ahead > PAGE and ahead & (ahead - 1) == 0


def size_list(reader, found, total):
    """Reads the entries of the size list, of blocks that have `total` bytes."""
    while total:
        name, length = reader.text(), reader.number(8)
        if found["form"] == ADDRESSED or found["form"] == SIZED and has_page_size(reader):
            reader.take(8)
        found["memory"][name], found["counts"][name], found["pages"][name] = bytearray(length), [0, 0], set()
        total -= length
    found["list_end"] = reader.at


def records(reader, found):
    """Reads the records of a section up to EOS."""
    block = None
    while True:
        head = reader.number(8)
        flags, offset = head & (PAGE - 1), head & ~(PAGE - 1)
        if flags == EOS:
            return
        if flags & SIZES:
            size_list(reader, found, offset)
            continue
        if not flags & CONTINUE:
            block = found["last"] = reader.text()
        block = block or found["last"]
        if flags & ~CONTINUE == ZERO:
            page = bytes([reader.number(1)]) * PAGE
            found["counts"][block][1] += 1
        elif flags & ~CONTINUE == NORMAL:
            page = reader.take(PAGE)
            found["counts"][block][0] += 1
        else:
            raise ValueError(f"flags {flags:#x}")
        found["memory"][block][offset:offset + PAGE] = page
        found["pages"][block].add(offset)


def section(reader, kind, found):
    number = reader.take(4)
    if kind == 1:
        assert reader.text() == "ram" and reader.number(4) == 0 and reader.number(4) == 4
        found["number"] = number
    assert number == found["number"]
    records(reader, found)
    assert reader.take(1) == b"\x7e" and reader.take(4) == number
    found["sections"] += 1
    reader.sections += 1


def subsection(reader, found, at):
    """Reads a subsection of the configuration."""
    name, _ = reader.text(), reader.number(4)
    start = reader.at
    if name == "configuration/capabilities":
        if "x-ignore-shared" in [reader.text() for _ in range(reader.number(4))]:
            found["form"] = ADDRESSED
    else:
        reader.take({"configuration/target-page-bits": 4, "configuration/uuid": 16}[name])
    found["notes"].append(("subsection", name, reader.data[start:reader.at].hex(), at))


def command(reader, found, sections, at):
    """Reads a COMMAND."""
    number = reader.number(2)
    data = reader.take(reader.number(2))
    if number == POSTCOPY_ADVISE and data:
        found["form"] = SIZED
    found["notes"].append(("command", number, sections, at))


def virtio_mem(reader, found, sections, at):
    """Reads virtio-mem's early state, a word of 64 bits for each 64 blocks."""
    number = reader.take(4)
    name = reader.text()
    assert name.endswith(VIRTIO_MEM) and (reader.number(4), reader.number(4)) == (0, 1), name
    _, region, block, _, _ = (reader.number(length) for length in (8, 8, 8, 4, 8))
    reader.take(8 * -(-(region // block) // 64))
    assert reader.take(1) == b"\x7e" and reader.take(4) == number
    found["notes"].append(("device", name, sections, at))
    if sections:
        found["after_start"] += reader.data[found["before"] + at:reader.at]


def state_before(data, found):
    """What `extract` keeps of a stream before RAM's records: a device's section that follows START precedes it there."""
    before, start = found["before"], found["before"] + found["start"]
    return data[before:start] + found["after_start"] + data[start:found["list_end"]]


def facts(data):
    """Returns the memory of each block, the records of each and the offsets of their pages, the sections,
    the notes, the id of RAM's section, and where START begins, and the size list and RAM end."""
    before = libvirt_len(data)
    reader = Reader(data, before)
    assert reader.take(8) == b"QEVM\0\0\0\3"
    found = {"before": before, "memory": {}, "counts": {}, "pages": {}, "sections": 0, "notes": [], "form": PLAIN,
             "after_start": b""}
    kind = 0
    while kind != 3:
        at = reader.at - before
        kind = reader.number(1)
        if kind == 7:
            found["notes"].append(("machine", reader.text(4), at))
        elif kind == 5:
            subsection(reader, found, at)
        elif kind == 8:
            command(reader, found, found["sections"], at)
        elif kind == 4 and found["sections"] > 1:
            # a background snapshot has a START, a PART and no END
            reader.at -= 1
            break
        elif kind == 4:
            virtio_mem(reader, found, found["sections"], at)
        else:
            if kind == 1:
                found["start"] = at
            section(reader, kind, found)
    found["end"] = reader.at
    return found


def digest(memory):
    return hashlib.sha256(bytes(memory)).hexdigest()
