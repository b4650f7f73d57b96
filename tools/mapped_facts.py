"""An independent reader of a file with mapped-ram: it shares nothing with the library.

`plain` makes the plain stream of the same memory, as QEMU's migration/ram.c would write it: START
with a record for each page, of zeros where its bit isn't set. Bitmaps are those of a little-endian
host. `guest` makes a small file. Pages have 4,096 bytes.
"""
import struct

PAGE = 4096
NAME = b"\x0amapped-ram"
HEAD = b"\x05\x1aconfiguration/capabilities" + struct.pack(">I", 1)
RAM = b"\x03ram" + struct.pack(">II", 0, 4)
LIBVIRT, SPARSE = b"LibvirtQemudSave", 6
END_OF_RECORDS = struct.pack(">QBI", 0x10, 0x7E, 1)


def is_mapped(data):
    """Whether the configuration names mapped-ram, which stands before START."""
    return NAME in data[:max(0, data.find(RAM))]


def head_at(data, at):
    """The block whose entry is at a byte of the file: its id, its bits, and where its pages begin and end."""
    name = data[at + 1:at + 1 + data[at]]
    at += 1 + len(name)
    length, version, size, bitmap, pages = struct.unpack_from(">QIQQQ", data, at)
    assert (version, size, bitmap) == (1, PAGE, at + 36)
    bits = [data[bitmap + i // 8] >> i % 8 & 1 for i in range(length // PAGE)]
    return name, bits, pages, pages + length


def heads_from(data, at, total):
    """The blocks of a size list, and the byte of the file after the last one's pages."""
    blocks = []
    while total:
        name, bits, pages, end = head_at(data, at)
        blocks.append((name, bits, pages))
        total, at = total - len(bits) * PAGE, end
    return blocks, at


def records(data, blocks):
    """A record for each page. A file that was cut has them up to the last complete page."""
    out = []
    for name, bits, pages in blocks:
        named = bytes([len(name)]) + name
        for page, bit in enumerate(bits):
            head = struct.pack(">Q", page * PAGE | (8 if bit else 2) | (0x20 if page else 0)) + (b"" if page else named)
            content = data[pages + page * PAGE:][:PAGE] if bit else b"\0"
            if bit and len(content) < PAGE:
                return b"".join(out)
            out.append(head + content)
    return b"".join(out)


def plain(data):
    """The plain stream of a file with mapped-ram, and another file as it is."""
    if not is_mapped(data):
        return data
    before = b""
    if data.startswith(LIBVIRT):
        version, length, _, form = struct.unpack_from("<4I", data, 16)
        assert (version, form) == (2, SPARSE)
        before = data[:28] + bytes(4) + data[32:92 + length]
    start = data.find(RAM) - 5
    list_at = start + 5 + len(RAM) + 8
    count = data.find(HEAD) + len(HEAD)
    names = data[count + 4:data.find(NAME)] + data[data.find(NAME) + len(NAME):start]
    number = struct.unpack_from(">I", data, count)[0]
    front = data[len(before):data.find(HEAD)]
    if number > 1:
        front += HEAD + struct.pack(">I", number - 1)
    total = struct.unpack_from(">Q", data, list_at - 8)[0] & -PAGE
    blocks, end = heads_from(data, list_at, total)
    entries = b"".join(bytes([len(name)]) + name + struct.pack(">Q", len(bits) * PAGE) for name, bits, _ in blocks)
    return before + front + names + data[start:list_at] + entries + records(data, blocks) + data[end:]


def guest(blocks, base=0):
    """A file of machine `none`, whose stream begins at the byte `base` of the file: of each block its id, and of each page
    whether its bit is set and its bytes. The pages of each begin at the next multiple of the page size."""
    total = sum(len(pages) * PAGE for pages in blocks.values())
    out = b"QEVM" + struct.pack(">IBI", 3, 7, 4) + b"none" + HEAD + struct.pack(">I", 1) + NAME
    out += struct.pack(">BI", 1, 1) + RAM + struct.pack(">Q", total | 4)
    for name, pages in blocks.items():
        out += bytes([len(name)]) + name + struct.pack(">Q", len(pages) * PAGE)
        bitmap, words = len(out) + 28, -(-len(pages) // 64)
        first = -(-(bitmap + 8 * words) // PAGE) * PAGE
        out += struct.pack(">IQQQ", 1, PAGE, base + bitmap, base + first)
        out += sum(bit << i for i, (bit, _) in enumerate(pages)).to_bytes(8 * words, "little")
        out = out.ljust(first, b"\0") + b"".join(content for _, content in pages)
    command = struct.pack(">BHH", 8, 11, 0)
    part = b"\2" + struct.pack(">I", 1) + END_OF_RECORDS
    return out + END_OF_RECORDS + part + command + b"\3" + part[1:] + b"\0"


def memory(pages):
    """The memory of a block of `guest`."""
    return b"".join(content if bit else bytes(PAGE) for bit, content in pages)
