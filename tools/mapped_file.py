"""Makes files with mapped-ram, by QEMU's docs/devel/migration/mapped-ram.rst and `migration/ram.c`.

It shares nothing with the library. The words of bitmaps are those of a little-endian host.
"""
import struct

PAGE = 4096
# the first pages of blocks lie at multiples of it
ALIGNMENT = 1 << 20
CAPABILITY = b"mapped-ram"
CAPABILITIES = b"\x05\x1aconfiguration/capabilities" + struct.pack(">I", 1)
START = b"\x03ram" + struct.pack(">II", 0, 4)


def counted(name):
    return bytes([len(name)]) + name


def with_capability(front):
    """A machine's stream, or the beginning of one, whose configuration names the capability in addition."""
    at = 13 + struct.unpack(">I", front[9:13])[0]
    while front[at:at + 1] == b"\x05" and not front[at:].startswith(CAPABILITIES):
        at += 40  # those of the page bits and of the UUID
    if front[at:at + 1] != b"\x05":
        return front[:at] + CAPABILITIES + struct.pack(">I", 1) + counted(CAPABILITY) + front[at:]
    at += len(CAPABILITIES)
    count, end = struct.unpack(">I", front[at:at + 4])[0], at + 4
    for _ in range(count):
        end += 1 + front[end]
    return front[:at] + struct.pack(">I", count + 1) + front[at + 4:end] + counted(CAPABILITY) + front[end:]


def named_front(machine, total):
    """The bytes before the size list of a machine without devices."""
    configuration = struct.pack(">IIBI", 0x5145564D, 3, 7, len(machine)) + machine.encode()
    return with_capability(configuration) + b"\x01" + struct.pack(">I", 1) + START + struct.pack(">Q", total | 4)


def state_front(before, blocks):
    """The bytes before the size list of a machine whose stream has `before` up to the end of the size list."""
    size_list = b"".join(counted(it.encode()) + struct.pack(">Q", len(memory)) for it, memory in blocks.items())
    if not before.endswith(size_list):
        raise ValueError("there is no size list of these blocks")
    return with_capability(before[:len(before) - len(size_list)])


def ends(number):
    """The end of START and all of END, with this id."""
    end = struct.pack(">QBI", 0x10, 0x7E, number)
    return end + b"\x03" + struct.pack(">I", number) + end


def laid(front, blocks, after):
    """The file with the bytes before the size list, the blocks' memory, and what follows it.

    Returns it with the number of pages that aren't zeros.
    """
    file, count = bytearray(front), 0
    for block, memory in blocks.items():
        numbers = [at // PAGE for at in range(0, len(memory), PAGE) if any(memory[at:at + PAGE])]
        bitmap = bytearray(-(-len(memory) // PAGE // 64) * 8)
        for page in numbers:
            bitmap[page // 8] |= 1 << page % 8
        file += counted(block.encode()) + struct.pack(">Q", len(memory))
        bitmap_at = len(file) + 28
        pages_at = -(-(bitmap_at + len(bitmap)) // ALIGNMENT) * ALIGNMENT
        file += struct.pack(">IQQQ", 1, PAGE, bitmap_at, pages_at) + bitmap
        file += bytes(pages_at - len(file)) + memory
        count += len(numbers)
    return bytes(file) + after, count


def plain_file(blocks, machine):
    """The file of a machine without devices, with the number of pages."""
    total = sum(map(len, blocks.values()))
    return laid(named_front(machine, total), blocks, ends(1) + b"\0")


def state_file(blocks, state):
    """The file of a machine with its state, the files that `extract` keeps, with the number of pages."""
    before = state["before.bin"]
    number = struct.unpack(">I", before[before.index(START) - 4:][:4])[0]
    header = bytearray(state.get("libvirt.bin", b""))
    if header:
        # libvirt's format `sparse`, in the order of its version, 2
        header[28:32] = struct.pack("<I" if header[16] == 2 else ">I", 6)
    return laid(bytes(header) + state_front(before, blocks), blocks, ends(number) + state["after.bin"])
