"""The guests that are migrated: machines with devices and without, stopped and running.

A guest's memory is noise, zeros and one repeated byte, page by page. `WRITER` is firmware for a
guest that writes 128 of its pages repeatedly, every fourth time with zeros.
"""
import random
from dataclasses import dataclass, replace

PAGE = 4096
MIB = 1 << 20
# The segments of real mode between which the firmware writes, a page each.
FIRST, LAST = 0x1000, 0x9000
WRITER_CODE = bytes.fromhex(
    "fa"          # cli
    "31c0"        # xor ax, ax
    "40"          # again: inc ax
    "250300"      # and ax, 3
    "bb0010"      # mov bx, FIRST
    "8ec3"        # page: mov es, bx
    "26a31000"    # mov [es:16], ax
    "81c30001"    # add bx, 256
    "81fb0090"    # cmp bx, LAST
    "75f0"        # jne page
    "ebe7"        # jmp again
)
# A processor's first instruction, 16 bytes before the end of the firmware: jmp 0xf000:0
RESET = bytes.fromhex("ea000000f0")
WRITER = (WRITER_CODE.ljust(65520, b"\0") + RESET).ljust(65536, b"\0")


@dataclass(frozen=True)
class Kind:
    """A guest: what it is called, QEMU's words for it, and its RAM's size."""

    name: str
    words: tuple
    mib: int
    running: bool = False
    # whether it writes pages while it is migrated
    writes: bool = False


UUID = "01020304-0506-0708-090a-0b0c0d0e0f10"
NETWORK = ("-netdev", "user,id=net", "-device", "e1000,netdev=net,romfile=")
NONE = Kind("none", ("-M", "none"), 4)
NONE_RUNNING = Kind("none, running", ("-M", "none"), 4, running=True)
PC = Kind("pc", ("-M", "pc"), 32)
PC_UUID = Kind("pc with a UUID", ("-M", "pc", "-uuid", UUID), 8)
# (small, as it is sent slowly; see qemu.migrated)
PC_WRITING = Kind("pc, running", ("-M", "pc"), 8, running=True, writes=True)
Q35 = Kind("q35 with devices", ("-M", "q35", *NETWORK, "-device", "virtio-rng-pci"), 32)
Q35_RUNNING = Kind("q35, running", ("-M", "q35", "-device", "virtio-rng-pci"), 32, running=True)
# nothing of the virtio-mem's memory is plugged
VIRTIO_MEM = Kind(
    "q35 with a virtio-mem", ("-M", "q35", "-m", "slots=2,maxmem=1G", "-object", "memory-backend-ram,id=vm0,size=16M",
                              "-device", "virtio-mem-pci,id=v0,memdev=vm0,requested-size=8M"), 32)
KINDS = (NONE, NONE_RUNNING, PC, PC_WRITING, Q35, Q35_RUNNING)
# those that go by channels: small, as a program that isn't built takes its time to load them
SMALL = NONE, replace(PC, mib=8), PC_WRITING
# machine types whose channels' rounds end with EOS, which newer QEMUs have as well
OLD = (
    Kind("pc of 8.0", ("-M", "pc-i440fx-8.0"), 8),
    Kind("pc of 8.0, running", ("-M", "pc-i440fx-8.0"), 8, running=True, writes=True),
    Kind("q35 of 6.2", ("-M", "pc-q35-6.2"), 8),
)
# machine types of older QEMUs, each with their version, whose files are read
OLD_FILES = (
    ((6, 2), Kind("pc of 6.2", ("-M", "pc-i440fx-6.2"), 8)),
    ((6, 2), Kind("q35 of 6.2, running", ("-M", "pc-q35-6.2"), 8, running=True, writes=True)),
    ((8, 0), Kind("pc of 8.0, running", ("-M", "pc-i440fx-8.0"), 8, running=True, writes=True)),
    ((8, 0), Kind("q35 of 8.0", ("-M", "pc-q35-8.0"), 8)),
)


def old_files(number):
    """The guests of older machine types that a QEMU of this version has."""
    return [kind for since, kind in OLD_FILES if since <= number]


def uuid_of(kind):
    """The UUID that QEMU's words give a guest; None where they give it none."""
    return UUID if UUID in kind.words else None


def words_of(kind, folder):
    """QEMU's words for a guest. The firmware that writes is put into a folder."""
    if not kind.writes:
        return kind.words
    firmware = folder / "writer.bin"
    firmware.write_bytes(WRITER)
    return (*kind.words, "-bios", str(firmware))


def memory(pages, seed=5):
    """Memory whose pages are noise, zeros, and one byte again and again, in turn."""
    noise = random.Random(seed)
    filled = (
        lambda page: noise.randbytes(PAGE),
        lambda page: bytes(PAGE),
        lambda page: bytes([page % 255 + 1]) * PAGE,
    )
    return b"".join(filled[page % 3](page) for page in range(pages))


def memory_of(kind):
    return memory(kind.mib * MIB // PAGE)


def scenario(pages, seed=7):
    """A guest of one block `ram` for the tool, which sends an empty round and then three.

    Returns the scenario's lines, and the memory after them. QEMU's threads for channels need the
    empty round first.
    """
    drawn, lines = random.Random(seed), [f"block {pages} ram", "round"]
    memory_ = bytearray(pages * PAGE)
    for share in (1.0, 0.2, 0.05):
        for page in range(pages):
            if drawn.random() >= share:
                continue
            byte = drawn.choice((0, 0, drawn.randrange(256)))
            lines.append(f"fill 0 {page} {byte}")
            memory_[page * PAGE:(page + 1) * PAGE] = bytes([byte]) * PAGE
            if drawn.random() < 0.3:
                at, byte = page * PAGE + drawn.randrange(PAGE), drawn.randrange(256)
                lines.append(f"set 0 {at} {byte}")
                memory_[at] = byte
        lines.append("round")
    return "".join(f"{it}\n" for it in lines), bytes(memory_)
