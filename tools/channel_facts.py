"""An independent reader and writer of a main stream and its channels, as `zimgasol save --channels`
writes them: it shares nothing with the library.

`facts` reads the bytes as QEMU's migration/ram.c and migration/multifd.c write them, up to the
footer of RAM's END, and fails on anything else. It reads pages of 4,096 bytes.
"""
import struct

import stream_facts
from stream_facts import EOS, NORMAL, PAGE, SIZES, ZERO, CONTINUE

FLUSH = 0x200
MAGIC, VERSION, SYNC = 0x11223344, 1, 1
PER_PACKET = 512 * 1024 // PAGE
HEAD = 64 + 256 + 8 * PER_PACKET
# of a packet with the state of a VFIO device
DEVICE, DEVICE_HEAD = 0x40, 3 * 4 + 256 + 2 * 4


def page_records(reader, found, records):
    """Reads the records of a section up to EOS: its page records, and as marks FLUSH and EOS."""
    while True:
        head = reader.number(8)
        flags, offset = head & (PAGE - 1), head & ~(PAGE - 1)
        if flags in (FLUSH, EOS):
            records.append(flags)
        if flags == EOS:
            return
        if flags == FLUSH:
            continue
        if flags == SIZES:
            stream_facts.size_list(reader, found, offset)
        else:
            if not flags & CONTINUE:
                found["last"] = reader.text()
            zero = flags & ~CONTINUE == ZERO
            assert zero or flags & ~CONTINUE == NORMAL
            content = bytes(reader.number(1)) if zero else reader.take(PAGE)
            records.append((found["last"], offset, None if zero else content))


def stream_records(data, found):
    """The page records and marks of a stream, and what stands between the sections."""
    reader = stream_facts.Reader(data, 0)
    assert reader.take(8) == b"QEVM\0\0\0\3"
    records, kind, sections = [], 0, 0
    while kind != 3:
        at, kind = reader.at, reader.number(1)
        if kind == 7:
            found["notes"].append(("machine", reader.text(4), at))
        elif kind == 5:
            stream_facts.subsection(reader, found, at)
        elif kind == 8:
            stream_facts.command(reader, found, sections, at)
        elif kind == 4 and sections < 2:
            stream_facts.virtio_mem(reader, found, sections, at)
        else:
            number = reader.take(4)
            assert kind in (1, 2, 3) and number == found.setdefault("number", number)
            if kind == 1:
                found["start"] = at
                assert reader.text() == "ram" and reader.take(8) == b"\0\0\0\0\0\0\0\4" and not sections
            page_records(reader, found, records)
            assert reader.take(5) == b"\x7e" + number
            sections += 1
    found["end"] = reader.at
    return records


def stream_rounds(data, found):
    """The records of a main stream up to each mark, and those after the last one. Where QEMU wrote
    no FLUSH, as for machine types of 8.0 and older, each EOS is one."""
    records, rounds = stream_records(data, found), [[]]
    mark = FLUSH if FLUSH in records else EOS
    for it in records:
        if it == mark:
            rounds.append([])
        elif it not in (FLUSH, EOS):
            rounds[-1].append(it)
    return rounds


def device_len(data, at):
    """How many bytes the packet of a device has that begins here; 0 of any other packet."""
    if data[at:at + 12] != struct.pack(">3I", MAGIC, VERSION, DEVICE) or at + DEVICE_HEAD > len(data):
        return 0
    return DEVICE_HEAD + struct.unpack_from(">I", data, at + DEVICE_HEAD - 4)[0]


def without_devices(data):
    """A channel without the packets of devices, and the lengths of these. One that is cut stays."""
    kept, at, lengths = bytearray(data[:64]), 64, []
    while at < len(data):
        size = device_len(data, at)
        if size and at + size <= len(data):
            lengths.append(size)
        elif size or at + HEAD > len(data):
            return bytes(kept + data[at:]), lengths
        else:
            size = HEAD + struct.unpack_from(">I", data, at + 16)[0] * PAGE
            kept += data[at:at + size]
        at += size
    return bytes(kept), lengths


def channel_rounds(data):
    """The id that a channel's hello names, its UUID, and the packets of each of its rounds."""
    magic, version, uuid, ident = struct.unpack_from(">II16sB", data)
    assert (magic, version) == (MAGIC, VERSION)
    at, rounds = 64, [[]]
    while at < len(data):
        magic, version, flags, _, normal, size, number, zero = struct.unpack_from(">6IQI", data, at)
        assert (magic, version) == (MAGIC, VERSION) and flags in (0, SYNC) and normal + zero <= PER_PACKET
        assert size == normal * PAGE or not normal
        name = data[at + 64:at + 320].split(b"\0")[0].decode("ascii")
        offsets = struct.unpack_from(f">{normal + zero}Q", data, at + 320)
        at += HEAD
        pages = [data[at + i * PAGE:at + (i + 1) * PAGE] for i in range(normal)] + [None] * zero
        at += normal * PAGE
        rounds[-1].append((number, name, list(zip(offsets, pages))))
        if flags == SYNC:
            rounds.append([])
    assert at == len(data) and not rounds.pop()
    return ident, uuid, rounds


def whole_before_cut(data):
    """How many packets of pages of a channel that was cut are whole, and how many of these end a round."""
    data, at, packets, syncs = without_devices(data)[0], 64, 0, 0
    while at + HEAD <= len(data):
        flags, _, normal = struct.unpack_from(">3I", data, at + 8)
        at += HEAD + normal * PAGE
        if at <= len(data):
            packets, syncs = packets + 1, syncs + flags
    return packets, syncs


def lay(found, name, offset, content):
    assert offset % PAGE == 0 and offset < len(found["memory"][name])
    found["memory"][name][offset:offset + PAGE] = content or bytes(PAGE)
    found["pages"][name].add(offset)
    found["counts"][name][content is None] += 1


def facts(main, channels):
    """Returns the memory of each block, the page records of each, the rounds, what each channel has, and where RAM ends."""
    found = {"before": 0, "memory": {}, "counts": {}, "notes": [], "channels": [], "pages": {}, "form": stream_facts.PLAIN,
             "after_start": b""}
    rounds = stream_rounds(main, found)
    assert not rounds.pop()
    parted = [without_devices(it) for it in channels]
    each = [channel_rounds(it) for it, _ in parted]
    assert len({it[0] for it in each}) == len(each) and len({it[1] for it in each}) == 1
    found["rounds"], found["uuid"], base = len(rounds), each[0][1], 0
    for i, records in enumerate(rounds):
        packets = [packet for it in each for packet in it[2][i]]
        assert sorted(it[0] for it in packets) == list(range(base, base + len(packets)))
        base += len(packets)
        pages = records + [(name, offset, content) for _, name, them in packets for offset, content in them]
        assert len({it[:2] for it in pages}) == len(pages)
        for page in pages:
            lay(found, *page)
    for (ident, _, them), (_, devices) in zip(each, parted):
        assert len(them) == len(rounds)
        packets = [packet for part in them for packet in part]
        pages = [content for _, _, part in packets for _, content in part]
        found["channels"].append({"id": ident, "numbers": [it[0] for it in packets],
                                  "zeros": pages.count(None), "pages": len(pages) - pages.count(None),
                                  "device_packets": len(devices), "device_bytes": sum(devices)})
    found["packets"] = base
    return found


# ---- what `zimgasol` prints of the packets of devices


def passed_over(channels):
    """What a line has of them after its other counts; nothing if there are none."""
    packets, size = (sum(it[key] for it in channels) for key in ("device_packets", "device_bytes"))
    return f", device packets {packets} of {size} bytes passed over" if packets else ""


def device_members(channel):
    """The members of a channel's JSON; none if it has no such packets."""
    return {key: channel[key] for key in ("device_packets", "device_bytes") if channel["device_packets"]}


# ---- the bytes that `save --channels` writes


def hello(ident, uuid):
    return struct.pack(">II16sB", MAGIC, VERSION, uuid, ident).ljust(64, b"\0")


def packet(number, name, pages, sync=False):
    """The bytes of a packet with these pages of a block: each an offset, and a content or None."""
    normal = [it for it in pages if it[1] is not None]
    zero = [it for it in pages if it[1] is None]
    head = struct.pack(">6IQI", MAGIC, VERSION, SYNC if sync else 0, PER_PACKET, len(normal), len(normal) * PAGE, number, len(zero))
    offsets = struct.pack(f">{len(pages)}Q", *(it[0] for it in normal + zero))
    return (head.ljust(64, b"\0") + name.encode().ljust(256, b"\0") + offsets.ljust(8 * PER_PACKET, b"\0") +
            b"".join(it[1] for it in normal))


def cut(pages):
    """Pages of one block as those of each packet."""
    return [pages[i:i + PER_PACKET] for i in range(0, len(pages), PER_PACKET)]


def channels_of(blocks, count, uuid):
    """The channels over which pages go: of each block its name and its pages, each an offset and a content or None."""
    texts = [hello(i, uuid) for i in range(count)]
    parts = [(name, part) for name, pages in blocks for part in cut(pages)]
    for i in range(count):
        texts[i] += packet(i, "", [], sync=True)
    for i, (name, part) in enumerate(parts):
        texts[i % count] += packet(count + i, name, part)
    for i in range(count):
        texts[i] += packet(count + len(parts) + i, "", [], sync=True)
    return texts
