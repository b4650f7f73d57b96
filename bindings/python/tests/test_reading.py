"""Files, pipes and channels: their memory, their faults, and what the program says of them."""

import gc
import hashlib
import io
import os
import random
import socket
import threading

import pytest
import zimgasol
from conftest import CAPTURES, GUEST, sum_of

SINGLE = ["none-7.2.22", "none-10.0.2", "none-10.0.13-huge"]
MULTI = ["none-10.0.2", "none-11.1.3-eos"]
TEXT = GUEST.read_bytes()
RAM_END = 86395


def sha(view):
    return hashlib.sha256(view).hexdigest()


def sources(name):
    return CAPTURES / f"{name}.main", [CAPTURES / f"{name}.{i}" for i in (0, 1)]


@pytest.mark.parametrize("name", SINGLE)
def test_memory_of_captures(name):
    with zimgasol.open(CAPTURES / f"{name}.stream") as guest:
        (view,) = guest.blocks.values()
        assert sha(view) == sum_of(name)
        assert (guest.verdict, guest.missing, guest.fault) == ("complete", 0, None)
        assert guest.pages * guest.page_size == len(view)


@pytest.mark.parametrize("name", MULTI)
@pytest.mark.parametrize("turned", [False, True])
def test_memory_of_channels(name, turned):
    main, channels = sources(name)
    with zimgasol.open(main, channels=channels[::-1] if turned else channels) as guest:
        (view,) = guest.blocks.values()
        assert sha(view) == sum_of(name)


def test_memory_in_a_folder(tmp_path):
    with zimgasol.open(GUEST, folder=tmp_path) as guest:
        assert sha(guest.blocks["ram"]) == sum_of("none-10.0.2")
    assert not list(tmp_path.iterdir())


def test_views_outlive_the_guest():
    guest = zimgasol.open(GUEST)
    page = guest.page("ram", 0)
    kept = bytes(page)
    guest.close()
    guest.close()
    assert bytes(page) == kept
    assert len(guest.blocks) == 0
    with pytest.raises(KeyError):
        guest.page("ram", 0)


def test_pages():
    with zimgasol.open(GUEST) as guest:
        assert b"".join(guest.page("ram", n) for n in range(32)) == bytes(guest.blocks["ram"])
        for number in (-1, 32):
            with pytest.raises(IndexError):
                guest.page("ram", number)


def test_numpy():
    numpy = pytest.importorskip("numpy")
    with zimgasol.open(GUEST) as guest:
        array = guest.array("ram")
        assert array.shape == (32, 4096)
        assert numpy.count_nonzero(array.any(axis=1) == 0) == 11
        assert array.tobytes() == bytes(guest.blocks["ram"])
        guest.blocks["ram"][0] = array[0, 0] ^ 1
        assert guest.blocks["ram"][0] == array[0, 0]


@pytest.mark.parametrize("at", [0, 3, 8, 40, 60, 5000, 50000, RAM_END - 1])
def test_cut_before_the_end_of_ram(tmp_path, at, program):
    path = tmp_path / "cut"
    path.write_bytes(TEXT[:at])
    report = zimgasol.verify(path)
    assert (report.fault.number, report.fault.source, report.verdict) == (34, "main", "fault")
    assert report.fault.byte <= at
    status, found = program("verify", "--json", str(path))
    assert (status, found["fault"]["number"]) == (1, 34)
    with pytest.raises(zimgasol.StreamError) as raised:
        zimgasol.open(path)
    assert raised.value.fault == report.fault
    assert raised.value.byte == report.fault.byte


def test_cuts_after_ram_as_the_program_has_them(tmp_path, program):
    path = tmp_path / "cut"
    extra = [TEXT + b"\0", TEXT + bytes(20), TEXT + b"x", TEXT[: RAM_END + 1] + b"\0\6"]
    ends = [*range(RAM_END, RAM_END + 30), *range(RAM_END + 30, len(TEXT), 61), len(TEXT)]
    zeros = [TEXT[:RAM_END] + it for it in (b"\0", b"\0\0", b"\0\6", b"\0\6\0\0\0\2{}", b"\0x")]
    for text in [TEXT[:end] for end in ends] + extra + zeros:
        path.write_bytes(text)
        status, found = program("verify", "--json", str(path))
        report = zimgasol.verify(path)
        assert report.tail == found["tail"]["state"], (len(text), text[RAM_END:][-9:])
        assert report.complete == found["complete"] == (status == 0)
        assert report.end == found["end"]
        assert zimgasol.verify(path, ram_only=True).complete


def test_wrong_bytes_as_the_program_has_them(tmp_path, program):
    rng = random.Random(6)
    path = tmp_path / "wrong"
    faults = set()
    places = [rng.randrange(120) for _ in range(60)] + [rng.randrange(RAM_END) for _ in range(40)]
    for at in places:
        text = bytearray(TEXT)
        text[at] ^= 1 << rng.randrange(8)
        path.write_bytes(text)
        report = zimgasol.verify(path)
        status, found = program("verify", "--json", str(path))
        number = report.fault.number if report.fault else None
        assert number == (found["fault"]["number"] if found["fault"] else None), at
        assert report.complete == (status == 0)
        if number is None:
            assert report.missing == sum(it["pages_without_record"] for it in found["blocks"])
        if number is not None and number != 34:
            assert report.fault.byte == found["fault"]["byte"]
        faults.add(number)
    assert len(faults) > 4


@pytest.mark.parametrize("source", [0, 1, 2])
def test_wrong_channels_as_the_program_has_them(tmp_path, program, source):
    main, channels = sources("none-10.0.2")
    texts = [it.read_bytes() for it in (main, *channels)]
    paths = [tmp_path / f"s{i}" for i in range(3)]
    rng = random.Random(source)
    cuts = [texts[source][:at] for at in (10, 70, len(texts[source]) // 2, len(texts[source]) - 1)]
    wrong = []
    for _ in range(30):
        text = bytearray(texts[source])
        text[rng.randrange(min(len(text), 1500))] ^= 1 << rng.randrange(8)
        wrong.append(bytes(text))
    for text in cuts + wrong:
        for i, path in enumerate(paths):
            path.write_bytes(text if i == source else texts[i])
        report = zimgasol.verify(paths[0], channels=paths[1:])
        words = [it for path in paths[1:] for it in ("--channel", str(path))]
        status, found = program("verify", "--json", str(paths[0]), *words)
        number = report.fault.number if report.fault else None
        assert number == (found["fault"]["number"] if found["fault"] else None)
        assert report.complete == (status == 0)


def test_partial_streams(program):
    for name in ("main.sav", "rounds.sav", "persection.sav", "cpr.sav"):
        path = GUEST.with_name(name)
        report = zimgasol.verify(path)
        _, found = program("verify", "--json", str(path))
        assert report.missing == sum(it["pages_without_record"] for it in found["blocks"])
        assert (report.verdict, report.complete) == ("partial", False)
        with pytest.raises(zimgasol.IncompleteError) as raised:
            zimgasol.open(path)
        assert raised.value.missing == report.missing
        with zimgasol.open(path, partial=True) as guest:
            assert guest.missing == report.missing


def test_a_stream_that_needs_its_channels():
    assert zimgasol.verify(GUEST.with_name("command.sav")).fault.number == 32


def test_an_unchecked_guest_has_whole_sections(tmp_path):
    path = tmp_path / "cut"
    path.write_bytes(TEXT[:50000])
    with zimgasol.open(path, check=False) as guest:
        assert guest.fault.number == 34
        assert guest.missing == 32  # the section with pages isn't complete
        assert not any(guest.blocks["ram"])


def test_limit():
    with pytest.raises(zimgasol.StreamError) as raised:
        zimgasol.open(GUEST, limit=131071)
    assert raised.value.number == 20
    zimgasol.open(GUEST, limit=131072).close()


def test_page_size():
    assert zimgasol.verify(GUEST, page_size=8192).fault is not None
    with pytest.raises(zimgasol.CallError) as raised:
        zimgasol.verify(GUEST, page_size=4095)
    assert raised.value.number == 101


def test_libvirt(tmp_path, program):
    path, xml = tmp_path / "domain.save", b"<domain/>" * 300

    def header(magic=b"LibvirtQemudSave", version=2, packed=0, order="little"):
        fields = [version, len(xml), 1, packed] + [0] * 15
        return magic + b"".join(it.to_bytes(4, order) for it in fields) + xml

    for order in ("little", "big"):
        path.write_bytes(header(order=order) + TEXT)
        report = zimgasol.verify(path)
        status, found = program("verify", "--json", str(path))
        assert report.complete and status == 0
        assert report.end == found["end"] == 92 + len(xml) + RAM_END
        with zimgasol.open(path) as guest:
            assert sha(guest.blocks["ram"]) == sum_of("none-10.0.2")
    wrong = [header(b"LibvirtQemudPart"), header(packed=1), header(packed=6), header(version=3)]
    for text in [it + TEXT for it in wrong] + [header()[:60], b"\x28\xb5\x2f\xfd" + TEXT]:
        path.write_bytes(text)
        report = zimgasol.verify(path)
        assert (report.verdict, report.complete, report.fault) == ("refused", False, None)
        assert program("verify", str(path))[0] == 1
        with pytest.raises(zimgasol.FileFormatError):
            zimgasol.open(path)
    path.write_bytes(header() + TEXT[:50])
    assert zimgasol.verify(path).fault.byte >= 92 + len(xml)


def fill(texts, descriptors):
    for text, number in zip(texts, descriptors):
        with open(number, "wb") as out:
            out.write(text)


def test_pipes():
    main, channels = sources("none-10.0.2")
    texts = [it.read_bytes() for it in (main, *channels)]
    pairs = [os.pipe() for _ in texts]
    # (one thread fills one pipe after another: what isn't taken yet waits in its pipe)
    order = [1, 0, 2]
    threads = [
        threading.Thread(target=fill, args=([texts[i]], [pairs[i][1]])) for i in order
    ]
    for it in threads:
        it.start()
    ends = [it for it, _ in pairs]
    with zimgasol.open(ends[0], channels=ends[1:]) as guest:
        assert sha(guest.blocks["ram"]) == sum_of("none-10.0.2")
    for it in threads:
        it.join()
    for it in ends:
        os.close(it)


def test_a_pipe_of_one_stream():
    out, into = os.pipe()
    thread = threading.Thread(target=fill, args=([TEXT], [into]))
    thread.start()
    seen = []
    report = zimgasol.verify(out, progress=lambda done, total: seen.append((done, total)))
    thread.join()
    os.close(out)
    assert report.complete and seen[-1] == (len(TEXT), None)


def test_connections():
    here, there = socket.socketpair()
    thread = threading.Thread(target=lambda: (there.sendall(TEXT), there.close()))
    thread.start()
    assert zimgasol.verify(here).complete
    thread.join()
    here.close()


class Slowly(io.RawIOBase):
    """A reader that gives one to 700 bytes at once."""

    def __init__(self, text):
        self.text, self.at, self.rng = text, 0, random.Random(1)

    def readable(self):
        return True

    def readinto(self, room):
        piece = self.text[self.at : self.at + self.rng.randrange(1, 700)][: len(room)]
        room[: len(piece)] = piece
        self.at += len(piece)
        return len(piece)


def test_objects():
    for made in (io.BytesIO, Slowly):
        with zimgasol.open(made(TEXT)) as guest:
            assert sha(guest.blocks["ram"]) == sum_of("none-10.0.2")
    main, channels = sources("none-11.1.3-eos")
    texts = [Slowly(it.read_bytes()) for it in (main, *channels)]
    with zimgasol.open(texts[0], channels=texts[1:]) as guest:
        assert sha(guest.blocks["ram"]) == sum_of("none-11.1.3-eos")


def test_progress_and_cancelling():
    seen = []
    zimgasol.open(GUEST, progress=lambda done, total: seen.append((done, total))).close()
    assert seen[-1] == (len(TEXT), len(TEXT))

    def stop(done, total):
        raise KeyboardInterrupt

    with pytest.raises(KeyboardInterrupt):
        zimgasol.open(GUEST, progress=stop)


def test_files_that_cannot_be_read(tmp_path):
    with pytest.raises(FileNotFoundError):
        zimgasol.verify(tmp_path / "none")
    with pytest.raises(IsADirectoryError):
        zimgasol.verify(tmp_path)
    before = len(os.listdir("/proc/self/fd"))
    with pytest.raises(FileNotFoundError):
        zimgasol.verify(GUEST, channels=[GUEST, tmp_path / "none"])
    gc.collect()
    assert len(os.listdir("/proc/self/fd")) == before
