"""The state of a machine beside its RAM. tools/stream_facts.py, which shares nothing with the library
or the package, says where it is in a stream.
"""

import io
import sys

import pytest
import zimgasol
from conftest import CAPTURES, GUEST, TOP
from zimgasol import State

sys.path.append(str(TOP / "tools"))
import channel_facts  # noqa: E402
import stream_facts  # noqa: E402

# machines of QEMU 7.2, whose RAM has the section id 2, and 10.0; one with capabilities before RAM,
# and one that leaves out shared memory, whose address follows its entry of the size list
STREAMS = [CAPTURES / f"none-{it}.stream" for it in ("7.2.22", "10.0.2", "10.0.13-huge")]
SHARED = CAPTURES / "none-10.0.13-shared.stream"
MAIN = CAPTURES / "none-11.1.3-eos.main"
CHANNELS = [CAPTURES / f"none-11.1.3-eos.{i}" for i in (0, 1)]


def libvirt_header(xml=b"<domain/>\0", order="little", packed=0):
    """libvirt's header: a magic, and 19 numbers of 4 bytes."""
    numbers = [2, len(xml), 1, packed, 0] + [0] * 14
    return b"LibvirtQemudSave" + b"".join(it.to_bytes(4, order) for it in numbers) + xml


def parts(text):
    """The state in a stream: before RAM's records, and after RAM."""
    found = stream_facts.facts(text)
    return text[: found["list_end"]], text[found["end"] :]


def tree(folder):
    return {str(it.relative_to(folder)): it.read_bytes() for it in folder.rglob("*") if it.is_file()}


def state_in(folder):
    return {it.name: it.read_bytes() for it in (folder / "state").iterdir()}


@pytest.mark.parametrize("path", [*STREAMS, SHARED, GUEST], ids=lambda it: it.name)
def test_extracted_state(tmp_path, path):
    before, after = parts(path.read_bytes())
    zimgasol.extract(path, tmp_path / "here", partial=path == SHARED)
    assert state_in(tmp_path / "here") == {"before.bin": before, "after.bin": after}


@pytest.mark.parametrize("order", ["little", "big"])
def test_libvirts_header_is_kept(tmp_path, order):
    header = libvirt_header(order=order)
    path = tmp_path / "s.sav"
    path.write_bytes(header + GUEST.read_bytes())
    before, after = parts(GUEST.read_bytes())
    zimgasol.extract(path, tmp_path / "here")
    wanted = {"libvirt.bin": header, "before.bin": before, "after.bin": after}
    assert state_in(tmp_path / "here") == wanted
    zimgasol.save(tmp_path / "back.sav", state=tmp_path / "here")
    assert (tmp_path / "back.sav").read_bytes().startswith(header + before)
    # an old header isn't that of another stream
    zimgasol.extract(GUEST, tmp_path / "here", replace=True)
    assert state_in(tmp_path / "here") == {"before.bin": before, "after.bin": after}


def test_state_of_channels(tmp_path):
    texts = [it.read_bytes() for it in (MAIN, *CHANNELS)]
    found = channel_facts.facts(texts[0], texts[1:])
    zimgasol.extract(MAIN, tmp_path / "here", channels=CHANNELS)
    wanted = {"before.bin": texts[0][: found["list_end"]], "after.bin": texts[0][found["end"] :]}
    assert state_in(tmp_path / "here") == wanted
    # a machine's stream of its own, with the memory that went over the channels
    zimgasol.save(tmp_path / "one.sav", state=tmp_path / "here")
    text = (tmp_path / "one.sav").read_bytes()
    assert parts(text) == (wanted["before.bin"], wanted["after.bin"])
    assert stream_facts.facts(text)["memory"] == found["memory"]


class Slow(io.RawIOBase):
    """An input that gives few bytes at once, without a length."""

    def __init__(self, text, step):
        self.text, self.step, self.at = text, step, 0

    def readable(self):
        return True

    def readinto(self, room):
        piece = self.text[self.at : self.at + min(self.step, len(room))]
        room[: len(piece)] = piece
        self.at += len(piece)
        return len(piece)


@pytest.mark.parametrize("step", [1, 7, 4096])
def test_state_of_an_opened_guest(step):
    text = STREAMS[0].read_bytes()
    header = libvirt_header()
    with zimgasol.open(Slow(header + text, step), state=True) as guest:
        found = guest.state
    assert (found.libvirt, found.before, found.after) == (header, *parts(text))
    with zimgasol.open(GUEST) as guest:
        assert guest.state is None
    with pytest.raises(ValueError, match="ram_only"):
        zimgasol.open(GUEST, state=True, ram_only=True)


@pytest.mark.parametrize("path", [*STREAMS, GUEST], ids=lambda it: it.name)
def test_saved_with_its_state(tmp_path, path):
    text = path.read_bytes()
    zimgasol.extract(path, tmp_path / "here")
    saved = zimgasol.save(tmp_path / "back.sav", state=tmp_path / "here")
    back = (tmp_path / "back.sav").read_bytes()
    assert saved.bytes == len(back)
    assert parts(back) == parts(text)
    assert stream_facts.facts(back)["memory"] == stream_facts.facts(text)["memory"]
    assert zimgasol.verify(tmp_path / "back.sav").complete
    with zimgasol.open(path, state=True) as guest:
        out = io.BytesIO()
        zimgasol.save(out, guest.blocks, state=guest.state)
    assert out.getvalue() == back


def test_saved_with_other_memory(tmp_path):
    zimgasol.extract(GUEST, tmp_path / "here")
    other = bytes(range(256)) * 512
    zimgasol.save(tmp_path / "other.sav", {"ram": other}, state=tmp_path / "here")
    found = stream_facts.facts((tmp_path / "other.sav").read_bytes())
    assert found["memory"] == {"ram": other}
    # (pages of 256 in a section, each with the machine's id)
    large = zimgasol.extract(STREAMS[2], tmp_path / "large")
    assert large.pages == 2048
    zimgasol.save(tmp_path / "large.sav", state=tmp_path / "large")
    assert zimgasol.verify(tmp_path / "large.sav").rounds == 10


def test_memory_that_was_changed(tmp_path):
    text = GUEST.read_bytes()
    wanted = stream_facts.facts(text)["memory"]["ram"]
    wanted[:4] = b"four"
    with zimgasol.open(GUEST, state=True) as guest:
        guest.blocks["ram"][:4] = b"four"
        zimgasol.save(tmp_path / "changed.sav", guest.blocks, state=guest.state)
    changed = (tmp_path / "changed.sav").read_bytes()
    assert stream_facts.facts(changed)["memory"] == {"ram": wanted}
    assert parts(changed) == parts(text)


def test_without_state(tmp_path):
    zimgasol.extract(GUEST, tmp_path / "here", state=False)
    assert sorted(tree(tmp_path / "here")) == ["blocks.json", "ram.bin"]
    with pytest.raises(zimgasol.FileFormatError, match="no state"):
        zimgasol.save(tmp_path / "s.sav", state=tmp_path / "here")
    zimgasol.extract(GUEST, tmp_path / "there")
    with pytest.raises(FileExistsError):
        zimgasol.extract(GUEST, tmp_path / "there", state=False)
    zimgasol.extract(GUEST, tmp_path / "there", state=False, replace=True)
    assert tree(tmp_path / "there") == tree(tmp_path / "here")
    assert not (tmp_path / "there/state").exists()


def test_nothing_is_left_of_a_bad_stream(tmp_path):
    text = GUEST.read_bytes()
    (tmp_path / "cut").write_bytes(text[:50000])
    with pytest.raises(zimgasol.StreamError):
        zimgasol.extract(tmp_path / "cut", tmp_path / "here")
    assert not (tmp_path / "here").exists()
    zimgasol.extract(GUEST, tmp_path / "here")
    before = tree(tmp_path / "here")
    with pytest.raises(zimgasol.StreamError):
        zimgasol.extract(tmp_path / "cut", tmp_path / "here", replace=True)
    assert tree(tmp_path / "here") == before


def test_old_files_of_a_state_are_in_the_way(tmp_path):
    old = tmp_path / "here/state/after.bin"
    old.parent.mkdir(parents=True)
    old.write_bytes(b"old")
    for state in (True, False):
        with pytest.raises(FileExistsError):
            zimgasol.extract(GUEST, tmp_path / "here", state=state)
        assert tree(tmp_path / "here") == {"state/after.bin": b"old"}


def wrong_states():
    before, after = parts(GUEST.read_bytes())
    shared = parts(SHARED.read_bytes())[0]
    return {
        "a byte less before": (before[:-1], after, b""),
        "a record's word more before": (before + bytes(7) + b"\x10", after, b""),
        "a word of zeros more before": (before + bytes(8) + b"\x10", after, b""),
        "no stream before": (b"no stream" * 9, after, b""),
        "shared memory left out": (shared, after, b""),
        "cut after": (before, after[:-1], b""),
        "nothing after": (before, b"", b""),
        "more after": (before, after + b"x", b""),
        "a header that is cut": (before, after, libvirt_header()[:-1]),
        "a header of a compressed stream": (before, after, libvirt_header(packed=1)),
        "no header": (before, after, b"x" * 92),
    }


@pytest.mark.parametrize("name", wrong_states())
def test_wrong_states(tmp_path, name):
    before, after, libvirt = wrong_states()[name]
    with pytest.raises(zimgasol.FileFormatError):
        zimgasol.save(tmp_path / "s.sav", {"ram": bytes(131072)}, state=State(before, after, libvirt))
    zimgasol.extract(GUEST, tmp_path / "here")
    for file, text in (("before.bin", before), ("after.bin", after), ("libvirt.bin", libvirt)):
        if text or file == "after.bin":
            (tmp_path / "here/state" / file).write_bytes(text)
    with pytest.raises(zimgasol.FileFormatError):
        zimgasol.save(tmp_path / "s.sav", state=tmp_path / "here")
    assert sorted(it.name for it in tmp_path.iterdir()) == ["here"]


def test_refused_arguments(tmp_path):
    zimgasol.extract(GUEST, tmp_path / "here")
    how = {"state": tmp_path / "here"}
    for blocks in ({"other": bytes(4096)}, {"ram": bytes(4096)}):
        with pytest.raises(ValueError):
            zimgasol.save(tmp_path / "s.sav", blocks, **how)
    for more in ({"channels": 1}, {"machine": "none"}, {"page_size": 8192}):
        with pytest.raises(ValueError):
            zimgasol.save(tmp_path / "s.sav", **how, **more)
    with pytest.raises(ValueError):
        zimgasol.save(tmp_path / "s.sav", {}, state=State(*parts(GUEST.read_bytes())))
    with pytest.raises(ValueError):
        zimgasol.save(tmp_path / "s.sav")
    (tmp_path / "here/ram.bin").unlink()
    with pytest.raises(FileNotFoundError):
        zimgasol.save(tmp_path / "s.sav", **how)
    assert sorted(it.name for it in tmp_path.iterdir()) == ["here"]


@pytest.mark.parametrize("path", [*STREAMS, GUEST], ids=lambda it: it.name)
@pytest.mark.parametrize("header", [b"", libvirt_header()], ids=["", "libvirt"])
def test_the_program_writes_the_same(tmp_path, program, path, header):
    source = tmp_path / "s.sav"
    source.write_bytes(header + path.read_bytes())
    zimgasol.extract(source, tmp_path / "here")
    assert program("extract", str(source), str(tmp_path / "there"))[0] == 0
    assert tree(tmp_path / "here") == tree(tmp_path / "there")
    zimgasol.save(tmp_path / "here.sav", state=tmp_path / "here")
    words = ["--state", str(tmp_path / "there"), str(tmp_path / "there.sav")]
    assert program("save", *words)[0] == 0
    assert (tmp_path / "here.sav").read_bytes() == (tmp_path / "there.sav").read_bytes()


def test_the_program_refuses_the_same(tmp_path, program):
    for name, (before, after, libvirt) in wrong_states().items():
        folder = tmp_path / name
        zimgasol.extract(GUEST, folder)
        for file, text in (("before.bin", before), ("after.bin", after), ("libvirt.bin", libvirt)):
            if text or file == "after.bin":
                (folder / "state" / file).write_bytes(text)
        assert (name, program("save", "--state", str(folder), str(tmp_path / "s"))[0]) == (name, 1)
