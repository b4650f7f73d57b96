"""Extracted files and saved streams, as the program writes and reads them."""

import io
import os
import subprocess
import threading

import pytest
import zimgasol
from conftest import CAPTURES, GUEST, found_program
from zimgasol.extracting import file_name

TEXT = GUEST.read_bytes()


def tree(folder):
    return {str(it.relative_to(folder)): it.read_bytes() for it in folder.rglob("*") if it.is_file()}


@pytest.mark.parametrize("digest", [False, True])
def test_extracted_files_are_the_programs(tmp_path, program, digest):
    report = zimgasol.extract(GUEST, tmp_path / "here", digest=digest)
    words = ["--digest"] if digest else []
    assert program("extract", str(GUEST), str(tmp_path / "there"), *words)[0] == 0
    assert tree(tmp_path / "here") == tree(tmp_path / "there")
    assert report.complete


def test_extracted_channels(tmp_path, program):
    main = CAPTURES / "none-11.1.3-eos.main"
    channels = [CAPTURES / f"none-11.1.3-eos.{i}" for i in (0, 1)]
    zimgasol.extract(main, tmp_path / "here", channels=channels)
    words = [it for path in channels for it in ("--channel", str(path))]
    assert program("extract", str(main), str(tmp_path / "there"), *words)[0] == 0
    assert tree(tmp_path / "here") == tree(tmp_path / "there")


def test_extracted_files_are_sparse(tmp_path):
    zimgasol.extract(CAPTURES / "none-10.0.13-huge.stream", tmp_path / "here")
    found = (tmp_path / "here/m0.bin").stat()
    assert found.st_size == 8388608
    assert found.st_blocks * 512 < 1 << 20


def test_nothing_is_left_of_a_bad_stream(tmp_path):
    path = tmp_path / "cut"
    path.write_bytes(TEXT[:50000])
    with pytest.raises(zimgasol.StreamError):
        zimgasol.extract(path, tmp_path / "here")
    assert not (tmp_path / "here").exists()
    with pytest.raises(zimgasol.IncompleteError):
        zimgasol.extract(GUEST.with_name("main.sav"), tmp_path / "here")
    assert not (tmp_path / "here").exists()
    zimgasol.extract(GUEST.with_name("main.sav"), tmp_path / "here", partial=True)
    state = ["state/after.bin", "state/before.bin"]
    assert sorted(tree(tmp_path / "here")) == ["blocks.json", "pc.ram.bin", *state]


def test_files_are_replaced_only_if_asked(tmp_path):
    here = tmp_path / "here"
    here.mkdir()
    (here / "ram.bin").write_bytes(b"old")
    with pytest.raises(FileExistsError):
        zimgasol.extract(GUEST, here)
    assert tree(here) == {"ram.bin": b"old"}
    path = tmp_path / "cut"
    path.write_bytes(TEXT[:50000])
    with pytest.raises(zimgasol.StreamError):
        zimgasol.extract(path, here, replace=True)
    assert tree(here) == {"ram.bin": b"old"}
    zimgasol.extract(GUEST, here, replace=True)
    assert len(tree(here)["ram.bin"]) == 131072


def test_no_room(tmp_path, monkeypatch):
    import shutil

    monkeypatch.setattr(shutil, "disk_usage", lambda _: shutil._ntuple_diskusage(9, 9, 9))
    with pytest.raises(OSError, match="may be needed"):
        zimgasol.extract(GUEST, tmp_path / "here")
    assert not (tmp_path / "here").exists()


def test_names_of_files(tmp_path, program):
    ids = ["pc.ram", "/objects/m 0", ".hidden", "..", "a" * 200, "b" * 201, "%", "@_-A9", "/" * 70]
    blocks = {name: bytes([i]) * 4096 for i, name in enumerate(ids)}
    zimgasol.save(tmp_path / "s.sav", blocks)
    zimgasol.extract(tmp_path / "s.sav", tmp_path / "here")
    assert program("extract", str(tmp_path / "s.sav"), str(tmp_path / "there"))[0] == 0
    assert tree(tmp_path / "here") == tree(tmp_path / "there")
    assert file_name("..", 0) == "%2E%2E.bin"


def guest_of(pages, seed=1):
    """Returns memory of pages of which every third has zeros alone."""
    made = bytearray(pages * 4096)
    for page in range(pages):
        if page % 3:
            made[page * 4096 : page * 4096 + 8] = (page * 977 + seed).to_bytes(8, "big")
    return made


BLOCKS = {"pc.ram": guest_of(700), "vga": bytes(guest_of(3, 5)), "one": memoryview(guest_of(1))}


@pytest.mark.parametrize("machine", [None, "pc-i440fx-10.0"])
@pytest.mark.parametrize("channels", [0, 1, 3])
def test_what_is_saved_is_loaded(tmp_path, program, machine, channels):
    path = tmp_path / "s.sav"
    saved = zimgasol.save(path, BLOCKS, machine=machine, channels=channels, uuid=b"u" * 16)
    assert (saved.pages, saved.bytes) == (704, path.stat().st_size)
    parts = [tmp_path / f"s.sav.{i}" for i in range(channels)]
    assert list(saved.channels) == [it.stat().st_size for it in parts]
    assert len(list(tmp_path.iterdir())) == 1 + channels
    with zimgasol.open(path, channels=parts) as guest:
        assert list(guest.blocks) == list(BLOCKS)
        assert {name: bytes(it) for name, it in guest.blocks.items()} == {
            name: bytes(it) for name, it in BLOCKS.items()
        }
    words = [it for part in parts for it in ("--channel", str(part))]
    status, found = program("verify", "--json", str(path), *words)
    assert (status, found["complete"]) == (0, True)
    if channels:
        assert found["uuid"] == "75757575-7575-7575-7575-757575757575"
    assert any(it.get("machine") == machine for it in found["notes"]) == (machine is not None)


def test_saved_streams_are_the_programs(tmp_path, program):
    words = []
    for i, (name, memory) in enumerate(BLOCKS.items()):
        (tmp_path / f"{i}.bin").write_bytes(memory)
        words += ["--block", f"{name}={tmp_path / f'{i}.bin'}"]
    zimgasol.save(tmp_path / "here.sav", BLOCKS)
    assert program("save", *words, str(tmp_path / "there.sav"))[0] == 0
    assert (tmp_path / "here.sav").read_bytes() == (tmp_path / "there.sav").read_bytes()


def test_other_uuids_are_refused(tmp_path):
    path = tmp_path / "s.sav"
    zimgasol.save(path, BLOCKS, channels=1, uuid=b"u" * 16)
    report = zimgasol.verify(path, channels=[f"{path}.0"], uuid=bytes(16))
    assert (report.fault.number, report.fault.source) == (37, 0)


def test_large_pages(tmp_path):
    zimgasol.save(tmp_path / "s", {"a": bytes(range(256)) * 96}, page_size=8192)
    with zimgasol.open(tmp_path / "s", page_size=8192) as guest:
        assert bytes(guest.blocks["a"]) == bytes(range(256)) * 96


def test_outputs_of_other_kinds(tmp_path):
    wanted = io.BytesIO()
    zimgasol.save(wanted, BLOCKS)
    out, into = os.pipe()
    found = []
    thread = threading.Thread(target=lambda: found.append(open(out, "rb").read()))
    thread.start()
    seen = []
    zimgasol.save(into, BLOCKS, progress=lambda done, total: seen.append((done, total)))
    os.close(into)
    thread.join()
    assert found == [wanted.getvalue()]
    assert seen[-1] == (704 * 4096, 704 * 4096)
    main, channels = io.BytesIO(), [io.BytesIO(), io.BytesIO()]
    zimgasol.save(main, BLOCKS, channels=channels)
    texts = [io.BytesIO(it.getvalue()) for it in (main, *channels)]
    with zimgasol.open(texts[0], channels=texts[1:]) as guest:
        assert bytes(guest.blocks["pc.ram"]) == bytes(BLOCKS["pc.ram"])


def test_a_pipe_into_the_program(tmp_path):
    path = found_program()
    if path is None:
        pytest.skip("the program zimgasol isn't built")
    ends = {"stdin": subprocess.PIPE, "stdout": subprocess.PIPE}
    with subprocess.Popen([path, "verify", "-"], **ends) as ran:
        zimgasol.save(ran.stdin, BLOCKS)
        ran.stdin.close()
        assert b"complete" in ran.stdout.read()
    assert ran.returncode == 0


def test_refused_saves(tmp_path):
    path = tmp_path / "s.sav"
    page = bytes(4096)
    for blocks, number in (({}, 1), ({"": page}, 3), ({"a": b""}, 5), ({"\n": page}, 3)):
        with pytest.raises(zimgasol.CallError) as raised:
            zimgasol.save(path, blocks)
        assert raised.value.number == number
    with pytest.raises(ValueError):
        zimgasol.save(path, {"a": bytes(4097)})
    with pytest.raises(ValueError):
        zimgasol.save(path, BLOCKS, uuid=b"u")
    with pytest.raises(zimgasol.CallError):
        zimgasol.save(path, BLOCKS, channels=256)
    with pytest.raises(zimgasol.CallError):
        zimgasol.save(path, BLOCKS, machine="m" * 1025)
    assert not list(tmp_path.iterdir())
    path.write_bytes(b"old")
    with pytest.raises(FileExistsError):
        zimgasol.save(path, BLOCKS)
    assert path.read_bytes() == b"old"
    zimgasol.save(path, BLOCKS, replace=True)

    def stop(done, total):
        raise RuntimeError("stop")

    before = path.read_bytes()
    with pytest.raises(RuntimeError):
        zimgasol.save(path, BLOCKS, replace=True, progress=stop)
    assert path.read_bytes() == before
    assert [it.name for it in tmp_path.iterdir()] == ["s.sav"]
