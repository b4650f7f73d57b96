"""Handles, the library that is found, and its version."""

import gc
import os
import subprocess
import sys
import threading
import weakref
from pathlib import Path

import pytest
import zimgasol
from conftest import GUEST, TOP
from zimgasol import Frame, Load, Table, Verdict, _library

TEXT = GUEST.read_bytes()


def run(code, **environment):
    """Runs a program in Python. Returns its status, and what it prints."""
    env = {it: os.environ[it] for it in os.environ if it != "ZIMGASOL_LIBRARY"}
    path = str(Path(zimgasol.__file__).parents[1])
    env.update({"PYTHONPATH": path, **environment})
    ran = subprocess.run([sys.executable, "-c", code], env=env, capture_output=True, text=True)
    return ran.returncode, ran.stdout + ran.stderr


def test_version():
    assert zimgasol.library_version() == "0.3.0" == zimgasol.__version__


def test_a_library_that_is_none(tmp_path):
    code = "import zimgasol; zimgasol.library_version()"
    for named in (str(tmp_path / "none.so"), "libc.so.6"):
        status, said = run(code, ZIMGASOL_LIBRARY=named)
        assert status == 1 and "LibraryError" in said and named in said


def test_a_library_of_another_version(tmp_path):
    source, made = tmp_path / "other.c", tmp_path / "other.so"
    calls = "".join(
        f"int zimgasol_{name}(void) {{ return {400 if name == 'version' else 0}; }}\n"
        for name in _library._CALLS
    )
    source.write_text(calls)
    try:
        subprocess.run(["cc", "-shared", "-fPIC", "-o", made, source], check=True)
    except (OSError, subprocess.CalledProcessError):
        pytest.skip("there is no C compiler")
    status, said = run("import zimgasol; zimgasol.library_version()", ZIMGASOL_LIBRARY=str(made))
    assert status == 1 and "version 0.4.0, not 0.3" in said


def test_declarations_are_the_headers():
    header = (TOP / "include/zimgasol.h").read_text()
    for name in _library._CALLS:
        assert f" zimgasol_{name}(" in header
    kinds = {
        "RawFault": "fault",
        "RawStanding": "standing",
        "Settings": "settings",
        "SendSettings": "send_settings",
        "RawSource": "source",
    }
    for kind, fields in kinds.items():
        text = header[header.index(f"typedef struct zimgasol_{fields} {{") :].partition("}")[0]
        names = [it.split()[-1].partition("[")[0] for it in text.split(";")[:-1]]
        assert [it[0] for it in getattr(_library, kind)._fields_] == names


def test_texts():
    assert zimgasol.status_text(34) != zimgasol.status_text(12)
    assert "unknown" in zimgasol.status_text(99)


def test_a_load_by_pieces():
    table = Table.of_stream(TEXT[:4096])
    assert [(it.id, it.pages) for it in table.blocks] == [("ram", 32)]
    memory = bytearray(table.total)
    with Load(table, [memory], zero_blocks=True) as load:
        for at in range(0, len(TEXT), 1000):
            if load.takes(0):
                assert load.feed(0, TEXT[at : at + 1000]) == len(TEXT[at : at + 1000])
        assert load.verdict() is Verdict.DONE
        assert load.standing().closed_at == 86395
        assert load.fault() is load.fault_of(0) is None
        assert load.feed(0, b"") == 0
        with pytest.raises(BufferError):
            memory.append(0)  # the load has it
    memory.append(0)
    assert load.closed
    with pytest.raises(ValueError):
        load.verdict()
    with zimgasol.open(GUEST) as guest:
        assert bytes(guest.blocks["ram"]) == memory[:-1]


def test_refused_calls():
    table = Table(4096, [("ram", 2)])
    for blocks in ([bytearray(8191)], [bytearray(8192)] * 2, []):
        with pytest.raises(zimgasol.CallError) as raised:
            Load(table, blocks)
        assert raised.value.number == 108
    with pytest.raises(TypeError):
        Load(table, [bytes(8192)])
    with pytest.raises(zimgasol.CallError) as raised:
        Load(table, [bytearray(8192)], 256)
    assert raised.value.number == 103
    load = Load(table, [bytearray(8192)], frame=Frame.RAM)
    load.end(0)
    with pytest.raises(zimgasol.CallError) as raised:
        load.feed(0, b"Q")
    assert raised.value.number == 105
    assert load.fault().number == 34
    with pytest.raises(zimgasol.CallError):
        load.end(1)
    with pytest.raises(ValueError):
        load.feed(0, b"Q", 0, 2)
    for pages in ([("a", 0)], [("a", 1), ("a", 1)], [("a", 2**40)]):
        with pytest.raises(zimgasol.CallError):
            Table(4096, pages)
    with pytest.raises(ValueError):
        Table(4096, [("a\0b", 1)])


def test_handles_are_freed_with_their_objects():
    table = Table(4096, [("ram", 1)])
    load = Load(table, [bytearray(4096)])
    seen = weakref.ref(load)
    finalizer = load._finalizer
    del load, table
    gc.collect()
    assert seen() is None and not finalizer.alive


def test_threads_share_a_load():
    table = Table.of_stream(TEXT[:4096])
    load = Load(table, [bytearray(table.total)])
    stop = threading.Event()
    threads = [
        threading.Thread(target=lambda: [load.standing() for _ in iter(stop.is_set, True)])
        for _ in range(3)
    ]
    for it in threads:
        it.start()
    for at in range(0, 86395, 333):
        load.feed(0, TEXT[at : min(86395, at + 333)])
    stop.set()
    for it in threads:
        it.join()
    assert load.verdict() is Verdict.DONE


def test_loads_on_threads():
    found = []
    threads = [
        threading.Thread(target=lambda: found.append(zimgasol.verify(GUEST).complete))
        for _ in range(8)
    ]
    for it in threads:
        it.start()
    for it in threads:
        it.join()
    assert found == [True] * 8


def test_memory_stays_small():
    """A guest of 4 GiB of zeros takes hardly any memory."""
    code = """
import resource, zimgasol
before = resource.getrusage(resource.RUSAGE_SELF).ru_maxrss
table = zimgasol.Table(4096, [("ram", 1 << 20)])
import io
out = io.BytesIO()
sender = zimgasol.Sender(table)
import ctypes
room = ctypes.create_string_buffer(1 << 16)
sender.begin_round()
zeros = ctypes.create_string_buffer(4096)
for page in range(0, 1 << 20, 64):
    sender.put_pages(0, page, 1, ctypes.addressof(zeros), 4096)
sender.end_round()
sender.finish()
while (count := sender.drain(0, room)):
    out.write(room.raw[:count])
with zimgasol.open(io.BytesIO(out.getvalue()), partial=True) as guest:
    assert guest.pages == 1 << 20 and guest.missing == (1 << 20) - (1 << 14)
assert resource.getrusage(resource.RUSAGE_SELF).ru_maxrss - before < 64 << 10
"""
    named = os.environ["ZIMGASOL_LIBRARY"]
    assert run(code, ZIMGASOL_LIBRARY=named) == (0, "")


def test_what_follows_ram_in_pieces():
    from zimgasol._tail import Tail

    text = TEXT[86395:]
    for step in (1, 7, 100, 5000):
        for more, wanted in ((b"", "whole"), (b"\0", "extra"), (b"x", "extra")):
            tail, whole = Tail(), text + more
            for at in range(0, len(whole), step):
                tail.take(whole[at : at + step])
            assert tail.state() == wanted
