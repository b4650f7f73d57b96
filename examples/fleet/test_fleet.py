"""The fleet with four local workers: results, a worker that is killed, and runs that go on.

    PYTHONPATH=bindings/python python3 -m pytest examples/fleet

The lines of GNU parallel are tried too, if `parallel` is installed and the program is built.
"""

import json
import os
import shlex
import shutil
import signal
import subprocess
import sys
import threading
import time
from collections import Counter
from pathlib import Path

import pytest

TOP = Path(__file__).resolve().parents[2]
os.environ.setdefault("ZIMGASOL_LIBRARY", str(TOP / "out/libzimgasol.so"))
sys.path[:0] = [str(TOP / "bindings/python"), str(Path(__file__).parent)]
# (the workers are processes that import the package, too)
os.environ["PYTHONPATH"] = os.pathsep.join(sys.path[:2])

pytest.importorskip("distributed")
import verify_fleet as fleet  # noqa: E402
import zimgasol  # noqa: E402
from distributed import Client, LocalCluster  # noqa: E402

PROGRAMS = (TOP / "out/zimgasol", TOP / "crates/zimgasol_cli/out/zimgasol_cli")
PROGRAM = next((it for it in PROGRAMS if it.exists()), None)
OPTIONS = {"program": None, "restore": None, "page": 4096, "limit": 1 << 40}
SAVES, PAGES = 40, 2048


def memory_of(seed):
    """Returns memory of which each page has a few bytes."""
    made = bytearray(PAGES * 4096)
    for page in range(PAGES):
        made[page * 4096 : page * 4096 + 8] = (seed * PAGES + page + 1).to_bytes(8, "little")
    return made


@pytest.fixture(scope="module")
def saves(tmp_path_factory):
    """A folder of saves: every fifth one is cut, every seventh has a wrong byte."""
    folder = tmp_path_factory.mktemp("saves")
    wanted = {}
    for i in range(SAVES):
        path = folder / f"guest-{i:02}.sav"
        channels = 2 if i == 3 else 0
        zimgasol.save(path, {"pc.ram": memory_of(i)}, machine="none", channels=channels)
        wanted[str(path)] = (0, None)
        if i % 5 == 4:
            os.truncate(path, path.stat().st_size // 2)
            wanted[str(path)] = (1, 34)
        elif i % 7 == 6:
            with path.open("r+b") as file:
                file.write(b"X")
            wanted[str(path)] = (1, 11)
    return folder, wanted


@pytest.fixture
def cluster():
    with LocalCluster(
        n_workers=4, threads_per_worker=1, dashboard_address=None, memory_limit=0
    ) as made, Client(made) as client:
        yield made, client


def lines_of(path):
    return [json.loads(it) for it in Path(path).read_text().splitlines()]


def found_in(path):
    return {it["file"]: (it["status"], it["fault"]) for it in lines_of(path)}


def kill_one(client, after, lines):
    """Kills a worker that has a save in hand, once there are some results. Returns its process."""
    deadline = time.monotonic() + 60
    while time.monotonic() < deadline:
        if lines.exists() and len(lines.read_text().splitlines()) >= after:
            busy = [it for it, keys in client.processing().items() if keys]
            if busy:
                victim = client.run(os.getpid, workers=busy[:1])[busy[0]]
                os.kill(victim, signal.SIGKILL)
                return victim
        time.sleep(0.01)
    return None


def test_a_worker_is_killed(saves, cluster, tmp_path):
    folder, wanted = saves
    lines = tmp_path / "results"
    _, client = cluster
    killed = []
    killer = threading.Thread(target=lambda: killed.append(kill_one(client, 5, lines)))
    results = fleet.Results(str(lines))
    killer.start()
    paths = fleet.saves_in([str(folder)], None, (".sav",))
    finished = fleet.verify_all(client, paths, results, OPTIONS)
    killer.join()
    results.close()
    assert killed[0] is not None
    rows = lines_of(lines)
    assert Counter(it["file"] for it in rows) == Counter(list(wanted))
    assert not [it for it in rows if it["status"] == 3]
    assert found_in(lines) == wanted and sorted(finished) == sorted(wanted)
    # what the killed worker had in hand was done by others
    processes = Counter(it["process"] for it in rows)
    assert len(rows) - processes[killed[0]] >= SAVES // 2 and len(processes) >= 3


def test_a_run_goes_on(saves, cluster, tmp_path):
    folder, wanted = saves
    lines = tmp_path / "results"
    _, client = cluster
    paths = fleet.saves_in([str(folder)], None, (".sav",))
    results = fleet.Results(str(lines))
    with pytest.raises(BlockingIOError):
        fleet.Results(str(lines))  # another run has it
    assert len(fleet.verify_all(client, paths[:15], results, OPTIONS)) == 15
    results.close()
    # a run that was killed while it wrote a line left a part of one
    whole = lines.read_bytes()
    lines.write_bytes(whole + b'{"file": "/sa')
    results = fleet.Results(str(lines))
    assert sorted(fleet.verify_all(client, paths, results, OPTIONS)) == sorted(paths[15:])
    assert fleet.verify_all(client, paths, results, OPTIONS) == []
    results.close()
    assert lines.read_bytes().startswith(whole)
    assert Counter(it["file"] for it in lines_of(lines)) == Counter(list(wanted))
    # a save that was written again is verified again
    os.utime(paths[0], ns=(1, 1))
    results = fleet.Results(str(lines))
    assert fleet.verify_all(client, paths, results, OPTIONS) == paths[:1]
    results.close()


def test_a_save_that_fails_its_worker(saves, cluster, tmp_path):
    folder, _ = saves
    _, client = cluster
    path = str(folder / "guest-00.sav")
    results = fleet.Results(str(tmp_path / "results"))
    # an exception that isn't foreseen: a page size of None
    fleet.verify_all(client, [path], results, {**OPTIONS, "page": None})
    assert results.rows[path]["status"] == 3 and "TypeError" in results.rows[path]["error"]
    # a program that kills the worker which runs it
    program = tmp_path / "killer"
    program.write_text("#!/bin/sh\nkill -9 $PPID\n")
    program.chmod(0o755)
    fleet.verify_all(client, [path], results, {**OPTIONS, "program": str(program)})
    assert results.rows[path]["status"] == 3 and "KilledWorker" in results.rows[path]["error"]
    # what wasn't read is read by a later run, by the workers that were started again
    assert fleet.verify_all(client, [path], results, OPTIONS) == [path]
    assert results.rows[path]["status"] == 0
    results.close()


def run_job(*words):
    program = [sys.executable, Path(fleet.__file__), *map(str, words)]
    ran = subprocess.run(program, capture_output=True, text=True, timeout=300)
    return ran.returncode, ran.stdout.strip()


def test_the_job_as_a_program(saves, tmp_path):
    folder, wanted = saves
    counts = Counter(status for status, _ in wanted.values())
    words = ["--workers", 4, "--results", tmp_path / "r", "--table", tmp_path / "t", folder]
    said = f"{SAVES} saves: {counts[0]} passed, {counts[1]} refused, 0 not read; "
    assert run_job(*words) == (1, said + "0 were done before")
    assert run_job(*words) == (1, said + f"{SAVES} were done before")
    names, *rows = [it.split("\t") for it in (tmp_path / "t").read_text().splitlines()]
    assert tuple(names) == fleet.COLUMNS and len(rows) == SAVES
    row = dict(zip(names, rows[0]))
    assert (row["guest"], row["pages"]) == (f"pc.ram={PAGES * 4096}", str(PAGES))
    assert int(row["rate"]) > 0


def test_saves_are_restored(saves, tmp_path):
    folder, wanted = saves
    listed = [*sorted(wanted)[:8], f"{tmp_path}/none"]
    (tmp_path / "list").write_text("".join(f"{it}\n" for it in listed))
    words = ["--workers", 2, "--results", tmp_path / "r", "--list", tmp_path / "list"]
    assert run_job(*words, "--restore", tmp_path / "out")[0] == 3
    for i, path in enumerate(sorted(wanted)[:8]):
        made = Path(fleet.folder_of(path, str(tmp_path / "out"))) / "pc.ram.bin"
        assert made.exists() == (wanted[path][0] == 0)
        if made.exists():
            assert made.read_bytes() == memory_of(i)
    assert not list((tmp_path / "out").rglob("*.partial"))


@pytest.mark.skipif(PROGRAM is None, reason="the program zimgasol isn't built: make program")
def test_by_the_program(saves, cluster, tmp_path):
    folder, wanted = saves
    _, client = cluster
    results = fleet.Results(str(tmp_path / "results"))
    paths = fleet.saves_in([str(folder)], None, (".sav",))
    fleet.verify_all(client, paths, results, {**OPTIONS, "program": str(PROGRAM)})
    results.close()
    assert found_in(tmp_path / "results") == wanted


@pytest.mark.skipif(PROGRAM is None, reason="the program zimgasol isn't built: make program")
@pytest.mark.skipif(shutil.which("parallel") is None, reason="parallel isn't installed")
def test_the_line_of_gnu_parallel(saves, tmp_path):
    folder, wanted = saves
    text = (Path(__file__).parent / "README.md").read_text()
    line = next(it.strip() for it in text.splitlines() if it.strip().startswith("find "))
    line = line.replace("/saves", shlex.quote(str(folder))).replace(" zimgasol ", f" {PROGRAM} ")
    plain = {it: wanted[it] for it in wanted if "guest-03" not in it}

    def run():
        subprocess.run(["bash", "-c", line], cwd=tmp_path, capture_output=True, timeout=300)
        rows = [json.loads(it) for it in (tmp_path / "night.jsonl").read_text().splitlines()]
        return [(it["file"], it["complete"], (it.get("fault") or {}).get("number")) for it in rows]

    found = run()
    assert len(found) == len(wanted)
    for path, complete, fault in found:
        if path in plain:
            assert (0 if complete else 1, fault) == plain[path]
    # a second run has nothing to do, and after a part of the log was lost it does that part
    assert run() == found
    log = (tmp_path / "night.log").read_text().splitlines(keepends=True)
    (tmp_path / "night.log").write_text("".join(log[:-3]))
    assert len(run()) == len(found) + 3
