#!/usr/bin/env python3
"""The gate: compares the documents, proves everything by `rt ci`, and runs the proved programs.

    tools/gate.py [--anew]

`.ci/run` and `make test` are this. It says how long it takes from nothing, and after each crate how
many are proved and in how many minutes. After `rt ci`, tools/runs/runs.py runs the programs that
were proved. If all passed, out/proved has a record of it (tools/records.py). The last line is
'N passed, M failed', of both together.
"""
import os
import re
import shutil
import subprocess
import sys
import time

import records
from crates import TOP, uses

FIRST = """From nothing this takes {times}. `make check` shows every test in ten minutes,
unproved. What passed before on this machine is taken from there."""
# (docs/build/BENCHMARKS.md, "The gate")
TIMES = "1 to 2 hours on 4 processors"
LAST = re.compile(r"(\d+) passed, (\d+) failed")
PROVED = re.compile(r"^rt: (\S+)( proved| is kept: .*)$")
# A check takes 2 to 4 GB.
ROOM = 4 << 20


def first_link():
    """Returns a symbolic link of the repository, None if it has none: `rt ci` refuses them."""
    for at, folders, files in os.walk(TOP):
        folders[:] = [name for name in folders if name != ".git"]
        for name in [*folders, *files]:
            if os.path.islink(os.path.join(at, name)):
                return os.path.relpath(os.path.join(at, name), TOP)
    return None


def jobs():
    """A processor for each check, where 4 GB are free for it: by itself `rt ci` leaves processors idle."""
    with open("/proc/meminfo") as info:
        free = int(re.search(r"MemAvailable: *(\d+)", info.read())[1])
    return str(max(1, min(len(os.sched_getaffinity(0)), free // ROOM)))


def prove(anew):
    """Runs `rt ci`, and says how far it is. Returns how many passed and failed."""
    # (a kit whose `rt ci` takes nothing from earlier runs has no --anew)
    known = subprocess.run(["rt", "help"], capture_output=True, text=True)
    words = ["rt", "ci", *["--anew"] * (anew and "--anew" in known.stdout + known.stderr)]
    env = {**os.environ, "RT_JOBS": os.environ.get("RT_JOBS") or jobs()}
    start, proved, last = time.monotonic(), set(), None
    with subprocess.Popen(words, cwd=TOP, env=env, stdout=subprocess.PIPE, stderr=subprocess.STDOUT, text=True) as ran:
        for line in ran.stdout:
            print(line, end="", flush=True)
            last = LAST.match(line) or last
            found = PROVED.match(line)
            if found and found[1].rstrip(":") in uses():
                proved.add(found[1].rstrip(":"))
                minutes = (time.monotonic() - start) / 60
                print(f"gate: {len(proved)} of {len(uses())} crates proved, {minutes:.0f} min", flush=True)
    if not last or (ran.returncode and last[2] == "0"):
        return 0, 1
    return int(last[1]), int(last[2])


def run_programs():
    """Runs the proved programs. Returns how many runs passed and failed."""
    ran = subprocess.run([sys.executable, TOP / "tools" / "runs" / "runs.py", "--built"], stdout=subprocess.PIPE, text=True)
    print(ran.stdout, end="", flush=True)
    last = LAST.match(ran.stdout.splitlines()[-1] if ran.stdout else "")
    if not last or (ran.returncode and last[2] == "0"):
        return 0, 1
    return int(last[1]), int(last[2])


def main(words):
    if words not in ([], ["--anew"]):
        sys.exit(__doc__)
    print(FIRST.format(times=TIMES), flush=True)
    if not shutil.which("rt"):
        print("there is no rt on the PATH: the Rattle kit has it in its folder bin\n0 passed, 1 failed")
        return 1
    link = first_link()
    if link:
        print(f"{link} is a symbolic link, and rt ci refuses those: move its folder out of the repository\n0 passed, 1 failed")
        return 1
    if subprocess.run(["make", "-s", "documents"], cwd=TOP).returncode:
        print("0 passed, 1 failed")
        return 1
    records.forget("gate")
    record = records.now("gate")
    passed, failed = prove(bool(words))
    if not failed:
        more, other = run_programs()
        passed, failed = passed + more, failed + other
    last = f"{passed} passed, {failed} failed"
    if passed and not failed:
        records.write_proved("gate", record, last=last, anew=bool(words))
    print(last)
    return 1 if failed or not passed else 0


if __name__ == "__main__":
    try:
        sys.exit(main(sys.argv[1:]))
    except KeyboardInterrupt:
        sys.exit(130)
