#!/usr/bin/env python3
"""Runs the built tool as a shell does, and compares its output and exit status.

    tools/try_tool.py [PROGRAM ..]

PROGRAM is the tool's command, by default crates/mig_tool/out/mig_tool. All examples of crates/mig_tool/README.md
run in their order, in bash, with named pipes. A folder takes the place of each of the page's
machines, and a script that of `ssh`, which runs the command in the folder `there`. Then follow
arguments, pipes, and outputs and inputs that are closed or fail.
"""
import os
import shlex
import shutil
import signal
import subprocess
import sys
import tempfile
import threading
from pathlib import Path

from tool_page import BEYOND, OTHERS, PAGE, TOP, scenario_of

BUILT = TOP / "crates" / "mig_tool" / "out" / "mig_tool"
SECONDS = 20
PROMPTS = {"    $ ": "one", "    here$ ": "here", "    there$ ": "there"}
SSH = """#!/bin/sh
shift
cd ../there && exec sh -c "$*"
"""
SCENARIO = "block 1 a\nset 0 0 7\nround\n"
LARGE = "block 129 a\n" + "".join(f"fill 0 {page} 7\n" for page in range(129)) + "round\n"
ANSWER = "single 4199 sections 3\nsame\n"
MULTI_ANSWER = "single 4199 sections 3\nmulti 101 8256 rounds 1\nsame\n"
# A command, what it prints, or None where nothing is promised, and its status.
RUNS = (
    ("mig_tool < s", ANSWER, 0),
    ("cat s | mig_tool", ANSWER, 0),
    ("(cat s; sleep 1) | mig_tool check", ANSWER, 0),
    ("mig_tool check --channels 2 < s", MULTI_ANSWER, 0),
    ("mig_tool < /dev/null", "fault 82 table 1\n", 1),
    ("mig_tool frob < s", "fault 88\n", 2),
    ("mig_tool '' < s", "fault 88\n", 2),
    ("mig_tool $'\\xff' < s", "fault 88\n", 2),
    ("mig_tool check --channels $'1\\xff' < s", "fault 88\n", 2),
    ("mig_tool send s o --uuid z", "fault 86\n", 2),
    ("mig_tool send s 'a file'; mig_tool load 'a file' i", "sent 4199 0\nloaded sections 3\n", 0),
    ("mig_tool compare s s", "fault 85\n", 1),
    ("mig_tool compare large i", "fault 85\n", 1),
    ("mig_tool send large l; mig_tool load l i", "sent 529511 0\nloaded sections 3\n", 0),
    ("mig_tool compare large i", "same\n", 0),
    ("mig_tool < .", "fault 90\n", 3),
    ("mig_tool <&-", "fault 90\n", 3),
    ("mig_tool send s /dev/fd/9 9>&-", "fault 91\n", 3),
    ("mig_tool < s > /dev/full", None, 3),
    ("mig_tool < s >&-", None, 3),
    ("mkdir g.1; echo 1 > g; mig_tool send s g --channels 2; cat g", "fault 91\n1\n", 0),
    ("mkfifo f; head -c 1 f > one & mig_tool send large f", "fault 91\n", 3),
    ("mig_tool send s /dev/fd/3 3>&1 >sent | mig_tool load /dev/stdin i", "loaded sections 3\n", 0),
    ("cat sent", "sent 4199 0\n", 0),
)


class Shell:
    """A shell in a folder, which runs one command after another and keeps what each printed."""

    MARK = "# the command has ended"

    def __init__(self, folder, path):
        env = {**os.environ, "PATH": f"{path}:{os.environ['PATH']}"}
        pipes = {"stdin": subprocess.PIPE, "stdout": subprocess.PIPE}
        how = {"cwd": folder, "env": env, "text": True, "start_new_session": True}
        self.bash = subprocess.Popen(["bash"], **how, **pipes)
        self.printed, self.has_ended = [[]], threading.Condition()
        self.reader = threading.Thread(target=self.read, daemon=True)
        self.reader.start()

    def read(self):
        for line in self.bash.stdout:
            with self.has_ended:
                if line == f"{self.MARK}\n":
                    self.printed.append([])
                    self.has_ended.notify_all()
                else:
                    self.printed[-1].append(line)

    def end(self):
        """Ends the shell, with all that it began."""
        os.killpg(self.bash.pid, signal.SIGKILL)
        self.bash.wait()

    def begin(self, command):
        """Gives the shell a command, after which its status is that command's."""
        self.bash.stdin.write(f"{command}\n{{ status=$?; echo '{self.MARK}'; (exit $status); }}\n")
        self.bash.stdin.flush()

    def printed_by(self, number):
        """What a command printed, after its end."""
        with self.has_ended:
            if not self.has_ended.wait_for(lambda: len(self.printed) > number + 1, SECONDS):
                sys.exit(f"a command of the page had no end after {SECONDS} seconds")
            return self.printed[number]


def examples(text):
    """The commands of the page, each with the machine that it runs on and what stands below it."""
    found, machine = [], "alone"
    for line in text.splitlines():
        prompt = next((it for it in PROMPTS if line.startswith(it)), None)
        if line == BEYOND:
            machine = None
        elif prompt:
            found.append((machine or PROMPTS[prompt], line[len(prompt):], []))
        elif line.startswith("    ") and found:
            found[-1][2].append(f"{line[4:]}\n")
    return found


def is_right(command, printed, wanted):
    if " & " in command:
        printed, wanted = sorted(printed), sorted(wanted)
    other = [f"{OTHERS.get(line.strip(), line.strip())}\n" for line in wanted]
    return printed in (wanted, other)


def report(command, expected, came):
    return f"{command}\n  expected {expected!r}\n  came     {came!r}"


def run_page(folder, path):
    """Runs the page's examples. Returns how many there are, and those that went wrong."""
    text = PAGE.read_text()
    places = {name: folder / name for name in ("alone", "one", "here", "there")}
    for place in places.values():
        place.mkdir()
        (place / "s").write_text(scenario_of(text).replace("\\n", "\n"))
    shells = {name: Shell(place, path) for name, place in places.items()}
    try:
        return run_examples(text, places, shells)
    finally:
        for shell in shells.values():
            shell.end()


def run_examples(text, places, shells):
    """Runs the examples in the shells of their machines. Returns what run_page returns."""
    begun = {name: 0 for name in places}
    pending, wrong, count = [], [], 0
    for name, command, wanted in examples(text):
        count += 1
        if command.startswith("cat ") and not (places[name] / command[4:]).exists():
            (places[name] / command[4:]).write_text("".join(wanted))
        shells[name].begin(command)
        pending.append((name, begun[name], command, wanted))
        begun[name] += 1
        # (a loader that waits for pipes runs beside what is sent; all else one after another)
        if not (name == "there" and "mig_tool load" in command):
            shells[name].printed_by(begun[name] - 1)
    for name, number, command, wanted in pending:
        printed = shells[name].printed_by(number)
        if not is_right(command, printed, wanted):
            wrong.append(report(command, "".join(wanted), "".join(printed)))
    return count, wrong


def run_more(folder, path):
    """Runs the commands of RUNS. Returns what run_page returns."""
    env = {**os.environ, "PATH": f"{path}:{os.environ['PATH']}"}
    place, wrong = folder / "more", []
    place.mkdir()
    (place / "s").write_text(SCENARIO)
    (place / "large").write_text(LARGE)
    (place / "i").write_text("")
    for command, wanted, status in RUNS:
        how = {"stdin": subprocess.DEVNULL, "stdout": subprocess.PIPE, "timeout": SECONDS}
        ran = subprocess.run(["bash", "-c", command], cwd=place, env=env, **how)
        printed = ran.stdout.decode(errors="replace")
        if ran.returncode != status or wanted not in (None, printed):
            wrong.append(report(command, (status, wanted), (ran.returncode, printed)))
    return len(RUNS), wrong


def main(words):
    if words[:1] in (["--help"], ["-h"]):
        sys.exit(__doc__)
    program = words or [str(BUILT)]
    if not words and not BUILT.is_file():
        sys.exit("the tool isn't built: make build")
    if not shutil.which(program[0]):
        sys.exit(f"there is no program {program[0]}: make build")
    if Path(program[0]).is_file():
        program[0] = str(Path(program[0]).resolve())
    with tempfile.TemporaryDirectory() as made:
        folder = Path(made)
        path = folder / "path"
        path.mkdir()
        tool = f"#!/bin/sh\nexec {shlex.join(program)} \"$@\"\n"
        for name, text in (("ssh", SSH), ("mig_tool", tool)):
            (path / name).write_text(text)
            (path / name).chmod(0o755)
        count, wrong = run_page(folder, path)
        more, others = run_more(folder, path)
    for it in wrong + others:
        print(it)
    failed = len(wrong) + len(others)
    print(f"{count + more - failed} passed, {failed} failed")
    return 1 if failed else 0


if __name__ == "__main__":
    sys.exit(main(sys.argv[1:]))
