"""Refuses allocations of the programs, and compares what they print and leave.

`refuse.c` beside this is loaded into a program (LD_PRELOAD), and refuses the allocations of chosen
numbers: also those of the command line and of the C library.

Of the commands of `mig_tool` and `zimgasol` each allocation is refused in turn; of `zimgasol` also
together with all that follow it. A run either ends as one with memory does, where the program did
without the allocation, or it says that memory was refused, and leaves the files and folders that
were there as they were, and no other: but for the channels' files of `mig_tool send`, which it
writes one after another, and of which the schedule decides which packets each has.

Of commands of `zimgasol` whose files exist, each question for a file's metadata fails in turn, too:
a file of which the system doesn't say whether it is there is not replaced.

Of `mig_rows` every so many allocations are refused in one run. It makes a call that was refused
again, so its answers have to be those of a run with memory: a refused call leaves what it was
passed as it was.
"""
import errno
import shutil
import subprocess
import tempfile
from concurrent.futures import ThreadPoolExecutor
from dataclasses import dataclass
from os import cpu_count
from pathlib import Path

HERE = Path(__file__).resolve().parent
SECONDS = 120
# More allocations than any of the commands makes.
MOST = 20_000
# Of `mig_rows`: the allocations that read the files of cases, the distances from one refused allocation to the
# next, and the runs of each. At a distance of FAR no line of a case is refused twice, so each has its answer; at
# a lesser one a long line may say that it got no memory.
BEGUN = 200
FAR = 10007
EVERY = (1009, FAR)
ROWS_RUNS = 16

# What `mig_tool send` writes over channels.
LOOSE = ("p", "p.0", "p.1")
SCENARIO = "block 2 a\nblock 3 b\nset 0 0 7\nset 1 4096 9\nround\ntouch 1 0\nset 0 4096 1\nround\n"
TOOL = ("send s o", "send s p --channels 2", "check", "check --channels 2", "load o i",
        "load p i --channels 2", "load p i --channels 2 --feed", "compare s i")
ZIMGASOL = ("verify guest.sav", "inspect guest.sav", "inspect guest.sav --json", "extract guest.sav memory",
            "verify guest.sav guest.sav --json", "extract guest.sav digests --digest",
            "compare memory guest.sav", "save --block ram=memory/ram.bin one.sav",
            "save --block ram=memory/ram.bin --channels 2 two.sav",
            "verify --frame ram two.sav --channel two.sav.0 --channel two.sav.1",
            "inspect --frame ram two.sav --channel two.sav.0 --channel two.sav.1",
            "extract --frame ram two.sav back --channel two.sav.0 --channel two.sav.1",
            "save --block ram=memory/ram.bin --since back three.sav",
            "extract guest.sav pieces --fast-digest", "save --state memory four.sav", "extract four.sav again --since memory", "save --state again --since memory five.sav")
# Commands that end with status 3 since their files exist, and one that writes none; and what fails.
UNSURE = ("extract guest.sav memory", "save --block ram=memory/ram.bin one.sav",
          "save --block ram=memory/ram.bin --channels 2 two.sav",
          "extract --frame ram two.sav back --channel two.sav.0 --channel two.sav.1", "compare memory guest.sav",
          "save --state memory four.sav")
ERRORS = (errno.EIO, errno.EACCES, errno.EINTR)


@dataclass(frozen=True)
class Ended:
    """How a run ended: its status, what it printed, and the files that lie in its folder then."""

    status: int
    printed: bytes
    errors: bytes
    files: tuple


def files_in(folder, loose):
    """The files and folders in a folder, each file with its bytes, but for those named in `loose`."""
    inside = ((str(it.relative_to(folder)), it) for it in folder.rglob("*"))
    return tuple(sorted((name, it.read_bytes() if it.is_file() else b"") for name, it in inside if name not in loose))


class Refusing:
    """A program, in a folder that is laid out anew for each run."""

    def __init__(self, program, shim, start, given, loose):
        self.program, self.shim, self.start, self.given, self.loose = program, shim, start, given, loose

    def run(self, line, refused):
        """Runs a command, with what `refused` has for refuse.c. Returns how it ended, and whether something was refused."""
        with tempfile.TemporaryDirectory(prefix="refused-") as room:
            folder, log = Path(room) / "at", Path(room) / "log"
            shutil.copytree(self.start, folder)
            settings = {"LD_PRELOAD": str(self.shim), "REFUSE_LOG": str(log), **refused}
            done = subprocess.run([*self.program, *line.split(" ")], cwd=folder, env=settings, input=self.given,
                                  capture_output=True, timeout=SECONDS)
            return Ended(done.returncode, done.stdout, done.stderr, files_in(folder, self.loose)), log.is_file()

    def each(self, line, is_refusal, every):
        """Refuses each allocation of a command, and then every so many. Returns how many runs there were, and what is wrong."""
        whole, _ = self.run(line, {})
        before, wrong, runs = files_in(self.start, self.loose), [], 0
        with ThreadPoolExecutor(cpu_count()) as pool:
            for first in range(1, MOST, 64):
                ends = list(pool.map(lambda it: (it, *self.run(line, {"REFUSE_FIRST": str(it), "REFUSE_EVERY": str(every)})),
                                     range(first, first + 64)))
                refused = [(number, end) for number, end, was in ends if was]
                runs += len(refused)
                wrong += [f"{line}: allocation {number}, every {every}: {end.status} {(end.printed + end.errors)[:200]!r}"
                          for number, end in refused if end != whole and not is_refusal(end, before, whole)]
                if len(refused) < len(ends):
                    break
        if whole.status != 0:
            wrong.append(f"{line}: status {whole.status} with memory: {whole.errors[:200]!r}")
        if runs < 3:
            wrong.append(f"{line}: {runs} allocations were refused: the program doesn't call this malloc")
        return runs, wrong

    def each_question(self, line, error):
        """Fails each question for metadata of a command. Returns how many runs there were, and what is wrong."""
        whole, _ = self.run(line, {})
        before, wrong = files_in(self.start, self.loose), []
        for number in range(1, MOST):
            end, was = self.run(line, {"REFUSE_STAT": str(number), "REFUSE_ERROR": str(error)})
            if not was:
                break
            if end.files != before or (end != whole and end.status != 3):
                wrong.append(f"{line}: error {error} at question {number}: {end.status} {(end.printed + end.errors)[:200]!r}")
        if number < 3:
            wrong.append(f"{line}: {number - 1} questions failed: the program doesn't call this statx")
        return number - 1, wrong


def built(folder):
    shim = Path(folder) / "refuse.so"
    subprocess.run(["gcc", "-O2", "-Wall", "-Wextra", "-shared", "-fPIC", "-o", shim, HERE / "refuse.c"], check=True)
    return shim


def of_tool(end, before, _):
    """The tool reports fault 60, with status 1, and leaves each file as it was."""
    lines = [b"fault 60", *(b"fault 60 round %d in round" % it for it in range(8))]
    return end.status == 1 and end.printed.rstrip(b"\n") in lines and end.files == before


def of_zimgasol(end, before, _):
    """`zimgasol` ends with status 3 and a message on memory alone, and leaves each file as it was."""
    return end.status == 3 and end.errors == b"zimgasol: no memory\n" and end.files == before


def play_commands(program, shim, start, lines, is_refusal, distances, given=b""):
    """Plays commands one after another: each begins with the files that those before it left."""
    runs, wrong = 0, []
    for line in lines:
        loose = LOOSE if line.startswith("send") and "--channels" in line else ()
        for every in distances:
            count, found = Refusing(program, shim, start, given, loose).each(line, is_refusal, every)
            runs, wrong = runs + count, wrong + found
        subprocess.run([*program, *line.split(" ")], cwd=start, input=given, stdout=subprocess.DEVNULL, check=False)
    return runs, wrong


def play_tool(program, shim):
    with tempfile.TemporaryDirectory() as room:
        start = Path(room) / "start"
        start.mkdir()
        (start / "s").write_text(SCENARIO)
        (start / "i").write_bytes(b"as it was")
        return play_commands(program, shim, start, TOOL, of_tool, (0,), SCENARIO.encode())


def play_zimgasol(program, shim, data):
    with tempfile.TemporaryDirectory() as room:
        start = Path(room) / "start"
        start.mkdir()
        shutil.copy(data / "guest.sav", start)
        runs, wrong = play_commands(program, shim, start, ZIMGASOL, of_zimgasol, (0, 1))
        for line in UNSURE:
            for error in ERRORS:
                count, found = Refusing(program, shim, start, b"", ()).each_question(line, error)
                runs, wrong = runs + count, wrong + found
        return runs, wrong


def rows_run(program, shim, folder, names, first, every):
    """Runs files of cases with many allocations refused. Returns what it printed, and how many were refused."""
    with tempfile.TemporaryDirectory() as room:
        log = Path(room) / "log"
        settings = {"LD_PRELOAD": str(shim), "REFUSE_FIRST": str(first), "REFUSE_EVERY": str(every), "REFUSE_LOG": str(log)}
        done = subprocess.run([*program, *names], cwd=folder, env=settings, stdin=subprocess.DEVNULL,
                              stdout=subprocess.PIPE, stderr=subprocess.STDOUT, timeout=SECONDS)
        return done.stdout, log.stat().st_size if log.is_file() else 0


def is_right(printed, whole, every):
    """Whether each answer of a run is that of a run with memory, but for lines that are refused again and again."""
    lines = printed.splitlines()[:-1]
    return printed == whole or (every < FAR and lines != [] and all(it.endswith(b": no memory") for it in lines))


def play_rows(program, shim, folder):
    """Plays the files of cases with every so many allocations refused, from several first ones on."""
    names = (folder.parent / "args").read_text().split()
    whole, _ = rows_run(program, shim, folder, names, 0, 0)
    tries = [(BEGUN + number * every // ROWS_RUNS, every) for every in EVERY for number in range(ROWS_RUNS)]
    with ThreadPoolExecutor(cpu_count()) as pool:
        ends = list(pool.map(lambda it: (it, *rows_run(program, shim, folder, names, *it)), tries))
    wrong = [f"mig_rows, from allocation {first} on every {every}: {printed.decode(errors='replace')[:300]}"
             for (first, every), printed, _ in ends if not is_right(printed, whole, every)]
    return sum(count for _, _, count in ends), wrong


def play(programs, zimgasol_data, rows_data):
    """Plays all three programs. Prints what is wrong. Returns how many passed and failed."""
    with tempfile.TemporaryDirectory() as room:
        shim = built(room)
        tool = play_tool(programs["mig_tool"], shim)
        zimgasol = play_zimgasol(programs["zimgasol_cli"], shim, zimgasol_data)
        rows = play_rows(programs["mig_rows"], shim, rows_data)
    wrong = [*tool[1], *zimgasol[1], *rows[1]]
    for it in wrong[:20]:
        print(it)
    played = len(TOOL) + len(ZIMGASOL) + len(UNSURE) * len(ERRORS)
    tried = played + len(EVERY) * ROWS_RUNS
    failed = min(tried, len(wrong))
    print(f"refused allocations: {played} commands with {tool[0] + zimgasol[0]} refused one by one, "
          f"{len(EVERY) * ROWS_RUNS} runs of the cases with {rows[0]}, {len(wrong) or 'none'} wrong", flush=True)
    return tried - failed, failed
