"""Tries the man page of `zimgasol` and its completions, which `tools/manual.py` writes from the help.

What the help names is looked for in each of them, by a reading of its own. The page is set by groff,
and the completions are asked in bash. What isn't installed isn't tried, and is said: groff, zsh,
fish.
"""
import re
import shlex
import shutil
import subprocess
import tempfile
from pathlib import Path

import commands

SECONDS = 60
MANUAL = Path(__file__).resolve().parent.parent / "manual.py"
FILES = ("zimgasol.1", "zimgasol.bash", "_zimgasol", "zimgasol.fish")

# a command line whose last word is completed, and what bash offers in a folder with the files
# below
ROOM = ("guest.sav", "a file.sav", "memory/blocks.json")
COMPLETED = (
    ("zimgasol ", "-V -h --help --version compare extract help inspect save verify"),
    ("zimgasol ver", "verify"),
    ("zimgasol --ver", "--version"),
    ("zimgasol verify --ram", "--ram-only"),
    ("zimgasol verify g", "guest.sav"),
    ("zimgasol verify guest.sav --page ", "4096 8192"),
    ("zimgasol verify guest.sav --frame ", "machine ram"),
    ("zimgasol verify guest.sav --limit ", ""),
    ("zimgasol verify guest.sav --channel a", "'a file.sav'"),
    ("zimgasol extract guest.sav ", "'a file.sav' guest.sav memory"),
    ("zimgasol extract guest.sav m --since ", "memory"),
    ("zimgasol save --frame m", "machine"),
    ("zimgasol save --since m", "memory"),
    ("zimgasol compare --j", ""),
    ("zimgasol inspect --j", "--json"),
    ("zimgasol nothing ", "-V -h --help --version compare extract help inspect save verify"),
)
BY_FISH = (("zimgasol ver", "verify"), ("zimgasol verify --ram", "--ram-only"), ("zimgasol save --frame m", "machine"),
           ("zimgasol extract guest.sav m --since m", "memory/"), ("zimgasol inspect g", "guest.sav"))
ASK = """. {script}
set -- {words}
COMP_WORDS=("$@") COMP_CWORD=$(($# - 1))
_zimgasol
test ${{#COMPREPLY[@]}} = 0 || printf '%s\\n' "${{COMPREPLY[@]}}"
"""


def ran(words, **how):
    return subprocess.run(words, stdin=subprocess.DEVNULL, capture_output=True, text=True, timeout=SECONDS, **how)


def named(text):
    """The options that a help names, by lines that begin with them."""
    return {it for line in text.splitlines() for it in re.findall(r"(?<![\w-])--?\w[\w-]*", line) if re.match(r" {2,6}-", line)}


def sentences(text):
    """What a help says of its commands, arguments and options, on one line each."""
    found = re.split(r"\n(?: {0,8}\S|\n)", text.partition("Usage:")[2].partition("Examples:")[0])
    for it in found:
        said = " ".join(it.partition("\n          ")[2].split())
        yield re.sub(r" ?\[possible values: .*", "", said)


def spaced(text):
    """A text without what it was broken with, and with plain quotes."""
    return re.sub(r"\s+", "", re.sub("[\u2018\u2019`']", "", text.replace("\u2010", "-").replace("\u2212", "-")))


def rows(zimgasol, folder, helps):
    """What is tried: its name, and what is wrong, or nothing."""
    made = {name: (folder / name).read_text() for name in FILES}
    whole = "\n".join(helps.values())
    for name, text in made.items():
        short = {it[2:] if name.endswith("fish") else it for it in named(whole) if it.startswith("--")}
        lines = re.sub(r"\\f[BIR]", "", text.replace("\\-", "-"))
        yield f"{name} has each option", sorted(it for it in short if not re.search(rf"(?<![\w-]){re.escape(it)}(?![\w-])", lines))
    again = folder / "again"
    ran([str(MANUAL), zimgasol, str(again)], check=True)
    yield "a second run writes the same", [it for it in FILES if (again / it).read_text() != made[it]]
    if shutil.which("groff"):
        set_by = ran(["groff", "-man", "-ww", "-Tutf8", "-P-cbou", "-rLL=200n", str(folder / "zimgasol.1")])
        page = spaced(set_by.stdout)
        yield "groff sets the page without a word", set_by.stderr.splitlines()
        yield "the page has each sentence of the help", [it for it in sentences(whole) if spaced(it) not in page]
    for shell, word in (("bash", "-n"), ("zsh", "-n"), ("fish", "--no-execute")):
        file = next(it for it in FILES if it in ("_zimgasol", f"zimgasol.{shell}") and (shell == "zsh") == (it == "_zimgasol"))
        if shutil.which(shell):
            yield f"{shell} reads {file}", ran([shell, word, str(folder / file)]).stderr.splitlines()
    yield from completions(folder)
    if shutil.which("fish"):
        for line, wanted in BY_FISH:
            came = ran(["fish", "--no-config", "-c", f"source {folder}/zimgasol.fish; complete -C {shlex.quote(line)}"], cwd=folder / "room")
            offered = [it.split("\t")[0] for it in came.stdout.splitlines()]
            yield f"fish completes {line!r}", came.stderr.splitlines() + ([] if offered == wanted.split() else offered or ["nothing"])


def completions(folder):
    room = folder / "room"
    for name in ROOM:
        (room / name).parent.mkdir(parents=True, exist_ok=True)
        (room / name).touch()
    for line, wanted in COMPLETED:
        words = shlex.split(line) + ([""] if line.endswith(" ") else [])
        asked = ASK.format(script=shlex.quote(str(folder / "zimgasol.bash")), words=shlex.join(words))
        came = ran(["bash", "--norc", "-c", asked], cwd=room)
        offered = sorted(came.stdout.splitlines())
        yield f"bash completes {line!r}", came.stderr.splitlines() + ([] if offered == sorted(shlex.split(wanted)) else offered or ["nothing"])


def play(program):
    """Writes the page and the completions, and tries them. Prints what is wrong. Returns how many passed and failed."""
    passed = failed = 0
    with tempfile.TemporaryDirectory(prefix="manual-") as room, tempfile.TemporaryDirectory() as path:
        zimgasol = f"{commands.shell(program, path)}/zimgasol"
        ran([str(MANUAL), zimgasol, room], check=True)
        names = re.findall(r"^  (\w+)$", ran([zimgasol, "--help"], check=True).stdout, re.MULTILINE)
        helps = {it: ran([zimgasol, "help", it], check=True).stdout for it in names if it != "help"}
        helps[""] = ran([zimgasol, "--help"], check=True).stdout
        for what, wrong in rows(zimgasol, Path(room), helps):
            passed, failed = passed + (not wrong), failed + bool(wrong)
            if wrong:
                print(f"{what}: {'; '.join(wrong)}")
    missing = [it for it in ("groff", "zsh", "fish") if not shutil.which(it)]
    print(f"manual: {passed} of {passed + failed} passed" + (f"; not tried, since it isn't installed: {', '.join(missing)}" if missing else ""), flush=True)
    return passed, failed
