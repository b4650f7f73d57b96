"""Runs the commands of `zimgasol` in a shell, and compares what they print and write.

`runs/zimgasol/commands.txt` has a command a line, those of `docs/use/ZIMGASOL.md` first; beside them
lie the files that they read, in `data`. `expected.txt` has each command after `$ `, and below it
what it prints: its output, and then what it says of errors. `tools/zimgasol_page.py` makes both.
"""
import shlex
import shutil
import subprocess
import tempfile
from pathlib import Path

SECONDS = 60


def shell(program, folder):
    """A folder with the program `zimgasol`, for the path of a shell."""
    script = Path(folder) / "zimgasol"
    script.write_text(f"#!/bin/sh\nexec {shlex.join(program)} \"$@\"\n")
    script.chmod(0o755)
    return folder


def played(program, data, commands):
    """What the commands print, one after another, in a folder with the files of `data`."""
    printed, status = [], 0
    with tempfile.TemporaryDirectory(prefix="zimgasol-") as room, tempfile.TemporaryDirectory() as path:
        for file in data.iterdir():
            shutil.copyfile(file, f"{room}/{file.name}")
        how = {"cwd": room, "stdin": subprocess.DEVNULL, "stdout": subprocess.PIPE, "stderr": subprocess.PIPE,
               "timeout": SECONDS, "env": {"PATH": f"{shell(program, path)}:/usr/bin:/bin"}}
        for command in commands:
            if command == "echo $?":
                printed.append((command, f"{status}\n"))
                continue
            done = subprocess.run(["bash", "-c", command], **how)
            status = done.returncode
            printed.append((command, (done.stdout + done.stderr).decode(errors="replace")))
    return printed


def expected(text):
    """The commands of `expected.txt`, each with what it is to print."""
    found = []
    for line in text.splitlines(keepends=True):
        if line.startswith("$ "):
            found.append((line[2:].rstrip("\n"), []))
        elif not found:
            raise ValueError("a line before the first command")
        else:
            found[-1][1].append(line)
    return [(command, "".join(lines)) for command, lines in found]


def play(program, folder):
    """Plays the commands. Prints what is wrong. Returns how many passed and failed."""
    wanted = expected((folder / "expected.txt").read_text())
    commands = (folder / "commands.txt").read_text().splitlines()
    if [it for it, _ in wanted] != commands:
        print("expected.txt hasn't the commands of commands.txt: run tools/zimgasol_page.py")
        return 0, 1
    came = played(program, folder / "data", commands)
    failed = 0
    for (command, lines), (_, others) in zip(wanted, came):
        if lines != others:
            failed += 1
            print(f"$ {command}\nexpected:\n{lines[:2000]}came:\n{others[:2000]}")
    print(f"zimgasol: {len(came)} commands, {failed or 'none'} of them wrong", flush=True)
    return len(came) - failed, failed
