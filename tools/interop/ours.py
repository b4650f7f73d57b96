"""The project's programs, as interop runs them: `zimgasol` and `mig_tool`."""
import hashlib
import json
import os
import re
import shutil
import subprocess
import sys
from pathlib import Path

from guests import PAGE

TOP = Path(__file__).resolve().parent.parent.parent
CRATES = TOP / "crates"
SECONDS = 300
# which target of make builds a program
TARGETS = {"zimgasol_cli": "make program", "mig_tool": "make build"}
EOS = (16).to_bytes(8, "big")
RAM_HEAD = b"\x03ram" + bytes(4) + (4).to_bytes(4, "big")


class Differs(Exception):
    """What isn't as it should be."""


class Programs:
    """Where the programs are: in a folder, or where make builds them."""

    def __init__(self, folder=None):
        places = {name: CRATES / name / "out" / name for name in TARGETS}
        if folder:
            places = {name: Path(folder).resolve() / name for name in places}
        missing = [name for name in TARGETS if not os.access(places[name], os.X_OK)]
        if missing:
            sys.exit("\n".join(f"there is no {places[it]}: {TARGETS[it]}" for it in missing))
        self.zimgasol, self.tool = str(places["zimgasol_cli"]), str(places["mig_tool"])


def ran(*words, status=0, folder=None, seconds=SECONDS):
    """Runs a program, which has to end with a status. Returns all that it printed."""
    name, how = Path(words[0]).name, {"stdin": subprocess.DEVNULL, "capture_output": True}
    try:
        done = subprocess.run([str(it) for it in words], cwd=folder, text=True, timeout=seconds,
                              **how)
    except subprocess.TimeoutExpired:
        raise Differs(f"{name}: no end after {seconds} seconds") from None
    said = (done.stdout + done.stderr).strip()
    if done.returncode != status:
        raise Differs(f"{name}: status {done.returncode}, not {status}: {said[-300:]}")
    return said


def pages_that_differ(wanted, came):
    """The numbers of the pages in which memory differs from what is wanted."""
    return [at // PAGE for at in range(0, len(wanted), PAGE)
            if wanted[at:at + PAGE] != came[at:at + PAGE]]


def difference(wanted, came):
    """Says where memory differs from what is wanted; None where it is the same."""
    if wanted == came:
        return None
    if len(wanted) != len(came):
        return f"{len(came)} bytes, not {len(wanted)}"
    pages = pages_that_differ(wanted, came)
    return f"{len(pages)} pages differ, the first is {pages[0]}"


def compare(wanted, came):
    """Compares a guest's memory. Returns what was compared.

    QEMU before 8.0 doesn't show all blocks, so `came` may have more than `wanted`.
    """
    lacking = [name for name in wanted if name not in came]
    if lacking:
        raise Differs(f"there is no block {lacking[0]}")
    for name, memory in wanted.items():
        where = difference(memory, came[name])
        if where:
            raise Differs(f"block {name}: {where}")
    size = sum(len(it) for it in wanted.values()) / (1 << 20)
    return f"blocks {len(wanted)} of {len(came)}, {size:.4g} MiB"


def extracted(zimgasol, stream, folder, *words):
    """Has `zimgasol extract` take out a file's memory. Returns it by the blocks' ids.

    Compares the SHA-256 that the list of blocks has.
    """
    shutil.rmtree(folder, ignore_errors=True)
    ran(zimgasol, "extract", stream, folder, "--digest", *words)
    found = {}
    for block in json.loads((folder / "blocks.json").read_text())["blocks"]:
        memory = (folder / block["file"]).read_bytes()
        if hashlib.sha256(memory).hexdigest() != block["sha256"]:
            raise Differs(f"block {block['id']}: blocks.json has another SHA-256")
        found[block["id"]] = memory
    return found


def block_words(folder):
    """The words of `save` for the blocks in a folder that `extract` made."""
    blocks = json.loads((folder / "blocks.json").read_text())["blocks"]
    return [word for it in blocks for word in ("--block", f"{it['id']}={folder / it['file']}")]


def file_of(folder, block):
    """The file of a block in a folder that `extract` made."""
    blocks = json.loads((folder / "blocks.json").read_text())["blocks"]
    return next(folder / it["file"] for it in blocks if it["id"] == block)


def fault_of(said):
    """The number of the fault that a program printed; None where there is none."""
    found = re.search(r"\bfault (\d+)", said)
    return int(found[1]) if found else None


def ram_end(main):
    """Where RAM ends: after the last footer of its section, whose id stands before its name."""
    at = main.find(RAM_HEAD)
    footer = EOS + b"\x7e" + main[at - 4:at]
    return main.rfind(footer) + len(footer)
