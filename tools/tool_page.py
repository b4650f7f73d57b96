#!/usr/bin/env python3
"""The examples of crates/mig_tool/README.md as a case of the tool: runs/tool/page.txt.

    tools/tool_page.py            writes the file
    tools/tool_page.py --check    compares it with the page, and fails if they differ

tools/runs/runs.py plays the case, so each example prints the page's output. Those on pipes and connections,
below the heading BEYOND, need a shell: tools/try_tool.py runs them with the built program.
"""
import re
import sys
from pathlib import Path

TOP = Path(__file__).resolve().parent.parent
PAGE = TOP / "crates" / "mig_tool" / "README.md"
CASES = TOP / "runs" / "tool" / "page.txt"
BEYOND = "## From one machine to another"
HEAD = """# The examples of crates/mig_tool/README.md, in their order, made by tools/tool_page.py: don't edit.

case the examples of the page
"""
# A file that never ends: runs/tool asks a proved program alone for such a large input.
ENDLESS = "/dev/zero"
# The words of each command that are files, and the options that have no value.
FILES = {"check": 0, "send": 2, "load": 2, "compare": 2}
FLAGS = ("--feed",)
# What the page prints where the schedule decides, and what it says else comes: which channel has
# the only page is another one each time.
OTHERS = {"fault 44 round 0 in channel 0": "fault 43 round 0 in channel 0"}
# The statuses of the tool's own faults, as docs/use/FAULTS.md has them. Any other fault has 1.
STATUSES = {"62": 2, "86": 2, "87": 2, "88": 2, "71": 3, "90": 3, "91": 3}


def examples(text):
    """The commands of a page, in order, each with the lines that stand below it."""
    found = []
    for line in text.splitlines():
        if line.startswith("    $ "):
            found.append((line[6:], []))
        elif line.startswith("    ") and found:
            found[-1][1].append(line[4:])
    return found


def scenario_of(text):
    """The scenario that the page begins with: the first indented lines."""
    lines = re.search(r"(?:^    .*\n)+", text, re.M)[0].splitlines()
    return "".join(f"{line[4:]}\\n" for line in lines)


def status_of(lines):
    """The status that goes with what is printed."""
    word, _, rest = lines[-1].partition(" ")
    if word == "fault":
        return STATUSES.get(rest.split()[0], 1)
    return 4 if word == "differs" else 0


def words_of(words):
    """The words of a run, with the case's mark before each that is a file of its folder."""
    left, has_value, made = FILES[words[0]], False, [words[0]]
    for word in words[1:]:
        is_file = not word.startswith("--") and not has_value and left > 0
        has_value = word.startswith("--") and word not in FLAGS
        left -= is_file
        made.append(f"@{word}" if is_file and not word.startswith("/") else word)
    return " ".join(made)


def lines_of(command, said, status):
    """The lines of the case for a command. Returns them, and the status that it ends with."""
    if command == "echo $?":
        if said != [str(status)]:
            sys.exit(f"crates/mig_tool/README.md has the status {said} where {status} is right")
        return [], status
    changed = re.fullmatch(r"printf '\\(\d{3})' \| dd of=(\w+) conv=notrunc status=none", command)
    if changed:
        return [f"read {changed[2]}", f"at 0 {int(changed[1], 8):02x}", f"save {changed[2]}"], 0
    words, _, given = command.partition(" < ")
    program, *words = words.split(" ")
    if program == "cat" and len(words) == 1:
        return [f"write {words[0]} " + "".join(f"{line}\\n" for line in said)], 0
    if program != "mig_tool" or not words:
        sys.exit(f"crates/mig_tool/README.md has an example that is no line of a case: {command}")
    status, line = status_of(said), f"run {words_of(words)}"
    answer = f"{status} " + "".join(f"{line}\\n" for line in said)
    other = OTHERS.get(said[0])
    if other:
        line, answer = f"either {line}", f"{answer} or {status} {other}\\n"
    if ENDLESS in words:
        line = f"large {line}"
    return [*([f"read {given}", "input"] if given else []), f"{line} = {answer}"], status


def made():
    page = PAGE.read_text()
    if BEYOND not in page:
        sys.exit(f"crates/mig_tool/README.md has no heading '{BEYOND}'")
    text = page[:page.index(BEYOND)]
    lines, status = [f"write s {scenario_of(text)}"], 0
    for command, said in examples(text):
        more, status = lines_of(command, said, status)
        lines += more
    return HEAD + "".join(f"{line}\n" for line in lines)


def main(words):
    if words not in ([], ["--check"]):
        sys.exit(__doc__)
    if not words:
        CASES.write_text(made())
    elif not CASES.is_file() or CASES.read_text() != made():
        file = CASES.relative_to(TOP)
        sys.exit(f"{file} hasn't the examples of crates/mig_tool/README.md: run tools/tool_page.py")


if __name__ == "__main__":
    main(sys.argv[1:])
