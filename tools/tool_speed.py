#!/usr/bin/env python3
"""Times the tool's commands on a guest half of whose pages are zeros, and prints a table.

    tools/tool_speed.py [--pages N] [PROGRAM]

PROGRAM is the built tool, by default crates/mig_tool/out/mig_tool; N is 262144 pages of 4096 bytes,
1 GiB, by default. The guest is one block, and its scenario fills every other page and sends them in
one round. The pages between aren't marked, so they stay zeros and aren't sent.

All files are in /dev/shm, so no disk is timed, and are new in each run. Each figure is the least of
three runs, of the complete program from its start to its end. With it are its ratios to a copy of
the complete guest page by page, by a C program in the same run: into memory that is in use, and
into fresh memory of the system.
"""

import argparse
import os
import pathlib
import shutil
import signal
import subprocess
import sys
import tempfile
import time

TOP = pathlib.Path(__file__).resolve().parent.parent
BUILT = TOP / "crates/mig_tool/out/mig_tool"
FILES = "/dev/shm"
CC = os.environ.get("CC", "cc")
PAGE = 4096
RUNS = 3
CHANNELS = ["--channels", "4"]
# as much as the tool reads of a file
MOST_PAGES = 65_535 * 65_536 // PAGE

# prints how many seconds a copy took into memory that is in use, and into fresh memory
COPY = r"""
#define _GNU_SOURCE
#include <stdio.h>
#include <stdlib.h>
#include <string.h>
#include <sys/mman.h>
#include <time.h>

static double now(void) {
    struct timespec t;
    clock_gettime(CLOCK_MONOTONIC, &t);
    return t.tv_sec + t.tv_nsec / 1e9;
}

static char *room(size_t len) {
    char *bytes = mmap(NULL, len, PROT_READ | PROT_WRITE, MAP_PRIVATE | MAP_ANONYMOUS, -1, 0);
    if (bytes == MAP_FAILED) exit(1);
    return bytes;
}

static double copy(char *to, const char *from, size_t pages) {
    double start = now();
    for (size_t page = 0; page < pages; page++) {
        memcpy(to + page * 4096, from + page * 4096, 4096);
        __asm__ volatile("" ::: "memory");
    }
    return now() - start;
}

int main(int count, char **words) {
    size_t pages = count == 2 ? strtoul(words[1], NULL, 10) : 0;
    if (pages == 0) return 2;
    char *from = room(pages * 4096), *to = room(pages * 4096);
    memset(from, 7, pages * 4096);
    double fresh = copy(to, from, pages);
    printf("%.9f %.9f\n", copy(to, from, pages), fresh);
    return 0;
}
"""


def available():
    """How much memory the system can still give, in bytes."""
    for line in pathlib.Path("/proc/meminfo").read_text().splitlines():
        if line.startswith("MemAvailable:"):
            return int(line.split()[1]) * 1024
    return 0


def stop_without_room(pages):
    # a single stream, the texts of the channels and the file of a memory, each half the guest; and what the tool keeps in memory of a check
    files, memory = 2 * pages * PAGE + (16 << 20), 3 * pages * PAGE + (64 << 20)
    if not os.path.isdir(FILES):
        sys.exit(f"there is no {FILES}")
    free = shutil.disk_usage(FILES).free
    if free < files:
        sys.exit(f"{FILES} has room for {free >> 20} MiB, and {files >> 20} MiB are needed: free some, or take fewer pages (--pages)")
    if available() < files + memory:
        sys.exit(f"{available() >> 20} MiB of memory are there, and {(files + memory) >> 20} MiB are needed: take fewer pages (--pages)")


def write_scenario(file, pages):
    with open(file, "w") as scenario:
        scenario.write(f"block {pages} a\n")
        scenario.writelines(f"fill 0 {page} 7\n" for page in range(0, pages, 2))
        scenario.write("round\n")


def works(limit):
    """What is timed: its name, its words, the files that it makes, and the last line that it has to print."""
    load = ["--limit", str(limit)]
    several = ["m", "m.0", "m.1", "m.2", "m.3"]
    return [
        ("`check --channels 4`", ["check", *CHANNELS], [], "same"),
        ("`send`", ["send", "s", "o"], ["o"], "sent "),
        ("`send --channels 4`", ["send", "s", "m", *CHANNELS], several, "sent "),
        ("`load`", ["load", "o", "i", *load], ["i"], "loaded sections 3"),
        ("`load --channels 4`", ["load", "m", "i", *CHANNELS, *load], ["i"], "loaded rounds 1"),
        ("`load --channels 4 --feed`", ["load", "m", "i", *CHANNELS, "--feed", *load], ["i"], "loaded rounds 1"),
        ("`compare`", ["compare", "s", "i"], [], "same"),
    ]


def timed(program, words, made, last, folder):
    """How many seconds the tool took."""
    for name in made:
        (folder / name).unlink(missing_ok=True)
    with open(folder / "s", "rb") as scenario:
        start = time.perf_counter()
        ended = subprocess.run([program, *words], cwd=folder, stdin=scenario, stdout=subprocess.PIPE, text=True)
        seconds = time.perf_counter() - start
    lines = ended.stdout.splitlines()
    if ended.returncode != 0 or not lines or not lines[-1].startswith(last):
        sys.exit(f"{' '.join(words)} ended with status {ended.returncode} and printed {lines}")
    return seconds


def built_copy(folder):
    (folder / "copy.c").write_text(COPY)
    try:
        subprocess.run([CC, "-std=gnu11", "-O2", "-o", folder / "copy", folder / "copy.c"], check=True)
    except FileNotFoundError:
        sys.exit(f"there is no C compiler {CC} (set CC to another)")
    return folder / "copy"


def measure(program, pages, folder):
    with tempfile.TemporaryDirectory(prefix="tool_speed-") as made:
        copy = built_copy(pathlib.Path(made))
        write_scenario(folder / "s", pages)
        all_works, copies, times = works(pages * PAGE), [], []
        for _ in range(RUNS):
            said = subprocess.run([copy, str(pages)], check=True, stdout=subprocess.PIPE, text=True).stdout
            copies.append([float(seconds) for seconds in said.split()])
            times.append([timed(program, words, files, last, folder) for _, words, files, last in all_works])
    in_use, fresh = (min(column) for column in zip(*copies))
    least = [min(column) for column in zip(*times)]
    return in_use, fresh, [(name, seconds) for (name, *_), seconds in zip(all_works, least)]


def print_table(pages, in_use, fresh, figures):
    print(f"A guest of {pages} pages, {pages * PAGE / (1 << 20):.6g} MiB, half of them zeros; the least of {RUNS} runs.\n")
    print("| Work | seconds | to a copy page by page, memory in use | to a copy page by page, fresh memory |")
    print("|---|---|---|---|")
    for name, seconds in [*figures, ("the copy, memory in use", in_use), ("the copy, fresh memory", fresh)]:
        print(f"| {name} | {seconds:.3f} | {seconds / in_use:.2f} | {seconds / fresh:.2f} |")


def main():
    parser = argparse.ArgumentParser(description="Times the tool's words on a guest whose pages are half zeros.")
    parser.add_argument("program", nargs="?", type=pathlib.Path, default=BUILT, help="the built tool (crates/mig_tool/out/mig_tool)")
    parser.add_argument("--pages", type=int, default=262_144, help="how many pages the guest has (262144)")
    asked = parser.parse_args()
    if not 1 <= asked.pages <= MOST_PAGES:
        sys.exit(f"the guest has 1 to {MOST_PAGES} pages")
    if not os.access(asked.program, os.X_OK) or asked.program.is_dir():
        sys.exit(f"there is no program {asked.program}: `make build` proves and builds the tool")
    stop_without_room(asked.pages)
    # so that the files are removed, also where this is told to stop
    for number in (signal.SIGTERM, signal.SIGHUP):
        signal.signal(number, lambda number, _: sys.exit(128 + number))
    with tempfile.TemporaryDirectory(dir=FILES, prefix="tool_speed-") as folder:
        print_table(asked.pages, *measure(asked.program.resolve(), asked.pages, pathlib.Path(folder)))


main()
