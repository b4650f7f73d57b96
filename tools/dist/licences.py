"""The crates of the kit that a program or a library is linked from, and their licences.

What is linked is read in the kit: each library of `rlibs` names those that it uses (`dep NAME` in
its file `format`). Code that no function calls is left out by the linker, so a file may have less
than this list, and has nothing beyond it. What a crate is a port of, and its licence, are those of
its README in the kit. They stand in CRATES, and `linked` compares the licence texts with the kit.

The kit has no licence text for its own libraries, in OWN. So their licence isn't known, and the
release says so. Some of their files name the licence of what they are made from: these are PARTS.
"""
import os
import re
import subprocess
import sys
from dataclasses import dataclass
from pathlib import Path

sys.path.insert(0, str(Path(__file__).resolve().parent.parent))
from crates import below, uses  # noqa: E402

# each crate with a licence: what it is, and its licence by SPDX, as its README has them
EITHER = "MIT OR Apache-2.0"
CRATES = {
    "arrayvec": ("a port of arrayvec 0.7.8", EITHER),
    "clap": ("a port of clap_builder 4.6.7", EITHER),
    "crossbeam_channel": ("after crossbeam-channel 0.5.17", EITHER),
    "fast_float": ("named after fast-float2 0.2.4", EITHER),
    "itoa": ("after itoa 1.0.18", EITHER),
    "md5": ("after md-5 0.10.6", EITHER),
    "percent_encoding": ("a port of percent-encoding 2.3.2", EITHER),
    "rand_core": ("a port of rand_core 0.10.1", EITHER),
    "rayon": ("a subset of rayon 1.12.0", EITHER),
    "ryu": ("after ryu 1.0.23, by the algorithm of zmij 1.0.23", "(Apache-2.0 OR BSL-1.0) AND MIT"),
    "serde": ("after serde 1.0.229", EITHER),
    "serde_json": ("after serde_json 1.0.154", EITHER),
    "sha1": ("after sha1 0.11.0", EITHER),
    "sha2": ("after sha2 0.11.1", EITHER),
    "simdutf8": ("named after simdutf8 0.1.5", EITHER),
    "strsim": ("a port of strsim 0.11.1", "MIT"),
    "thiserror": ("after thiserror 2.0.21", EITHER),
    "uuid": ("a port of uuid 1.29.0", EITHER),
}
# The kit's own: it has no text of a licence for them.
OWN = {"atomic_table", "core", "io", "json", "libc", "os", "std", "std_alloc", "std_collections", "std_heap", "std_io"}
# What the kit's C compiler made of C code, and is linked as well: by the crate that it belongs to.
OBJECTS = {"libc": "liblibc_c.a", "os": "libos_c.a"}


@dataclass(frozen=True)
class Part:
    """Sources of a library of the kit's own that name a licence: where they are, what they are, the
    licence by SPDX, and the file of the kit that has its text.
    """
    name: str
    crate: str
    sources: str
    what: str
    licence: str
    text: str


PARTS = (
    Part("core::char", "core", "src/char", "has tables of Unicode's", "Unicode-3.0", "unicode/LICENSE-UNICODE"),
    Part("core::dec2flt", "core", "src/dec2flt", "after fast-float2 0.2.4", EITHER, "fast_float/LICENSE"),
    Part("core::str::two_way", "core", "src/str/two_way.rt", "adapted from memchr 2.8.3", "Unlicense OR MIT", "memchr/LICENSE-MIT"),
)
# Object files that every program and shared library begins and ends with: what, and its licence by SPDX.
STARTUP = (("glibc's crti.o, crtn.o and Scrt1.o, libc_nonshared.a", "LGPL-2.1-or-later WITH GCC-exception-2.0"),
           ("GCC's crtbeginS.o, crtendS.o, libgcc.a", "GPL-3.0-or-later WITH GCC-exception-3.1"))
TEXT = re.compile(r"(UN)?LICEN[CS]E|COPY|NOTICE", re.IGNORECASE)
# what a source says that has a licence of its own
NAMED = re.compile(r"licen[cs]e|copyright|SPDX", re.IGNORECASE)


def kit():
    """Returns the kit's folder."""
    ran = subprocess.run(["rt", "doc"], capture_output=True, text=True)
    folder = Path(ran.stdout.strip()).parent
    if ran.returncode or not (folder / "rlibs").is_dir():
        sys.exit("dist: the kit isn't there: the licences of the crates that are linked are in it")
    return folder


def used_by(folder, name):
    """Returns the kit's crates that one of them uses."""
    file = folder / "rlibs" / f"{name}.rlib" / "format"
    lines = file.read_text().splitlines()
    if lines[:1] != ["rattle rlib"]:
        sys.exit(f"dist: {file} isn't understood: which crates are linked isn't known")
    return [it.split()[1] for it in lines if it.startswith("dep ")]


def linked(folder, top):
    """Returns the kit's crates that a crate of the repository is linked from, in the order of their names."""
    known = uses()
    waiting = ["std", *(it for name in [*below(top, known), top] for it in known[name] if it not in known)]
    found = set()
    while waiting:
        name = waiting.pop()
        if name not in found:
            found.add(name)
            waiting += used_by(folder, name)
    for name in sorted(found & OWN):
        check_parts(folder, name)
    for name in found:
        if (name in CRATES) != bool(texts(folder, name)) or (name in CRATES) == (name in OWN):
            sys.exit(f"dist: {name} is linked, and tools/dist/licences.py doesn't say under which licence")
    return sorted(found)


def check_parts(folder, name):
    """Ends the run if sources of a library of the kit's own name a licence, and PARTS doesn't have them."""
    known = [folder / "rattle" / name / it.sources for it in parts([name])]
    for file in sorted((folder / "rattle" / name / "src").rglob("*.rt")):
        if NAMED.search(file.read_text()) and not any(file == it or it in file.parents for it in known):
            sys.exit(f"dist: {file} names a licence, and tools/dist/licences.py doesn't say which part it is of")


def parts(crates):
    """Returns the parts of crates that have a licence of their own."""
    return [it for it in PARTS if it.crate in crates]


def texts(folder, name):
    """Returns the files that have the licences of a crate."""
    return sorted(it for it in (folder / "rattle" / name).glob("*") if TEXT.match(it.name) and it.is_file())


def is_apache(text):
    return "Apache License" in text[:200]


def table(crates):
    """Yields a line for each crate with a licence, and what is known of the others."""
    for name in crates:
        if name in CRATES:
            what, licence = CRATES[name]
            yield f"  {name:18} {licence:32} {what}"
    yield from ("", "The kit's own libraries:")
    yield "  " + " ".join(it for it in crates if it in OWN)
    yield "The kit has no licence text for them, and nothing else here says on which terms their compiled"
    yield "code may be passed on. So that isn't known (SPDX: NOASSERTION): ask the makers of the kit."
    objects = [OBJECTS[it] for it in crates if it in OBJECTS]
    if objects:
        yield f"The same holds of the C code of the kit's {' and '.join(objects)}."
    if parts(crates):
        yield from ("Of these sources they name the licence:", "")
        yield from (f"  {it.name:18} {it.licence:32} {it.what}" for it in parts(crates))


def notices(folder, crates, apache=True):
    """Yields each text of a licence once, with the crates that have it. apache: also those of Apache 2.0."""
    found = {}
    for name in crates:
        for file in texts(folder, name):
            text = file.read_text().strip("\n")
            key = "\n".join(it.rstrip() for it in text.splitlines())
            found.setdefault(key, []).append(f"{name} ({file.name})")
    for part in parts(crates):
        text = (folder / "rattle" / part.text).read_text().strip("\n")
        found.setdefault("\n".join(it.rstrip() for it in text.splitlines()), []).append(f"{part.name} ({part.text})")
    for text, names in found.items():
        if apache or not is_apache(text):
            yield f"{'-' * 78}\n{os.linesep.join(wrapped(names))}\n{'-' * 78}\n\n{text}\n"


def wrapped(names, width=78):
    """Yields lines of names."""
    line = ""
    for name in names:
        if line and len(line) + len(name) + 2 > width:
            yield line + ","
            line = ""
        line = f"{line}, {name}" if line else name
    yield line
