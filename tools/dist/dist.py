#!/usr/bin/env python3
"""Makes a release of what `make program`, `make build` and `make lib` left, in out/dist.

    tools/dist/dist.py [--unproved] [--site FOLDER]

It makes an archive for a machine without the kit, Debian packages, the list of what is in the archive
(SPDX), the statement of what was proved, and SHA256SUMS. The archive has the programs, the library
for C, man pages, completions, the documents as HTML, the licences, and tools/install.sh. With --site
the HTML isn't made, but taken from FOLDER.

It refuses if a file is missing, or if the records in out/proved (tools/records.py) don't say that all
of it was proved and built from the sources of this commit, and that the gate passed on it. With
--unproved it makes a release all the same, says so in the names, and lists in PROVED.txt what isn't
known.

The same commit, built files and versions of the tools give the same bytes in any folder. All times
are SOURCE_DATE_EPOCH, or else the commit's date.
"""
import hashlib
import os
import re
import shutil
import subprocess
import sys
import tempfile
from dataclasses import dataclass
from pathlib import Path

import debs
import licences
import spdx

sys.path.insert(1, str(Path(__file__).resolve().parent.parent))
import records  # noqa: E402
from crates import CRATES, TOP  # noqa: E402

OUT = TOP / "out" / "dist"
HERE = Path(__file__).resolve().parent
VERSION = re.search(r'^#define ZIMGASOL_VERSION "(.*)"$', (TOP / "include/zimgasol.h").read_text(), re.MULTILINE)[1]
SERIES = VERSION.rpartition(".")[0]
DOC = "share/doc/zimgasol"
# how long a command may take
SECONDS = 1800
# what is built: its name in the release, the crate that it is of, the file, and the target of make
BUILT = (("bin/zimgasol", "zimgasol_cli", CRATES / "zimgasol_cli/out/zimgasol_cli", "program"),
         ("bin/mig_tool", "mig_tool", CRATES / "mig_tool/out/mig_tool", "build"),
         ("lib/libzimgasol.a", "mig_c", TOP / "out/libzimgasol.a", "lib"),
         (f"lib/libzimgasol.so.{VERSION}", "mig_c", TOP / f"out/libzimgasol.so.{VERSION}", "lib"))
NEEDED = {"tar": "tar", "xz": "xz-utils", "readelf": "binutils", "dpkg-deb": "dpkg", "dpkg-shlibdeps": "dpkg-dev", "pandoc": "pandoc",
          "git": "git"}
EXAMPLES = (("runs/zimgasol/data/guest.sav", "guest.sav"), ("crates/mig_tool/stdin", "scenario"), ("examples/c/page.c", "page.c"))
TOOL_NAME = "# NAME\n\nmig_tool - send, load and compare the memory of a guest that a scenario describes\n\n"


@dataclass
class Release:
    """What the parts of a release have in common. `unknown`: what isn't known to be proved, a line each."""
    commit: str
    epoch: int
    kit: str
    unknown: list
    version: str = VERSION
    series: str = SERIES
    needs: str = ""
    copyright: str = ""

    @property
    def name(self):
        return f"zimgasol-{self.version}-x86_64-linux" + "-unproved" * bool(self.unknown)

    @property
    def deb_version(self):
        return self.version + "~unproved" * bool(self.unknown)

    @property
    def status(self):
        return "UNPROVED: not all of it is known to be proved" if self.unknown else "Proved and built from the sources of its commit"


def run(*words, **how):
    """Runs a command, which has to succeed, and returns its output."""
    how = {**({} if "input" in how else {"stdin": subprocess.DEVNULL}), "stdout": subprocess.PIPE, "text": True, **how}
    try:
        ran = subprocess.run([str(it) for it in words], timeout=SECONDS, **how)
    except subprocess.TimeoutExpired:
        sys.exit(f"dist: {words[0]} has no end after {SECONDS} seconds")
    if ran.returncode:
        sys.exit(f"dist: {words[0]} ended with status {ran.returncode}")
    return ran.stdout


def step(what):
    """Prints a step as it starts."""
    print(f"dist: {what}", flush=True)


def put(file, text):
    file.parent.mkdir(parents=True, exist_ok=True)
    file.write_text(text)


# ---- what is known

def check_tools():
    """Ends the run if a tool or a built file isn't there."""
    lacking = [f"{tool} (apt-get install {package})" for tool, package in NEEDED.items() if not shutil.which(tool)]
    lacking += [f"{file.relative_to(TOP)} (make {target})" for _, _, file, target in BUILT if not file.is_file()]
    if lacking:
        sys.exit("\n  ".join(["dist: these aren't there:", *lacking]))


def unknown():
    """Returns what isn't known to be proved, a line each."""
    found = [why for _, crate, file, _ in BUILT if (why := records.lacking(crate, file))]
    gate, today = records.read("gate"), records.now("gate")
    if today["changed"]:
        found.append("files differ from the commit: git status")
    if (why := records.lacking("gate")):
        found.append(why)
    elif gate["changed"] or gate["commit"] != today["commit"]:
        found.append("the gate passed on another commit, or on files that differ from one")
    known = {record["kit"] for name in ("gate", *(it[1] for it in BUILT)) if (record := records.read(name))}
    if known - {today["kit"]}:
        found.append(f"proved by another kit: {', '.join(sorted(known))}; this one is {today['kit']}")
    return list(dict.fromkeys(found))


def needs(files):
    """Returns what these files need of the system: glibc, by the versions of the names that they use, and other libraries."""
    names = "".join(run("readelf", "--version-info", "--wide", it) for it in files)
    versions = {tuple(map(int, it.split("."))) for it in re.findall(r"\bGLIBC_(\d+(?:\.\d+)+)\b", names)}
    libraries = {it for file in files for it in re.findall(r"\(NEEDED\).*\[(.*)\]", run("readelf", "--dynamic", "--wide", file))}
    others = sorted(it for it in libraries if it != "libc.so.6")
    return f"glibc {'.'.join(map(str, max(versions)))} or later, and " + (" and ".join(others) if others else "no other library")


def statement(release, tree):
    """The statement of what was proved. It says no more than the records of out/proved."""
    yield from (f"Zimgasol {release.version} for Linux on x86-64: what was proved", "", f"{release.status}.", "")
    yield f"commit  {release.commit}"
    kit, _, logic = release.kit.partition(" logic ")
    yield from (f"kit     {kit or 'unknown'}", f"logic   {logic or 'unknown'}")
    gate = records.read("gate")
    yield f"gate    {gate['last'] if gate and not release.unknown else 'see below'}"
    yield ""
    for name, crate, file, target in BUILT:
        why = records.lacking(crate, file)
        yield f"{name}: " + (f"NOT KNOWN to be proved: {why}" if why else f"`make {target}` proved {crate} and the crates below it, and built it")
        yield f"  sha256 {records.sum_of(tree / name)}"
    if release.unknown:
        yield from ("", "Not known:", *(f"  {it}" for it in release.unknown))
        if gate:
            yield f"  (the last record of the gate: {gate['last']}, at {gate['commit']}, {gate['kit']})"
    yield from ("", (HERE / "release/PROVED.txt").read_text().rstrip("\n"))


# ---- the tree

def copy_built(tree, release):
    """Puts what tools/install.sh installs, with files for pkg-config that may be moved."""
    prefix = f"/{release.name}"
    environment = {name: value for name, value in os.environ.items() if name not in ("LIBDIR", "INCLUDEDIR")}
    environment.update(DESTDIR=str(tree.parent), ZIMGASOL_URL=f"file://${{prefix}}/{DOC}/C.md")
    run(TOP / "tools/install.sh", prefix, env=environment)
    (tree / DOC / "installed").unlink()
    file = tree / "lib/pkgconfig/zimgasol.pc"
    file.write_text(file.read_text().replace(f"prefix={prefix}\n", "prefix=${pcfiledir}/../..\n", 1))
    shutil.copy(BUILT[1][2], tree / "bin/mig_tool")
    for name, _, source, _ in BUILT:
        if records.sum_of(tree / name) != records.sum_of(source):
            sys.exit(f"dist: {source.relative_to(TOP)} changes while the release is made")


def tool_page():
    """Returns the man page of mig_tool, from its document."""
    text = (TOP / "crates/mig_tool/README.md").read_text()
    text = re.sub(r"^# .*\n", "# DESCRIPTION\n", text, count=1)
    text = re.sub(r"^- \[[^]]*\]\(#.*\n", "", text, flags=re.MULTILINE)  # its contents
    text = re.sub(r"\[([^][]+)\]\([^)\s]*\)", r"\1", text)
    words = ["--from=gfm", "--to=man", "--standalone", "--metadata=title:MIG_TOOL", "--metadata=section:1",
             f"--metadata=footer:mig_tool {VERSION}", "--metadata=header:User Commands"]
    return run("pandoc", *words, input=TOOL_NAME + text)


def site(tree, given):
    """Puts the documents as HTML."""
    if not given:
        step("the documents as HTML")
        run(TOP / "tools/site.py")
    shutil.copytree(given or TOP / "out/site", tree / DOC / "html")


def filled(name, release):
    text = (HERE / "release" / name).read_text()
    for word in ("version", "series", "status", "needs"):
        text = text.replace(f"@{word}@", getattr(release, word))
    return text


def third_party(release, folder, linked):
    """The text on what is linked, and its licences."""
    every = sorted({it for names in linked.values() for it in names})
    yield from ("What the programs and the library are linked from, beside Zimgasol itself (Apache-2.0, LICENSE)", "")
    yield "These are libraries of the Rattle kit. The linker leaves out code that isn't called."
    for name, used in linked.items():
        yield from ("", f"{name}:", *(f"  {it}" for it in licences.wrapped(used, 90)))
    yield from ("", "Their licences, and what they are:", "", *licences.table(every), "",
                "Each program and the shared library also has these object files:", "")
    yield from (f"  {what}: {licence}" for what, licence in licences.STARTUP)
    yield from ("", "These exceptions allow to link them into programs under any licence. Their texts are below",
                "https://spdx.org/licenses, as GCC-exception-2.0 and GCC-exception-3.1.")
    yield from ("", *licences.notices(folder, every))


def deb_copyright(folder, linked):
    """The file `copyright` of the Debian packages, which refers to the system's text of Apache 2.0."""
    every = sorted({it for names in linked.values() for it in names})
    text = (HERE / "debian/copyright").read_text()
    return text.replace("@table@", "\n".join(licences.table(every))) + "\n".join(licences.notices(folder, every, apache=False))


def fill(tree, release, given):
    """Puts all files of a release into `tree`."""
    step("the files of the archive")
    folder = licences.kit()
    linked = {name: licences.linked(folder, crate) for name, crate, _, _ in BUILT}
    copy_built(tree, release)
    release.needs = needs([tree / it[0] for it in BUILT if not it[0].endswith(".a")])
    release.copyright = deb_copyright(folder, linked)
    put(tree / "share/man/man1/mig_tool.1", tool_page())
    site(tree, given)
    for source, name in EXAMPLES:
        put(tree / DOC / "examples" / name, "")
        shutil.copy(TOP / source, tree / DOC / "examples" / name)
    put(tree / DOC / "PROVED.txt", "\n".join(statement(release, tree)) + "\n")
    put(tree / DOC / "THIRD-PARTY.txt", "\n".join(third_party(release, folder, linked)))
    for name in ("README.md", "Makefile"):
        put(tree / name, filled(name, release))
    shutil.copy(TOP / "LICENSE", tree)
    shutil.copytree(TOP / "tools/package", tree / "tools/package")
    shutil.copy(TOP / "tools/install.sh", tree / "tools")
    files = {str(it.relative_to(tree)): it.read_bytes() for it in tree.rglob("*") if it.is_file() and not it.is_symlink()}
    put(tree / spdx.NAME, spdx.document(release, files, linked))


# ---- the files of the release

def settle(tree):
    """Gives files and folders modes that don't depend on the machine."""
    for it in [tree, *tree.rglob("*")]:
        if not it.is_symlink():
            is_program = it.is_dir() or it.parent == tree / "bin" or it.name == "install.sh"
            it.chmod(0o755 if is_program else 0o644)


def archive(tree, release):
    """Makes the archive of a tree, in the order of names and with one time."""
    file = OUT / f"{release.name}.tar.xz"
    words = ["--sort=name", f"--mtime=@{release.epoch}", "--owner=0", "--group=0", "--numeric-owner", "--format=gnu"]
    made = file.with_suffix("")
    run("tar", *words, "-cf", made, "-C", tree.parent, tree.name, env={**os.environ, "LC_ALL": "C"})
    run("xz", "-6", "-T1", "--force", made)
    return file


def main(words):
    given = words[words.index("--site") + 1] if "--site" in words[:-1] else None
    if [it for it in words if it not in ("--unproved", "--site", given)]:
        sys.exit(__doc__)
    check_tools()
    step("what is known to be proved")
    lacking = unknown()
    if lacking and "--unproved" not in words:
        sys.exit("\n  ".join(["dist: this isn't known to be proved (UNPROVED=1 makes a release that says so):", *lacking]))
    epoch = int(os.environ.get("SOURCE_DATE_EPOCH") or run("git", "log", "-1", "--format=%ct", cwd=TOP))
    release = Release(run("git", "rev-parse", "HEAD", cwd=TOP).strip(), epoch, records.said("rt", "version"), lacking)
    shutil.rmtree(OUT, ignore_errors=True)
    OUT.mkdir(parents=True)
    with tempfile.TemporaryDirectory() as name:
        folder = Path(name)
        tree = folder / "tree" / release.name
        tree.mkdir(parents=True)
        os.umask(0o022)
        fill(tree, release, given)
        settle(tree)
        step("the archive")
        made = [archive(tree, release)]
        step("the Debian packages")
        made += debs.make(tree, release, folder, OUT)
        for source, end in ((tree / spdx.NAME, "spdx.json"), (tree / DOC / "PROVED.txt", "PROVED.txt")):
            made.append(Path(shutil.copyfile(source, OUT / f"{release.name}.{end}")))
    sums = "".join(f"{records.sum_of(it)}  {it.name}\n" for it in sorted(made))
    (OUT / "SHA256SUMS").write_text(sums)
    print(sums + f"made: out/dist, {release.status}; it needs {release.needs}")
    return 0


if __name__ == "__main__":
    sys.exit(main(sys.argv[1:]))
