#!/usr/bin/env python3
"""Makes a release twice, compares the two, and uses it on a system without the kit.

    tools/try_dist.py [--site FOLDER] [--suite SUITE]

It comes after `make program`, `make build` and `make lib`, and all has to be committed. Two clones in
two folders get the built files and their records. Each links the library again, if what `make lib` proved
is there, and makes the release (tools/dist/dist.py), under another locale, time zone and umask. All
files have the same bytes. The release is marked as unproved where the records don't say more. Then

    records    what isn't known to be proved is found: a file, a source, a gate other than recorded
    files      SHA256SUMS and the SPDX document name what is there, by licences that SPDX has
    commands   the examples of the release's README.md print what it says, without the kit on the PATH
    install    tools/install.sh of the archive installs and uninstalls, by make and without it
    programs   a program in C is built by pkg-config and by CMake in the unpacked folder, and runs
    lintian    has no error and no warning of the Debian packages
    system     in a new system of debootstrap, SUITE or else bookworm, that has neither a compiler nor
               the kit, the first commands run, the packages are installed, and a program is built
               by gcc and pkg-config that apt-get brings; then all is removed

What isn't installed on this machine is said to be skipped, with the package that has it. The system
needs root and Debian's archive. With --site the HTML is taken from FOLDER. Each step is printed as
it starts, with its limit in seconds. If it takes longer, what it started is killed, and the status
is 1.
"""
import argparse
import contextlib
import hashlib
import json
import math
import os
import re
import shlex
import shutil
import signal
import subprocess
import sys
import tempfile
import time
from pathlib import Path

TOP = Path(__file__).resolve().parent.parent
sys.path.insert(0, str(TOP / "tools" / "dist"))
from dist import BUILT, NEEDED, VERSION  # noqa: E402

ARCHIVE = "http://deb.debian.org/debian"
TESTS = TOP / "examples/c/tests"
PROVED_ARCHIVE = TOP / "crates/mig_c/out/libmig_c.a"
# how long a step may take
SECONDS = 1800
SYSTEM_SECONDS = 3600
# a system without the kit: no variable of the caller, and the system's folders alone
PLAIN = {"PATH": "/usr/bin:/bin:/usr/sbin:/sbin", "LC_ALL": "C.UTF-8", "HOME": "/nonexistent"}
# how the two releases are made: the folder of the clone, and what is different there
MADE = (("one", 0o022, {"LC_ALL": "C.UTF-8", "TZ": "UTC"}), ("a/deeper/two", 0o077, {"LC_ALL": "C", "TZ": "Asia/Tokyo"}))
# asks nothing, and gives up on a mirror that doesn't answer
APT = ("env", "DEBIAN_FRONTEND=noninteractive", "apt-get", "-qq", "-o", "Acquire::Retries=3", "-o", "Acquire::http::Timeout=60")
PROJECT = """cmake_minimum_required(VERSION 3.10)
project(installed C)
find_package(zimgasol REQUIRED CONFIG)
add_executable(shared installed.c)
target_link_libraries(shared PRIVATE zimgasol::zimgasol)
add_executable(static installed.c)
target_link_libraries(static PRIVATE zimgasol::static)
"""
# writes records in a clone as if all had been proved, and prints what isn't known
WITH_DIST = "import sys; sys.path[:0] = ['tools/dist', 'tools']; import dist, records\n"
MADE_UP = WITH_DIST + """
for _, crate, file, _ in dist.BUILT:
    files = (records.read(crate) or {}).get("files", {})
    records.write(crate, {**records.now(crate), "files": {**files, **records.files_of([file])}})
records.write("gate", {**records.now("gate"), "last": "1 passed, 0 failed", "anew": False})
"""
UNKNOWN = WITH_DIST + "print(*dist.unknown(), sep='\\n')"
COMMIT = ("git", "-c", "user.name=x", "-c", "user.email=x@x", "commit", "-q", "--allow-empty", "-m", "x")
# licences of SPDX's list 3.23, which bookworm's python3-license-expression doesn't have
NEWER = {"Unicode-3.0"}
# prints what is wrong with licences of SPDX, by Debian's python3-license-expression
EXPRESSIONS = """import sys, license_expression
known = license_expression.get_spdx_licensing()
print(*(it for word in sys.argv[1:] for it in known.validate(word).errors))
"""
SKIPPED = []
STARTED = time.monotonic()


class Step:
    """The step that runs: its name, and when it has to have ended."""

    name, end = "", math.inf


def step(name, seconds=SECONDS):
    """Begins a step, which is printed."""
    Step.name, Step.end = name, time.monotonic() + seconds
    print(f"[{time.monotonic() - STARTED:5.0f} s] {name}, at most {seconds} s", flush=True)


def ended(process):
    """Waits for a process until the end of the step. After that kills it with all that it started."""
    try:
        return process.wait(max(0, min(Step.end - time.monotonic(), SYSTEM_SECONDS)))
    except subprocess.TimeoutExpired:
        return None
    finally:
        if process.returncode is None:
            with contextlib.suppress(ProcessLookupError):
                os.killpg(process.pid, signal.SIGKILL)
            process.wait()


def run(*words, status=0, folder=None, umask=-1, **environment):
    """Runs a command, which ends with this status, and returns what it prints."""
    words = [str(it) for it in words]
    # (a file and no pipe: nothing waits for what a command leaves running)
    with tempfile.TemporaryFile() as output:
        process = subprocess.Popen(words, cwd=folder, env=environment or PLAIN, umask=umask, stdin=subprocess.DEVNULL,
                                   stdout=output, stderr=subprocess.STDOUT, start_new_session=True)
        came = ended(process)
        output.seek(0)
        said = output.read().decode(errors="replace")
    if came is None:
        sys.exit(f"{Step.name}: {shlex.join(words)}: no end, so it was killed\n{said[-4000:]}")
    if came != status:
        sys.exit(f"{Step.name}: {shlex.join(words)}: status {came}, not {status}\n{said[-4000:]}")
    return said


def compare(what, found, expected):
    if found != expected:
        sys.exit(f"{Step.name}: {what}: {found!r} and not {expected!r}")


def has(part, **packages):
    """Whether the tools of a part are there. If not, it is skipped, which is said."""
    lacking = [f"{tool} (apt-get install {package})" for tool, package in packages.items() if not shutil.which(tool.replace("_", "-"))]
    if lacking:
        SKIPPED.append(f"{part}: no {', '.join(lacking)}")
    return not lacking


def below(folder):
    """All files and links below a folder: each name with the bytes, or with what the link leads to."""
    return {str(it.relative_to(folder)): os.readlink(it) if it.is_symlink() else hashlib.sha256(it.read_bytes()).hexdigest()
            for it in folder.rglob("*") if it.is_symlink() or it.is_file()}


# ---- the release, twice

def make_one(room, folder, umask, site, changed):
    """Makes a release in a clone, and returns the folder that has it."""
    clone = room / folder
    run("git", "clone", "-q", TOP, clone, **os.environ)
    for file in [*(it[2] for it in BUILT), PROVED_ARCHIVE]:
        to = clone / file.relative_to(TOP)
        to.parent.mkdir(parents=True, exist_ok=True)
        if file.is_file():
            shutil.copy2(file, to)
    if (TOP / "out/proved").is_dir():
        shutil.copytree(TOP / "out/proved", clone / "out/proved")
    if PROVED_ARCHIVE.is_file():
        run("sh", "tools/lib.sh", "--only-link", folder=clone, umask=umask, **{**os.environ, **changed})
    words = ["--unproved", *(["--site", site] if site else [])]
    run(clone / "tools/dist/dist.py", *words, folder=clone, umask=umask, **{**os.environ, **changed})
    return clone / "out/dist"


def in_two_folders(room, site):
    """Makes the release twice, and compares all files."""
    made = []
    for number, (folder, umask, changed) in enumerate(MADE, 1):
        step(f"release {number} of {len(MADE)}")
        made.append(make_one(room, folder, umask, site, changed))
    one, two = map(below, made)
    differ = sorted(name for name in {*one, *two} if one.get(name) != two.get(name))
    compare("files that differ between two releases of one commit", differ, [])
    print(f"made in two folders: {len(one)} files, the same bytes")
    return made[0]


def found_out(what, said, *parts):
    """What isn't known has these parts."""
    for it in parts:
        compare(f"{what}: whether {it!r} is said", it in said, True)


def refusals(clone):
    """Records hold of the files and sources that they have, and of no others."""
    def unknown():
        return run(sys.executable, "-c", UNKNOWN, folder=clone, **os.environ).strip()

    shutil.rmtree(clone / "out/proved", ignore_errors=True)
    said = [*(f"{it} was proved" for it in sorted({it[1] for it in BUILT})), "the gate passed"]
    found_out("without a record", unknown(), *(f"no record that {it}" for it in said))
    run(clone / "tools/dist/dist.py", status=1, folder=clone, **os.environ)
    run(sys.executable, "-c", MADE_UP, folder=clone, **os.environ)
    compare("what isn't known, with all records", unknown(), "")
    for _, crate, file, _ in BUILT:
        there = clone / file.relative_to(TOP)
        kept = there.read_bytes()
        there.write_bytes(kept + b"\n")
        found_out(f"{file.name} with a byte more", unknown(), f"isn't the file that was built when {crate} was proved")
        there.write_bytes(kept)
    source = clone / "crates/mig_mem/src/lib.rt"
    kept = source.read_bytes()
    source.write_bytes(kept + b"\n")
    found_out("a source with a byte more", unknown(), "files differ", *(f"sources have changed since {it}" for it in said))
    source.write_bytes(kept)
    compare("what isn't known, with all as it was", unknown(), "")
    run(*COMMIT, folder=clone, **os.environ)
    found_out("another commit", unknown(), "the gate passed on another commit")
    print(f"records: {len(BUILT)} files, a source and a commit other than recorded are found, and a release is refused")


def files(out, tree):
    """SHA256SUMS has all files of the release, and the SPDX document all of the archive."""
    run("sha256sum", "--check", "--strict", "SHA256SUMS", folder=out)
    named = {line.split()[1] for line in (out / "SHA256SUMS").read_text().splitlines()}
    compare("what SHA256SUMS names", named, {it.name for it in out.iterdir()} - {"SHA256SUMS"})
    document = json.loads((tree / "zimgasol.spdx.json").read_text())
    listed = {it["fileName"][2:]: it["checksums"][1]["checksumValue"] for it in document["files"]}
    there = {name: value for name, value in below(tree).items() if not (tree / name).is_symlink() and name != "zimgasol.spdx.json"}
    compare("what the SPDX document lists", listed, there)
    known = {it["SPDXID"] for part in ("files", "packages") for it in document[part]} | {"SPDXRef-DOCUMENT"}
    ends = {it[end] for it in document["relationships"] for end in ("spdxElementId", "relatedSpdxElement")}
    compare("relations of what isn't listed", ends - known, set())
    by_debian = ["/usr/bin/python3", "-c"]
    if subprocess.run([*by_debian, "import license_expression"], capture_output=True).returncode:
        SKIPPED.append("licences: no license_expression (apt-get install python3-license-expression)")
    else:
        words = {it[one] for it in document["packages"] for one in ("licenseConcluded", "licenseDeclared")}
        words -= {"NOASSERTION", *NEWER}
        compare("what is wrong with licences", run(*by_debian, EXPRESSIONS, *sorted(words)).strip(), "")
    print(f"SHA256SUMS: {len(named)} files; SPDX: {len(listed)} files, {len(document['packages']) - 1} packages that are linked")


# ---- without the kit

def examples(tree):
    """The commands of the release's first example, each with what it prints."""
    text = (tree / "README.md").read_text()
    block = re.search(r"(?:^    .*\n)+", text, re.MULTILINE)[0]
    return [(it.split("\n", 1)[0], it.split("\n", 1)[1]) for it in re.sub(r"^    ", "", block, flags=re.MULTILINE).split("$ ")[1:]]


def commands(tree, *before):
    """Runs the first commands, after the words `before` that lead into another system."""
    for command, printed in examples(tree):
        compare(command, run(*before, "sh", "-c", command, folder=None if before else tree), printed)
    return len(examples(tree))


def install(tree, room):
    """Installs below a prefix, and into a distribution's folders, and removes it."""
    libdir = "usr/lib/x86_64-linux-gnu"
    ways = [["tools/install.sh"]] + [["make", "-s"]] * bool(shutil.which("make"))
    for number, way in enumerate(ways):
        root = room / f"root{number}"
        variables = {**PLAIN, "DESTDIR": str(root), "LIBDIR": f"/{libdir}"}
        by_make = way[0] == "make"
        run(*way, *(["install", "PREFIX=/usr"] if by_make else ["/usr"]), folder=tree, **variables)
        names = set(below(root))
        moved = {f"{libdir}{it[3:]}" if it.startswith("lib/") else f"usr/{it}" for it in below(tree)
                 if it.split("/")[0] in ("bin", "include", "lib", "share")}
        compare("what is installed", names, moved | {"usr/share/doc/zimgasol/installed"})
        lines = (root / libdir / "pkgconfig/zimgasol.pc").read_text().splitlines()
        compare("folders of the .pc file", (lines[0], lines[2]), ("prefix=/usr", f"libdir=${{prefix}}{libdir[3:]}"))
        compare("installed program", run(root / "usr/bin/zimgasol", "--version"), f"zimgasol {VERSION}\n")
        run(*way, *(["uninstall", "PREFIX=/usr"] if by_make else ["--uninstall", "/usr"]), folder=tree, **variables)
        compare("what uninstall leaves", list(root.iterdir()), [])
    print(f"installed and uninstalled without the kit, {len(ways)} ways: {len(names)} files and links, and none is left")


def programs(tree, room):
    """Builds a program in C in the unpacked folder, by pkg-config and by CMake."""
    library = str(tree / "lib")
    if has("pkg-config", cc="gcc", pkg_config="pkgconf"):
        flags = shlex.split(run("pkg-config", "--cflags", "--libs", "zimgasol", **PLAIN, PKG_CONFIG_PATH=f"{library}/pkgconfig"))
        run("cc", "-o", room / "shared", TESTS / "installed.c", *flags)
        compare("a program by pkg-config", run(room / "shared", **PLAIN, LD_LIBRARY_PATH=library), f"{VERSION}\n")
        run("cc", "-o", room / "static", TESTS / "installed.c", *("-l:libzimgasol.a" if it == "-lzimgasol" else it for it in flags))
        compare("a program with the archive", run(room / "static"), f"{VERSION}\n")
        print("built by pkg-config in the unpacked folder, with the shared library and with the archive")
    if has("CMake", cc="gcc", cmake="cmake", make="make"):
        project = room / "project"
        project.mkdir()
        shutil.copy(TESTS / "installed.c", project)
        (project / "CMakeLists.txt").write_text(PROJECT)
        run("cmake", "-S", project, "-B", project / "build", f"-DCMAKE_PREFIX_PATH={tree}")
        run("cmake", "--build", project / "build")
        for name in ("shared", "static"):
            compare(f"a program by CMake, {name}", run(project / "build" / name), f"{VERSION}\n")
        print("built by CMake in the unpacked folder, with both targets")


def lintian(out):
    if has("lintian", lintian="lintian"):
        said = run("lintian", "--allow-root", "--fail-on", "error,warning", "--display-info", *sorted(out.glob("*.deb")))
        print("lintian: no error and no warning" + "".join(f"\n  {it}" for it in said.splitlines()))


# ---- a new system

def system(out, tree, room, suite):
    """Uses the release in a new system, which is removed afterwards."""
    if os.geteuid() != 0:
        SKIPPED.append("system: it needs root")
    if os.geteuid() != 0 or not has("system", debootstrap="debootstrap"):
        return
    root = room / suite
    step(f"a new system of {suite}, by debootstrap", SYSTEM_SECONDS)
    run("debootstrap", "--variant=minbase", "--include=xz-utils", suite, root, ARCHIVE)
    step(f"the archive in {suite}")
    inside = ["unshare", "--mount", "--", "sh", "-c", 'mount -t proc proc "$0/proc" && exec chroot "$0" "$@"', root]
    there = run(*inside, "sh", "-c", "for it in rt cc gcc clang make python3; do command -v $it; done; true")
    compare("compilers and the kit in the new system", there, "")
    libc = run(*inside, "sh", "-c", "ldd --version | head -1").split()[-1]
    for file in out.iterdir():
        shutil.copy(file, root / "tmp")
    run(*inside, "sh", "-c", f"cd /tmp && tar xf {tree.name}.tar.xz")
    count = commands(tree, *inside, "env", "--chdir", f"/tmp/{tree.name}")
    print(f"{suite}, glibc {libc}, without a compiler and the kit: {count} commands in the unpacked folder")
    step(f"the packages in {suite}", SYSTEM_SECONDS)
    in_packages(root, inside, suite)
    step(f"make install in {suite}")
    in_a_prefix(root, inside, tree)


def in_packages(root, inside, suite):
    """Installs the packages, builds a program with them, and removes them."""
    run(*inside, "sh", "-c", "dpkg -i /tmp/*.deb")
    compare("the installed program", run(*inside, "zimgasol", "--version"), f"zimgasol {VERSION}\n")
    said = run(*inside, "zimgasol", "verify", "/usr/share/doc/zimgasol/examples/guest.sav")
    compare("verify in the system", ": complete: " in said, True)
    run(*inside, *APT, "update")
    run(*inside, *APT, "install", "--no-install-recommends", "-y", "gcc", "libc6-dev", "pkgconf")
    shutil.copy(TESTS / "installed.c", root / "tmp")
    run(*inside, "sh", "-c", "cc -o /tmp/program /tmp/installed.c $(pkg-config --cflags --libs zimgasol)")
    compare("a program by the packages", run(*inside, "/tmp/program"), f"{VERSION}\n")
    compare("whether it needs the shared library", "libzimgasol.so" in run(*inside, "ldd", "/tmp/program"), True)
    packages = re.findall(r"^Package: (.*)$", run(*inside, "sh", "-c", "for it in /tmp/*.deb; do dpkg-deb -f $it; done"), re.MULTILINE)
    run(*inside, "dpkg", "--purge", *packages)
    left = run(*inside, "sh", "-c", "find / -xdev -name '*zimgasol*' -not -path '/tmp/*' -not -path '/proc/*'")
    compare("what the packages leave", left, "")
    print(f"{suite}: dpkg -i of {len(packages)} packages, a program by pkg-config and gcc, and purged: nothing is left")


def in_a_prefix(root, inside, tree):
    """Installs the archive into /usr/local, builds a program, and uninstalls it."""
    script = f"/tmp/{tree.name}/tools/install.sh"
    before = set(below(root / "usr/local"))
    run(*inside, script, "/usr/local")
    run(*inside, "ldconfig")
    run(*inside, "sh", "-c", "cc -o /tmp/other /tmp/installed.c $(pkg-config --cflags --libs zimgasol)")
    compare("a program by /usr/local", run(*inside, "/tmp/other"), f"{VERSION}\n")
    run(*inside, script, "--uninstall", "/usr/local")
    compare("what uninstall leaves", set(below(root / "usr/local")) - before, set())
    print("installed into /usr/local there, a program built, and uninstalled: nothing is left")


def main():
    parser = argparse.ArgumentParser(description=__doc__, formatter_class=argparse.RawDescriptionHelpFormatter)
    parser.add_argument("--site")
    parser.add_argument("--suite", default="bookworm")
    words = parser.parse_args()
    # (so that what runs is killed and files are removed, also where this is told to stop)
    for number in (signal.SIGTERM, signal.SIGHUP):
        signal.signal(number, lambda number, _: sys.exit(128 + number))
    if not has("the release", **{tool.replace("-", "_"): package for tool, package in NEEDED.items()}):
        sys.exit(f"try_dist: {SKIPPED[0]}")
    with tempfile.TemporaryDirectory() as name:
        room = Path(name)
        out = in_two_folders(room, os.path.abspath(words.site) if words.site else None)
        archive = next(out.glob("*.tar.xz"))
        tree = room / archive.name.removesuffix(".tar.xz")
        step("files")
        run("tar", "xf", archive, folder=room)
        files(out, tree)
        step("records")
        refusals(room / MADE[0][0])
        step("commands")
        print(f"the first {commands(tree)} commands of the archive's README.md, without the kit")
        step("install")
        install(tree, room)
        step("programs")
        programs(tree, room)
        step("lintian")
        lintian(out)
        system(out, tree, room, words.suite)
    for it in SKIPPED:
        print(f"skipped: {it}")
    print(f"[{time.monotonic() - STARTED:5.0f} s] all of it held, of {archive.name}")
    return 0


if __name__ == "__main__":
    sys.exit(main())
