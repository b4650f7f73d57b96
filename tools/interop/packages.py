"""QEMU from Debian's packages: several versions, none of them installed.

`programs` returns the QEMUs that are present. `fetched` has apt download the packages that
qemu-system-x86 of a suite needs, down to the C library, and unpacks them below out/interop/SUITE.
The script `qemu-system-x86_64` there runs it with the libraries and the firmware in that folder.
The lists and packages of apt are there, too: the system isn't changed, and no root is needed. It
takes some 40 MB of downloads and 170 MB of disk for each suite.
"""
import shlex
import shutil
import subprocess
import tarfile
from pathlib import Path

TOP = Path(__file__).resolve().parent.parent.parent
PLACE = TOP / "out" / "interop"
# 7.2, 10.0.2, 10.0 and 11.1, when this was written
SUITES = ("bookworm", "bookworm-backports", "trixie", "trixie-backports")
MIRROR = "http://deb.debian.org/debian"
KEYS = "/usr/share/keyrings/debian-archive-keyring.gpg"
PACKAGE = "qemu-system-x86"
ANALYZER = "analyze-migration.py"
NAME = "qemu-system-x86_64"
LIBRARIES = ("lib/x86_64-linux-gnu", "usr/lib/x86_64-linux-gnu")
LOADER = "ld-linux-x86-64.so.2"
SCRIPT = """#!/bin/sh
# runs the QEMU of this folder with the libraries, modules and firmware beside it
QEMU_MODULE_DIR={root}/usr/lib/x86_64-linux-gnu/qemu exec {loader} --library-path {libraries} \\
    {root}/usr/bin/{name} -L {root}/usr/share/qemu -L {root}/usr/share/seabios "$@"
"""


class NoPackages(Exception):
    """Why a suite's QEMU can't be had."""


def run(*words, folder=None):
    how = {"stdin": subprocess.DEVNULL, "capture_output": True, "text": True, "cwd": folder}
    done = subprocess.run(words, **how)
    if done.returncode:
        raise NoPackages(f"{Path(words[0]).name}: {(done.stderr or done.stdout).strip()[-300:]}")


def apt_words(folder, suite, kind="deb"):
    """Writes what apt is to read. Returns the words that have it keep all it does in a folder."""
    for missing in (it for it in ("apt-get", "dpkg-deb") if not shutil.which(it)):
        raise NoPackages(f"there is no {missing}")
    for name in ("lists/partial", "cache/archives/partial"):
        (folder / name).mkdir(parents=True)
    suites = dict.fromkeys((suite.removesuffix("-backports"), suite))
    signed = f" [signed-by={KEYS}]" if Path(KEYS).exists() else ""
    sources = folder / "sources.list"
    sources.write_text("".join(f"{kind}{signed} {MIRROR} {it} main\n" for it in suites))
    # (no package counts as installed, so the C library comes along)
    (folder / "status").write_text("")
    options = {
        "Dir::Etc::sourcelist": sources, "Dir::Etc::sourceparts": "-",
        "Dir::State::lists": folder / "lists", "Dir::State::status": folder / "status",
        "Dir::Cache": folder / "cache", "APT::Architecture": "amd64", "APT::Sandbox::User": "",
    }
    return [word for name, value in options.items() for word in ("-o", f"{name}={value}")]


def unpacked(folder):
    """Unpacks the packages that apt downloaded. Returns the root that they make."""
    root = folder / "root"
    root.mkdir()
    for package in sorted((folder / "cache" / "archives").glob("*.deb")):
        run("dpkg-deb", "-x", str(package), str(root))
    return root


def write_script(root, script):
    places = [root / it for it in LIBRARIES]
    loader = next((it / LOADER for it in places if (it / LOADER).exists()), None)
    if loader is None or not (root / "usr" / "bin" / NAME).exists():
        raise NoPackages(f"the packages have no {LOADER} or no {NAME}")
    said = {"root": root, "loader": loader, "libraries": ":".join(str(it) for it in places)}
    quoted = {key: shlex.quote(str(value)) for key, value in said.items()}
    script.write_text(SCRIPT.format(name=NAME, **quoted))
    script.chmod(0o755)


def fetched(suite):
    """Returns the program of a suite's QEMU, which is downloaded where it isn't there yet."""
    folder, begun = PLACE / suite, PLACE / f"{suite}.partial"
    if (folder / NAME).exists():
        return str(folder / NAME)
    shutil.rmtree(folder, ignore_errors=True)
    shutil.rmtree(begun, ignore_errors=True)
    apt = ("apt-get", "-qq", *apt_words(begun, suite))
    run(*apt, "update")
    run(*apt, "-y", "-t", suite, "--no-install-recommends", "--download-only", "install", PACKAGE)
    unpacked(begun)
    for made in ("lists", "cache"):
        shutil.rmtree(begun / made)
    begun.rename(folder)
    write_script(folder / "root", folder / NAME)
    return str(folder / NAME)


def analyzer(suite):
    """Returns analyze-migration.py of a suite's sources, downloaded where it isn't there yet."""
    file, begun = PLACE / f"analyze-migration-{suite}.py", PLACE / f"{suite}-sources.partial"
    if file.exists():
        return str(file)
    shutil.rmtree(begun, ignore_errors=True)
    apt = ("apt-get", "-qq", *apt_words(begun, suite, "deb-src"))
    run(*apt, "update")
    run(*apt, "-t", suite, "--download-only", "source", "qemu", folder=begun)
    for sources in begun.glob("*.orig.tar.*"):
        with tarfile.open(sources) as tar:
            name = next((it for it in tar if it.name.endswith(f"/scripts/{ANALYZER}")), None)
            if name:
                file.write_bytes(tar.extractfile(name).read())
    shutil.rmtree(begun)
    if not file.exists():
        raise NoPackages(f"the sources have no {ANALYZER}")
    return str(file)


def programs(suites, say):
    """Returns the QEMUs at hand: that of PATH, and those of suites. `say` takes why one lacks."""
    found = [it for it in (shutil.which(NAME),) if it]
    for suite in suites:
        try:
            if not (PLACE / suite / NAME).exists():
                say(f"apt downloads QEMU of {suite}, some 40 MB")
            found.append(fetched(suite))
        except (NoPackages, OSError) as error:
            say(f"no QEMU of {suite}: {error}")
    return found
