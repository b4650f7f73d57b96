#!/usr/bin/env python3
"""Tries the bindings of the library for C: bindings/rust and bindings/python.

    tools/try_bindings.py [rust] [python]

It comes after `make lib`. The crates are formatted, checked by clippy without a warning, tested over
the shared library and over the archive, and documented, by the system's cargo and without a
registry. Their examples read QEMU's captures of runs/captures, from files and over TCP, and the
memory has to be QEMU's. The crate over `vm-memory` is tried over Debian's (`apt-get install
librust-vm-memory-dev`); without it that is said. The Python package is checked by mypy, tested by
pytest on the captures and beside the program `zimgasol`, if that is built, and tested once more as
a wheel that is built and installed without a registry (`apt-get install python3-pytest
python3-numpy mypy python3-pip python3-venv python3-wheel`). PYTHON names another interpreter than
/usr/bin/python3. What isn't installed is said. If a binding isn't tried at all, the status is 2.
"""
import hashlib
import os
import re
import shutil
import socket
import subprocess
import sys
import tempfile
import threading
from pathlib import Path

TOP = Path(__file__).resolve().parent.parent
RUST = TOP / "bindings/rust"
PACKAGE = TOP / "bindings/python"
# (Debian's packages are those of the system's Python)
PYTHON = os.environ.get("PYTHON") or ("/usr/bin/python3" if Path("/usr/bin/python3").exists() else sys.executable)
CAPTURES = TOP / "runs/captures"
DATA = TOP / "runs/zimgasol/data"
DEBIAN = Path("/usr/share/cargo/registry")
# with which cargo takes what it needs from Debian's packages
BY_DEBIAN = f'[source.crates-io]\nreplace-with = "debian"\n[source.debian]\ndirectory = "{DEBIAN}"\n'
SECONDS = 600


def cargo(target, *words, folder=RUST, **environment):
    """Runs cargo over the library that was built. Returns what it prints."""
    env = {**os.environ, "ZIMGASOL_LIB_DIR": str(TOP / "out"), "LD_LIBRARY_PATH": str(TOP / "out"), "CARGO_TARGET_DIR": str(target),
           "RUSTDOCFLAGS": "-D warnings", **environment}
    ran = subprocess.run(["cargo", *words], cwd=folder, env=env, capture_output=True, text=True, timeout=SECONDS)
    if ran.returncode:
        sys.exit(f"cargo {' '.join(words)}: status {ran.returncode}\n{ran.stdout}{ran.stderr}")
    return ran.stdout + ran.stderr


def vm_memory(target):
    """Tries the crate over vm-memory. Returns what is said of it."""
    folder = RUST / "zimgasol-vm-memory"
    if not list(DEBIAN.glob("vm-memory-*")):
        return "the crate over vm-memory isn't tried: librust-vm-memory-dev isn't installed"
    home = target.with_name("home")
    home.mkdir()
    (home / "config.toml").write_text(BY_DEBIAN)
    how = {"folder": folder, "CARGO_HOME": str(home)}
    cargo(target, "fmt", "--check", **how)
    cargo(target, "clippy", "--offline", "--all-targets", "--", "-D", "warnings", **how)
    said = cargo(target, "test", "--offline", **how)
    return f"over vm-memory {counted(said)} tests passed"


def counted(said):
    """How many tests passed."""
    return sum(int(it) for it in re.findall(r"test result: ok\. (\d+) passed", said))


def example(target, name, *words):
    """Runs an example that was built. Returns its status and what it prints."""
    ran = subprocess.run([target / "debug/examples" / name, *words], env={**os.environ, "LD_LIBRARY_PATH": str(TOP / "out")},
                         capture_output=True, text=True, timeout=SECONDS)
    return ran.returncode, ran.stdout + ran.stderr


def want(what, found, wanted):
    if found != wanted:
        sys.exit(f"{what}: {found} and not {wanted}")


def files(target, room):
    """Reads files of QEMU's."""
    count = 0
    for name in ("none-7.2.22", "none-10.0.2"):
        status, said = example(target, "read_file", CAPTURES / f"{name}.stream", room / "memory")
        want(f"{name}: status", (status, said.splitlines()[-1].partition(",")[2]), (0, " pages missing 0"))
        found = hashlib.sha256((room / "memory").read_bytes()).hexdigest()
        want(f"{name}: memory", [found], (CAPTURES / f"{name}.sums").read_text().split())
        count += 1
    text = (CAPTURES / "none-10.0.2.stream").read_bytes()
    (room / "cut").write_bytes(text[:50000])
    status, said = example(target, "read_file", room / "cut")
    want("a cut file: status", status, 1)
    if not re.search(r"34, .*, after \d+ rounds, at byte \d+$", said.strip()):
        sys.exit(f"a cut file: {said}")
    return count + 1


def send(port, text):
    """Sends a source's bytes over a connection, and reads what comes back."""
    with socket.create_connection(("127.0.0.1", port), timeout=60) as connection:
        connection.sendall(text)
        connection.shutdown(socket.SHUT_WR)
        back = b""
        while more := connection.recv(4096):
            back += more
    return back


def over_tcp(target, name, pages, texts):
    """Sends a main stream and channels to the example. Returns its status, what it prints, and what came back on the main one."""
    program = [target / "debug/examples/receive", "127.0.0.1:0", str(len(texts) - 1), f"{name}={pages}"]
    env = {**os.environ, "LD_LIBRARY_PATH": str(TOP / "out")}
    with subprocess.Popen(program, env=env, stdout=subprocess.PIPE, stderr=subprocess.STDOUT, text=True) as ran:
        port = int(ran.stdout.readline().rpartition(":")[2])
        back = [b""] * len(texts)

        def one(i):
            back[i] = send(port, texts[i])

        # (the main stream comes last, since any order will do)
        threads = [threading.Thread(target=one, args=(i,)) for i in reversed(range(len(texts)))]
        for it in threads:
            it.start()
        said = ran.stdout.read()
        for it in threads:
            it.join()
        return ran.wait(), said, back[0]


def received(target):
    """Sends QEMU's channels over TCP: whole, and with one that is cut."""
    texts = [(CAPTURES / f"none-10.0.2.{it}").read_bytes() for it in ("main", "0", "1")]
    answer = bytes((0, 1, 0, 4, 0, 0, 0, 0))
    status, said, back = over_tcp(target, "ram", 32, texts)
    want("channels", (status, said.rpartition(", ")[2], back), (0, "pages missing 0\n", answer))
    status, said, back = over_tcp(target, "ram", 32, [*texts[:2], texts[2][:-1]])
    want("channels, one of them cut", (status, said.startswith("not received: "), back), (1, True, b""))
    return 2


def python(*words, folder=PACKAGE, by=PYTHON, **environment):
    """Runs Python. Returns what it prints."""
    env = {**os.environ, "PYTHONDONTWRITEBYTECODE": "1", **environment}
    ran = subprocess.run([by, *map(str, words)], cwd=folder, env=env, capture_output=True, text=True, timeout=SECONDS)
    if ran.returncode:
        sys.exit(f"{by} {' '.join(map(str, words))}: status {ran.returncode}\n{ran.stdout}{ran.stderr}")
    return ran.stdout + ran.stderr


def has(*modules):
    """Whether the system's Python has these modules."""
    code = f"import importlib.util as it, sys; sys.exit(not all(map(it.find_spec, {list(modules)})))"
    return subprocess.run([PYTHON, "-c", code], capture_output=True).returncode == 0


def typed():
    """Checks the package's types. Returns what is said of it."""
    if not has("mypy"):
        return "its types aren't checked: mypy isn't installed"
    python("-m", "mypy", "--cache-dir", os.devnull, "zimgasol")
    return "checked by mypy"


def tested(by=PYTHON, folder=PACKAGE, **environment):
    """Runs the tests of the package. Returns how many passed, and how many were skipped."""
    words = ["-m", "pytest", "-q", "--no-header", "-p", "no:cacheprovider", "--rootdir", PACKAGE, PACKAGE / "tests"]
    return python(*words, by=by, folder=folder, **environment).strip().splitlines()[-1]


def wheel(room):
    """Builds a wheel with the library in it, installs it, and has it read a guest and pass the tests. Returns what is said of it."""
    if not has("pip", "wheel", "setuptools", "venv", "ensurepip"):
        return "no wheel is built: python3-pip, python3-venv or python3-wheel isn't installed"
    source = room / "source"
    shutil.copytree(PACKAGE, source, ignore=shutil.ignore_patterns("build", "*.egg-info", "__pycache__"))
    library = str((TOP / "out/libzimgasol.so").resolve())
    alone = ["--no-index", "--no-deps"]
    python("-m", "pip", "wheel", "-q", *alone, "--no-build-isolation", "-w", room, source, ZIMGASOL_LIBRARY=library)
    (built,) = room.glob("zimgasol-*-py3-none-linux_x86_64.whl")
    python("-m", "venv", "--system-site-packages", room / "venv")
    there = room / "venv/bin/python"
    python("-m", "pip", "install", "-q", *alone, built, by=there)
    code = "from zimgasol import _library as it; it.library(); print(it._path())"
    found = python("-c", code, by=there, folder=room, ZIMGASOL_LIBRARY="").strip()
    want("the library of the wheel", Path(found).is_relative_to(room / "venv"), True)
    return f"as a wheel: {tested(there, room, ZIMGASOL_LIBRARY=found)}"


def try_python():
    """Tries the Python package. Returns whether it was tried."""
    if not has("pytest"):
        print("pytest isn't installed: bindings/python isn't tried", file=sys.stderr)
        return False
    if not has("numpy"):
        print("bindings/python: numpy isn't installed, so views as its arrays aren't tried")
    library = str(TOP / "out/libzimgasol.so")
    print(f"bindings/python: {typed()}; {tested(PYTHONPATH=str(PACKAGE), ZIMGASOL_LIBRARY=library)}")
    with tempfile.TemporaryDirectory(prefix="bindings-") as at:
        print(f"bindings/python: {wheel(Path(at))}")
    return True


def try_rust():
    """Tries the crates. Returns whether they were tried."""
    if not shutil.which("cargo"):
        print("cargo isn't installed: bindings/rust isn't tried", file=sys.stderr)
        return False
    with tempfile.TemporaryDirectory(prefix="bindings-") as at:
        room, target = Path(at), Path(at) / "target"
        cargo(target, "fmt", "--check")
        cargo(target, "clippy", "--offline", "--all-targets", "--", "-D", "warnings")
        shared = cargo(target, "test", "--offline")
        archive = cargo(Path(at) / "static", "test", "--offline", "--test", "round_trip", ZIMGASOL_STATIC="1", LD_LIBRARY_PATH="")
        cargo(target, "doc", "--offline", "--no-deps")
        cargo(target, "build", "--offline", "--examples")
        print(f"bindings/rust: {counted(shared + archive)} tests passed, {files(target, room)} files were read, {received(target)} guests received")
        print(f"bindings/rust: {vm_memory(Path(at) / 'vm')}")
    return True


def main():
    if not (TOP / "out/libzimgasol.so").exists():
        print("make lib comes first", file=sys.stderr)
        return 2
    asked = sys.argv[1:] or ["rust", "python"]
    found = [{"rust": try_rust, "python": try_python}[it]() for it in asked]
    return 0 if all(found) else 2


if __name__ == "__main__":
    sys.exit(main())
