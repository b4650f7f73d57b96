"""QEMU as the other end: migrates guests whose memory is a file, into files and from them.

`Guest` starts a QEMU with its RAM in a shared file, so that the guest's memory can be read without
asking QEMU. `written` has it write its state to sockets, single or by multifd, and `written_file`
into a file, each as `migrate` does. `loaded` and `loaded_file` have it load such bytes, and return
its RAM after that.
"""
import json
import re
import shlex
import socket
import subprocess
import tempfile
import threading
import time
from pathlib import Path

SECONDS = 180
HELLO = bytes.fromhex("11223344")


class Qmp:
    """The monitor of a QEMU, by its socket."""

    def __init__(self, path, process):
        self.socket = socket.socket(socket.AF_UNIX)
        until = time.monotonic() + SECONDS
        while True:
            try:
                self.socket.connect(str(path))
                break
            except OSError:
                if process.poll() is not None:
                    raise RuntimeError(f"QEMU: {process.stderr.read().strip()}") from None
                if time.monotonic() > until:
                    raise
                time.sleep(0.02)
        self.socket.settimeout(SECONDS)
        self.file = self.socket.makefile("rw")
        self.read()
        self.call("qmp_capabilities")

    def read(self):
        line = self.file.readline()
        if not line:
            raise RuntimeError("QEMU has ended")
        return json.loads(line)

    def call(self, command, **arguments):
        self.file.write(json.dumps({"execute": command, "arguments": arguments}) + "\n")
        self.file.flush()
        while True:
            answer = self.read()
            if "error" in answer:
                raise RuntimeError(f"{command}: {answer['error']['desc']}")
            if "return" in answer:
                return answer["return"]


class Guest:
    """A QEMU with `memory` as its guest's RAM. The guest runs only where `running` is set.

    `memory` is the RAM's bytes, a file that has them, which the guest changes, or a number of bytes
    for RAM of zeros that no file has.
    """

    def __init__(self, program, memory, words=("-M", "none"), incoming=False, running=False):
        self.folder = tempfile.TemporaryDirectory(prefix="interop-")
        size, backend = self.backend(memory)
        monitor = f"unix:{self.folder.name}/qmp,server=on,wait=off"
        self.process = subprocess.Popen(
            [program, *(() if running else ("-S",)), *words, "-machine", "memory-backend=ram",
             "-m", f"{size // 1024}K", "-object", backend, "-nodefaults", "-display", "none",
             "-accel", "tcg", "-qmp", monitor, *(("-incoming", "defer") if incoming else ())],
            stdin=subprocess.DEVNULL, stdout=subprocess.DEVNULL, stderr=subprocess.PIPE, text=True)
        try:
            self.qmp = Qmp(f"{self.folder.name}/qmp", self.process)
        except BaseException:
            self.__exit__()
            raise

    def backend(self, memory):
        """The RAM's size, and QEMU's words for it."""
        if isinstance(memory, int):
            return memory, f"memory-backend-ram,id=ram,size={memory}"
        self.ram = memory
        if isinstance(memory, bytes):
            self.ram = Path(self.folder.name) / "ram"
            self.ram.write_bytes(memory)
        size = self.ram.stat().st_size
        return size, f"memory-backend-file,id=ram,size={size},mem-path={self.ram},share=on"

    def __enter__(self):
        return self

    def __exit__(self, *error):
        self.process.kill()
        self.process.communicate()
        self.folder.cleanup()

    def set(self, capabilities=(), **parameters):
        if capabilities:
            states = [{"capability": name, "state": True} for name in capabilities]
            self.qmp.call("migrate-set-capabilities", capabilities=states)
        if parameters:
            named = {name.replace("_", "-"): value for name, value in parameters.items()}
            self.qmp.call("migrate-set-parameters", **named)

    def wait(self, *wanted):
        """Waits until the migration has one of these states, and returns it."""
        until = time.monotonic() + SECONDS
        while time.monotonic() < until:
            if self.process.poll() is not None:
                return f"ended with {self.process.returncode}"
            try:
                status = self.qmp.call("query-migrate").get("status", "none")
            except (RuntimeError, OSError):
                self.process.wait(SECONDS)
                return f"ended with {self.process.returncode}"
            if status in wanted:
                return status
            time.sleep(0.02)
        return "no end"

    def wait_for_rounds(self, count):
        """Waits until the migration looked `count` times for written pages, or has ended."""
        until = time.monotonic() + SECONDS
        while time.monotonic() < until:
            said = self.qmp.call("query-migrate")
            if said.get("ram", {}).get("dirty-sync-count", 0) >= count:
                return
            if said.get("status") in ("completed", "failed"):
                return
            time.sleep(0.02)
        raise RuntimeError(f"no {count} rounds in {SECONDS} seconds")

    def contents(self):
        return self.ram.read_bytes()

    def shown(self):
        """The address in the process and the length of each block that QEMU shows, by its id.

        That is `info ramblock` of QEMU 8.0 and later.
        """
        said = self.qmp.call("human-monitor-command", **{"command-line": "info ramblock"})
        row = r"^\s*(\S+)\s+\d+ KiB\s+0x\w+\s+0x(\w+)\s+0x\w+\s+0x(\w+)\s+r[ow]\s*$"
        found = re.findall(row, said, re.M)
        return {name: (int(address, 16), int(length, 16)) for name, length, address in found}

    def opened(self, block):
        """Opens the process's memory, where the memory of a block begins."""
        memory = open(f"/proc/{self.process.pid}/mem", "rb", buffering=0)
        memory.seek(self.shown()[block][0])
        return memory

    def blocks(self):
        """Returns the memory of each block that QEMU shows; of QEMU before 8.0 that of RAM."""
        found = {}
        for name, (_, length) in self.shown().items():
            with self.opened(name) as memory:
                found[name] = memory.read(length)
        return found or {"ram": self.contents()}


def read_all(connection, found):
    """Reads a connection to its end, and adds its bytes to `found`."""
    bytes_ = bytearray()
    while piece := connection.recv(1 << 20):
        bytes_ += piece
    connection.close()
    found.append(bytes(bytes_))


def received(listener, count, found):
    """Takes `count` connections, and reads each to its end. Ends early where none comes."""
    threads = []
    for _ in range(count):
        try:
            connection, _ = listener.accept()
        except OSError:
            break
        threads.append(threading.Thread(target=read_all, args=(connection, found), daemon=True))
        threads[-1].start()
    for thread in threads:
        thread.join(SECONDS)


def migrated(guest, uri, rounds=0):
    """Has a guest migrate to `uri`. One that runs isn't stopped before it had `rounds` rounds.

    It is sent slowly, so that it writes pages in each round, also where the processor is busy.
    """
    if rounds:
        guest.set(max_bandwidth=4 << 20, downtime_limit=1)
    guest.qmp.call("migrate", uri=uri)
    if rounds:
        guest.wait_for_rounds(rounds)
        guest.set(max_bandwidth=1 << 30, downtime_limit=2000)
    status = guest.wait("completed", "failed")
    if status != "completed":
        why = guest.qmp.call("query-migrate").get("error-desc", "")
        raise RuntimeError(f"QEMU wrote no stream: {status} {why}")


def written(guest, channels=0, rounds=0):
    """Has a guest migrate away by sockets.

    Returns the main stream, and the channels' bytes in the order of their ids.
    """
    path = f"{guest.folder.name}/away"
    listener = socket.socket(socket.AF_UNIX)
    listener.bind(path)
    listener.listen(channels + 1)
    listener.settimeout(SECONDS)
    if channels:
        guest.set(["multifd"], multifd_channels=channels)
    found = []
    thread = threading.Thread(target=received, args=(listener, channels + 1, found), daemon=True)
    thread.start()
    try:
        migrated(guest, f"unix:{path}", rounds)
        thread.join(SECONDS)
    finally:
        listener.close()
    if len(found) != channels + 1:
        raise RuntimeError(f"{len(found)} connections came, not {channels + 1}")
    main = next(it for it in found if not it.startswith(HELLO))
    # a hello: magic, version, the UUID, and the channel's id
    hellos = sorted((it for it in found if it.startswith(HELLO)), key=lambda it: it[24])
    return main, hellos


def forward(connection, to, found):
    """Passes on what a connection brings, and adds its bytes to `found`."""
    bytes_ = bytearray()
    try:
        while piece := connection.recv(1 << 20):
            bytes_ += piece
            to.sendall(piece)
        to.shutdown(socket.SHUT_WR)
    except OSError:
        pass
    found.append(bytes(bytes_))


def relayed(listener, path, found):
    """Connects who comes with a socket, both ways. `found` gets the bytes that go there."""
    connection, _ = listener.accept()
    with connection, socket.socket(socket.AF_UNIX) as there:
        there.connect(path)
        back = threading.Thread(target=forward, args=(there, connection, []), daemon=True)
        back.start()
        forward(connection, there, found)
        back.join(SECONDS)


def between(source, target):
    """Has a guest migrate to one that waits for it. Returns the stream that went there."""
    away, here = f"{source.folder.name}/away", f"{target.folder.name}/here"
    target.qmp.call("migrate-incoming", uri=f"unix:{here}")
    found = []
    with socket.socket(socket.AF_UNIX) as listener:
        listener.bind(away)
        listener.listen(1)
        listener.settimeout(SECONDS)
        thread = threading.Thread(target=relayed, args=(listener, here, found), daemon=True)
        thread.start()
        migrated(source, f"unix:{away}")
        thread.join(SECONDS)
    status = target.wait("completed", "failed")
    if status != "completed" or not found:
        raise RuntimeError(f"a QEMU's migration to another: {status}")
    return found[0]


def by_file(guest, path, command):
    """The URI for a file: QEMU has `file:` from 8.2 on, and commands before."""
    number = guest.qmp.call("query-version")["qemu"]
    if (number["major"], number["minor"]) >= (8, 2):
        return f"file:{path}"
    return f"exec:{command} {shlex.quote(str(path))}"


def written_file(guest, path, rounds=0):
    """Has a guest migrate into a file."""
    migrated(guest, by_file(guest, path, "cat >"), rounds)


def send_all(connection, bytes_):
    try:
        connection.sendall(bytes_)
    except OSError:
        pass
    connection.close()


def loaded(guest, main, channels=()):
    """Has a guest that waits for a migration load a stream, by sockets.

    Returns the state that this ends in, and its RAM.
    """
    path = f"{guest.folder.name}/here"
    if channels:
        guest.set(["multifd"], multifd_channels=len(channels))
    guest.qmp.call("migrate-incoming", uri=f"unix:{path}")
    threads = []
    for bytes_ in (main, *channels):
        connection = socket.socket(socket.AF_UNIX)
        connection.connect(path)
        how = {"args": (connection, bytes_), "daemon": True}
        threads.append(threading.Thread(target=send_all, **how))
        threads[-1].start()
    status = guest.wait("completed", "failed")
    for thread in threads:
        thread.join(SECONDS)
    return status, guest.contents()


def loaded_file(guest, path, skip=0):
    """Has a guest that waits for a migration load a file, from the byte `skip` on. Returns what `loaded` returns."""
    uri = f"exec:tail -c +{skip + 1} {shlex.quote(str(path))}" if skip else by_file(guest, path, "cat")
    guest.qmp.call("migrate-incoming", uri=uri)
    return guest.wait("completed", "failed"), guest.contents()


def loaded_mapped(guest, path, offset=0, channels=0):
    """Has a guest that waits for a migration load a file with mapped-ram, whose stream begins at a byte `offset`.

    Several threads read it where there are channels. Returns what `loaded` returns.
    """
    guest.set(["mapped-ram"])
    if channels:
        guest.set(["multifd"], multifd_channels=channels)
    guest.qmp.call("migrate-incoming", uri=f"file:{path}" + (f",offset={offset}" if offset else ""))
    return guest.wait("completed", "failed"), guest.contents()


def version(program):
    """The version that a QEMU prints of itself."""
    said = subprocess.run([program, "--version"], capture_output=True, text=True, check=True).stdout
    return said.split("version ")[1].split()[0]


def number(version_):
    """A version's number as a tuple, which compares as versions do."""
    return tuple(int(it) for it in re.findall(r"\d+", version_)[:3])
