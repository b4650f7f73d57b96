"""The tests with each QEMU of the library for C, over live connections: a function for each row.

Two small programs are built with the library: examples/c/from_qemu.c receives a machine, and
to_qemu.c sends one. Each takes connections that are made here. What QEMU sends goes through a
relay, which keeps it and cuts a connection where a test wants that. Each function takes a `Bench`
and the programs, and returns the text on what was compared, or raises `Differs`.
"""
import os
import random
import re
import select
import shutil
import socket
import subprocess
import threading
import time
from pathlib import Path

import qemu
from channels import is_lawful
from checks import compare_written, loaded_as, rounds_of
from guests import MIB, NONE, PAGE, memory
from ours import TOP, Differs, compare, ran
from states import wait_for_change

SOURCES = TOP / "examples/c/from_qemu.c", TOP / "tools/interop/to_qemu.c", TOP / "examples/c/mapped.c"
# the seconds within which a receiver ends whose connection is lost
LIMIT = 60
CUTS = 10
# how many bytes a relay holds back until QEMU sends nothing for so many seconds
HELD, PAUSE = 64, 0.05
STRICT = ("-std=c11", "-Wall", "-Wextra", "-Wpedantic", "-Werror", "-O2")
# MIG_RP_MSG_SHUT, four bytes of data: 0, the guest was loaded
ANSWER = bytes.fromhex("0001000400000000")
# the statuses of from_qemu: the streams have a fault, and something is missing
FAULT, LACKS = 1, 2


def built(library, folder):
    """Builds the programs. Returns them by name, or why they can't be built."""
    compiler = shutil.which(os.environ.get("CC", "cc"))
    if not Path(library).exists():
        return None, f"there is no {library}: make lib"
    if compiler is None:
        return None, "there is no C compiler"
    for source in SOURCES:
        program = folder / source.stem
        ran(compiler, *STRICT, "-pthread", f"-I{TOP / 'include'}", source, library, "-o", program)
    return {it.stem: folder / it.stem for it in SOURCES}, None


class Pipe:
    """A connection of QEMU's that is passed on to the receiver, both ways. It is cut where `most`
    bytes came and a further one. If it `drains`, it is read to its end also without a receiver. The
    last bytes before a pause go on after it, so that an answer that comes too early is seen.
    """

    def __init__(self, connection, most=None, drains=False):
        self.qemu, self.most, self.drains = connection, most, drains
        self.was_cut, self.bytes, self.answers = False, bytearray(), []
        self.ours, self.theirs = socket.socketpair()
        self.threads = [threading.Thread(target=it, daemon=True) for it in (self.there, self.back)]

    def start(self):
        self.theirs.close()
        for thread in self.threads:
            thread.start()

    def there(self):
        try:
            for piece in self.pieces():
                if self.most is not None and len(self.bytes) + len(piece) > self.most:
                    self.ours.sendall(piece[:self.most - len(self.bytes)])
                    self.was_cut = True
                    self.shut(self.qemu)
                    break
                self.bytes += piece
                self.pass_on(piece)
            self.ours.shutdown(socket.SHUT_WR)
        except OSError:
            self.shut(self.qemu)

    def pieces(self):
        """What QEMU sends, piece by piece."""
        held, piece = b"", b" "
        while piece:
            if held and not select.select([self.qemu], [], [], PAUSE)[0]:
                yield held
                held = b""
            piece = self.qemu.recv(1 << 16)
            held += piece
            if len(held) > HELD:
                yield held[:-HELD]
                held = held[-HELD:]
        if held:
            yield held

    def pass_on(self, piece):
        try:
            self.ours.sendall(piece)
        except OSError:
            if not self.drains:
                raise

    def back(self):
        try:
            while piece := self.ours.recv(1 << 16):
                self.answers.append((len(self.bytes), piece))
                self.qemu.sendall(piece)
        except OSError:
            pass
        # (the receiver has ended: QEMU's next write fails)
        if not self.drains:
            self.shut(self.qemu)

    @staticmethod
    def shut(connection):
        try:
            connection.shutdown(socket.SHUT_RDWR)
        except OSError:
            pass

    def end(self):
        for thread in self.threads:
            thread.join(LIMIT)
        self.qemu.close()
        self.ours.close()


class Receiver:
    """`from_qemu` at the other end of a guest's migration."""

    def __init__(self, bench, programs, guest, channels, returns, cut=None, drains=False):
        self.count, self.cut, self.drains = channels + 1, cut, drains
        self.program, self.returns = programs["from_qemu"], returns
        self.path, self.out = f"{guest.folder.name}/away", bench.file("received")
        self.listener = socket.socket(socket.AF_UNIX)
        self.listener.bind(self.path)
        self.listener.listen(self.count)
        self.listener.settimeout(LIMIT)
        self.pipes, self.process, self.error = [], None, None
        self.thread = threading.Thread(target=self.accept, daemon=True)
        self.thread.start()

    def accept(self):
        """Takes the connections, the main one first, and starts the program with them."""
        try:
            for number in range(self.count):
                connection, _ = self.listener.accept()
                is_cut = self.cut is not None and self.cut[0] == number
                self.pipes.append(Pipe(connection, self.cut[1] if is_cut else None, self.drains))
            theirs = [it.theirs.fileno() for it in self.pipes]
            words = [self.program, *(("-r",) if self.returns else ()), self.out, *theirs]
            self.process = subprocess.Popen([str(it) for it in words], pass_fds=theirs, text=True,
                                            stdout=subprocess.PIPE, stderr=subprocess.PIPE)
            for pipe in self.pipes:
                pipe.start()
        except OSError as error:
            self.error = error

    def ended(self):
        """Waits for the program's end. Returns its status, and what it said."""
        self.thread.join(LIMIT)
        if self.process is None:
            raise Differs(f"no connections came: {self.error}")
        try:
            out, err = self.process.communicate(timeout=LIMIT)
        except subprocess.TimeoutExpired:
            raise Differs(f"the receiver is hung: no end in {LIMIT} seconds") from None
        for pipe in self.pipes:
            pipe.end()
        return self.process.returncode, out, err.strip()

    def blocks(self, out):
        """The memory that was received, by the blocks' ids."""
        found, at, bytes_ = {}, 0, self.out.read_bytes()
        for name, length in re.findall(r"^(\S+) (\d+)$", out, re.M):
            found[name] = bytes_[at:at + int(length)]
            at += int(length)
        return found

    def streams(self):
        """The main stream, and the channels' bytes in the order of their ids."""
        main, *channels = (bytes(it.bytes) for it in self.pipes)
        return main, sorted(channels, key=lambda it: it[24])

    def __enter__(self):
        return self

    def __exit__(self, *error):
        self.listener.close()
        if self.process is not None and self.process.poll() is None:
            self.process.kill()
            self.process.communicate()


def set_up(guest, channels, returns):
    guest.set([*(("multifd",) if channels else ()), *(("return-path",) if returns else ())])
    if channels:
        guest.set(multifd_channels=channels)


def receive(bench, programs, kind, channels=0, returns=False, faults=()):
    """A guest migrates to the library, and each of its blocks is there.

    Where there are `faults` and QEMU's rounds aren't lawful, it is to end with one of these.
    """
    with bench.guest(kind) as guest:
        set_up(guest, channels, returns)
        with Receiver(bench, programs, guest, channels, returns, drains=bool(faults)) as receiver:
            try:
                qemu.migrated(guest, f"unix:{receiver.path}", rounds_of(kind))
            except RuntimeError as error:
                raise Differs(f"{error}; the receiver: {receiver.ended()}") from None
            wanted = guest.blocks()
            status, out, said = receiver.ended()
    main, streams = receiver.streams()
    if faults and status == FAULT and not is_lawful(main, streams):
        return expected_fault(said, faults)
    if status != 0 or not out.endswith("DONE\n"):
        raise Differs(f"the receiver: status {status}, {said}")
    test_answer(receiver.pipes, returns)
    came = receiver.blocks(out)
    if len(came) < 2 and kind.writes:
        raise Differs(f"{len(came)} blocks came")
    if channels:
        return compare(wanted, came)
    stream = bench.file("guest.sav")
    stream.write_bytes(main)
    return compare_written(bench, kind, stream, wanted, came)


def test_answer(pipes, returns):
    """Tests that the receiver answered once, behind the last byte of the main stream, or never."""
    found = [it.answers for it in pipes]
    wanted = [(len(pipes[0].bytes), ANSWER)] if returns else []
    if found != [wanted, *([] for _ in pipes[1:])]:
        raise Differs(f"answers, each with the bytes before it: {found}, not {wanted}")


def expected_fault(said, faults):
    found = re.search(r"fault (\d+)", said)
    if not found or int(found[1]) not in faults:
        raise Differs(f"{said}; expected fault {' or '.join(map(str, faults))}")
    return f"fault {found[1]}"


def send(bench, programs, channels=0):
    """The library sends an image, the last round with other bytes, and QEMU loads it."""
    wanted, image = memory(4 * MIB // PAGE, seed=11), bench.file("image")
    image.write_bytes(wanted)
    with bench.waiting(len(wanted), NONE.words) as guest:
        set_up(guest, channels, False)
        path = f"{guest.folder.name}/here"
        guest.qmp.call("migrate-incoming", uri=f"unix:{path}")
        connections = [socket.socket(socket.AF_UNIX) for _ in range(channels + 1)]
        for connection in connections:
            connection.connect(path)
        numbers = [it.fileno() for it in connections]
        words = [str(it) for it in (programs["to_qemu"], image, *numbers)]
        process = subprocess.Popen(words, pass_fds=numbers, text=True, stderr=subprocess.PIPE)
        for connection in connections:
            connection.close()
        try:
            status = guest.wait("completed", "failed")
            _, said = process.communicate(timeout=LIMIT)
        except subprocess.TimeoutExpired:
            raise Differs("the sender is hung") from None
        finally:
            process.kill()
        if process.returncode != 0:
            said = f"status {process.returncode}, {said.strip()}"
            raise Differs(f"the sender: {said}; QEMU: {status}")
        return loaded_as(status, {"ram": wanted}, {"ram": guest.contents()})


def keeps_guest(guest):
    """Tests that a source whose migration is over goes on with its guest, which writes."""
    until = time.monotonic() + LIMIT
    while not guest.qmp.call("query-status")["running"]:
        if time.monotonic() > until:
            raise Differs(f"the source: {guest.qmp.call('query-status')}")
        time.sleep(0.05)
    wait_for_change(guest, guest.contents())


def lose(bench, programs, kind, channels, source, most):
    """A guest migrates by a return path, and one connection is cut: nobody has it but its source.

    Returns whether the connection had so many bytes, and the receiver's status.
    """
    with bench.guest(kind) as guest:
        set_up(guest, channels, True)
        with Receiver(bench, programs, guest, channels, True, (source, most)) as receiver:
            guest.set(max_bandwidth=1 << 30, downtime_limit=2000)
            guest.qmp.call("migrate", uri=f"unix:{receiver.path}")
            status, out, said = receiver.ended()
            was_cut = receiver.pipes[source].was_cut
            state = guest.wait("completed", "failed")
            where = f"connection {source} cut at byte {most}"
            if not was_cut:
                if (status, state) != (0, "completed"):
                    raise Differs(f"not cut: status {status}, {said}; QEMU: {state}")
                return None
            if status not in (FAULT, LACKS) or "DONE" in out:
                raise Differs(f"{where}: the receiver: status {status}, {said}{out}")
            if state != "failed":
                raise Differs(f"{where}: the source: {state}")
            keeps_guest(guest)
    return status


def lengths(bench, programs, kind, channels):
    """How many bytes each connection of a migration has, the main one first."""
    with bench.guest(kind) as guest:
        set_up(guest, channels, True)
        with Receiver(bench, programs, guest, channels, True) as receiver:
            qemu.migrated(guest, f"unix:{receiver.path}")
            status, _, said = receiver.ended()
            if status != 0:
                raise Differs(f"the receiver: status {status}, {said}")
            return [len(it.bytes) for it in receiver.pipes]


def lose_each(bench, programs, kind, channels):
    """Cuts each connection at random places, one in each migration."""
    drawn, found = random.Random(channels), []
    all_ = lengths(bench, programs, kind, channels)
    for number in range(CUTS):
        source = number % len(all_)
        found.append(lose(bench, programs, kind, channels, source, drawn.randrange(all_[source])))
    cut = [it for it in found if it is not None]
    if len(cut) < CUTS // 2:
        raise Differs(f"only {len(cut)} of {CUTS} migrations were cut")
    return f"{len(cut)} cuts: {cut.count(FAULT)} faults, {cut.count(LACKS)} incomplete"


def cancel(bench, programs, kind, channels):
    """QEMU cancels a migration in its second round: the receiver ends, and the guest runs on."""
    with bench.guest(kind) as guest:
        set_up(guest, channels, True)
        with Receiver(bench, programs, guest, channels, True) as receiver:
            guest.set(max_bandwidth=4 << 20, downtime_limit=1)
            guest.qmp.call("migrate", uri=f"unix:{receiver.path}")
            guest.wait_for_rounds(2)
            guest.qmp.call("migrate_cancel")
            status, out, said = receiver.ended()
            state = guest.wait("cancelled", "completed", "failed")
            if status not in (FAULT, LACKS) or "DONE" in out or state != "cancelled":
                raise Differs(f"the receiver: status {status}, {said}{out}; QEMU: {state}")
            keeps_guest(guest)
    return f"status {status}, the guest runs on"
