"""Plays files of cases of the tool: words, input and files, and what the program answers.

`crates/mig_rows/README.md` has the lines of a case. Each case has an empty folder for its files. Beside an
answer that isn't the expected one, a line that can't be followed is wrong, too. Questions of large
inputs (LARGE) are asked of a proved program alone. A case without another question is wrong.
"""
import contextlib
import hashlib
import os
import re
import select
import subprocess
import tempfile
import threading
from pathlib import Path

SECONDS = 60
# What a question of a large input begins with. A program that is built with checks of memory takes
# minutes for it: its vectors drop one byte after another, and each is checked.
LARGE = "large "
# The content of the file `i` before a load.
BEFORE = b"as it was"
# Bytes with more runs of one byte than this are written as a sum.
MOST_RUNS = 4


def of_text(text):
    """The bytes of a TEXT: `\\n` is a line's end, and `\\x` with two digits any other byte."""
    if re.sub(r"\\(n|x[0-9a-f]{2})", "", text).count("\\"):
        raise ValueError(f"{text}: an escape that is none")
    escaped = re.compile(rb"\\(n|x[0-9a-f]{2})")
    return escaped.sub(lambda it: b"\n" if it[1] == b"n" else bytes.fromhex(it[1][1:].decode()), text.encode())


def as_text(data):
    """Bytes as a TEXT has them."""
    plain = {byte: chr(byte) for byte in range(32, 127) if byte != ord("\\")}
    return "".join(plain.get(it, "\\n" if it == 10 else f"\\x{it:02x}") for it in data)


def of_digits(text):
    """The bytes of hexadecimal digits, some of them repeated: `01 61 00*4095`."""
    found = b""
    for word in text.split():
        digits, _, times = word.partition("*")
        found += bytes.fromhex(digits) * int(times or 1)
    return found


def as_runs(data):
    """Bytes as runs of one byte, `09,00*4095`, or as the beginning of their SHA-1 sum."""
    runs, rest = [], data
    while rest and len(runs) < MOST_RUNS:
        length = len(rest) - len(rest.lstrip(rest[:1]))
        runs.append(f"{rest[0]:02x}" + f"*{length}" * (length > 1))
        rest = rest[length:]
    return f"sha1:{hashlib.sha1(data).hexdigest()[:8]}" if rest else ",".join(runs)


def compared(data, wanted):
    """The expected digits if the bytes are theirs, or else the first difference."""
    other = of_digits(wanted)
    if data == other:
        return wanted
    for at, (one, another) in enumerate(zip(data, other)):
        if one != another:
            return f"{len(data)} bytes, of which byte {at} is {one:02x}"
    return f"{len(data)} bytes in place of {len(other)}"


@contextlib.contextmanager
def packets(data, length):
    """Makes a pipe of which each read finds `length` bytes of the data."""
    reading, writing = os.pipe2(os.O_DIRECT | os.O_CLOEXEC)

    def write():
        # (a program that has ended reads no more)
        with open(writing, "wb", buffering=0) as pipe, contextlib.suppress(BrokenPipeError):
            for at in range(0, len(data), length):
                pipe.write(data[at:at + length])

    writer = threading.Thread(target=write)
    writer.start()
    try:
        with open(reading, "rb") as pipe:
            yield pipe
    finally:
        writer.join()


class Case:
    """What the lines of a case have built so far, in its own folder."""

    def __init__(self, program, folder):
        self.program, self.folder = program, Path(folder)
        self.streams, self.input, self.piece = [], b"", 0

    # ---- lines that build

    def change_stream(self, name, words, rest):
        """Takes a line on the last stream. Returns False if it is another one."""
        if name == "new":
            self.streams.append(b"")
            return True
        if name not in ("put", "at", "insert", "cut", "repeat", "add", "add_each"):
            return False
        last = self.streams[-1]
        if name == "put":
            last += of_digits(rest)
        elif name == "add":
            last += of_text(rest)
        elif name == "add_each":
            text = rest.split(" ", 2)[2]
            numbers = range(int(words[0]), int(words[1]) + 1)
            last += b"".join(of_text(text.replace("#", str(it))) for it in numbers)
        elif name == "cut":
            last = self.front(int(words[0]))
        elif name == "repeat":
            start, end = int(words[0]), int(words[1])
            last = self.front(end) + last[start:end] + last[end:]
        else:
            place, data = int(words[0]), of_digits(rest.partition(" ")[2])
            end = place + len(data) if name == "at" else place
            last = self.front(end)[:place] + data + last[end:]
        self.streams[-1] = last
        return True

    def front(self, length):
        if length > len(self.streams[-1]):
            raise ValueError(f"the stream hasn't {length} bytes")
        return self.streams[-1][:length]

    def change_file(self, name, words, rest):
        """Takes a line on the input or on files. Returns False if it is another one."""
        if name == "input":
            self.input = of_text(rest) if rest else self.streams[-1]
        elif name == "pieces":
            self.piece = int(rest)
            if not 1 <= self.piece <= select.PIPE_BUF:
                raise ValueError(f"no packet of a pipe has {rest} bytes")
        elif name == "write":
            self.path(words[0]).write_bytes(of_text(rest.partition(" ")[2]))
        elif name == "save":
            self.path(words[0]).write_bytes(self.streams[-1])
        elif name == "read":
            self.streams.append(self.path(words[0]).read_bytes())
        elif name == "folder":
            self.path(words[0]).mkdir()
        elif name == "remove":
            self.path(words[0]).unlink()
        else:
            return False
        return True

    def path(self, name):
        return self.folder / name

    # ---- questions

    def run(self, line):
        words = [str(self.path(it[1:])) if it.startswith("@") else "" if it == '""' else it
                 for it in line.split(" ")] if line else []
        how = {"stdout": subprocess.PIPE, "stderr": subprocess.DEVNULL, "timeout": SECONDS}
        if self.piece:
            with packets(self.input, self.piece) as pipe:
                done = subprocess.run([*self.program, *words], stdin=pipe, **how)
        else:
            done = subprocess.run([*self.program, *words], input=self.input, **how)
        return f"{done.returncode} {as_text(done.stdout)}".rstrip(" ")

    def load(self, words):
        self.path("i").write_bytes(BEFORE)
        answer = self.run(f"load {words}")
        data = self.path("i").read_bytes()
        return answer if data == BEFORE else f"{answer}; i {as_runs(data)}"

    def ask(self, name, rest):
        if name == "check":
            self.input = of_text(rest)
            return self.run("")
        if name == "run":
            return self.run(rest)
        if name == "load":
            return self.load(rest)
        if name == "load_both":
            fed, whole = self.load(f"{rest} --feed"), self.load(rest)
            return whole if fed == whole else f"{whole} whole, and fed {fed}"
        if name == "content":
            return as_text(self.path(rest).read_bytes())
        if name == "length":
            files = [self.path(it) for it in rest.split(" ")]
            return str(sum(it.stat().st_size for it in files)) if all(it.exists() for it in files) else "none"
        raise ValueError(f"{name}: no such line")

    def answer(self, name, words, rest, wanted):
        """The answer to a question; None for a line that builds something."""
        if self.change_stream(name, words, rest) or self.change_file(name, words, rest):
            return None
        if name == "bytes":
            return compared(self.path(rest).read_bytes(), wanted)
        if name == "bytes_each":
            return self.bytes_each(int(words[0]), int(words[1]), rest.split(" ", 2)[2], wanted)
        if name == "either":
            answer = self.ask(words[0], rest.partition(" ")[2])
            return wanted if answer in wanted.split(" or ") else answer
        if name == "each":
            file, question, more = [*rest.split(" ", 4)[2:], ""][:3]
            return self.each(int(words[0]), int(words[1]), file, question, more, wanted)
        return self.ask(name, rest)

    def bytes_each(self, first, last, name, wanted):
        for number in range(first, last + 1):
            digits = wanted.replace("#", f"{number:02x}")
            file = name.replace("#", str(number))
            answer = compared(self.path(file).read_bytes(), digits)
            if answer != digits:
                return f"{answer} in {file}"
        return wanted

    def each(self, first, last, file, question, rest, wanted):
        answer = ""
        for length in range(first, last + 1):
            self.path(file).write_bytes(self.front(length))
            answer = self.ask(question, rest)
            if answer != wanted:
                return f"{answer} of the first {length} bytes"
        return answer


def sections_of(text):
    """The cases of a file, each with its lines, those of the names that it takes included."""
    named, cases, lines = {}, [], None
    for line in map(str.strip, text.split("\n")):
        word, _, rest = line.partition(" ")
        if not line or line.startswith("#"):
            continue
        if word == "text":
            lines = named.setdefault(rest, [])
        elif word == "case":
            lines = []
            cases.append((rest, lines))
        elif word == "from":
            lines += named[rest]
        else:
            lines.append(line)
    return cases


def lines_for(is_proved, lines):
    """The lines of a case for a program: all if it is proved, or else those without LARGE."""
    return [it.removeprefix(LARGE) for it in lines if is_proved or not it.startswith(LARGE)]


def play_case(program, lines):
    """Plays a case. Returns how many answers came, and what to say of each wrong one."""
    answers, wrong = 0, []
    with tempfile.TemporaryDirectory(prefix="cases-") as folder:
        case = Case(program, folder)
        for line in lines:
            text, asks, wanted = line.partition(" = ")
            name, _, rest = text.partition(" ")
            try:
                answer = case.answer(name, rest.split(" "), rest, wanted)
            except (ValueError, LookupError, OSError, subprocess.TimeoutExpired) as why:
                return answers + 1, [*wrong, f"{line[:90]}: can't be followed: {why}"]
            if answer is None and not asks:
                continue
            answers += 1
            if answer != wanted or not asks:
                wrong.append(f"{text[:90]}: expected {wanted[:160]}, came {str(answer)[:160]}")
    return answers, wrong


def play(program, files, is_proved):
    """Plays the cases of files. Returns how many cases passed and failed.

    Prints what is wrong, and how many questions weren't asked, as the program isn't proved.
    """
    passed, failed, answers, kept = 0, 0, 0, []
    for file in files:
        for name, lines in sections_of(file.read_text()):
            asked = lines_for(is_proved, lines)
            count, wrong = play_case(program, asked)
            if not any(" = " in it for it in lines_for(False, lines)):
                wrong.append("has no question, or only of large inputs")
            answers += count
            if len(asked) < len(lines):
                kept.append(len(lines) - len(asked))
            passed, failed = passed + (not wrong), failed + bool(wrong)
            for it in wrong:
                print(f"{file.name}: {name}: {it}")
    print(f"the tool: {passed + failed} cases, {answers} answers, {failed or 'none'} of the cases wrong", flush=True)
    if kept:
        what = f"{sum(kept)} questions of large inputs, in {len(kept)} cases,"
        print(f"the tool: {what} are kept for make test", flush=True)
    return passed, failed
