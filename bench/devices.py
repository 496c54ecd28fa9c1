#!/usr/bin/env python3
"""Whether `fmc` answers as docs/LANGUAGE.md says where real files and devices fail.

    bench/devices.py [BINARY]

Tries every command with outputs that fail: a full device, a pipe whose reader is gone or goes, one that is full and
isn't waited for, one that is read byte by byte, a closed descriptor, one that is open for reading alone, a limit on
the size of files; and with inputs that fail: a folder, closed descriptors, empty files, a device that fails, a pipe
that gives byte by byte, files that shrink while they are read, sources and traces at their limits and over them.
Prints each answer that differs in status, text or standard error, and how many there were. The status is 1 where one
differs.

BINARY is the built program, by default crates/fmc_cli/out/fmc_cli. What a call answers where nothing fails is taken
from the program itself.
"""
import os
import resource
import signal
import subprocess
import sys
import tempfile
import threading

TOP = os.path.dirname(os.path.dirname(os.path.abspath(__file__)))
SOURCE_LIMIT, TRACE_LIMIT, PIPE, FRONT, TIMES = 1_000_000, 100_000_000, 65_536, 1000, 10
LAWFUL = b"      PROGRAM P\n      PRINT *, 1\n      END\n"
SILENT = b"      PROGRAM P\n      END\n"
REFUSED = b"      PROGRAM P\n      X = 1\n      END\n"
TRACE = b"fmc trace 2\nturns 10000000\nlines 0\nsource\n"
# Lawful: its statements, and so its list, don't fit into a pipe.
LONG = b"      PROGRAM P\n" + b"      PRINT *, 123456789\n" * 5000 + b"      END\n"
READING = ["run", "trace", "check", "list", "compile", "replay"]
READ_FAULT, WRITE_FAULT, TOO_LONG = (6, b"read fault\n"), (7, b""), (9, b"source too long\n")
NO_PROGRAM, NO_TRACE = (3, b"line 1: E26 not exactly one PROGRAM\n"), (10, b"malformed trace: line 1\n")


class Tries:
    """The program, and how many answers there were and differed."""

    def __init__(self, binary):
        self.binary, self.good, self.wrong = binary, 0, 0

    def note(self, what, answer, *wanted):
        """Counts an answer, and prints it where it isn't one of those that are wanted, or wrote to standard error."""
        status, text, errors = answer
        if (status, text) in wanted and not errors:
            self.good += 1
            return
        self.wrong += 1
        told = " or ".join(f"{status} {text[:60]!r}" for status, text in wanted)
        print(f"{what}: wanted {told}, got {status} {text[:60]!r}, on standard error {errors[:60]!r}", flush=True)

    def start(self, words, **how):
        return subprocess.Popen([self.binary, *words.split()], stderr=subprocess.PIPE, **how)

    def ends(self, call):
        """The status, text and errors of a call; the text is empty where it went elsewhere."""
        text, errors = call.communicate(timeout=600)
        return call.returncode, text or b"", errors

    def answer(self, words, **how):
        return self.ends(self.start(words, **how))

    def usual(self, words, source):
        """What a call answers where nothing fails."""
        with file_of(source) as file:
            return self.answer(words, stdin=file, stdout=subprocess.PIPE)[:2]


def file_of(source):
    """A file with these bytes, at its begin."""
    file = tempfile.TemporaryFile()
    file.write(source)
    file.seek(0)
    return file


def sparse(source, size):
    """A file with these bytes and zeros up to a size, which take no room."""
    file = file_of(source)
    os.truncate(file.fileno(), size)
    return file


def padded(source, size):
    """A source with comments behind it, up to a size."""
    rest = size - len(source)
    return source + b"C\n" * (rest // 2 - 1) + (b"CC\n" if rest % 2 else b"C\n")


def calls(tries):
    """Each command, with a source where it reads one."""
    trace = tries.usual("trace", LAWFUL)[1]
    yield from [("run", LAWFUL), ("run", REFUSED), ("run --turns 1", LAWFUL), ("run", padded(LAWFUL, SOURCE_LIMIT + 1))]
    yield from [("trace", LAWFUL), ("replay", trace), ("replay", b"fmc\n"), ("check", LAWFUL), ("list", LAWFUL)]
    yield from [("compile", LAWFUL), ("list", LONG), ("make 7", b""), ("demo 1", b""), ("run --fast", b"")]


def write_fault(tries, what, words, source, wanted=WRITE_FAULT, **how):
    """A call whose output takes nothing."""
    with file_of(source) as file:
        tries.note(f"{words}, {what}", tries.answer(words, stdin=file, **how), wanted)


def no_descriptor(number):
    return lambda: os.close(number)


def no_room():
    resource.setrlimit(resource.RLIMIT_FSIZE, (0, 0))


def outputs_that_take_nothing(tries, words, source):
    with open("/dev/full", "wb") as full:
        write_fault(tries, "output to /dev/full", words, source, stdout=full)
    with open("/dev/null", "rb") as null:
        write_fault(tries, "output that is open for reading", words, source, stdout=null)
    write_fault(tries, "output closed", words, source, preexec_fn=no_descriptor(1))
    with tempfile.TemporaryFile() as limited:
        ended = -signal.SIGXFSZ, b""
        write_fault(tries, "output over the limit on files", words, source, ended, stdout=limited, preexec_fn=no_room)
    reader, writer = os.pipe()
    os.close(reader)
    write_fault(tries, "output to a pipe without a reader", words, source, stdout=writer)
    os.close(writer)


def bytewise(tries, words, source, wanted):
    """The output is read byte by byte."""
    with file_of(source) as file:
        call = tries.start(words, stdin=file, stdout=subprocess.PIPE, bufsize=0)
        text = b"".join(iter(lambda: os.read(call.stdout.fileno(), 1), b""))
        status, _, errors = tries.ends(call)
    tries.note(f"{words}, output read byte by byte", (status, text, errors), wanted)


def cut(tries, words, source, wanted):
    """A text that doesn't fit into a pipe, whose reader goes: a front of it."""
    with file_of(source) as file:
        call = tries.start(words, stdin=file, stdout=subprocess.PIPE, bufsize=0)
        text = os.read(call.stdout.fileno(), FRONT)
        call.stdout.close()
        call.stdout = None
        status, _, errors = tries.ends(call)
    tries.note(f"{words}, a reader that goes", (status, text, errors), (7, wanted[1][:FRONT]))


def not_waited_for(tries, words, source, wanted):
    """A pipe that nobody reads meanwhile, and that isn't waited for: the whole text, or as much of it as fits."""
    reader, writer = os.pipe()
    os.set_blocking(writer, False)
    with file_of(source) as file:
        status, _, errors = tries.answer(words, stdin=file, stdout=writer)
    os.close(writer)
    with os.fdopen(reader, "rb") as rest:
        text = rest.read()
    front = wanted if len(wanted[1]) <= PIPE else (7, wanted[1][: len(text)])
    tries.note(f"{words}, a full pipe that isn't waited for", (status, text, errors), front)


def silent(tries):
    """An empty text is written wherever it goes."""
    for how in ({"stdout": open("/dev/full", "wb")}, {"preexec_fn": no_descriptor(1)}):
        with file_of(SILENT) as file:
            tries.note("run of what prints nothing", tries.answer("run", stdin=file, **how), (0, b""))


def inputs(tries, words):
    """Inputs that fail or are empty, of a command that reads."""
    empty = NO_TRACE if words == "replay" else NO_PROGRAM
    reader, writer = os.pipe()
    os.set_blocking(reader, False)
    trials = [
        ("a folder", os.open("/", os.O_RDONLY), READ_FAULT),
        ("an empty file", os.open("/dev/null", os.O_RDONLY), empty),
        ("an input open for writing", os.open("/dev/null", os.O_WRONLY), READ_FAULT),
        ("a pipe that has nothing yet", reader, READ_FAULT),
        ("a device that fails", os.open("/proc/self/mem", os.O_RDONLY), READ_FAULT),
        ("a device without end", os.open("/dev/zero", os.O_RDONLY), TOO_LONG),
    ]
    for what, number, wanted in trials:
        tries.note(f"{words}, {what}", tries.answer(words, stdin=number, stdout=subprocess.PIPE), wanted)
        os.close(number)
    os.close(writer)
    call = tries.start(words, stdout=subprocess.PIPE, preexec_fn=no_descriptor(0))
    tries.note(f"{words}, input closed", tries.ends(call), READ_FAULT)
    with open("/dev/full", "wb") as full:
        call = tries.start(words, stdout=full, preexec_fn=no_descriptor(0))
        tries.note(f"{words}, input closed and a full device", tries.ends(call), WRITE_FAULT)


def unread(tries, words):
    """A command that reads nothing doesn't fail by its input."""
    wanted = tries.usual(words, b"")
    call = tries.start(words, stdout=subprocess.PIPE, preexec_fn=no_descriptor(0))
    tries.note(f"{words}, input closed", tries.ends(call), wanted)
    folder = os.open("/", os.O_RDONLY)
    tries.note(f"{words}, a folder", tries.answer(words, stdin=folder, stdout=subprocess.PIPE), wanted)
    os.close(folder)


def fed(tries, words, source, wanted):
    """A source that comes byte by byte."""
    call = tries.start(words, stdin=subprocess.PIPE, stdout=subprocess.PIPE, bufsize=0)

    def feed():
        for at in range(len(source)):
            os.write(call.stdin.fileno(), source[at : at + 1])
        call.stdin.close()

    feeder = threading.Thread(target=feed)
    feeder.start()
    text = call.stdout.read()
    feeder.join()
    call.stdin = None
    status, _, errors = tries.ends(call)
    tries.note(f"{words}, input byte by byte", (status, text, errors), wanted)


def of_file(tries, what, words, file, wanted):
    with file:
        tries.note(f"{words}, {what}", tries.answer(words, stdin=file, stdout=subprocess.PIPE), wanted)


def limits(tries):
    """Sources and traces of as many bytes as there may be, and of one more."""
    most, over = padded(LAWFUL, SOURCE_LIMIT), padded(LAWFUL, SOURCE_LIMIT + 1)
    for words in READING[:5]:
        status, text = tries.usual(words, LAWFUL)
        rest = most[len(LAWFUL) :] if words == "trace" else b""
        of_file(tries, "1,000,000 bytes", words, file_of(most), (status, text + rest))
        of_file(tries, "1,000,001 bytes", words, file_of(over), TOO_LONG)
    of_file(tries, "1,000,000 bytes behind `source`", "replay", file_of(TRACE + most), (12, b"unfinished\n"))
    of_file(tries, "1,000,001 bytes behind `source`", "replay", file_of(TRACE + over), TOO_LONG)
    of_file(tries, "100,000,000 bytes", "replay", sparse(b"", TRACE_LIMIT), NO_TRACE)
    of_file(tries, "100,000,001 bytes", "replay", sparse(b"", TRACE_LIMIT + 1), TOO_LONG)
    of_file(tries, "a trace of 1 TB", "replay", sparse(TRACE, 10**12), TOO_LONG)


def shrunk(tries, words, whole, most, least):
    """Cuts a file to the least size when reading has begun: the answer, and how many bytes were read.

    The position in the file is shared with the program, and tells how far it is.
    """
    with sparse(whole, most) as file:
        call = tries.start(words, stdin=file, stdout=subprocess.PIPE)
        while os.lseek(file.fileno(), 0, os.SEEK_CUR) == 0 and call.poll() is None:
            pass
        os.truncate(file.fileno(), least)
        return tries.ends(call), os.lseek(file.fileno(), 0, os.SEEK_CUR)


def shrinks(tries):
    """A file that is cut while it is read: the answer is that of the bytes that were read."""
    between = 0
    trials = [(words, padded(LAWFUL, SOURCE_LIMIT + 1), SOURCE_LIMIT + 1) for words in READING[:5] * TIMES]
    for words, whole, most in trials + [("replay", TRACE, TRACE_LIMIT + 1)]:
        answer, at = shrunk(tries, words, whole, most, len(LAWFUL))
        with sparse(whole[:at], at) as front:
            wanted = tries.answer(words, stdin=front, stdout=subprocess.PIPE)[:2]
        tries.note(f"{words}, a file that shrinks after {at} bytes", answer, wanted)
        between += at < most
    print(f"{between} of {len(trials) + 1} files shrank before all was read")


def main():
    tries = Tries(os.path.abspath(sys.argv[1] if len(sys.argv) > 1 else f"{TOP}/crates/fmc_cli/out/fmc_cli"))
    for words, source in calls(tries):
        usual = tries.usual(words, source)
        outputs_that_take_nothing(tries, words, source)
        bytewise(tries, words, source, usual)
        not_waited_for(tries, words, source, usual)
        if len(usual[1]) > PIPE:
            cut(tries, words, source, usual)
        if words in READING and len(source) < SOURCE_LIMIT:
            fed(tries, words, source, usual)
    silent(tries)
    for words in READING:
        inputs(tries, words)
    for words in ("make 7", "demo 1", "run --fast"):
        unread(tries, words)
    limits(tries)
    shrinks(tries)
    print(f"{tries.good} answers as they should be, {tries.wrong} not")
    sys.exit(1 if tries.wrong else 0)


if __name__ == "__main__":
    main()
