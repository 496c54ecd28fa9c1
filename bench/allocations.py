#!/usr/bin/env python3
"""Whether `fmc` answers `no memory`, or what it always answers, whichever allocation is refused.

    bench/allocations.py [BINARY [EVERY]]

Loads bench/refuse.c before the C library, by LD_PRELOAD. Of each call of CALLS below, counts the allocations, and
refuses each in turn: once that one alone, and once that one and all behind it. Right are the text and status of the
call where nothing is refused, and `no memory` with status 8; nothing on standard error, and no signal. Prints for each
call how many allocations there were, how many refusals were tried, and what came; then each answer that is not right,
with the numbers of the allocations that brought it. The status is 1 where there is one.

BINARY is the built program, by default crates/fmc_cli/out/fmc_cli. With EVERY, only each EVERY-th allocation is
refused behind the first 40, which the words and the source take; without it each one, and of a call with over 5,000 so
many that 1,000 are tried. It needs gcc and the C library of GNU.
"""
import os
import subprocess
import sys
import tempfile

TOP = os.path.dirname(os.path.dirname(os.path.abspath(__file__)))
NO_MEMORY = (8, b"no memory\n", b"")
EARLY, MANY, TRIED = 40, 5000, 1000

# The words of a call, and its source: an example, the text itself, or nothing. That of `replay` is the trace of it, and that of
# `exec` its object.
MADE_BY = {"replay": "trace", "exec": "compile"}
CALLS = [
    ("run", "arithmetic"),
    ("run --vars --slice 1", "producer"),
    ("run", "merger"),
    ("run", "slices"),
    ("run", "deadlock"),
    ("run", "overflow"),
    ("run", b"      PROGRAM P\n      X = 1\n      END\n"),
    ("run --turns=100", b"      PROGRAM P\n   10 GOTO 10\n      END\n"),
    ("trace", "merger"),
    ("replay --vars", "merger"),
    ("replay", b"fmc trace 2\nturns ten\n"),
    ("check", "merger"),
    ("list", "checked"),
    ("compile", "slices"),
    ("exec --vars", "producer"),
    ("exec", "merger"),
    ("exec", b"fmc object 1\ntypes 0\nunits 0\n"),
    ("exec", b"fmc object 2\n"),
    ("nodes 0", "producer"),
    ("nodes 5 --vars", "merger"),
    ("make 7", b""),
    ("demo 7", b""),
    ("run --fast", b""),
]


def built(folder):
    """The library that refuses, in a folder."""
    made = os.path.join(folder, "refuse.so")
    subprocess.run(["gcc", "-O2", "-shared", "-fPIC", "-fno-builtin", "-o", made, f"{TOP}/bench/refuse.c"], check=True)
    return made


def source_of(binary, words, source):
    """The bytes of a call's standard input."""
    if isinstance(source, bytes):
        return source
    with open(f"{TOP}/examples/{source}.f", "rb") as file:
        text = file.read()
    maker = MADE_BY.get(words.split()[0])
    if maker:
        return subprocess.run([binary, maker], input=text, stdout=subprocess.PIPE, check=False).stdout
    return text


def answer(binary, library, words, source, first, last):
    """The status, text and errors of a call, where these allocations are refused."""
    env = {"LD_PRELOAD": library, "REFUSE_FIRST": str(first), "REFUSE_LAST": str(last)}
    source.seek(0)
    done = subprocess.run([binary, *words.split()], stdin=source, stdout=subprocess.PIPE, stderr=subprocess.PIPE,
                          env=env, timeout=600, check=False)
    return done.returncode, done.stdout, done.stderr


def counted(binary, library, words, source):
    """How many allocations a call makes, where none is refused."""
    with tempfile.TemporaryFile() as count:
        source.seek(0)
        subprocess.run([binary, *words.split()], stdin=source, stdout=subprocess.DEVNULL, pass_fds=[count.fileno()],
                       env={"LD_PRELOAD": library, "REFUSE_TO": str(count.fileno())}, check=False)
        count.seek(0)
        return int(count.read() or 0)


def spans(numbers):
    """Numbers in their order, in short."""
    told = []
    for number in numbers:
        if told and told[-1][1] == number - 1:
            told[-1][1] = number
        else:
            told.append([number, number])
    return ", ".join(f"{first}" if first == last else f"{first} to {last}" for first, last in told)


def tried(binary, library, words, source, every):
    """Prints what came of a call's refusals, and tells whether all is right."""
    count = counted(binary, library, words, source)
    usual = answer(binary, library, words, source, 0, 0)
    step = every or (count // TRIED if count > MANY else 1)
    chosen = [*range(1, min(EARLY, count) + 1), *range(EARLY + step, count + 1, step)]
    came = {"as always": 0, "no memory": 0}
    wrong = {}
    for first in chosen:
        for how, last in (("alone", first), ("and all behind it", count + 1_000_000)):
            got = answer(binary, library, words, source, first, last)
            if got in (usual, NO_MEMORY):
                came["as always" if got == usual else "no memory"] += 1
            else:
                wrong.setdefault((how, got), []).append(first)
    row = (words, count, 2 * len(chosen), came["no memory"], came["as always"], sum(len(it) for it in wrong.values()))
    print("%-22s %11d %8d %10d %10d %6d" % row, flush=True)
    for (how, (status, text, errors)), numbers in wrong.items():
        print(f"    status {status}, text {text[:60]!r}, errors {errors[:60]!r}: allocation {spans(numbers)}, {how}")
    if count == 0:
        print("    no allocations: is the program linked statically?")
    return bool(count) and not wrong


def main():
    binary = os.path.abspath(sys.argv[1] if len(sys.argv) > 1 else f"{TOP}/crates/fmc_cli/out/fmc_cli")
    every = int(sys.argv[2]) if len(sys.argv) > 2 else 0
    print("%-22s %11s %8s %10s %10s %6s" % ("call", "allocations", "refusals", "no memory", "as always", "wrong"))
    good = []
    with tempfile.TemporaryDirectory() as folder:
        library = built(folder)
        for words, source in CALLS:
            with tempfile.TemporaryFile() as file:
                file.write(source_of(binary, words, source))
                file.flush()
                good.append(tried(binary, library, words, file, every))
    sys.exit(0 if all(good) else 1)


if __name__ == "__main__":
    main()
