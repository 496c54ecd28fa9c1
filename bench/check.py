#!/usr/bin/env python3
"""How the work and the memory of `fmc check` grow with the length of a source.

    bench/check.py [BINARY [TEXT..]]

For each text it counts the instructions of `check` at 100,000 and at 1,000,000 bytes by valgrind's callgrind,
which repeats to the digit on one machine, and takes the peak memory at 1,000,000 bytes by GNU time. It prints
both counts, their ratio (10 for work that grows as the length does, at most 13), and the peak in bytes a byte
of the source (at most 150). The status is 1 where one is over its bound or an answer is another than wanted.
BINARY is the built program, by default crates/fmc_cli/out/fmc_cli; TEXT is a name of TEXTS below, by default all.
"""
import itertools
import os
import re
import subprocess
import sys
import tempfile

HERE = os.path.dirname(os.path.abspath(__file__))
COMMAND = "check"
SMALL, LARGE = 100000, 1000000
MOST_RATIO, MOST_MEMORY = 13, 150

COLUMNS = 66
STATEMENT = 20 * COLUMNS  # the columns of a statement with all its continuation lines


def line(text, label=""):
    """A statement of up to 20 lines."""
    pieces = [text[at:at + COLUMNS] for at in range(0, len(text), COLUMNS)]
    return "%-6s" % label + "\n     +".join(pieces) + "\n"


def unit(heading, *statements):
    return line(heading) + "".join(line(s) for s in statements) + line("END")


def repeated(groups, size):
    """The groups one behind the other, while they fit."""
    taken, length = [], 0
    for group in groups:
        length += sum(len(text) for text in (group if isinstance(group, tuple) else (group,)))
        if length > size:
            break
        taken.append(group)
    return taken


def small_units(size):
    units = (unit("SUBROUTINE S%d(I)" % k, "I = I + 1") for k in itertools.count(1))
    return unit("PROGRAM P") + "".join(repeated(units, size - 200))


def names(size, declared=True):
    """One unit in which each statement brings up new names."""
    def group(k):
        if declared:
            return line("INTEGER A%d" % k), line("A%d = A%d + N%d" % (k, k - 1, k))
        return "", line("A%d = A%d + N" % (k, k - 1))
    pairs = repeated((group(k) for k in itertools.count(1)), size - 200)
    first = line("INTEGER A0") if declared else ""
    return line("PROGRAM P") + first + "".join(d for d, _ in pairs) + "".join(u for _, u in pairs) + line("END")


def branches(size, closed=True):
    """Blocks in blocks for half of the text, then one IF with branches for the other half."""
    opened, ended = line("IF (I .EQ. 1) THEN") + line("ELSE IF (I .EQ. 2) THEN"), line("END IF")
    depth = size // 2 // len(opened + ended)
    long = repeated((line("ELSE IF (I .EQ. %d) THEN" % k) for k in itertools.count(1)), size // 2 - 200)
    middle = line("IF (I .EQ. 0) THEN") + "".join(long) + line("END IF")
    return line("PROGRAM P") + opened * depth + middle + (ended * depth if closed else "") + line("END")


def labels(size, there=True):
    """Each statement has a label, and jumps to another one far away."""
    count = (size - 200) // len("10000 GOTO 10000\n")
    jumps = (line("GOTO %d" % (10000 + 7919 * k % count), 10000 + k if there else "") for k in range(count))
    return line("PROGRAM P") + "".join(jumps) + line("END")


def calls(size, ring=False):
    """Each SUBROUTINE calls the next one twice, each FUNCTION refers to the next one twice."""
    def group(k):
        return (unit("SUBROUTINE S%d(I)" % k, "CALL S%d(I)" % (k + 1), "CALL S%d(N%d(I))" % (k + 1, k)),
                unit("FUNCTION N%d(I)" % k, "N%d = N%d(I) + N%d(2)" % (k, k + 1, k + 1)))
    groups = repeated((group(k) for k in itertools.count(1)), size - 300)
    last = len(groups) + 1
    ends = (unit("SUBROUTINE S%d(I)" % last, *(["CALL S1(I)"] if ring else [])),
            unit("FUNCTION N%d(I)" % last, "N%d = I" % last))
    return unit("PROGRAM P", "CALL S1(1)") + "".join(s + n for s, n in groups + [ends])


def nested(size):
    """References in references, as deep as a statement holds."""
    def deep(name):
        depth = (STATEMENT - 3) // (len(name) + 2)
        return line("I=" + (name + "(") * depth + "1" + ")" * depth)
    kinds = [deep("N"), deep("A"), deep("ABS"), deep("")]
    statements = "".join(repeated(itertools.cycle(kinds), size - 200))
    return line("PROGRAM P") + line("INTEGER A(9)") + statements + line("END") + unit("FUNCTION N(I)", "N = I")


def ports(size):
    """Each unit has one long type of messages for many ports, which are then moved."""
    fields = "INTEGER," * ((STATEMENT // 2 - 20) // 8) + "LOGICAL"
    letters = "ABCDEFGHIJKLMNOPQRSTUVWXYZ"
    every = [a + b for b in [""] + list(letters) for a in letters]
    ended = every[:(STATEMENT - len(fields) - 9) // 3]
    def process(k):
        moves = ["MOVEPORT(FROM=%s,TO=%s)" % pair for pair in zip(ended[::8], ended[1::8])]
        return unit("PROCESS Q%d" % k, "INPORT(" + fields + ")" + ",".join(ended), *moves)
    return unit("PROGRAM P") + "".join(repeated((process(k) for k in itertools.count(1)), size - 200))


def types(size):
    """Each unit has ports of ports of ports, as deep as a statement holds, which are moved."""
    depth = (STATEMENT - 20) // 8
    deep = "INPORT(" * depth + "INTEGER" + ")" * depth + "A,B"
    units = (unit("PROCESS Q%d" % k, deep, "MOVEPORT(FROM=A,TO=B)") for k in itertools.count(1))
    return unit("PROGRAM P") + "".join(repeated(units, size - 200))


def continued(size):
    """Each statement has 19 continuation lines, and an operator in every second column."""
    sums = (line("I=" + "I+" * (STATEMENT // 2 - 2) + str(k % 10)) for k in itertools.count())
    return line("PROGRAM P") + "".join(repeated(sums, size - 200)) + line("END")


def elements(size):
    """Each unit has as many words as there may be, nearly all in one array."""
    units = (unit("SUBROUTINE S%d(I)" % k, "INTEGER A(65535)", "A(I)=A(1)+I") for k in itertools.count(1))
    return unit("PROGRAM P") + "".join(repeated(units, size - 200))


def statements(size):
    """Short statements, each with a label: at 1,000,000 bytes nearly all labels that there are."""
    count = (size - 100) // len("10000 I=1\n")
    return line("PROGRAM P") + "".join(line("I=1", k + 1) for k in range(count)) + line("END")


def constants(size):
    """Each PARAMETER is told by the one before it."""
    chain = (line("PARAMETER(N%d=N%d+0)" % (k, k - 1)) for k in itertools.count(1))
    return line("PROGRAM P") + line("PARAMETER(N0=1)") + "".join(repeated(chain, size - 200)) + line("END")


DETERMINISTIC = b"deterministic\n"

# The name of a text, how it is made, and what `check` writes of it.
TEXTS = {
    "units": (small_units, DETERMINISTIC),
    "names": (names, DETERMINISTIC),
    "branches": (branches, DETERMINISTIC),
    "labels": (labels, DETERMINISTIC),
    "calls": (calls, DETERMINISTIC),
    "nested": (nested, DETERMINISTIC),
    "ports": (ports, DETERMINISTIC),
    "types": (types, DETERMINISTIC),
    "continued": (continued, DETERMINISTIC),
    "elements": (elements, DETERMINISTIC),
    "statements": (statements, DETERMINISTIC),
    "constants": (constants, DETERMINISTIC),
    "names-untyped": (lambda size: names(size, declared=False), b"line 2: E31 no type\n"),
    "branches-open": (lambda size: branches(size, closed=False), b"line 2: E21 unmatched block\n"),
    "labels-missing": (lambda size: labels(size, there=False), b"line 2: E23 label missing\n"),
    "calls-ring": (lambda size: calls(size, ring=True), b"line 5: E45 recursion\n"),
}


def source(make, size):
    """A source of exactly so many bytes, of whole lines and one comment."""
    text = make(size).encode()
    assert len(text) + 2 <= size
    return text + b"C" * (size - len(text) - 1) + b"\n"


def answer(command, text):
    run = subprocess.run(command, input=text, stdout=subprocess.PIPE, stderr=subprocess.PIPE)
    return run.stdout, run.stderr


def instructions(binary, text):
    """The answer of `check`, and its instructions."""
    with tempfile.TemporaryDirectory() as folder:
        out = os.path.join(folder, "out")
        tool = ["valgrind", "--tool=callgrind", "--callgrind-out-file=" + out]
        written, told = answer(tool + [binary, COMMAND], text)
    return written, int(re.search(rb"Collected : (\d+)", told).group(1))


def peak(binary, text):
    """The greatest resident memory of `check`, in bytes."""
    _, told = answer(["/usr/bin/time", "-f", "peak %M", binary, COMMAND], text)
    return 1024 * int(re.search(rb"peak (\d+)", told).group(1))


def measured(binary, name):
    """Prints the row of a text, and tells whether all is as wanted."""
    make, wanted = TEXTS[name]
    counts = []
    for size in (SMALL, LARGE):
        written, count = instructions(binary, source(make, size))
        if written != wanted:
            print("%-16s %d bytes: wanted %r, got %r" % (name, size, wanted, written[:100]))
            return False
        counts.append(count)
    ratio, memory = counts[1] / counts[0], peak(binary, source(make, LARGE)) / LARGE
    good = ratio <= MOST_RATIO and memory <= MOST_MEMORY
    print("%-16s %14d %14d %7.2f %7.1f%s" % (name, *counts, ratio, memory, "" if good else "  over"), flush=True)
    return good


def main():
    binary = sys.argv[1] if len(sys.argv) > 1 else os.path.join(HERE, "..", "crates", "fmc_cli", "out", "fmc_cli")
    print("%-16s %14s %14s %7s %7s" % ("text", "at 100,000", "at 1,000,000", "ratio", "peak"))
    good = [measured(os.path.abspath(binary), name) for name in sys.argv[2:] or TEXTS]
    sys.exit(not all(good))


if __name__ == "__main__":
    main()
