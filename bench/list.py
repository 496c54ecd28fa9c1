#!/usr/bin/env python3
"""How the work of `fmc list` grows with the length of a source.

    bench/list.py [BINARY]

Counts the instructions of `list` on a lawful source of 100,000 and of 1,000,000 bytes by valgrind's
callgrind, which repeats to the digit on one machine, and prints both counts and their ratio: 10 for work
that grows as the length does. BINARY is the built program, by default crates/fmc_cli/out/fmc_cli.
"""
import os
import re
import subprocess
import sys
import tempfile

HERE = os.path.dirname(os.path.abspath(__file__))

HEAD = [
    b"      PROGRAM P\n",
    b"      LOGICAL L\n",
    b"      INTEGER A(9,9)\n",
    b"      OUTPORT (INTEGER, INTEGER) Q\n",
]

LINES = [
    b"      I = (I + 12)*(J - 7) - K*1234567\n",
    b"      IF (I .LT. 3 .AND. .NOT. L) SEND(Q) I, J + 1\n",
    b"C     a comment line\n",
    b"      PRINT *, 'a constant', I, A(J,\n",
    b"     1 K + 1)\n",
    b"      DO M = 1, 10\n",
    b"      ENDDO\n",
]

END = b"      END\n"


def source(size):
    """A lawful source of exactly so many bytes, of whole lines and one comment."""
    text = bytearray(b"".join(HEAD))
    group = b"".join(LINES)
    while len(text) + len(group) + len(END) + 2 <= size:
        text += group
    text += END
    text += b"C" * (size - len(text) - 1) + b"\n"
    return bytes(text)


def instructions(binary, size):
    """The instructions of `list` on a source of so many bytes."""
    with tempfile.TemporaryDirectory() as folder:
        out = os.path.join(folder, "out")
        run = subprocess.run(
            ["valgrind", "--tool=callgrind", "--callgrind-out-file=" + out, binary, "list"],
            input=source(size), stdout=subprocess.PIPE, stderr=subprocess.PIPE)
    if run.returncode:
        sys.exit("list ended with status %d: %r" % (run.returncode, run.stdout[:200]))
    return int(re.search(rb"Collected : (\d+)", run.stderr).group(1))


def main():
    binary = os.path.abspath(sys.argv[1] if len(sys.argv) > 1 else os.path.join(HERE, "..", "crates", "fmc_cli", "out", "fmc_cli"))
    small, large = instructions(binary, 100000), instructions(binary, 1000000)
    print("100,000 bytes: %d instructions" % small)
    print("1,000,000 bytes: %d instructions" % large)
    print("ratio: %.2f" % (large / small))


main()
