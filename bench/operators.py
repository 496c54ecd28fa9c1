#!/usr/bin/env python3
"""What an operator costs in the operands of SEND and PRINT, and in an assignment.

    bench/operators.py [BINARY]

Runs loops of which each trip sends, prints or assigns an expression, of one operator and of six. Valgrind's
callgrind counts the instructions, which repeat to the digit on one machine, of few trips and of many. For each
statement it prints the instructions of a trip with one operator and with six, and what each further operator takes.
An operand that is evaluated twice shows in the last column: SEND and PRINT then take a multiple of what the
assignment does. BINARY is the built program, by default crates/fmc_cli/out/fmc_cli.
"""
import os
import re
import subprocess
import sys
import tempfile

HERE = os.path.dirname(os.path.abspath(__file__))
DEFAULT = os.path.join(HERE, "..", "crates", "fmc_cli", "out", "fmc_cli")
FEW, MANY = 1000, 11000
TURNS = "100000000"

# An expression, and how many operators it has.
EXPRESSIONS = [("A+B", 1), ("A+B*C-D+E*F-I", 6)]

# The name of a statement, and its lines. What is sent is received in the same trip.
STATEMENTS = {
    "SEND": ["SEND(Q) {}", "RECEIVE(P) K"],
    "PRINT": ["PRINT *, {}"],
    "assign": ["K = {}"],
}

BEFORE = [
    "PROGRAM MANY",
    "INTEGER A, B, C, D, E, F, I, K",
    "INPORT (INTEGER) P",
    "OUTPORT (INTEGER) Q",
    "CHANNEL(IN=P,OUT=Q)",
    "A = 1",
    "B = 2",
    "C = 3",
    "D = 4",
    "E = 5",
    "F = 6",
]


def source(statement, expression, trips):
    """A program with a loop of so many trips over the statement."""
    loop = ["DO I = 1, %d" % trips] + [line.format(expression) for line in STATEMENTS[statement]] + ["ENDDO"]
    return "".join("      %s\n" % line for line in BEFORE + loop + ["END"])


def instructions(binary, text):
    """The instructions of `run`, which has to end well."""
    with tempfile.TemporaryDirectory() as folder:
        out = os.path.join(folder, "out")
        command = ["valgrind", "--tool=callgrind", "--callgrind-out-file=" + out, binary, "run", "--turns", TURNS]
        done = subprocess.run(command, input=text.encode(), stdout=subprocess.PIPE, stderr=subprocess.PIPE)
    if done.returncode:
        sys.exit("run ended with status %d: %r" % (done.returncode, done.stdout[:200]))
    return int(re.search(rb"Collected : (\d+)", done.stderr).group(1))


def trip(binary, statement, expression):
    """The instructions of one trip."""
    few, many = (instructions(binary, source(statement, expression, trips)) for trips in (FEW, MANY))
    return (many - few) / (MANY - FEW)


def main():
    binary = os.path.abspath(sys.argv[1] if len(sys.argv) > 1 else DEFAULT)
    (_, less), (_, more) = EXPRESSIONS
    print("%-8s %14s %14s %14s" % ("", "of %d" % less, "of %d" % more, "each further"))
    for statement in STATEMENTS:
        one, six = (trip(binary, statement, expression) for expression, _ in EXPRESSIONS)
        print("%-8s %14.0f %14.0f %14.1f" % (statement, one, six, (six - one) / (more - less)), flush=True)


if __name__ == "__main__":
    main()
