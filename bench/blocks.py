#!/usr/bin/env python3
"""How the work of `fmc run` grows with the number of processes.

    bench/blocks.py [BINARY [PROGRAM..]]

Each program is run with some processes and with ten times as many: a block of children that do little, one in
which all children but the first wait for the last one, a chain of processes each of which starts the next one, and
a pipeline of stages. One worker plays them, since with several the counts depend on who comes when. Valgrind's
callgrind counts the instructions, which repeat to the digit on one machine. It
prints both counts and their ratio (10 for work that grows as the number of processes does), and tells in the
status whether one is over its bound. BINARY is the built program, by default crates/fmc_cli/out/fmc_cli; PROGRAM is
a name of PROGRAMS below, by default all.
"""
import os
import re
import subprocess
import sys
import tempfile

HERE = os.path.dirname(os.path.abspath(__file__))
DEFAULT = os.path.join(HERE, "..", "crates", "fmc_cli", "out", "fmc_cli")
SMALL, LARGE = 200, 2000
TURNS = "100000000"


def lines(text):
    """The statements of a text, one a line: a label first, where there is one."""
    made = []
    for statement in text.strip().splitlines():
        first, _, rest = statement.strip().partition(" ")
        made.append("%5s %s\n" % ((first, rest.strip()) if first.isdigit() else ("", statement.strip())))
    return "".join(made)


def block(count):
    """A block of children that add a little."""
    return lines(f"""
        PROGRAM BLOCK
        PROCESSDO I = 1, {count}
        PROCESSCALL CHILD(I)
        ENDPROCESSDO
        PRINT *, 1
        END
        PROCESS CHILD(I)
        INTEGER I
        J = I + 1
        END
    """)


def backwards(count):
    """Each child waits for a message of the next one, and the last sends first."""
    return lines(f"""
        PROGRAM BACK
        INPORT (INTEGER) P({count})
        OUTPORT (INTEGER) Q({count})
        DO 10 I = 1, {count}
        CHANNEL(IN=P(I),OUT=Q(I))
        10 CONTINUE
        PROCESSES
        PROCESSDO I = 1, {count} - 1
        PROCESSCALL CHILD(P(I + 1),Q(I))
        ENDPROCESSDO
        PROCESSCALL LAST(Q({count}))
        PROCESSCALL TAKE(P(1))
        ENDPROCESSES
        END
        PROCESS CHILD(P,Q)
        INPORT (INTEGER) P
        OUTPORT (INTEGER) Q
        RECEIVE(P) I
        SEND(Q) I
        END
        PROCESS LAST(Q)
        OUTPORT (INTEGER) Q
        SEND(Q) 1
        END
        PROCESS TAKE(P)
        INPORT (INTEGER) P
        RECEIVE(P) I
        PRINT *, I
        END
    """)


def chain(count):
    """Each process starts the next one, and waits for it."""
    return lines(f"""
        PROGRAM CHAIN
        PROCESSES
        PROCESSCALL LINK({count})
        ENDPROCESSES
        PRINT *, 1
        END
        PROCESS LINK(N)
        INTEGER N
        IF (N .GT. 1) THEN
        PROCESSES
        PROCESSCALL LINK(N - 1)
        ENDPROCESSES
        ENDIF
        END
    """)


def pipeline(count):
    """So many stages, through which ten messages go."""
    return lines(f"""
        PROGRAM PIPE
        INPORT (INTEGER) P({count + 1})
        OUTPORT (INTEGER) Q({count + 1})
        DO 10 I = 1, {count + 1}
        CHANNEL(IN=P(I),OUT=Q(I))
        10 CONTINUE
        PROCESSES
        PROCESSCALL FEED(Q(1))
        PROCESSDO I = 1, {count}
        PROCESSCALL STAGE(P(I),Q(I + 1))
        ENDPROCESSDO
        PROCESSCALL TAKE(P({count + 1}))
        ENDPROCESSES
        END
        PROCESS FEED(Q)
        OUTPORT (INTEGER) Q
        DO 10 I = 1, 10
        SEND(Q) I
        10 CONTINUE
        ENDCHANNEL(Q)
        END
        PROCESS STAGE(P,Q)
        INPORT (INTEGER) P
        OUTPORT (INTEGER) Q
        10 RECEIVE(P,END=20) I
        SEND(Q) I
        GOTO 10
        20 ENDCHANNEL(Q)
        END
        PROCESS TAKE(P)
        INPORT (INTEGER) P
        K = 0
        10 RECEIVE(P,END=20) I
        K = K + I
        GOTO 10
        20 PRINT *, K
        END
    """)


# The name of a program, how it is made, what it prints, and the greatest ratio.
PROGRAMS = {
    "block": (block, b" 1\n", 15),
    "backwards": (backwards, b" 1\n", 15),
    "chain": (chain, b" 1\n", 15),
    "pipeline": (pipeline, b" 55\n", 15),
}


def instructions(binary, text):
    """What `run` writes, and its instructions."""
    with tempfile.TemporaryDirectory() as folder:
        out = os.path.join(folder, "out")
        command = ["valgrind", "--tool=callgrind", "--callgrind-out-file=" + out, binary, "run", "--turns", TURNS, "--workers", "1"]
        done = subprocess.run(command, input=text.encode(), stdout=subprocess.PIPE, stderr=subprocess.PIPE)
    return done.stdout, int(re.search(rb"Collected : (\d+)", done.stderr).group(1))


def measured(binary, name):
    """Prints the row of a program, and tells whether all is as wanted."""
    make, wanted, most = PROGRAMS[name]
    counts = []
    for count in (SMALL, LARGE):
        written, spent = instructions(binary, make(count))
        if written != wanted:
            print("%-10s %d processes: wanted %r, got %r" % (name, count, wanted, written[:100]))
            return False
        counts.append(spent)
    ratio = counts[1] / counts[0]
    print("%-10s %16d %16d %7.2f%s" % (name, *counts, ratio, "" if ratio <= most else "  over"), flush=True)
    return ratio <= most


def main():
    binary = os.path.abspath(sys.argv[1] if len(sys.argv) > 1 else DEFAULT)
    print("%-10s %16s %16s %7s" % ("program", "of %d" % SMALL, "of %d" % LARGE, "ratio"))
    good = [measured(binary, name) for name in sys.argv[2:] or PROGRAMS]
    sys.exit(not all(good))


if __name__ == "__main__":
    main()
