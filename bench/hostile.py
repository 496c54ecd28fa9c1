#!/usr/bin/env python3
"""Whether the work of `fmc run` grows in proportion with programs made to be hard.

    bench/hostile.py [BINARY [PROGRAM..]]

Each program is run with a size and with ten times as much: a queue of messages with ports that is discarded, a merger
of many writers, a merger whose writers all wait for its reader and the reader for them, many processes that wait for
one, one cycle of all processes, a PRINT of many items, and nested processes each of which makes a channel. Valgrind's
callgrind counts the instructions, which repeat to the digit on one machine. It prints both counts and their ratio (10
for work that grows as the size does), and tells in the status whether a ratio is over 12, but for those that are known,
or a report isn't the wanted one. BINARY is the built program, by default crates/fmc_cli/out/fmc_cli; PROGRAM is a name
of PROGRAMS below, by default all.
"""
import os
import re
import subprocess
import sys
import tempfile

HERE = os.path.dirname(os.path.abspath(__file__))
DEFAULT = os.path.join(HERE, "..", "crates", "fmc_cli", "out", "fmc_cli")
MOST = 12
TURNS = "100000000"


def lines(text):
    """The statements of a text, one a line: a label first, where there is one."""
    made = []
    for statement in text.strip().splitlines():
        first, _, rest = statement.strip().partition(" ")
        made.append("%5s %s\n" % ((first, rest.strip()) if first.isdigit() else ("", statement.strip())))
    return "".join(made)


def discard(count):
    """So many messages with both ends of a channel wait, and then nobody can receive them any more."""
    return lines(f"""
        PROGRAM DROP
        INPORT (INTEGER) A
        OUTPORT (INTEGER) B
        INPORT (INPORT (INTEGER), OUTPORT (INTEGER)) P, R
        OUTPORT (INPORT (INTEGER), OUTPORT (INTEGER)) Q
        CHANNEL(IN=P,OUT=Q)
        DO 10 I = 1, {count}
        CHANNEL(IN=A,OUT=B)
        SEND(Q) A, B
        10 CONTINUE
        MOVEPORT(FROM=R,TO=P)
        PRINT *, 1
        END
    """), " 1\n"


def merger(count):
    """Each of so many writers sends once and is closed."""
    return lines(f"""
        PROGRAM MERGES
        INPORT (INTEGER) P
        OUTPORT (INTEGER) Q({count})
        MERGER(IN=P,OUT=Q)
        DO 10 I = 1, {count}
        SEND(Q(I)) 1
        ENDCHANNEL(Q(I))
        10 CONTINUE
        K = 0
        20 RECEIVE(P,END=30) I
        K = K + I
        GOTO 20
        30 PRINT *, K
        END
    """), f" {count}\n"


def crossed(count):
    """So many processes with a writer of one merger wait for its reader, which waits for the first of them."""
    waits = "".join(f"wait main/1.{i} line 19 receive main:{i} for main/1.{count + 1}\n" for i in range(1, count + 1))
    return lines(f"""
        PROGRAM CROSS
        INPORT (INTEGER) P({count}), R
        OUTPORT (INTEGER) Q({count}), S({count})
        DO 10 I = 1, {count}
        CHANNEL(IN=P(I),OUT=Q(I))
        10 CONTINUE
        MERGER(IN=R,OUT=S)
        PROCESSES
        PROCESSDO I = 1, {count}
        PROCESSCALL CHILD(P(I),S(I))
        ENDPROCESSDO
        PROCESSCALL READER(R,Q)
        ENDPROCESSES
        END
        PROCESS CHILD(P,S)
        INTENT(IN) P, S
        INPORT (INTEGER) P
        OUTPORT (INTEGER) S
        RECEIVE(P) I
        END
        PROCESS READER(R,Q)
        INPORT (INTEGER) R
        OUTPORT (INTEGER) Q({count})
        RECEIVE(R) I
        END
    """), (f"wait main line 13 join for main/1.1\n{waits}"
           f"wait main/1.{count + 1} line 24 receive main:{count + 1} for main/1.1\n"
           f"cycle main/1.1 main/1.{count + 1}\n")


def one(count):
    """So many processes wait for one that waits for itself."""
    waits = "".join(f"wait main/1.{i} line 16 receive main:{i} for main/1.{count + 1}\n" for i in range(1, count + 1))
    return lines(f"""
        PROGRAM ONE
        INPORT (INTEGER) P({count})
        OUTPORT (INTEGER) Q({count})
        DO 10 I = 1, {count}
        CHANNEL(IN=P(I),OUT=Q(I))
        10 CONTINUE
        PROCESSES
        PROCESSDO I = 1, {count}
        PROCESSCALL CHILD(P(I))
        ENDPROCESSDO
        PROCESSCALL HOLDER(Q)
        ENDPROCESSES
        END
        PROCESS CHILD(P)
        INPORT (INTEGER) P
        RECEIVE(P) I
        END
        PROCESS HOLDER(Q)
        OUTPORT (INTEGER) Q({count}), S
        INPORT (INTEGER) R
        CHANNEL(IN=R,OUT=S)
        RECEIVE(R) I
        END
    """), (f"wait main line 12 join for main/1.1\n{waits}"
           f"wait main/1.{count + 1} line 22 receive main/1.{count + 1}:1 for main/1.{count + 1}\n"
           f"cycle main/1.{count + 1}\n")


def cycle(count):
    """Each of so many processes waits for the one before it, and the first for the last."""
    before = [count] + [*range(1, count)]
    pairs = zip(range(1, count + 1), before)
    waits = "".join(f"wait main/1.{i} line 17 receive main:{i} for main/1.{j}\n" for i, j in pairs)
    ring = " ".join(f"main/1.{i}" for i in [1] + [*range(count, 1, -1)])
    return lines(f"""
        PROGRAM RING
        INPORT (INTEGER) P({count})
        OUTPORT (INTEGER) Q({count})
        DO 10 I = 1, {count}
        CHANNEL(IN=P(I),OUT=Q(I))
        10 CONTINUE
        PROCESSES
        PROCESSDO I = 1, {count} - 1
        PROCESSCALL CHILD(P(I),Q(I + 1))
        ENDPROCESSDO
        PROCESSCALL CHILD(P({count}),Q(1))
        ENDPROCESSES
        END
        PROCESS CHILD(P,Q)
        INPORT (INTEGER) P
        OUTPORT (INTEGER) Q
        RECEIVE(P) I
        END
    """), f"wait main line 12 join for main/1.1\n{waits}cycle {ring}\n"


def printed(count):
    """One line of ten times an array."""
    values = "".join(f" {i}" for i in range(1, count + 1))
    return lines(f"""
        PROGRAM ITEMS
        INTEGER A({count})
        DO 10 I = 1, {count}
        A(I) = I
        10 CONTINUE
        PRINT *, A, A, A, A, A, A, A, A, A, A
        END
    """), values * 10 + "\n"


def makers(count):
    """Each process makes a channel and starts the next one."""
    return lines(f"""
        PROGRAM CHAIN
        PROCESSES
        PROCESSCALL LINK({count})
        ENDPROCESSES
        PRINT *, 1
        END
        PROCESS LINK(N)
        INTEGER N
        INPORT (INTEGER) P
        OUTPORT (INTEGER) Q
        CHANNEL(IN=P,OUT=Q)
        IF (N .GT. 1) THEN
        PROCESSES
        PROCESSCALL LINK(N - 1)
        ENDPROCESSES
        ENDIF
        END
    """), " 1\n"


# The name of a program, its text and its report by a size, the smaller size, and whether its ratio is known to be over.
PROGRAMS = {
    "discard": (discard, 400, False),
    "merger": (merger, 500, False),
    "crossed": (crossed, 200, False),
    "one": (one, 200, False),
    "cycle": (cycle, 200, False),
    "printed": (printed, 1000, False),
    "makers": (makers, 40, True),
}


def instructions(binary, text):
    """What `run` writes, and its instructions."""
    with tempfile.TemporaryDirectory() as folder:
        out = os.path.join(folder, "out")
        command = ["valgrind", "--tool=callgrind", "--callgrind-out-file=" + out, binary, "run", "--turns", TURNS]
        done = subprocess.run(command, input=text.encode(), stdout=subprocess.PIPE, stderr=subprocess.PIPE)
    return done.stdout.decode(), int(re.search(rb"Collected : (\d+)", done.stderr).group(1))


def measured(binary, name):
    """Prints the row of a program, and tells whether all is as wanted."""
    make, small, is_known = PROGRAMS[name]
    counts = []
    for size in (small, 10 * small):
        text, wanted = make(size)
        written, spent = instructions(binary, text)
        if written != wanted:
            print("%-8s %6d: wanted %r, got %r" % (name, size, wanted[-100:], written[-100:]))
            return False
        counts.append(spent)
    ratio = counts[1] / counts[0]
    mark = "" if ratio <= MOST else "  known" if is_known else "  over"
    print("%-8s %6d %14d %14d %7.2f%s" % (name, small, *counts, ratio, mark), flush=True)
    return ratio <= MOST or is_known


def main():
    binary = os.path.abspath(sys.argv[1] if len(sys.argv) > 1 else DEFAULT)
    print("%-8s %6s %14s %14s %7s" % ("program", "size", "of the size", "of ten times", "ratio"))
    good = [measured(binary, name) for name in sys.argv[2:] or PROGRAMS]
    sys.exit(not all(good))


if __name__ == "__main__":
    main()
