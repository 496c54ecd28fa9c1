#!/usr/bin/env python3
"""The peak memory of `fmc run` at the default of 10,000,000 turns.

    bench/memory.py [BINARY]

Runs programs that spend all their turns, or nearly all, on one thing: words of frames (processes with an array each,
all at once), the history (a slice of 1, so that each step is an entry), messages that nobody receives, and processes (a block of as many as the
turns allow, and a chain in which each starts the next one). Prints the peak of each in megabytes, less that of a program that does nothing, and how it ended.
BINARY is the built program, by default crates/fmc_cli/out/fmc_cli.
"""
import os
import subprocess
import sys
import tempfile

HERE = os.path.dirname(os.path.abspath(__file__))
DEFAULT = os.path.join(HERE, "..", "crates", "fmc_cli", "out", "fmc_cli")

NOTHING = """
      PROGRAM NOTHNG
      PRINT *, 1
      END
"""

WORDS = """
      PROGRAM WORDS
      PROCESSDO I = 1, 160
      PROCESSCALL CHILD(I)
      ENDPROCESSDO
      PRINT *, 1
      END
      PROCESS CHILD(I)
      INTEGER A(60000)
      A(I) = I
      END
"""

HISTORY = """
      PROGRAM HIST
      DO 10 I = 1, 4900000
      J = I
   10 CONTINUE
      PRINT *, J
      END
"""

QUEUE = """
      PROGRAM QUEUE
      INPORT (INTEGER) PI
      OUTPORT (INTEGER) PO
      CHANNEL(IN=PI, OUT=PO)
      DO 10 I = 1, 1000000
      SEND(PO) I
   10 CONTINUE
      PRINT *, 1
      END
"""

PROCESSES = """
      PROGRAM PROCS
      PROCESSDO I = 1, 1900000
      PROCESSCALL CHILD
      ENDPROCESSDO
      PRINT *, 1
      END
      PROCESS CHILD
      END
"""

CHAIN = """
      PROGRAM CHAIN
      PROCESSES
        PROCESSCALL T(1)
      ENDPROCESSES
      END
      PROCESS T(N)
      INTENT(IN) N
      PROCESSES
        PROCESSCALL T(N+1)
      ENDPROCESSES
      END
"""

RUNS = [
    ("160 processes with 60,000 words each", WORDS, []),
    ("9,800,003 entries of the history", HISTORY, ["--slice", "1"]),
    ("1,000,000 messages of one integer in a queue", QUEUE, []),
    ("1,900,000 processes", PROCESSES, []),
    ("processes that start processes without end", CHAIN, []),
]


def peak(binary, source, options):
    """The peak of a run in kilobytes, and the last line that it printed."""
    with tempfile.NamedTemporaryFile() as text:
        text.write(source.lstrip("\n").encode())
        text.flush()
        text.seek(0)
        done = subprocess.run(
            ["/usr/bin/time", "-f", "%M", binary, "run", *options],
            stdin=text, stdout=subprocess.PIPE, stderr=subprocess.PIPE, check=False,
        )
    lines = done.stdout.decode().strip().splitlines()
    return int(done.stderr.split()[-1]), lines[-1] if lines else ""


def main():
    binary = sys.argv[1] if len(sys.argv) > 1 else DEFAULT
    base, _ = peak(binary, NOTHING, [])
    for name, source, options in RUNS:
        most, last = peak(binary, source, options)
        print(f"{name:40}{(most - base) / 1024:10.0f} MB   {last}")


if __name__ == "__main__":
    main()
