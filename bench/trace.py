#!/usr/bin/env python3
"""The time and the peak memory of `fmc trace` and `fmc replay` beside `fmc run`.

    bench/trace.py [BINARY]

Runs a program of some 980,000 steps and one of some 9,800,000 in pieces of one step, so that each step is an entry of the
schedule, by `run` and by `trace`, and replays the trace, as it was written and with each entry on a line of its own in
form 1. Prints the seconds and the peak in megabytes of each, and stops where a replay writes another report. BINARY is
the built program, by default crates/fmc_cli/out/fmc_cli.
"""
import os
import subprocess
import sys
import tempfile
import time

HERE = os.path.dirname(os.path.abspath(__file__))
DEFAULT = os.path.join(HERE, "..", "crates", "fmc_cli", "out", "fmc_cli")

SIZES = 326_666, 3_266_666
PROGRAM = """
      PROGRAM HIST
      DO 10 I = 1, %d
      J = I
   10 CONTINUE
      PRINT *, J
      END
"""


def timed(binary, words, source):
    """The output of a call, its exit, seconds and peak in kilobytes."""
    with tempfile.NamedTemporaryFile() as text:
        text.write(source)
        text.flush()
        text.seek(0)
        begin = time.perf_counter()
        done = subprocess.run(
            ["/usr/bin/time", "-f", "%M", binary, *words],
            stdin=text, stdout=subprocess.PIPE, stderr=subprocess.PIPE, check=False,
        )
        seconds = time.perf_counter() - begin
    return done.stdout, done.returncode, seconds, int(done.stderr.split()[-1])


def single(trace):
    """The same trace in form 1."""
    head, source = trace.split(b"source\n", 1)
    _, turns, _, *lines = head.split(b"\n")[:-1]
    entries = []
    for line in lines:
        parts = line.split()
        entries += [b" ".join(parts[:2])] * (int(parts[2]) if parts[2:] else 1)
    first = [b"fmc trace 1", turns, b"entries %d" % len(entries)]
    return b"\n".join(first + entries + [b"source"]) + b"\n" + source


def compared(binary, turns):
    """Runs, traces and replays the program with so many turns of its loop."""
    program = (PROGRAM.lstrip("\n") % turns).encode()
    report, status, seconds, peak = timed(binary, ["run", "--slice", "1"], program)
    print(f"{turns:,} turns of the loop\nrun    {seconds:8.2f} s {peak / 1024:8.0f} MB   status {status}")
    trace, status, seconds, peak = timed(binary, ["trace", "--slice", "1"], program)
    print(f"trace  {seconds:8.2f} s {peak / 1024:8.0f} MB   status {status}, {len(trace):,} bytes")
    for text, form in (trace, 2), (single(trace), 1):
        again, status, seconds, peak = timed(binary, ["replay"], text)
        print(f"replay {seconds:8.2f} s {peak / 1024:8.0f} MB   status {status}, form {form}, {len(text):,} bytes")
        if again != report:
            sys.exit("the replay writes another report")


def main():
    for turns in SIZES:
        compared(sys.argv[1] if len(sys.argv) > 1 else DEFAULT, turns)


if __name__ == "__main__":
    main()
