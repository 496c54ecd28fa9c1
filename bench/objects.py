#!/usr/bin/env python3
"""What objects cost, by instructions.

    bench/objects.py [BINARY]

BINARY is the built program, by default crates/fmc_cli/out/fmc_cli; valgrind's callgrind counts its instructions, which
repeat to the digit on one machine. Two things are measured, and the status is 1 where one of them isn't so, or where
`exec` of an object writes another report than `run` of its source:

- The programs of bench/speed take at most 1.05 times as many in `exec` of their object as in `run` with one worker.
- `compile` of texts of 1,000,000 bytes, and `exec` of what it writes, take at most 13 times what a tenth of the text
  takes (10 for work that grows as the length does). And an image is verified with at most as many as it takes to read
  its text, which is what `exec` takes where a line too many stands at the end.

The texts are those of bench/check.py that are lawful.
"""
import os
import re
import subprocess
import sys
import tempfile

import check

TOP = os.path.dirname(os.path.dirname(os.path.abspath(__file__)))
PROGRAMS = "loop", "cross", "matrix", "calls"
MOST_OF_RUN, MOST_GROWTH = 1.05, 13
VERIFIES = "fm_verify::"


def counted(binary, words, text, name=None):
    """What a call writes, its instructions, and those of the dearest function of this name with all that it calls."""
    with tempfile.TemporaryDirectory() as folder:
        out = os.path.join(folder, "out")
        tool = ["valgrind", "--tool=callgrind", "--callgrind-out-file=" + out]
        done = subprocess.run([*tool, binary, *words], input=text, stdout=subprocess.PIPE, stderr=subprocess.PIPE)
        whole = int(re.search(rb"Collected : (\d+)", done.stderr).group(1))
        return done.stdout, whole, within(out, name) if name else 0


def within(out, name):
    """The instructions of the dearest function of this name, with all that it calls, of what callgrind has written."""
    told = subprocess.run(["callgrind_annotate", "--inclusive=yes", "--threshold=100", out], stdout=subprocess.PIPE, check=True)
    counts = re.findall(r"^\s*([\d,]+) .*\?\?\?:(\S+)", told.stdout.decode(), re.MULTILINE)
    return max(int(count.replace(",", "")) for count, function in counts if name in function)


def beside_run(binary, name):
    """Prints the row of a program of bench/speed, and tells whether all is as wanted."""
    with open(f"{TOP}/bench/speed/{name}.f", "rb") as file:
        source = file.read()
    turns = ["--turns", "1000000000"]
    written, run, _ = counted(binary, ["run", "--workers", "1", *turns], source)
    text, _, _ = counted(binary, ["compile"], source)
    again, executed, _ = counted(binary, ["exec", *turns], text)
    good = again == written and executed <= MOST_OF_RUN * run
    print(f"{name:12} {run:15,} {executed:15,} {executed / run:6.3f}{'' if good else '  not as wanted'}", flush=True)
    return good


def growing(binary, name):
    """Prints the row of a text, and tells whether all is as wanted."""
    compiled, executed = [], []
    for size in (check.SMALL, check.LARGE):
        source = check.source(check.TEXTS[name][0], size)
        text, count, _ = counted(binary, ["compile"], source)
        compiled.append(count)
        _, count, verified = counted(binary, ["exec", "--turns", "1000"], text, VERIFIES)
        executed.append(count)
    # a line too many is found when all is read, and nothing is verified then
    _, read, _ = counted(binary, ["exec"], text + b"more\n")
    ratios = compiled[1] / compiled[0], executed[1] / executed[0]
    good = max(ratios) <= MOST_GROWTH and verified <= read
    row = f"{name:12} {len(text):11,} {compiled[1]:14,} {ratios[0]:6.2f} {executed[1]:14,} {ratios[1]:6.2f} {read:14,} {verified:14,}"
    print(f"{row}{'' if good else '  not as wanted'}", flush=True)
    return good


def main():
    binary = os.path.abspath(sys.argv[1]) if len(sys.argv) > 1 else f"{TOP}/crates/fmc_cli/out/fmc_cli"
    print(f"{'program':12} {'run':>15} {'exec':>15} {'ratio':>6}")
    good = [beside_run(binary, name) for name in PROGRAMS]
    print(f"{'text':12} {'object':>11} {'compile':>14} {'ratio':>6} {'exec':>14} {'ratio':>6} {'read':>14} {'verify':>14}")
    good += [growing(binary, name) for name, (_, wanted) in check.TEXTS.items() if wanted == check.DETERMINISTIC]
    sys.exit(not all(good))


if __name__ == "__main__":
    main()
