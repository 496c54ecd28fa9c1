#!/usr/bin/env python3
"""Whether programs of which `flow` says that they can't deadlock come to their end under many schedules.

    bench/flow.py [BINARY [FILE ..]] [--lists N] [--seed N]

Tries the programs of examples/, and those of each FILE: a program, or a set of cases as text (a line `== NAME STATUS
SOURCE TEXT WORDS`, so many lines of the source or `=` for that of the case before, so many of the text). BINARY is the built
program, by default crates/fmc_cli/out/fmc_cli. Each program of which `flow` writes `no deadlock` is run with N slices, and
replayed under N schedules: the entries of its own trace in an order at random, where one that asks for a step that isn't
there comes later. N is 200 by default. Prints each program that ends with main waiting, and how many were tried.
"""
import argparse
import glob
import os
import random
import re
import subprocess
import sys

TOP = os.path.dirname(os.path.dirname(os.path.abspath(__file__)))
ENTRIES = 400  # a trace with more entries isn't replayed in other orders: each order takes some runs


def run(binary, words, text):
    done = subprocess.run([binary, *words], input=text, stdout=subprocess.PIPE)
    return done.returncode, done.stdout


def sources(path):
    """The name and the text of each program of a file."""
    with open(path, "rb") as file:
        text = file.read()
    if not text.startswith(b"== "):
        yield path, text
        return
    lines, at, source = text.split(b"\n"), 0, b""
    while at < len(lines) - 1:
        _, name, _, first, second, _ = (lines[at] + b" ").split(b" ", 5)
        at += 1
        if first != b"=":
            source = b"".join(map(plain, lines[at : at + int(first)]))
            at += int(first)
            yield f"{path} {name.decode()}", source
        at += int(second)


def plain(line):
    """The bytes of a line of a set: \\xHH is a byte, \\\\ a backslash, and a \\ at the end says that no line feed follows."""
    ends = re.search(rb"(?<!\\)(?:\\\\)*\\$", line)
    line = line[:-1] if ends else line
    line = re.sub(rb"\\(x[0-9a-f]{2}|\\)", lambda it: b"\\" if it[1] == b"\\" else bytes([int(it[1][1:], 16)]), line)
    return line if ends else line + b"\n"


def with_entries(trace, entries):
    """The trace with these entries."""
    head, mark, source = trace.partition(b"source\n")
    first = head.split(b"\n")[:2]
    lines = first + [b"entries %d" % len(entries)] + entries
    return b"\n".join(lines) + b"\n" + mark + source


def shuffled(binary, trace, entries, chance):
    """The status and the text of a replay in an order at random, or nothing where none was found."""
    entries = entries[:]
    chance.shuffle(entries)
    for _ in range(4 * len(entries)):
        status, text = run(binary, ["replay"], with_entries(trace, entries))
        if status != 11:
            return status, text
        at = int(text.split()[-1]) - 1
        later = [k for k in range(at + 1, len(entries)) if entries[k] != entries[at]]
        if not later:
            return None
        other = chance.choice(later)
        entries[at], entries[other] = entries[other], entries[at]
    return None


def tried(binary, source, lists, chance):
    """How a program ends under many schedules: each status with how often it came."""
    ends = {}
    for _ in range(lists):
        status, _ = run(binary, ["run", "--slice", str(chance.randint(1, 60))], source)
        ends[status] = ends.get(status, 0) + 1
    status, trace = run(binary, ["trace", "--slice", "1"], source)
    head = trace.partition(b"source\n")[0].split(b"\n")[3:-1]
    entries = [number for it in head for number in [it.split()[0] + b" 1"] * int(it.split()[1])]
    if status in (0, 1, 2) and len(entries) <= ENTRIES:
        for _ in range(lists):
            end = shuffled(binary, trace, entries, chance)
            if end is not None:
                ends[end[0]] = ends.get(end[0], 0) + 1
    return ends


def main():
    words = argparse.ArgumentParser(description=__doc__, formatter_class=argparse.RawDescriptionHelpFormatter)
    words.add_argument("binary", nargs="?", default=f"{TOP}/crates/fmc_cli/out/fmc_cli")
    words.add_argument("files", nargs="*")
    words.add_argument("--lists", type=int, default=200)
    words.add_argument("--seed", type=int, default=1)
    asked = words.parse_args()
    chance = random.Random(asked.seed)
    files = asked.files or sorted(glob.glob(f"{TOP}/examples/**/*.f", recursive=True))
    safe = risky = refused = wrong = schedules = 0
    for path in files:
        for name, source in sources(path):
            status, told = run(asked.binary, ["flow"], source)
            if status != 0:
                refused += 1
            elif told != b"no deadlock\n":
                risky += 1
            else:
                safe += 1
                ends = tried(asked.binary, source, asked.lists, chance)
                schedules += sum(ends.values())
                if ends.get(2):
                    wrong += 1
                    print(f"{name}: main waits under {ends[2]} schedules")
    print(f"{safe} that can't deadlock under {schedules} schedules, {wrong} of them wrong; {risky} that may; {refused} refused")
    sys.exit(1 if wrong else 0)


if __name__ == "__main__":
    main()
