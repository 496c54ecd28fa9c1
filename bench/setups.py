#!/usr/bin/env python3
"""Holds a built program to one report of each deterministic program, however it is run.

    bench/setups.py [BINARY [FILE ..]]

Each program (those of examples/ and examples/gallery, where no FILE is told) is run with 1, 2, 4 and 8 workers,
pieces of 1, 7, 1,000 and 1,000,000 steps, and both plans: 32 ways. Where `check` says that it is deterministic,
status and report have to be the same in all of them, the cost with them. Where it doesn't, each `trace` has to
be replayed to the status that it has itself, and twice to the same report. Prints what was wrong, and how many
programs of each sort were tried. BINARY is by default crates/fmc_cli/out/fmc_cli.
"""
import concurrent.futures
import glob
import itertools
import os
import subprocess
import sys

HERE = os.path.dirname(os.path.abspath(__file__))
TURNS = "200000"
WAYS = [
    ["--turns", TURNS, "--workers", str(workers), "--slice", str(slice_), "--plan", plan]
    for workers, slice_, plan in itertools.product([1, 2, 4, 8], [1, 7, 1000, 1000000], ["cyclic", "block"])
]


def told(binary, words, source):
    """The status and the text of a call."""
    try:
        done = subprocess.run([binary] + words, input=source, stdout=subprocess.PIPE, stderr=subprocess.PIPE, timeout=120)
    except subprocess.TimeoutExpired:
        return None, b"no end in 120 seconds"
    return done.returncode, done.stdout + done.stderr


def unlike(binary, source):
    """In which ways a deterministic program tells something else than in the first."""
    first = told(binary, ["run", "--vars"] + WAYS[0], source)
    return [way for way in WAYS if told(binary, ["run", "--vars"] + way, source) != first or first[0] is None]


def not_replayed(binary, source):
    """Of which ways the trace isn't replayed to the status of the trace."""
    wrong = []
    for way in WAYS:
        status, trace = told(binary, ["trace"] + way, source)
        replays = {told(binary, ["replay", "--vars"], trace) for _ in range(2)}
        if status is None or {again for again, _ in replays} != {status} or len(replays) != 1:
            wrong.append(way)
    return wrong


def tried(binary, path):
    """Whether a program is deterministic (None where it is refused), and in which ways it is told wrongly."""
    with open(path, "rb") as file:
        source = file.read()
    status, verdict = told(binary, ["check"], source)
    if status != 0:
        return path, None, []
    if verdict == b"deterministic\n":
        return path, True, unlike(binary, source)
    return path, False, not_replayed(binary, source)


def main():
    binary = sys.argv[1] if len(sys.argv) > 1 else os.path.join(HERE, "../crates/fmc_cli/out/fmc_cli")
    examples = os.path.join(HERE, "../examples")
    paths = sys.argv[2:] or sorted(glob.glob(f"{examples}/*.f") + glob.glob(f"{examples}/gallery/*.f"))
    counts, wrong = {True: 0, False: 0, None: 0}, 0
    with concurrent.futures.ThreadPoolExecutor(os.cpu_count()) as pool:
        for path, sort, ways in pool.map(lambda path: tried(binary, path), paths):
            counts[sort] += 1
            for way in ways:
                wrong += 1
                print(f"{path}: wrong with {' '.join(way)}")
    print(
        f"{counts[True]} deterministic programs, {counts[False]} others, {counts[None]} refused;"
        f" {len(WAYS)} ways each, {wrong} wrong"
    )
    sys.exit(1 if wrong else 0)


if __name__ == "__main__":
    main()
