#!/usr/bin/env python3
"""The time and the memory of a run with one worker and with several, by each pool.

    bench/pool.py [BINARY [RUNS [BEFORE]]] [--steal BINARY] [--hub BINARY]

Runs bench/pool/compute.f, whose eight processes compute by themselves, in pieces of the usual length and in short
ones (slice 10), with 1, 2, 4 and 8 workers, and `demo 899`, whose processes have little to share, with 1 and 4; by
turns, so that what else the machine does falls on all alike. For each pool it prints the least time of RUNS runs (3,
if it isn't told), how many times as fast that is as the first pool with one worker, and the most memory (by GNU time,
where that is there). All runs of a program have to print the same.

Between them it starts as many runs of compute.f with one worker as there are workers, all at once, which have nothing
to share: how many times as much they get done as one run in the same time is what the machine gives, and how much of
that one run by so many workers reaches tells of the workers alone.

BINARY is the built program, by default crates/fmc_cli/out/fmc_cli; the programs
with other pools are fmc_cli_steal and fmc_cli_hub beside it, and are left out where they aren't built. With BEFORE,
another built program, such as one without workers, the programs of bench/speed are run by both with one worker, and
what the first takes of the second's time is printed.
"""
import argparse
import os
import shutil
import subprocess
import sys
import time

HERE = os.path.dirname(os.path.abspath(__file__))
TURNS = "1000000000"
RUNS = 3


def text(*names):
    with open(os.path.join(HERE, *names), "rb") as file:
        return file.read()


def started(command, source):
    process = subprocess.Popen(command, stdin=subprocess.PIPE, stdout=subprocess.PIPE)
    process.stdin.write(source)
    process.stdin.close()
    return process


def timed(command, source, count=1):
    """The time of so many runs at once, and what they print."""
    begin = time.perf_counter()
    processes = [started(command, source) for _ in range(count)]
    outputs = {process.stdout.read() for process in processes}
    for process in processes:
        if process.wait() != 0:
            sys.exit(f"{command}: status {process.returncode}")
    return time.perf_counter() - begin, outputs


def peak(command, source):
    """The most memory that some runs held at once in kilobytes, by GNU time; 0 where that isn't there. A child of Python's own
    would show Python's."""
    timer = shutil.which("time")
    if not timer:
        return 0
    held = 0
    for _ in range(RUNS):
        told = subprocess.run([timer, "-f", "%M", *command], input=source, stdout=subprocess.DEVNULL, stderr=subprocess.PIPE, check=True).stderr
        held = max(held, int(told.split()[-1]))
    return held


def compared(commands, source, runs):
    """The least time of each command, which is run so many times at once. All have to print the same."""
    least, outputs = {}, set()
    for _ in range(runs):
        for name, (command, count) in commands.items():
            spent, printed = timed(command, source, count)
            least[name] = min(spent, least.get(name, spent))
            outputs |= printed
    if len(outputs) != 1:
        sys.exit(f"outputs differ: {outputs}")
    return least


def run(binary, workers, *words):
    return [binary, *(words or ["run"]), "--turns", TURNS, "--workers", str(workers)]


def shared(pools, title, words, source, counts, runs, apart=()):
    first = next(iter(pools))
    commands = {(name, count): (run(binary, count, *words), 1) for count in counts for name, binary in pools.items()}
    commands |= {("apart", count): (run(pools[first], 1, *words), count) for count in apart}
    least = compared(commands, source, runs)
    one = least[first, counts[0]]
    for count in counts:
        columns = []
        for name in pools:
            spent, held = least[name, count], peak(run(pools[name], count, *words), source)
            columns.append(f"{name} {spent:7.3f} s {one / spent:5.2f} times {held / 1000:6.1f} MB")
        print(f"{title:18} workers {count}: " + " | ".join(columns), flush=True)
    for count in apart:
        given = count * one / least["apart", count]
        reached = [f"{name} {one / least[name, count] / given:5.2f} of that" for name in pools]
        print(f"{title:18} {count} runs at once get {given:.2f} times as much done as one: " + " | ".join(reached), flush=True)


def alone(binary, before, title, source, runs):
    least = compared({"now": (run(binary, 1), 1), "before": (run(before, 1), 1)}, source, runs)
    print(f"{title:18} one worker takes {least['now'] / least['before']:5.2f} of the time before")


def beside(binary, name):
    """The built program of this crate, next to that of fmc_cli."""
    crates = os.path.dirname(os.path.dirname(os.path.dirname(os.path.abspath(binary))))
    return os.path.join(crates, name, "out", name)


def main():
    parser = argparse.ArgumentParser()
    parser.add_argument("binary", nargs="?", default=os.path.join(HERE, "../crates/fmc_cli/out/fmc_cli"))
    parser.add_argument("runs", nargs="?", type=int, default=RUNS)
    parser.add_argument("before", nargs="?")
    parser.add_argument("--steal")
    parser.add_argument("--hub")
    told = parser.parse_args()
    found = {
        "lock": told.binary,
        "lanes": told.steal or beside(told.binary, "fmc_cli_steal"),
        "hub": told.hub or beside(told.binary, "fmc_cli_hub"),
    }
    pools = {name: binary for name, binary in found.items() if name == "lock" or os.path.exists(binary)}
    compute = text("pool", "compute.f")
    shared(pools, "compute", ["run"], compute, [1, 2, 4, 8], told.runs, [2, 4])
    shared(pools, "compute, slice 10", ["run", "--slice", "10"], compute, [1, 2, 4, 8], told.runs)
    shared(pools, "demo 899", ["demo", "899"], b"", [1, 4], told.runs)
    if told.before:
        for name in ["loop", "cross", "matrix", "calls"]:
            alone(told.binary, told.before, name, text("speed", name + ".f"), told.runs)


if __name__ == "__main__":
    main()
