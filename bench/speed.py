#!/usr/bin/env python3
"""The time of `fmc run` beside Lua and Python.

    bench/speed.py [BINARY [RUNS]]

Runs each program of bench/speed in `fmc run`, in lua5.4 where that is there, and in python3, by turns, so
that what else the machine does falls on all of them alike. For each it prints the least time and the median
of RUNS runs (3, if it isn't told), and what of the times of Lua and Python the median of fmc is. All of them
have to print the same. BINARY is the built program, by default crates/fmc_cli/out/fmc_cli.
"""
import os
import shutil
import statistics
import subprocess
import sys
import time

HERE = os.path.dirname(os.path.abspath(__file__))
PROGRAMS = os.path.join(HERE, "speed")
NAMES = ["loop", "cross", "matrix", "calls"]
RUNS = 3


def text(name):
    with open(os.path.join(PROGRAMS, name), "rb") as file:
        return file.read()


def interpreters(binary, name):
    """Each interpreter with its command and the program's text."""
    yield "fmc", [binary, "run", "--turns", "1000000000"], text(name + ".f")
    lua = shutil.which("lua5.4") or shutil.which("lua")
    if lua:
        yield "lua", [lua, "-"], text(name + ".lua")
    yield "python", [sys.executable, "-"], text(name + ".py")


def timed(command, source):
    """The time of a run, and what it prints."""
    begin = time.perf_counter()
    done = subprocess.run(command, input=source, stdout=subprocess.PIPE, check=True)
    return time.perf_counter() - begin, done.stdout


def compared(binary, name, runs):
    """The times of each interpreter, which have to print the same."""
    times, outputs = {}, set()
    for _ in range(runs):
        for interpreter, command, source in interpreters(binary, name):
            spent, output = timed(command, source)
            times.setdefault(interpreter, []).append(spent)
            outputs.add(output)
    if len(outputs) != 1:
        sys.exit(f"{name}: outputs differ: {outputs}")
    return times


def main():
    binary = sys.argv[1] if len(sys.argv) > 1 else os.path.join(HERE, "../crates/fmc_cli/out/fmc_cli")
    runs = int(sys.argv[2]) if len(sys.argv) > 2 else RUNS
    for name in NAMES:
        times = compared(binary, name, runs)
        ours = statistics.median(times["fmc"])
        for interpreter, spent in times.items():
            median = statistics.median(spent)
            print(f"{name:8}{interpreter:8} least {min(spent):7.3f} s  median {median:7.3f} s  fmc takes {ours / median:5.2f} of it")


if __name__ == "__main__":
    main()
