#!/usr/bin/env python3
"""The time and the memory of `fmc demo`, beside the same pipeline in Go where that is there.

    bench/demo.py [BINARY]

Runs `demo 7` and `demo 899` three times each, and `go run bench/demo/pipeline.go` with the same numbers where Go is
there, and prints the least time, the peak memory (GNU time, where that is there), and how many messages a second went
through the channels. BINARY is the built program, by default crates/fmc_cli/out/fmc_cli.
"""
import os
import re
import shutil
import subprocess
import sys
import time

HERE = os.path.dirname(os.path.abspath(__file__))
DEFAULT = os.path.join(HERE, "../crates/fmc_cli/out/fmc_cli")
NUMBERS = [7, 899]
RUNS = 3


def messages(number):
    """How many messages go through all channels."""
    stages, sent = 20 + number % 180, 100 + number % 900
    return (stages + 1) * sent


def measured(command):
    """The least time of some runs."""
    best = None
    for _ in range(RUNS):
        begin = time.perf_counter()
        subprocess.run(command, stdout=subprocess.DEVNULL, check=True)
        spent = time.perf_counter() - begin
        best = spent if best is None else min(best, spent)
    return best


def peak(command):
    """The peak memory of a run in bytes, by GNU time; 0 where that isn't there. A child of Python's own would show Python's."""
    timer = shutil.which("time")
    if not timer:
        return 0
    told = subprocess.run([timer, "-v", *command], stdout=subprocess.DEVNULL, stderr=subprocess.PIPE, check=True).stderr
    return 1024 * int(re.search(rb"Maximum resident set size \(kbytes\): (\d+)", told).group(1))


def commands(binary, number):
    yield "fmc", [binary, "demo", str(number)]
    go = shutil.which("go")
    if go:
        built = os.path.join("/tmp", "pipeline")
        subprocess.run([go, "build", "-o", built, os.path.join(HERE, "demo/pipeline.go")], check=True)
        yield "go", [built, str(number)]


def main():
    binary = sys.argv[1] if len(sys.argv) > 1 else DEFAULT
    for number in NUMBERS:
        first = None
        for name, command in commands(binary, number):
            spent = measured(command)
            first = first or spent
            rate = messages(number) / spent
            print(f"{number:5} {name:5}{spent:9.3f} s{first / spent:8.2f} of fmc's speed{peak(command):14,} bytes{rate:14,.0f} messages a second")


if __name__ == "__main__":
    main()
