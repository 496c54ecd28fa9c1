#!/usr/bin/env python3
"""Runs the programs of examples/ and its gallery and compares what they write.

    bench/examples.py [BINARY]

Of each NAME.f the files NAME.out, NAME.check, NAME.list and NAME.flow hold what `run`, `check`, `list` and `flow` write. Prints a line for
each that differs, and the number of those that don't. BINARY is the built program, by default
crates/fmc_cli/out/fmc_cli.
"""
import glob
import os
import subprocess
import sys

HERE = os.path.dirname(os.path.abspath(__file__))
EXAMPLES = os.path.join(HERE, "../examples")
WORDS = {".out": "run", ".check": "check", ".list": "list", ".flow": "flow"}


def read(path):
    with open(path, "rb") as file:
        return file.read()


def main():
    binary = sys.argv[1] if len(sys.argv) > 1 else os.path.join(HERE, "../crates/fmc_cli/out/fmc_cli")
    same = differ = 0
    for source in sorted(glob.glob(os.path.join(EXAMPLES, "**/*.f"), recursive=True)):
        for ending, word in WORDS.items():
            wanted = source[:-2] + ending
            if not os.path.exists(wanted):
                continue
            done = subprocess.run([binary, word], input=read(source), stdout=subprocess.PIPE)
            if done.stdout == read(wanted):
                same += 1
            else:
                differ += 1
                print(f"{os.path.relpath(wanted, EXAMPLES)} differs")
    print(f"{same} as they should be, {differ} not")
    sys.exit(1 if differ else 0)


if __name__ == "__main__":
    main()
