#!/usr/bin/env python3
"""Whether the generated programs are lawful and deterministic, and print what they should.

    bench/made.py [BINARY [FIRST [LAST]]]

Makes the programs of the numbers from FIRST to LAST (0 to 899, which are all texts that there are) by
`make`, and wants of each that `check` calls it deterministic. Of every hundredth it runs the text by `run` and by
`demo`, and compares the printed sum and the cost with those that the number says. BINARY is the built program, by
default crates/fmc_cli/out/fmc_cli. The status is 1 where one is not as it should be.
"""
import os
import subprocess
import sys

HERE = os.path.dirname(os.path.abspath(__file__))
DEFAULT = os.path.join(HERE, "../crates/fmc_cli/out/fmc_cli")


def run(command, source=b""):
    return subprocess.run(command, input=source, stdout=subprocess.PIPE).stdout


def expected(number):
    """The printed line and the summary that a number says."""
    stages, messages = 20 + number % 180, 100 + number % 900
    added = sum((number + 7 * stage) % 100 for stage in range(1, stages + 1))
    line = " %d\n" % sum((message + added) % 1009 for message in range(1, messages + 1))
    cost = 13 * stages + 26 + 8 * messages + 5 * stages * messages + len(line)
    summary = "processes %d\nturns %d\nlines 1\ndone\n" % (stages + 3, cost)
    return line.encode(), summary.encode()


def is_as_it_should(binary, number):
    source = run([binary, "make", str(number)])
    if run([binary, "check"], source) != b"deterministic\n":
        return False
    if number % 100:
        return True
    line, summary = expected(number)
    return run([binary, "run"], source) == line and run([binary, "demo", str(number)]) == summary


def main():
    binary = sys.argv[1] if len(sys.argv) > 1 else DEFAULT
    first = int(sys.argv[2]) if len(sys.argv) > 2 else 0
    last = int(sys.argv[3]) if len(sys.argv) > 3 else 899
    wrong = [number for number in range(first, last + 1) if not is_as_it_should(binary, number)]
    for number in wrong:
        print(f"make {number} is not as it should be")
    print(f"{last + 1 - first - len(wrong)} as they should be, {len(wrong)} not")
    sys.exit(1 if wrong else 0)


if __name__ == "__main__":
    main()
