#!/usr/bin/env python3
"""What a message costs whose array an earlier field sizes.

    bench/sized.py [BINARY [TIMES]]

Three programs send to themselves and receive TIMES times (100,000, if it isn't told): 10 words of an array of
60,000, 10 words of an array of 10, and 10 scalars. Valgrind's callgrind counts the instructions, which repeat to
the digit on one machine; what a run without a message takes is taken off. It prints the instructions for each
message and their ratio to those of 10 scalars, and tells in the status whether a ratio is over 1.5, or the large
array costs more than the small one. BINARY is the built program, by default crates/fmc_cli/out/fmc_cli.
"""
import os
import re
import subprocess
import sys
import tempfile

HERE = os.path.dirname(os.path.abspath(__file__))
DEFAULT = os.path.join(HERE, "..", "crates", "fmc_cli", "out", "fmc_cli")
TIMES = 100_000
WORDS = 10
WIDTH = 66
MOST_RATIO = 1.5
TURNS = "100000000"


def card(statement):
    """A statement in columns 7 to 72, with as many continuation lines as it needs."""
    parts = [statement[at : at + WIDTH] for at in range(0, len(statement), WIDTH)]
    return f"      {parts[0]}\n" + "".join(f"     +{part}\n" for part in parts[1:])


def program(declarations, fields, sent, received, times):
    """A program that sends and receives so many times."""
    lines = [
        "PROGRAM SIZED",
        f"INPORT ({fields}) P",
        f"OUTPORT ({fields}) Q",
        declarations,
        "CHANNEL(IN=P,OUT=Q)",
        f"DO I = 1, {times}",
        f"SEND(Q) {sent}",
        f"RECEIVE(P) {received}",
        "ENDDO",
        "END",
    ]
    return "".join(card(line) for line in lines)


def arrays(elements, times):
    """Sends the first elements of an array of so many."""
    return program(f"INTEGER A({elements}), B({WORDS})", "INTEGER N, INTEGER X(N)", f"{WORDS}, A", "K, B", times)


def scalars(times):
    """Sends as many scalars."""
    names = [",".join(f"{letter}{n}" for n in range(WORDS)) for letter in "AB"]
    return program(f"INTEGER {names[0]}, {names[1]}", ",".join(["INTEGER"] * WORDS), names[0], names[1], times)


PROGRAMS = {
    "10 of 60,000 words": lambda times: arrays(60_000, times),
    "10 of 10 words": lambda times: arrays(WORDS, times),
    "10 scalars": scalars,
}


def instructions(binary, source):
    """The instructions that a run takes."""
    with tempfile.TemporaryDirectory() as folder:
        command = ["valgrind", "--tool=callgrind", f"--callgrind-out-file={folder}/out", binary, "run", "--workers", "1", "--turns", TURNS]
        run = subprocess.run(command, input=source.encode(), capture_output=True, check=False)
        if run.returncode != 0:
            sys.exit(f"status {run.returncode}: {run.stdout.decode()[-200:]}{run.stderr.decode()[-200:]}")
        return int(re.search(r"Collected : (\d+)", run.stderr.decode()).group(1))


def main(arguments):
    binary = arguments[0] if arguments else DEFAULT
    times = int(arguments[1]) if len(arguments) > 1 else TIMES
    each = {name: (instructions(binary, make(times)) - instructions(binary, make(0))) / times for name, make in PROGRAMS.items()}
    least = each["10 scalars"]
    for name, count in each.items():
        print(f"{name:20} {count:10.0f} instructions a message  {count / least:5.2f}")
    large, small = each["10 of 60,000 words"], each["10 of 10 words"]
    sys.exit(large > MOST_RATIO * least or large > 1.05 * small)


if __name__ == "__main__":
    main(sys.argv[1:])
