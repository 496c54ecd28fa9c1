#!/usr/bin/env python3
"""Whether extras/why --all goes on behind what is told, whatever the text is.

    bench/why.py [BINARY [COUNT]]

Changes the examples at random, COUNT times (200): a letter, a word or a line goes, comes twice, or becomes another one.
Of each text that `check` refuses, what --all writes begins with the answer of `check`, no place is told for ever, and
in the end nothing is refused or nothing gets further. It counts how many became lawful. BINARY is the built program, by
default crates/fmc_cli/out/fmc_cli. The seed is fixed.
"""
import glob
import os
import random
import re
import sys

TOP = os.path.dirname(os.path.dirname(os.path.abspath(__file__)))
sys.dont_write_bytecode = True
sys.path.insert(0, os.path.join(TOP, "extras"))
import common  # noqa: E402
import mend  # noqa: E402

PUT_IN = ["REAL X", "END IF", "END", "10", "'", "(", ")", "==", "&", ";", "DO 10 I = 1, N", "PROCESSES", "\t", "\xe9",
          "      GOTO 99", "      PROGRAM Q", "      INTEGER A(0)", "      CALL NOBODY", "     +", "X = Y + Z",
          "N" * 32]


def changed(chance, text):
    """A text with one to three changes."""
    for _ in range(chance.randint(1, 3)):
        rows = text.split("\n")
        at = chance.randrange(len(rows))
        way = chance.randrange(6)
        if way == 0:
            rows[at : at + 1] = []
        elif way == 1:
            rows[at:at] = [chance.choice(rows)]
        elif way == 2:
            rows[at:at] = [chance.choice(PUT_IN)]
        else:
            words = re.split(r"(\W)", rows[at])
            place = chance.randrange(len(words))
            words[place] = ["", words[place] * 2, chance.choice(PUT_IN)][way - 3]
            rows[at] = "".join(words)
        text = "\n".join(rows)
    return text


def main():
    binary = os.path.abspath(sys.argv[1] if len(sys.argv) > 1 else f"{TOP}/crates/fmc_cli/out/fmc_cli")
    os.environ["FMC"] = binary
    count = int(sys.argv[2]) if len(sys.argv) > 2 else 200
    chance = random.Random(61)
    names = sorted(glob.glob(f"{TOP}/examples/*.f") + glob.glob(f"{TOP}/examples/gallery/*.f"))
    refused = became = told = wrong = 0
    for number in range(count):
        with open(chance.choice(names), encoding="latin-1") as file:
            source = changed(chance, file.read()).encode("latin-1")
        status, answer = common.call(["check"], source)
        if status != 3:
            continue
        refused += 1
        found = [*mend.go_on(source)]
        told += len(found) - 1
        became += found[-1][1]
        if str(found[0][0]) != answer.decode("latin-1").strip() or len(found) > mend.MOST:
            wrong += 1
            print(f"text {number}: {found[0][0]}, and not {answer.decode('latin-1').strip()}; {len(found)} told")
    print(f"{refused} refused texts, {told} places told, {became} lawful in the end; {wrong} wrong")
    sys.exit(1 if wrong else 0)


if __name__ == "__main__":
    main()
