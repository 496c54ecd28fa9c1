#!/usr/bin/env python3
"""What the gate costs, crate by crate.

    bench/gate.py [FOLDER]
    bench/gate.py --seconds

Runs `rt ci` in FOLDER, a clean clone of this repository, by default in this one, and passes on what it says.
Then it prints the processor seconds that each crate's proof, tests and edits took, and the processor minutes
of the whole run, also for a thousand lines of code. What an earlier run on this machine kept isn't proved
again, so a count from nothing wants a machine that has kept nothing; and a machine with other work to do
takes more seconds for the same.

With --seconds it prints a line for each crate of docs/COSTS.md, "Crate by crate", with the seconds of its proof:
script/seconds.txt, from which the script `fmc` says how long a build takes.

The seconds of a process are read four times a second, so those of its last quarter are missed. Those of the
whole run are what the system tells at its end.
"""
import collections
import glob
import os
import re
import resource
import subprocess
import sys
import time

TOP = os.path.dirname(os.path.dirname(os.path.abspath(__file__)))
TICKS = os.sysconf("SC_CLK_TCK")
PAUSE = 0.25


def read(path):
    """The text of a file of /proc, or none where its process has ended."""
    try:
        with open(path, errors="replace") as file:
            return file.read()
    except OSError:
        return ""


def processes():
    """Each process: its number, its parent's, when it started, and the seconds of it and of what it has waited for."""
    for name in os.listdir("/proc"):
        text = read(f"/proc/{name}/stat") if name.isdigit() else ""
        if text:
            words = text[text.rindex(")") + 2 :].split()
            yield int(name), int(words[1]), words[19], sum(map(int, words[11:15])) / TICKS


def below(root, parents):
    """The processes that a process has started, by way of others too."""
    known = {root}
    for number in parents:
        path = []
        while number in parents and number not in known:
            path.append(number)
            number = parents[number]
        if number in known:
            known.update(path)
    return known - {root}


def what_is(number):
    """The crate of a check, and whether it is of its proof, its tests or its edits; none for other processes."""
    words = read(f"/proc/{number}/cmdline").split("\0")
    if "--crate-name" not in words or read(f"/proc/{number}/comm").startswith("antt"):
        return None
    try:
        folder = os.readlink(f"/proc/{number}/cwd")
    except OSError:
        return None
    kind = "tests" if "--test" in words else "edits" if "/rt-edit-" in folder else "proof"
    return words[words.index("--crate-name") + 1], kind


def watch(gate):
    """The checks of a gate at work: what each is, and its seconds. It returns when the gate has ended."""
    found = {}
    while gate.poll() is None:
        now = {number: it for number, *it in processes()}
        for number in below(gate.pid, {number: it[0] for number, it in now.items()}):
            _, start, seconds = now[number]
            # a number may be given again
            key = number, start
            what = found[key][0] if key in found else what_is(number)
            if what:
                found[key] = what, seconds
        time.sleep(PAUSE)
    return found.values()


def table(checks):
    """The seconds by crate and kind, and how many edits were checked."""
    seconds, edits = collections.Counter(), collections.Counter()
    for (crate, kind), spent in checks:
        seconds[crate, kind] += spent
        edits[crate] += kind == "edits"
    return seconds, edits


def lines_of(folder):
    """How many lines of code a crate has."""
    return sum(read(path).count("\n") for path in glob.glob(f"{folder}/src/**/*.rt", recursive=True))


def proofs():
    """The seconds of each crate's proof as docs/COSTS.md has them."""
    section = re.search(r"^## Crate by crate$(.*?)^## ", read(f"{TOP}/docs/COSTS.md"), re.M | re.S)[1]
    return sorted(re.findall(r"^\| (\w+) \| [\d,]+ \| (\d+) \|", section, re.M))


def main():
    if sys.argv[1:] == ["--seconds"]:
        print(*(f"{crate} {seconds}" for crate, seconds in proofs()), sep="\n")
        return
    folder = sys.argv[1] if len(sys.argv) > 1 else TOP
    gate = subprocess.Popen(["rt", "ci"], cwd=folder)
    seconds, edits = table(watch(gate))
    print("| Crate | Lines | Proof | Tests | Edits (checks) | All |\n|---|---|---|---|---|---|")
    count = 0
    for path in sorted(glob.glob(f"{folder}/crates/*/src")):
        crate = os.path.basename(os.path.dirname(path))
        lines = lines_of(os.path.dirname(path))
        count += lines
        proof, tests, tried = (seconds[crate, kind] for kind in ("proof", "tests", "edits"))
        print(f"| {crate} | {lines:,} | {proof:.0f} | {tests:.0f} | {tried:.0f} ({edits[crate]}) | {proof + tests + tried:.0f} |")
    used = resource.getrusage(resource.RUSAGE_CHILDREN)
    minutes = (used.ru_utime + used.ru_stime) / 60
    print(f"{minutes:.1f} processor minutes for {count:,} lines, {1000 * minutes / count:.2f} a thousand")
    sys.exit(gate.returncode)


if __name__ == "__main__":
    main()
