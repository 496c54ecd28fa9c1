#!/usr/bin/env python3
"""How far an edit reaches: what is proved again, crate by crate.

    bench/reach.py [FOLDER]

Reads crates.txt of FOLDER, by default of this repository. For each crate it prints how many an edit there proves
again, itself among them, and how many stand below it, as a row of a table; then the longest chain of crates, each of
which stands on the one before. With many processors a check from nothing takes as long as this chain.
"""
import functools
import os
import sys

TOP = os.path.dirname(os.path.dirname(os.path.abspath(__file__)))


def crates(folder):
    """Each crate with those that it stands on."""
    found = {}
    with open(os.path.join(folder, "crates.txt"), encoding="utf-8") as file:
        for line in file:
            name, colon, below = line.partition("#")[0].partition(":")
            if colon:
                found[name.split()[0]] = below.split()
    # the libraries of the kit are proved already
    return {name: [it for it in below if it in found] for name, below in found.items()}


def reached(start, next_of):
    """Whatever is come to from a crate."""
    seen, left = set(), [start]
    while left:
        for name in next_of[left.pop()]:
            if name not in seen:
                seen.add(name)
                left.append(name)
    return seen


def longest(below):
    """A longest chain of crates, the lowest first."""

    @functools.lru_cache(None)
    def ending_at(name):
        return max((ending_at(it) for it in below[name]), key=len, default=()) + (name,)

    return max(map(ending_at, sorted(below)), key=len)


def main():
    below = crates(sys.argv[1] if len(sys.argv) > 1 else TOP)
    above = {name: [it for it in below if name in below[it]] for name in below}
    print("| Crate | Proved again | Below |\n|---|---|---|")
    for name in sorted(below, key=lambda it: (-len(reached(it, above)), it)):
        print(f"| {name} | {len(reached(name, above)) + 1} | {len(reached(name, below))} |")
    chain = longest(below)
    print(f"{len(below)} crates; the longest chain has {len(chain)}: {', '.join(chain)}")


if __name__ == "__main__":
    main()
