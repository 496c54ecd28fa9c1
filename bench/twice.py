#!/usr/bin/env python3
"""Functions that stand in two crates.

    bench/twice.py [FOLDER]

Lists each function of FOLDER, by default of this repository, whose name and body, of 4 lines or more, stand to the
letter in two crates or more, with the files, and then their count and how many lines it would save to have each once.
Contracts may differ, and so may how far a body is indented. A `drop` by hand isn't listed: it names the fields of its
own type. The status is 1 where there is one.
"""
import collections
import glob
import os
import re
import sys
import textwrap

TOP = os.path.dirname(os.path.dirname(os.path.abspath(__file__)))
HEAD = re.compile(r"( *)(?:pub(?:\([^)]*\))? )?(?:const )?(?:unsafe )?fn (\w+)")
LEAST = 4


def opens(line, indent, is_first):
    """Whether a body begins behind this line: at the head's own indent, and not in a clause."""
    return line == indent + "{" or line.endswith("{") and (is_first or line.startswith(indent + ")"))


def functions(path):
    """The name and the body of each function that a file has, as rt fmt lays it out."""
    with open(path, encoding="utf-8") as file:
        lines = file.read().split("\n")
    for number, line in enumerate(lines):
        head = HEAD.match(line)
        if head is None:
            continue
        begin = number
        while begin < len(lines) and not opens(lines[begin], head.group(1), begin == number):
            begin += 1
            if begin < len(lines) and (HEAD.match(lines[begin]) or lines[begin] == head.group(1) + "}"):
                begin = len(lines)
        if begin < len(lines):
            end = lines.index(head.group(1) + "}", begin)
            yield head.group(2), textwrap.dedent("\n".join(lines[begin + 1 : end]))


def crate_of(path):
    return path.split("/src/")[0].rsplit("/", 1)[1]


def main():
    folder = sys.argv[1] if len(sys.argv) > 1 else TOP
    places = collections.defaultdict(list)
    for path in sorted(glob.glob(f"{folder}/crates/*/src/**/*.rt", recursive=True)):
        for name, body in functions(path):
            if name != "drop" and body.count("\n") + 1 >= LEAST:
                places[name, body].append(path)
    count = lines = 0
    for (name, body), paths in sorted(places.items()):
        if len(set(map(crate_of, paths))) > 1:
            count += 1
            lines += (len(paths) - 1) * (body.count("\n") + 1)
            print(f"{name}: {', '.join(os.path.relpath(it, folder) for it in paths)}")
    print(f"{count} functions stand twice to the letter, {lines} lines")
    sys.exit(1 if count else 0)


if __name__ == "__main__":
    main()
