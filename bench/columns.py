#!/usr/bin/env python3
"""Lines of more than 120 columns in contracts, code and comments of the product's crates.

    bench/columns.py

Lists each such line with its file and number, and then their count. Imports and attributes may be longer, and so may
the tables of the crates of tests, whose names end in `_rows`. The status is 1 where there is one.
"""
import pathlib
import re
import sys

LIMIT = 120
FREE = re.compile(r"\s*(pub )?(ghost )?use |\s*#!?\[")


def too_long(path):
    """The numbers of the lines of a file that are too long, each with its width."""
    lines = path.read_text(encoding="utf-8").split("\n")
    return [(number, len(line)) for number, line in enumerate(lines, 1) if len(line) > LIMIT and not FREE.match(line)]


def main():
    root = pathlib.Path(__file__).resolve().parent.parent
    files = [it for it in sorted(root.glob("crates/*/src/**/*.rt")) if not it.relative_to(root).parts[1].endswith("_rows")]
    found = [(it.relative_to(root), number, width) for it in files for number, width in too_long(it)]
    for path, number, width in found:
        print(f"{path}:{number}: {width} columns")
    print(f"{len(files)} files, {len(found)} lines over {LIMIT} columns")
    return 1 if found else 0


if __name__ == "__main__":
    sys.exit(main())
