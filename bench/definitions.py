#!/usr/bin/env python3
"""Whether the pages name what stands in the crates.

    bench/definitions.py [FOLDER]

Of FOLDER, by default of this repository:

- Each file of definitions, crates/*/specs/*.antt, stands in docs/DEFINITIONS.md as CRATE/specs/FILE, FILE, .., and no
  other does; what a row of a table there says that a file defines stands in it.
- What a page names as `NAME` of CRATE is a function, a type or a trait there, or a word of its definitions.
- Each call in a row of docs/PROMISES.md and docs/ARCHITECTURE.md is a function there, and each clause in it is one of
  the row's calls, or a word of a file of definitions; so in the section of docs/DEFINITIONS.md on what each call
  promises. There stands each call that a crate lets others make, is lent something for writing, and may answer want of
  memory.
- Each crate that a page names is one.

Prints what is wrong, and has status 1 then.
"""
import functools
import glob
import os
import re
import sys

TOP = os.path.dirname(os.path.dirname(os.path.abspath(__file__)))
FILES = re.compile(r"\b(fm_\w+|fmc(?:_\w+)?)/specs/([A-Z]\w*(?:, [A-Z]\w*)*)")
CRATE = re.compile(r"\bfm_[a-z_]*[a-z]\b")
NAME = re.compile(r"\bfm(?:c(?:_[a-z]+)?|_[a-z_]*[a-z])\b")
WORD = re.compile(r"`([^`]+)`")
CALL = re.compile(r"^ *(?:pub(?:\(crate\))? )?fn (\w+)|^ *ensures (\w+) \{", re.M)
SMALL = re.compile(r"[a-z]\w*$")
PLACES = re.compile(r"((?:`[\w:]+`,? )+)of `?(fm_[a-z_]*[a-z]|fmc)\b")
DECLARED = re.compile(r"^ *(?:pub(?:\(crate\))? )?(?:fn|struct|enum|trait|type) (\w+)", re.M)
SECTION = re.compile(r"^## What each call promises.*?(?=^## )", re.M | re.S)
USED = re.compile(r"^pub use (?:\w+::)*(?:\{([^}]*)\}|(\w+));", re.M)
OWNER = re.compile(r"^(pub trait|impl(?:<.*?>+)?) ([\w<>:, ]+ for )?(\w+)")
HEAD = re.compile(r"^( *)(pub )?fn (\w+)")
WANT = re.compile(r"-> .*(?:NoMemory|AllocFailed|ReadFail)\b")


@functools.cache
def read(path):
    with open(path, encoding="utf-8") as file:
        return file.read()


def crates(folder):
    """Each crate with those that it stands on."""
    lines = (line.partition("#")[0].partition(":") for line in read(f"{folder}/crates.txt").split("\n"))
    return {name.split()[0]: below.split() for name, colon, below in lines if colon}


def files_in(text):
    """The files of definitions that a text names, as crate and file."""
    return [(crate, name) for crate, names in FILES.findall(text) for name in names.split(", ")]


def rows(text):
    """The cells of each row of the tables, but for heads and rulers."""
    for line in text.split("\n"):
        if line.startswith("| ") and not line.startswith(("| File", "| Name")):
            yield [it.strip() for it in line.strip("|").split(" | ")]


def wrong_files(folder, page):
    """What the page of definitions says of files that isn't so."""
    there = {(path.split("/")[-3], path.split("/")[-1][:-5]) for path in glob.glob(f"{folder}/crates/*/specs/*.antt")}
    there = {it for it in there if it[1] != "Lib"}
    named = set(files_in(page))
    for crate, name in sorted(there - named):
        yield f"DEFINITIONS lacks {crate}/specs/{name}"
    for crate, name in sorted(named - there):
        yield f"DEFINITIONS names {crate}/specs/{name}, which isn't there"
    # a row with no file goes on with that of the row before
    files = []
    for cells in rows(page):
        column = 1 if "/specs/" in (cells + [""])[1] else 0
        files = files_in(cells[column]) or files
        text = "".join(read(f"{folder}/crates/{crate}/specs/{name}.antt") for crate, name in files if (crate, name) in there)
        for word in WORD.findall(cells[1 - column]):
            if text and word not in text:
                yield f"DEFINITIONS says that {cells[column] or files} has {word}"


def wrong_crates(folder, below):
    """The crates that pages name and that aren't there."""
    for path in sorted([f"{folder}/README.md", *glob.glob(f"{folder}/docs/*.md")]):
        for name in sorted(set(CRATE.findall(read(path))) - set(below)):
            yield f"{os.path.basename(path)} names the crate {name}, which isn't there"


def wrong_places(folder, below):
    """What pages name as that of a crate, and that isn't there."""
    there = {}
    for it in below:
        there[it] = set(DECLARED.findall("".join(map(read, glob.glob(f"{folder}/crates/{it}/src/*.rt")))))
        there[it].update(re.findall(r"\w+", "".join(map(read, glob.glob(f"{folder}/crates/{it}/specs/*.antt")))))
    for path in sorted([f"{folder}/README.md", *glob.glob(f"{folder}/docs/*.md")]):
        for words, crate in PLACES.findall(read(path)):
            for word in WORD.findall(words):
                if word.split("::")[-1] not in there.get(crate, set()):
                    yield f"{os.path.basename(path)}: {crate} has no {word}"


@functools.cache
def words_of_definitions(folder):
    """The words of all files of definitions."""
    return set(re.findall(r"\w+", "".join(map(read, glob.glob(f"{folder}/crates/*/specs/*.antt")))))


@functools.cache
def clauses(folder):
    """Of each function of the crates the names of its clauses, those of functions of one name together."""
    found, last = {}, set()
    for path in sorted(glob.glob(f"{folder}/crates/*/src/*.rt")):
        for name, clause in CALL.findall(read(path)):
            if name:
                last = found.setdefault(name, set())
            else:
                last.add(clause)
    return found


def wrong_promises(folder, name, page):
    """What the rows of a page cite that isn't there: a call, or a clause of none of the row's calls."""
    found, words = clauses(folder), words_of_definitions(folder)
    for cells in rows(page):
        if len(cells) < 3:
            continue
        calls = [it.split("::")[-1] for it in WORD.findall(cells[-2])]
        yield from (f"{name}: there is no call {it}" for it in calls if SMALL.match(it) and it not in [*found, "fmc", "may_wait"] and not NAME.match(it))
        here = set().union(*(found.get(it, set()) for it in calls), calls)
        for word in WORD.findall(cells[-1]):
            if word not in here and word not in words:
                yield f"{name}: {', '.join(calls)} has no clause {word}"


def calls_of(folder, crate):
    """The calls of a crate that others may make, each with its head up to its answer."""
    shown = {word for two in USED.findall(read(f"{folder}/crates/{crate}/src/lib.rt")) for word in re.findall(r"\w+", "".join(two))}
    for path in sorted(glob.glob(f"{folder}/crates/{crate}/src/*.rt")):
        lines, owner, plain = read(path).split("\n"), None, True
        for place, line in enumerate(lines):
            if OWNER.match(line):
                kind, trait, owner = OWNER.match(line).groups()
                plain = not trait and kind != "pub trait"
            head = HEAD.match(line)
            if head and (owner if head.group(1) else head.group(3)) in shown and (head.group(2) or head.group(1) and not plain):
                stop = next(k for k in range(place, len(lines)) if lines[k].startswith(head.group(1) + ")") or ")" in lines[place])
                yield head.group(3), " ".join(lines[place:stop + 1])


def unpromised(folder, below, section):
    """The calls that are lent something for writing and may answer want of memory, and aren't in the section."""
    words = set(re.findall(r"\w+", " ".join(WORD.findall(section))))
    for crate in below:
        if os.path.exists(f"{folder}/crates/{crate}/src/lib.rt"):
            for name, head in calls_of(folder, crate):
                if "&mut " in head and WANT.search(head) and name not in words:
                    yield f"DEFINITIONS has no promise on memory of {crate}::{name}"


def main():
    folder = sys.argv[1] if len(sys.argv) > 1 else TOP
    below = crates(folder)
    page = read(f"{folder}/docs/DEFINITIONS.md")
    section = "".join(SECTION.findall(page))
    wrong = [*wrong_files(folder, SECTION.sub("", page)), *wrong_promises(folder, "DEFINITIONS", section),
             *unpromised(folder, below, section), *wrong_places(folder, below), *wrong_crates(folder, below)]
    for name in "ARCHITECTURE", "PROMISES":
        wrong += wrong_promises(folder, name, read(f"{folder}/docs/{name}.md"))
    print("\n".join(wrong) or "the pages name what stands in the crates")
    sys.exit(1 if wrong else 0)


if __name__ == "__main__":
    main()
