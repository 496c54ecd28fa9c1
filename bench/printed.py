#!/usr/bin/env python3
"""Prints the lists of the pages that follow from the sources.

    bench/printed.py [--check | --write] [FOLDER]

Goes over README.md and docs/*.md of FOLDER, by default of this repository. In a page such a list stands between the
lines `<!-- printed by bench/printed.py: NAME -->` and `<!-- end of NAME -->`. The lists by their names:

    rooms        the sections of crates.txt, and of each crate the first sentence of its src/lib.rt or src/main.rt
    definitions  by rooms each file crates/*/specs/*.antt with the first sentence of its comment, and what stands behind
                 `Source:` in it, but for "this profile" alone
    laws         the laws of each crate: its public functions without arguments and answer
    scripts      each script of bench/ with the first sentence of its comment

--check, the default, says which lists differ from what is printed, and which crate of crates.txt stands above one that
it needs or in no section. Status 1: there are such. --write puts the lists into the pages.
"""
import glob
import os
import re
import sys

TOP = os.path.dirname(os.path.dirname(os.path.abspath(__file__)))
PART = re.compile(r"(^<!-- printed by bench/printed\.py: (\w+) -->\n).*?(^<!-- end of \2 -->$)", re.M | re.S)
SENTENCE = re.compile(r"^.*?\.(?= [A-Z`(0-9]|$)")
LAW = re.compile(r"^pub fn (\w+)(?:<.*>)?\(\)$", re.M)
SECTION = re.compile(r"# ([^:]+): (.*)")


def read(path):
    with open(path, encoding="utf-8") as file:
        return file.read()


def rooms(folder):
    """Each section of crates.txt: its name, what it says of it, and its crates with those that they stand on."""
    found = []
    for line in read(f"{folder}/crates.txt").split("\n"):
        if SECTION.fullmatch(line):
            found.append((*SECTION.fullmatch(line).groups(), []))
        elif ":" in line and not line.startswith("#"):
            name, _, below = line.partition(":")
            found = found or [("", "", [])]
            found[-1][2].append((name.split()[0], below.split()))
    return [it for it in found if it[2]]


def comment_of(text, sign):
    """The comment with which a text begins, line by line."""
    for line in text.split("\n"):
        if not line.startswith(sign):
            return
        yield line[len(sign):].strip()


def first_sentence(lines):
    """The first sentence of a comment, or its first paragraph where this has none."""
    text = " ".join(lines).split("  ")[0]
    found = SENTENCE.match(text)
    return (found[0] if found else text).rstrip(".: ").replace("|", "\\|")


def crate_of(folder, name):
    """What a crate is, by its own first sentence."""
    paths = (f"{folder}/crates/{name}/src/{it}.rt" for it in ("lib", "main"))
    return first_sentence(comment_of(next(read(it) for it in paths if os.path.exists(it)), "//!"))


def all_rooms(folder):
    """The sections of crates.txt with their crates."""
    for name, about, crates in rooms(folder):
        yield f"### {name}\n\n{about[:1].upper()}{about[1:]}.\n"
        yield "\n".join(f"- `{it}`: {crate_of(folder, it)}." for it, _ in crates) + "\n"


def definition_row(path):
    """The row of a file of definitions: where it stands, what it says of itself, and its source."""
    crate, name = re.search(r"crates/(\w+)/specs/(\w+)\.antt", path).groups()
    what, _, source = "\n".join(comment_of(read(path), "--")).partition("Source:")
    source = " ".join(source.split()).rstrip(".").replace("|", "\\|") or "none named"
    cell = "" if source == "this profile" else f" {source}"
    return f"| {crate}/specs/{name} | {first_sentence(what.strip().splitlines())} |{cell} |"


def all_definitions(folder):
    """The files of definitions by the rooms of their crates."""
    for name, _, crates in rooms(folder):
        paths = [it for crate, _ in crates for it in sorted(glob.glob(f"{folder}/crates/{crate}/specs/*.antt"))]
        lines = [definition_row(it) for it in paths if not it.endswith("/Lib.antt")]
        if lines:
            yield f"### {name}\n\n| File | What it says | Source |\n|---|---|---|\n" + "\n".join(lines) + "\n"


def all_laws(folder):
    """The laws of each crate that has some."""
    yield "| Crate | Laws |\n|---|---|"
    for crate in [it for _, _, crates in rooms(folder) for it, _ in crates]:
        names = [it for path in sorted(glob.glob(f"{folder}/crates/{crate}/src/*.rt")) for it in LAW.findall(read(path))]
        if names:
            yield f"| `{crate}` | {', '.join(f'`{it}`' for it in names)} |"


def all_scripts(folder):
    """The scripts of bench/."""
    yield "| Script | What it prints or tries |\n|---|---|"
    for path in sorted(glob.glob(f"{folder}/bench/*.py")):
        lines = read(path).partition('"""')[2].split("\n\n")[0].split("\n")
        yield f"| `{os.path.basename(path)}` | {first_sentence(lines)} |"


PARTS = {"rooms": all_rooms, "definitions": all_definitions, "laws": all_laws, "scripts": all_scripts}


def with_parts(folder, page):
    """A page whose lists are what is printed."""
    return PART.sub(lambda it: it[1] + "\n" + "\n".join(PARTS[it[2]](folder)).strip("\n") + "\n\n" + it[3], page)


def misplaced(folder):
    """The crates that stand above one that they need, or in no section."""
    above, all_names = set(), {it for _, _, crates in rooms(folder) for it, _ in crates}
    for room, _, crates in rooms(folder):
        for name, below in crates:
            if not room:
                yield f"crates.txt: {name} stands in no section"
            yield from (f"crates.txt: {name} stands above {it}" for it in below if it in all_names - above)
            above.add(name)


def main():
    words = [it for it in sys.argv[1:] if it.startswith("--")]
    folder = next((it for it in sys.argv[1:] if it not in words), TOP)
    if words not in ([], ["--check"], ["--write"]):
        sys.exit(__doc__)
    wrong = [*misplaced(folder)]
    for path in [f"{folder}/README.md", *sorted(glob.glob(f"{folder}/docs/*.md"))]:
        page = read(path)
        made = with_parts(folder, page)
        if made != page and words == ["--write"]:
            with open(path, "w", encoding="utf-8") as file:
                file.write(made)
        elif made != page:
            wrong.append(f"{os.path.relpath(path, folder)}: bench/printed.py --write prints another list")
    print("\n".join(wrong) or "the lists of the pages are what is printed")
    sys.exit(1 if wrong else 0)


if __name__ == "__main__":
    main()
