#!/usr/bin/env python3
"""Whether the programs and commands that the pages show do what the pages say.

    bench/pages.py [BINARY [PAGE ..]]

Goes over the pages with programs and commands, or those that are named. BINARY is the built program, by default
crates/fmc_cli/out/fmc_cli, and stands for ./fmc.

- A block ```fortran units stands for a program too: its units, and behind them those units of the last program that
  have other names.
- A block ```text right behind a block ```fortran is what `run`, `check` or `list` writes of that program; a block
  ```text WORDS, also further on, is what these words write of the last program. A word that begins with extras/ is
  that script.
- A whole program with no such block, and with no command on my.f behind it, breaks no rule. A part of a
  program isn't tried.
- A block ```text right behind a block ```sh is what its lines write together. Lines that begin with ./fmc, extras/ or
  sed are run, in a folder that has the repository's names, and are no usage; a block with other commands isn't
  compared. The file my.f is the last program. Files that a line writes are there for the page's later lines.
- A line that ends with > docs/NAME.svg writes that file as it is.
"""
import os
import re
import shlex
import subprocess
import sys
import tempfile

TOP = os.path.dirname(os.path.dirname(os.path.abspath(__file__)))
PAGES = ["README.md", "docs/LANGUAGE.md", "docs/RULES.md", "docs/TOUR.md", "docs/LINKS.md", "docs/PROMISES.md",
         "docs/OBJECT.md", "docs/LINT.md", "docs/ARCHITECTURE.md", "examples/gallery/README.md"]
FENCE = re.compile(r"^```(\w*) ?([^\n]*)\n(.*?)^```$", re.M | re.S)
HEADING = re.compile(r"^ +PROGRAM\b", re.M | re.I)
UNIT = re.compile(r"(?:^[^\n]*\n)*?^[ \d]{6} *END\n", re.M)
DRAWN = re.compile(r"^(\./fmc .*) > (docs/\w+\.svg)$", re.M)
COMMANDS = "./fmc ", "extras/", "sed "
NAME = re.compile(r"^ +(?:(?:INTEGER|LOGICAL) )?(?:PROGRAM|PROCESS|SUBROUTINE|FUNCTION) (\w+)", re.M)


def fences(page):
    """Each block of a page: its kind, its words, its text, its line, and whether it is right behind the one before."""
    end = 0
    for it in FENCE.finditer(page):
        kind, words, text = it.groups()
        yield kind, words.split(), text, page.count("\n", 0, it.start()) + 1, not page[end : it.start()].strip()
        end = it.end()


def ran(binary, folder, words, program):
    """What words write of a program, and the status."""
    if words[0].startswith("extras/"):
        return typed(binary, folder, program, shlex.join(words) + " my.f")
    done = subprocess.run([binary, *words], input=program.encode(), stdout=subprocess.PIPE)
    return done.stdout.decode(errors="replace"), done.returncode


def with_units(program, text):
    """The units of a text, and behind them those of the program that have other names."""
    units = {}
    for it in UNIT.findall(text + "\n" + program):
        units.setdefault(NAME.search(it).group(1), it)
    return "".join(units.values())


def fill(folder):
    """Gives a folder the names of the repository, but for files of its user such as my.f."""
    for name in os.listdir(TOP):
        if not name.startswith("my."):
            os.symlink(os.path.join(TOP, name), os.path.join(folder, name))


def typed(binary, folder, program, line):
    """What a line of a block of commands writes in this folder, and the status."""
    with open(os.path.join(folder, "my.f"), "w", encoding="utf-8") as file:
        file.write(program)
    line = line.replace("./fmc", shlex.quote(binary))
    done = subprocess.run(line, shell=True, cwd=folder, env={**os.environ, "FMC": binary}, stdout=subprocess.PIPE)
    return done.stdout.decode(errors="replace"), done.returncode


def shell(binary, folder, program, text):
    """What the lines of a block of commands write, the worst status, and whether each of them is one of ours."""
    lines = [line for line in DRAWN.sub("", text).splitlines() if line.strip() and not line.startswith("#")]
    written, statuses = "", [0]
    for line in lines:
        if line.startswith(COMMANDS):
            told, status = typed(binary, folder, program, line)
            written += told
            statuses.append(status)
    return written, 5 if 5 in statuses else 0, len(statuses) == len(lines) + 1


def redrawn(binary, folder, program, text):
    """Those drawings of a block of commands that its lines write otherwise than they are."""
    for command, name in DRAWN.findall(text):
        with open(os.path.join(TOP, name), encoding="utf-8") as file:
            if typed(binary, folder, program, command)[0] != file.read():
                yield name


def tried(binary, folder, page):
    """For each block of a page that can be tried its line, what is wrong, if anything, and how it was tried."""
    blocks = [*fences(page)]
    program = ""
    for number, (kind, words, text, line, follows) in enumerate(blocks):
        before = blocks[number - 1] if number and follows else ("", [], "", 0, False)
        is_answered = number + 1 < len(blocks) and blocks[number + 1][0] == "text" and blocks[number + 1][4]
        if kind == "fortran":
            program = with_units(program, text) if words == ["units"] else text
            is_used = number + 1 < len(blocks) and "< my.f" in blocks[number + 1][2]
            if HEADING.search(program) and not is_answered and not is_used:
                written, status = ran(binary, folder, ["check"], program)
                yield line, "" if status == 0 else written, "checked"
        elif kind == "text" and (words or before[0] == "fortran"):
            asked = [words] if words else [["run"], ["check"], ["list"]]
            answers = [ran(binary, folder, it, program)[0] for it in asked]
            yield line, "" if text in answers else answers[0] or "nothing", "compared"
        elif kind == "sh":
            if DRAWN.search(text):
                others = ", ".join(redrawn(binary, folder, program, text))
                yield line, others and f"another drawing than {others}", "redrawn"
            written, status, is_ours = shell(binary, folder, program, text)
            if is_answered and is_ours:
                wanted = blocks[number + 1][2]
                yield line, "" if written == wanted else written or "nothing", "compared"
            elif "./fmc " in text:
                yield line, "usage" if status else "", "run"


def main():
    binary = os.path.abspath(sys.argv[1] if len(sys.argv) > 1 else f"{TOP}/crates/fmc_cli/out/fmc_cli")
    counts, wrong = {}, 0
    for name in sys.argv[2:] or PAGES:
        with open(os.path.join(TOP, name), encoding="utf-8") as file:
            page = file.read()
        with tempfile.TemporaryDirectory() as folder:
            fill(folder)
            for line, found, how in tried(binary, folder, page):
                counts[how] = counts.get(how, 0) + 1
                if found:
                    wrong += 1
                    print(f"{name}, line {line}: it writes\n{found}")
    print(", ".join(f"{count} {how}" for how, count in sorted(counts.items())) + f"; {wrong} wrong")
    sys.exit(1 if wrong else 0)


if __name__ == "__main__":
    main()
