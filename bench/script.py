#!/usr/bin/env python3
"""Whether the script `fmc` builds when it should, shows what happens, and passes on what it should.

    bench/script.py [BINARY]
    bench/script.py --real
    bench/script.py --first [FOLDER]

Puts the script into a tree of 70 small crates, in a folder whose name has a blank, with an `rt` that only acts as if
it proved. Tries builds: the first one, two at once, one that goes on, fails, is killed or is stopped by a signal or a
terminal; sources that change, come and go; links; no `rt`; FMC_JOBS. Tries words that are wrong, beside those of the
program BINARY, by default the one that is built here, and extras/install. Prints what is wrong, and what a call costs
beside the program. It needs no toolchain.

With --real it builds, by the toolchain, a small program over the two lowest crates: for the first time, again after
a change, and again after nothing is left but what the toolchain keeps.

With --first it runs the first build in FOLDER, by default in this clone, which wants a toolchain that has kept
nothing. It prints the minutes, the processor minutes, the most memory of all processes together, once a second, and
that of the largest check.
"""
import collections
import glob
import os
import pty
import re
import resource
import select
import shutil
import signal
import subprocess
import sys
import tempfile
import time

import gate

TOP = os.path.dirname(os.path.dirname(os.path.abspath(__file__)))
COUNT = 70
RT = """#!/usr/bin/env python3
import glob, hashlib, os, subprocess, sys, time
tree = os.environ["TREE"]
def text(name):
    return open(f"{tree}/{name}").read() if os.path.exists(f"{tree}/{name}") else ""
def note(name, line):
    with open(f"{tree}/{name}", "a") as file:
        print(line, file=file)
def say(*lines):
    print(*lines, sep="\\n", flush=True)
if sys.argv[1:] != ["ci"]:
    sys.exit(say("another kit"))
note("builds", f"{os.environ['RT_JOBS']} {os.getpid()} {os.getcwd()}")
note("copied", sorted({it.split("/")[2] for it in glob.glob("crates/*/*")} | {*os.listdir(".")}))
sums = {}
for line in open("crates.txt"):
    name, _, below = line.partition(":")
    name, below = name.split()[0], below.split()
    if any(it not in sums for it in below if it.startswith("fm_")):
        sys.exit(say(f"rt: a crate of {below} is no line of this file", "0 passed, 1 failed"))
    files = sorted(it for it in glob.glob(f"crates/{name}/**", recursive=True) if os.path.isfile(it))
    of = [open(it).read() for it in files] + [sums.get(it) for it in below]
    sums[name] = hashlib.sha256(repr(of).encode()).hexdigest()
    if os.path.exists(f"{tree}/kept/{sums[name]}"):
        say(f"rt: {name} is kept: as before")
        continue
    say(f"== {name}", "a line of the prover")
    if text("slow") == name:
        wait = "while [ -e \\"$0\\" ]; do sleep 0.02; done"
        subprocess.run(["sh", "-c", wait, f"{tree}/slow", "--crate-name", name])
    if text("killed") == name:
        say("rt: the check was killed, most likely for memory: once more")
    if name in (text("broken"), text("killed")):
        say(*(f"goal {it}" for it in range(20)), f"rt: {name} NOT PROVED")
        time.sleep(0.2)
        sys.exit(say("rt: fmc_cli NOT PROVED: its library failed", "0 passed, 1 failed"))
    os.makedirs(f"{tree}/kept", exist_ok=True)
    open(f"{tree}/kept/{sums[name]}", "w").close()
    note("proved", name)
    say(f"rt: {name} proved")
os.makedirs("crates/fmc_cli/out")
with open("crates/fmc_cli/out/fmc_cli", "w") as file:
    file.write('#!/bin/sh\\necho program "$@"; cat; exit 3\\n')
say("4 passed, 0 failed")
"""
SYSTEM = "/usr/bin:/bin"
OF_THE_TREE = ["fmc", "VERSION", "script", "extras/install", "extras/completion", "docs/fmc.1", "bench/gate.py"]


def write(path, text=""):
    os.makedirs(os.path.dirname(path), exist_ok=True)
    with open(path, "w", encoding="utf-8") as file:
        file.write(text)


def text(path):
    try:
        with open(path, encoding="utf-8") as file:
            return file.read()
    except FileNotFoundError:
        return ""


def plant_script(at):
    for name in OF_THE_TREE:
        os.makedirs(os.path.dirname(f"{at}/{name}"), exist_ok=True)
        if os.path.isdir(f"{TOP}/{name}"):
            shutil.copytree(f"{TOP}/{name}", f"{at}/{name}", ignore=shutil.ignore_patterns("__pycache__"))
        else:
            shutil.copy(f"{TOP}/{name}", f"{at}/{name}")


def plant(tree):
    """The tree, in a folder whose name has a blank, with a link to its script."""
    names = [f"fm_{number}" for number in range(COUNT)] + ["fmc_cli"]
    below = {"fmc_cli": ": fm_2 fm_1 serde # others", "fm_2": " may_wait=5: fm_1 fm_0", "fm_1": ": fm_0"}
    lowest_last = "".join(f"{it}{below.get(it, ':')}\n" for it in reversed(names))
    write(f"{tree}/a b/crates.txt", f"# crates: all\n\n{lowest_last}")
    for name in names:
        for file in [f"src/{number}.rt" for number in range(6)] + [f"specs/{number}.antt" for number in range(6)]:
            write(f"{tree}/a b/crates/{name}/{file}")
        for file in ("proofs/Lib.antt", "must-fail/one.edit", "out/incremental/kept"):
            write(f"{tree}/a b/crates/{name}/{file}")
    write(f"{tree}/a b/HANDLES", "Handles allowed: none.\n")
    write(f"{tree}/a b/README.md", "Proved with `a kit` (`rt version`).\n")
    write(f"{tree}/bin/rt", RT)
    os.chmod(f"{tree}/bin/rt", 0o755)
    os.mkdir(f"{tree}/python")
    os.symlink(sys.executable, f"{tree}/python/python3")
    plant_script(f"{tree}/a b")
    write(f"{tree}/a b/script/seconds.txt", "fm_0 1\nfm_1 1\nfm_2 2\nfmc_cli 3\n")
    os.symlink("../a b/fmc", f"{tree}/bin/fmc")


def environment(tree, path=None, jobs="2"):
    path = path or f"{tree}/bin:{tree}/python:{SYSTEM}"
    return {"TREE": tree, "PATH": path, "HOME": tree, "FMC_JOBS": jobs, "TERM": "xterm"}


def start(tree, script="a b/fmc", words=("run", "--turns", "5"), **given):
    how = {"stdin": subprocess.PIPE, "stdout": subprocess.PIPE, "stderr": subprocess.PIPE, "errors": "replace"}
    return subprocess.Popen([f"{tree}/{script}", *words], env=environment(tree, **given), **how)


def lines(path):
    return text(path).count("\n")


def wait_for(what):
    """Waits until something is so, a minute at most, and gives whether it is."""
    for _ in range(3000):
        if what():
            return True
        time.sleep(0.02)
    return False


def is_gone(number):
    """Whether a process has ended."""
    state = re.search(r"^State:\s+(\S)", text(f"/proc/{number}/status"), re.M)
    return not state or state[1] == "Z"


class Trials:
    """A tree, and the trials in it that ended as they should."""

    def __init__(self, tree):
        self.tree, self.good, self.made, self.all = tree, 0, 0, 0

    def judge(self, what, is_good, *told):
        self.all += 1
        self.good += bool(is_good)
        if not is_good:
            print(f"{what}:", *told)

    def ends(self, what, call, says=(), status=3, silent=False, words="run --turns 5"):
        """How a call should end: with this status, after as many builds in all as there are to be, saying this."""
        wrote, said = call.communicate("text")
        wanted = f"program {words}\ntext" if status == 3 else ""
        builds = lines(f"{self.tree}/builds")
        good = (call.returncode, wrote, builds) == (status, wanted, self.made) and all(it in said for it in says)
        if status == 3:
            good = good and "prover" not in said and bool(said) != silent
        told = f"status {call.returncode}, {builds} builds and not {self.made}, wrote {wrote!r}, said {said!r}"
        self.judge(what, good, told)

    def built(self, what, says=(), **given):
        self.made += 1
        self.ends(what, start(self.tree, **given), says)
        self.ends(f"the call after {what}", start(self.tree), silent=True)

    def change(self, name="fm_0"):
        """Gives a crate a new text, so that it and those above aren't proved."""
        write(f"{self.tree}/a b/crates/{name}/src/1.rt", f"{time.time_ns()}")

    def proved(self):
        """The crates that were proved since this was asked for."""
        found = text(f"{self.tree}/proved").split()
        write(f"{self.tree}/proved")
        return found

    def slow(self, crate, **given):
        """A call whose build is at work on a crate for as long as the file slow is there."""
        write(f"{self.tree}/slow", crate)
        self.made += 1
        call, builds = start(self.tree, **given), f"{self.tree}/builds"
        self.judge("a build begins", wait_for(lambda: lines(builds) == self.made), text(builds))
        return call

    def rt(self):
        """The number of the process of the last rt, and the folder where it worked."""
        last = text(f"{self.tree}/builds").rstrip().split("\n")[-1].split(" ", 2)
        return int(last[1]), last[2]

    def ended(self, what):
        """Nothing of a build may be left: neither rt nor the copy."""
        number, folder = self.rt()
        self.judge(f"rt after {what}", wait_for(lambda: is_gone(number)), number)
        self.judge(f"the copy after {what}", wait_for(lambda: not os.path.exists(folder)), folder)


def first(it):
    """The first build, beside which a second call waits; the order of the crates, and what is copied."""
    one = it.slow("fm_1")
    two = start(it.tree, "bin/fmc")
    it.judge("another call at once", "another build is under way" in two.stderr.readline())
    os.remove(f"{it.tree}/slow")
    said = ["the first build proves 4 crates, 2 at once", "fmc: fm_0 proved, 1 of 4, less than a minute left\n"]
    said += ["fm_1 proved, 2 of 4", "fm_2 proved, 3 of 4", "fmc_cli proved, 4 of 4", "4 of 4 crates proved now"]
    it.ends("the first build", one, said)
    it.ends("its end", two, silent=True)
    it.judge("the order", it.proved() == ["fm_0", "fm_1", "fm_2", "fmc_cli"])
    copied = text(f"{it.tree}/copied").strip()
    it.judge("the copy", copied == "['.git', 'HANDLES', 'crates', 'crates.txt', 'proofs', 'specs', 'src']", copied)
    it.judge("the processors", text(f"{it.tree}/builds").startswith("2 "), text(f"{it.tree}/builds"))
    it.judge("the log", "a line of the prover" in text(f"{it.tree}/a b/crates/fmc_cli/out/build.log"))
    it.ended("the first build")
    it.ends("the second call", start(it.tree), silent=True)
    it.ends("a link", start(it.tree, "bin/fmc"), silent=True)


def sources(it):
    """Builds for sources that change, come and go, and none for files of an editor; what didn't change is kept."""
    folder = f"{it.tree}/a b/crates/fm_1/specs"
    changes = {
        "a source changed": lambda: it.change("fm_1"),
        "a source came": lambda: write(f"{folder}/New.antt"),
        "a source went": lambda: os.remove(f"{folder}/New.antt"),
        "crates.txt": lambda: os.utime(f"{it.tree}/a b/crates.txt"),
    }
    for what, change in changes.items():
        change()
        it.built(what, ["building it"])
    it.judge("what didn't change is kept", it.proved() == ["fm_1", "fm_2", "fmc_cli"] * 2)
    write(f"{folder}/.1.antt.swp")
    it.ends("a file of an editor", start(it.tree), silent=True)
    it.change("fm_1")
    it.built("a change", ["1 of 4 crates were proved before: going on from there", "3 of 4 crates proved now"])


def failures(it):
    """Builds that can't be, or fail: what is named, and that the program of before stays."""
    program, bare = f"{it.tree}/a b/crates/fmc_cli/out/fmc_cli", f"{it.tree}/python:{SYSTEM}"
    it.change("fm_1")
    told = ["crates/fm_1/src/1.rt is newer than the program, and the command rt", program]
    it.ends("no rt", start(it.tree, path=bare), told, 125)
    it.ends("processors", start(it.tree, jobs="0"), ["FMC_JOBS is", "'0'"], 125)
    write(f"{it.tree}/broken", "fm_1")
    it.made += 1
    told = ["fm_1 isn't proved", "    goal 19\n    rt: fm_1 NOT PROVED", "rt ci fm_1 proves it alone", "build.log\n"]
    told += ["this toolchain is another kit", "1 of 4 crates are proved: the next call goes on from there"]
    told += [f"the program of before is {program}"]
    it.ends("a crate that isn't proved", start(it.tree), told, 125)
    it.judge("only last lines", "goal 5\n" not in start(it.tree).communicate("")[1])
    it.made += 1
    os.rename(f"{it.tree}/broken", f"{it.tree}/killed")
    it.made += 1
    told = ["fm_1 isn't proved", "most likely for memory", "FMC_JOBS=1"]
    it.ends("a check that was killed", start(it.tree), told, 125)
    os.remove(f"{it.tree}/killed")
    it.ended("a build that failed")
    it.judge("the program of before", os.access(program, os.X_OK))
    it.built("a build after those", ["building it"])


STOPPED = "stopped with 2 of 4 crates proved: the next call goes on from there"


def stops(it):
    """Builds that a signal stops, or that are killed: nothing is left at work, and the next call goes on."""
    for number in (signal.SIGTERM, signal.SIGINT, signal.SIGHUP, signal.SIGKILL):
        what = number.name
        it.change()
        call, log = it.slow("fm_2"), f"{it.tree}/a b/crates/fmc_cli/out/build.log"
        wait_for(lambda: text(log).endswith("== fm_2\na line of the prover\n"))
        time.sleep(0.2)
        call.send_signal(number)
        _, said = call.communicate()
        is_told = number == signal.SIGKILL or STOPPED in said
        it.judge(f"a build with {what}", call.returncode == -number and is_told, call.returncode, said)
        it.ended(f"a build with {what}")
        os.remove(f"{it.tree}/slow")
        it.proved()
        it.built(f"a build after {what}", ["2 of 4 crates were proved before: going on from there"])
        it.judge(f"what is proved after {what}", it.proved() == ["fm_2", "fmc_cli"])


def at_terminal(it, words=("run",)):
    """Starts a call at a terminal of its own: its process, and the terminal's other end."""
    process, master = pty.fork()
    if not process:
        os.execve(f"{it.tree}/a b/fmc", ["fmc", *words], environment(it.tree))
    return process, master


def shown(master, until, seconds=60):
    """What a terminal shows until it shows this, or ends."""
    found, end = "", time.monotonic() + seconds
    while until not in found and time.monotonic() < end:
        if select.select([master], [], [], 0.1)[0]:
            try:
                piece = os.read(master, 65536)
            except OSError:
                break
            if not piece:
                break
            found += piece.decode(errors="replace")
    return found


def terminals(it):
    """A build at a terminal: one line that is rewritten; Ctrl-C, and a terminal that is closed."""
    line = "\rfmc: 2 of 4 crates proved, less than a minute left: fm_2\x1b[K"
    for what, number in {"Ctrl-C": signal.SIGINT, "a closed terminal": signal.SIGHUP}.items():
        it.change()
        write(f"{it.tree}/slow", "fm_2")
        it.made += 1
        process, master = at_terminal(it)
        found = shown(master, ": fm_2")
        it.judge("the line of a terminal", line in found and "fm_1 proved" not in found, repr(found))
        if number == signal.SIGINT:
            os.write(master, b"\x03")
            found = shown(master, "from there")
            it.judge(what, STOPPED in found, repr(found))
        os.close(master)
        it.ended(what)
        status = os.waitpid(process, 0)[1]
        it.judge(f"status of {what}", os.WIFSIGNALED(status) and os.WTERMSIG(status) == number, status)
        os.remove(f"{it.tree}/slow")
        it.built(f"a build after {what}", ["going on from there"])


OPTIONS = "--turns T, --slice S, --workers W, --plan cyclic, --plan block"
# Words of calls, each with what is said of them, or with nothing where they are a command.
WORDS = {
    "": "a command is missing; the commands of fmc",
    "rnu": '"rnu" is no command; the commands of fmc',
    "--help": "fmc run [OPTIONS]",
    "-h": "fmc run [OPTIONS]",
    "--version": "fmc ",
    "run --fast": f'"--fast" is no option of run; the options of run are {OPTIONS}, --vars\n',
    "run --turns": "--turns is a number from 1 to 1000000000",
    "run --turns 0": '--turns is a number from 1 to 1000000000, and not "0"',
    "run --turns 1000000001": "--turns is a number",
    "run --turns 0000000000000000001": "--turns is a number",
    "run --turns=": "--turns is a number",
    "run --slice 1000001": "--slice is a number from 1 to 1000000",
    "run --workers 65": "--workers is a number from 1 to 64",
    "run --plan mine": '--plan is cyclic or block, and not "mine"',
    "run --turns 5 --turns=6": "--turns stands twice",
    "run --vars --vars": "--vars stands twice",
    "run --vars=1": '"--vars=1" is no option of run',
    "run 5": '"5" is no option of run',
    "check --vars": '"--vars" is no option of check; check takes no more words',
    "make": "behind make stands a number of 1 to 18 digits",
    "make x": 'behind make stands a number of 1 to 18 digits, and not "x"',
    "make 5 6": '"6" is no option of make; make takes its number alone',
    "demo 5 --vars": f'"--vars" is no option of demo; the options of demo are {OPTIONS}\n',
    "nodes --vars": "behind nodes stands a number",
    "nodes 5 --slice 3": '"--slice" is no option of nodes',
    "replay --turns 5": '"--turns" is no option of replay; replay takes --vars alone',
    "exec --plan block": '"--plan" is no option of exec; the options of exec are --turns T, --vars',
    **dict.fromkeys(["run", "trace --vars", "replay --vars", "check", "list", "flow", "compile"]),
    **dict.fromkeys(["exec --turns 5 --vars", "make 007", "demo 5 --workers=2 --plan block"]),
    **dict.fromkeys(["nodes 5 --plan=cyclic --turns 1000000000 --vars"]),
    **dict.fromkeys(["run --turns=000000000000000001", "trace --slice 1 --workers 64 --plan cyclic --vars --turns 9"]),
}


def usage(it, binary):
    """Words that are wrong: what is said, that the program answers all the same, and that it agrees."""
    for words, wanted in WORDS.items():
        call = start(it.tree, words=words.split())
        wrote, said = call.communicate("")
        good = (call.returncode, wrote) == (3, f"program {words}".rstrip() + "\n")
        it.judge(f"fmc {words}", good and (wanted in said if wanted else not said), repr(wrote), repr(said))
        if binary:
            how = {"stdin": subprocess.DEVNULL, "capture_output": True, "check": False}
            status = subprocess.run([binary, *words.split()], **how).returncode
            it.judge(f"the program's fmc {words}", (status == 5) == bool(wanted), status)
    odd = [["--turns --slice"], [""], ["--turns", "5 "], ["*"], ["\udcff"]]
    for words in [["run", *it] for it in odd] + [["make", "1\n"], [""]]:
        said = start(it.tree, words=words).communicate("")[1]
        it.judge(f"odd words {words!r}", said.startswith("fmc: ") and "\n" in said, repr(said))
    version = text(f"{TOP}/VERSION").strip()
    said = start(it.tree, words=["--version"]).communicate("")[1]
    it.judge("the version", said == f"fmc {version}\n", repr(said))
    it.judge("the version of the manual", f".Os fmc {version}\n" in text(f"{TOP}/docs/fmc.1"))
    it.judge("the newest version", re.findall(r"^([0-9.]+) \(", text(f"{TOP}/CHANGELOG"), re.M)[:1] == [version])
    process, master = at_terminal(it, ["rnu"])
    found = shown(master, "program rnu")
    it.judge("the manual at a terminal", "fmc: the manual: man -l " in found, repr(found))
    os.close(master)
    os.waitpid(process, 0)


def before_first(it):
    """Words that are wrong begin no first build."""
    call = start(it.tree, words=["--help"])
    it.ends("help before the first build", call, ["fmc run [OPTIONS]", "the program isn't built"], 125)


def below(folder):
    """The files in a folder and those below it."""
    return [path for path in glob.glob(f"{folder}/**", recursive=True) if os.path.isfile(path)]


def install(it):
    """extras/install puts the program and its pages below a prefix, and takes them away again."""
    prefix = f"{it.tree}/a prefix"
    how = {"env": environment(it.tree), "capture_output": True, "text": True, "check": False}
    write(f"{prefix}/bin/other")
    ran = subprocess.run([f"{it.tree}/a b/extras/install", prefix], **how)
    files = {os.path.relpath(path, prefix) for path in below(prefix)}
    wanted = {"bin/fmc", "bin/other", "share/man/man1/fmc.1"}
    wanted |= {"share/bash-completion/completions/fmc", "share/zsh/site-functions/_fmc"}
    it.judge("install", ran.returncode == 0 and files == wanted, ran, files)
    same = text(f"{prefix}/bin/fmc") == text(f"{it.tree}/a b/crates/fmc_cli/out/fmc_cli")
    it.judge("what is installed", same and os.access(f"{prefix}/bin/fmc", os.X_OK), files)
    ran = subprocess.run([f"{it.tree}/a b/extras/install", "--remove", prefix], **how)
    it.judge("--remove", ran.returncode == 0 and below(prefix) == [f"{prefix}/bin/other"], ran, below(prefix))
    for words in ([], ["--remove"], ["one", "two"], ["--fast"]):
        ran = subprocess.run([f"{it.tree}/a b/extras/install", *words], **how)
        it.judge(f"install {words}", ran.returncode == 2 and "extras/install PREFIX" in ran.stderr, ran)


def cost(tree):
    """What a call costs beside the program at least, in milliseconds."""
    times = {"a b/fmc": [], "a b/crates/fmc_cli/out/fmc_cli": []}
    for script in list(times) * 25:
        begin = time.perf_counter()
        start(tree, script).communicate("")
        times[script].append(time.perf_counter() - begin)
    script, program = (1000 * min(it) for it in times.values())
    return script - program


PROGRAM = """//! A program over two libraries.
#![tactic(auto)]

use std::io;

fn main(rt: HostRuntime) -> io::Result<()> {
    println!(rt; "low")?;
    Ok(())
}
"""
LOWEST = ("fm_base", "fm_sched")


def plant_lowest(at):
    """The two lowest crates, with a line more so that no toolchain keeps a proof of them, below a small program."""
    plant_script(at)
    for name in LOWEST:
        shutil.copytree(f"{TOP}/crates/{name}", f"{at}/crates/{name}", ignore=shutil.ignore_patterns("out"))
        with open(f"{at}/crates/{name}/src/lib.rt", "a", encoding="utf-8") as file:
            file.write(f"// {time.time_ns()}\n")
    write(f"{at}/crates/fmc_cli/src/main.rt", PROGRAM)
    write(f"{at}/crates/fmc_cli/stdout", "low\n")
    write(f"{at}/crates.txt", "".join(f"{it}:\n" for it in LOWEST) + f"fmc_cli: {' '.join(LOWEST)}\n")
    for name in ("README.md", "HANDLES"):
        shutil.copy(f"{TOP}/{name}", f"{at}/{name}")


def real_call(at, what, *wanted, until=None):
    """A call of the script by the toolchain, stopped when its log has a line: prints what it takes and says, and gives
    whether it ended as it should, saying this."""
    begin, log = time.monotonic(), f"{at}/crates/fmc_cli/out/build.log"
    how = {"stdin": subprocess.DEVNULL, "stdout": subprocess.PIPE, "stderr": subprocess.PIPE, "text": True}
    ran = subprocess.Popen([f"{at}/fmc", "make", "1"], **how)
    while until and until not in text(log) and ran.poll() is None:
        time.sleep(0.1)
    if until:
        ran.terminate()
    wrote, said = ran.communicate()
    good = (ran.returncode, wrote) == ((-signal.SIGTERM, "") if until else (0, "low\n"))
    good = good and all(it in said for it in wanted) and bool(said) == bool(wanted)
    print(f"{what}: {time.monotonic() - begin:.1f} seconds", said.rstrip(), sep="\n")
    if not good:
        print(f"NOT AS IT SHOULD BE: status {ran.returncode}, wrote {wrote!r}")
    return good


def real():
    """Builds over the two lowest crates by the toolchain, and gives whether each build ended as it should."""
    with tempfile.TemporaryDirectory() as tree:
        at = f"{tree}/a b"
        plant_lowest(at)
        first = "the first build proves 3 crates"
        stopped = "stopped with 1 of 3 crates proved: the next call goes on from there"
        good = real_call(at, "the first build, stopped", first, stopped, until="rt: fm_sched proved")
        on = "1 of 3 crates were proved before: going on from there"
        good &= real_call(at, "the build after it", on, "fm_base proved, 2 of 3", "2 of 3 crates proved now")
        good &= real_call(at, "the call after it")
        write(f"{at}/crates/fmc_cli/src/main.rt", f"{PROGRAM}// {time.time_ns()}\n")
        good &= real_call(at, "a change of the program", "2 of 3 crates were proved before", "1 of 3 crates proved now")
        shutil.rmtree(f"{at}/crates/fmc_cli/out")
        good &= real_call(at, "a build of what is kept", first, "0 of 3 crates proved now")
        return good


def sizes(root):
    """The bytes of memory that the processes below one take: of all, and of each crate's check."""
    checks, every = collections.Counter(), 0
    for number in gate.below(root, {it: parent for it, parent, *_ in gate.processes()}):
        words = gate.read(f"/proc/{number}/statm").split()
        size = int(words[1]) * os.sysconf("SC_PAGE_SIZE") if words else 0
        what = gate.what_is(number)
        every += size
        checks.update({what[0]: size} if what else {})
    return every, checks


def first_build(folder):
    """Runs the first build in a folder, prints what it takes, and gives its status."""
    began, most, largest = time.monotonic(), 0, collections.Counter()
    ran = subprocess.Popen([f"{folder}/fmc", "make", "1"], stdin=subprocess.DEVNULL, stdout=subprocess.DEVNULL)
    while ran.poll() is None:
        every, checks = sizes(ran.pid)
        most = max(most, every)
        # the greater of both for each crate
        largest |= checks
        time.sleep(1)
    minutes, used = (time.monotonic() - began) / 60, resource.getrusage(resource.RUSAGE_CHILDREN)
    print(f"{minutes:.1f} minutes, {(used.ru_utime + used.ru_stime) / 60:.1f} processor minutes")
    print(f"{most / 1e9:.2f} GB together;", *(f"{it} {size / 1e9:.2f}" for it, size in largest.most_common(8)))
    return ran.returncode


def main():
    if sys.argv[1:2] == ["--first"]:
        sys.exit(first_build(os.path.abspath(sys.argv[2] if len(sys.argv) > 2 else TOP)))
    if sys.argv[1:] == ["--real"]:
        sys.exit(not real())
    built = f"{TOP}/crates/fmc_cli/out/fmc_cli"
    binary = sys.argv[1] if len(sys.argv) > 1 else built if os.access(built, os.X_OK) else None
    with tempfile.TemporaryDirectory() as tree:
        plant(tree)
        it = Trials(tree)
        for trial in (before_first, first, sources, failures, stops, terminals, install, lambda it: usage(it, binary)):
            if it.good == it.all:
                trial(it)
        took = f"; a call costs {cost(tree):.1f} ms beside the program" if it.good == it.all else ""
        print(f"{it.good} of {it.all} as they should be{took}")
    sys.exit(it.good < it.all)


if __name__ == "__main__":
    main()
