#!/usr/bin/env python3
"""Proves and builds the program `fmc`. The script `fmc` calls it, and lets one build at a time work.

    script/build.py WHY

Copies the program's crate and those below it, without their must-fail edits, and runs `rt ci` there: it proves crate
by crate, lowest first, several at once, and keeps what is proved. Puts the program into crates/fmc_cli/out, with the
log. WHY says why a build is needed. Status 0: the program is there. Status 1: standard error says why it isn't.
"""
import ctypes
import fcntl
import hashlib
import os
import queue
import re
import shutil
import signal
import subprocess
import sys
import tempfile
import threading
import time

sys.dont_write_bytecode = True
TOP = os.path.dirname(os.path.dirname(os.path.abspath(__file__)))
sys.path.append(f"{TOP}/bench")
import gate  # noqa: E402
from progress import Progress, Screen, say, table_of_seconds, time_of  # noqa: E402

PROGRAM = "fmc_cli"
OUT = f"{TOP}/crates/{PROGRAM}/out"
LOG = f"{OUT}/build.log"
# The memory that all checks at once may take (COSTS.md, "The first build").
CHECKS = 6_000_000_000
# The free disk that rt wants to work, and to keep what is proved.
WORKS, KEEPS = 3_000_000_000, 5_000_000_000
# How much of the log of a crate that failed is shown.
LINES = 12


class Stopped(Exception):
    """A signal has come."""


def crates():
    """The program's crate and those that it stands on, lowest first, each with those right below it; and their lines
    of crates.txt, of which each begins with the crate's name."""
    lines, found = {}, {}
    with open(f"{TOP}/crates.txt", encoding="utf-8") as file:
        for line in file:
            words = line.partition("#")[0].split(":")[0].split()
            lines.update({words[0]: line} if words else {})

    def visit(name):
        below = lines[name].partition("#")[0].partition(":")[2].replace(",", " ").split()
        below = [it for it in below if it in lines]
        for it in below:
            if it not in found:
                visit(it)
        found[name] = below

    visit(PROGRAM)
    return found, "".join(lines[it] for it in found)


def number_in(path):
    """The number that a file of the system begins with, or None."""
    found = re.match(r"\d+", gate.read(path))
    return int(found[0]) if found else None


def memory():
    """The bytes of memory that are free, here and in the control group."""
    found = re.search(r"MemAvailable:\s+(\d+)", gate.read("/proc/meminfo"))
    free = [1024 * int(found[1])] if found else []
    most, held = (number_in(f"/sys/fs/cgroup/memory.{it}") for it in ("max", "current"))
    if most and held is not None:
        free.append(most - held)
    return min(free, default=wanted(1))


def processors():
    """The processors that may be used, also by the quota of the control group."""
    quota, found = re.match(r"(\d+) (\d+)", gate.read("/sys/fs/cgroup/cpu.max")), len(os.sched_getaffinity(0))
    return min(found, max(int(quota[1]) // int(quota[2]), 1)) if quota else found


def wanted(lanes):
    """The most memory of so many checks at once: the program's own takes 4 GB, alone, and others half of that."""
    return max(lanes + 3, 2 * lanes) * 1_000_000_000


def jobs():
    """How many checks work at once: as FMC_JOBS says, or else as there are processors and memory for, up to CHECKS."""
    asked = os.environ.get("FMC_JOBS", "")
    if not asked:
        free = min(memory(), CHECKS)
        return next(lanes for lanes in range(processors(), 0, -1) if lanes == 1 or wanted(lanes) <= free)
    if not re.fullmatch(r"[1-9][0-9]{0,3}", asked):
        raise ValueError(f"FMC_JOBS is how many processors a build may use, from 1 to 9999, and not {asked!r}")
    return int(asked)


def room_of():
    """The folder for the copy: outside the repository, of which rt ci reads every folder, and not in memory if it can
    be on a disk."""
    name = f"fmc-{os.getuid()}-{hashlib.sha256(os.path.realpath(TOP).encode()).hexdigest()[:16]}"
    places = [os.environ.get("XDG_CACHE_HOME") or os.path.expanduser("~/.cache"), tempfile.gettempdir()]
    for place in filter(os.path.isabs, places):
        try:
            os.makedirs(place, exist_ok=True)
            if os.access(place, os.W_OK | os.X_OK):
                return f"{place}/{name}"
        except OSError:
            pass
    raise OSError(f"neither {' nor '.join(places)} can be written, and one is needed for a copy of the crates")


def clear(room):
    """Removes the copy; a check that was killed may still be ending there."""
    for _ in range(20):
        shutil.rmtree(room, ignore_errors=True)
        if not os.path.lexists(room):
            return
        time.sleep(0.1)


def copy(names, lines, room):
    """Copies the crates, without their edits, as the top of a repository of their own."""
    clear(room)
    os.makedirs(f"{room}/.git", 0o700)
    # what stands beside the sources counts for nothing, and neither do files of editors
    how = {"symlinks": True, "ignore": shutil.ignore_patterns("out", "must-fail", ".*", "*~", "#*#")}
    for name in names:
        shutil.copytree(f"{TOP}/crates/{name}", f"{room}/crates/{name}", **how)
    if os.path.exists(f"{TOP}/HANDLES"):
        shutil.copyfile(f"{TOP}/HANDLES", f"{room}/HANDLES")
    with open(f"{room}/crates.txt", "w", encoding="utf-8") as file:
        file.write(lines)


def gigabytes(size):
    return f"{size / 1e9:.1f} GB"


def later(rt):
    """What the next call does after a build that is cut off. What rt proves it keeps beside itself, if it can."""
    beside = os.path.dirname(os.path.dirname(os.path.dirname(os.path.realpath(rt))))
    kept = f"{beside}/rattle-kept"
    place = kept if os.path.isdir(kept) else beside
    if not os.access(place, os.W_OK | os.X_OK):
        return f"the next call begins anew, since rt keeps proofs in {kept}, and you can't write there"
    if shutil.disk_usage(place).free < KEEPS:
        return f"the next call begins anew, since rt keeps proofs in {kept} if {gigabytes(KEEPS)} are free there"
    return "the next call goes on from there"


def tie(number):
    """Has the system send this process a signal when the one that started it ends."""
    try:
        ctypes.CDLL(None).prctl(1, number)
    except (AttributeError, OSError):
        pass


def begin(rt, room, lanes):
    """Starts rt. It ends with this process, however that ends, and its checks end with it."""
    how = {"stdin": subprocess.DEVNULL, "stdout": subprocess.PIPE, "stderr": subprocess.STDOUT, "errors": "replace"}
    given = {**os.environ, "RT_JOBS": str(lanes)}
    return subprocess.Popen([rt, "ci"], cwd=room, env=given, preexec_fn=lambda: tie(signal.SIGKILL), **how)


def at_work(number):
    """The crates whose checks rt has at work."""
    parents = {it: parent for it, parent, *_ in gate.processes()}
    return {what[0] for what in map(gate.what_is, gate.below(number, parents)) if what}


def lines_of(ran, screen):
    """What rt says, line by line; between the lines it is looked for which crates are at work."""
    said = queue.Queue()

    def read():
        for line in ran.stdout:
            said.put(line)
        said.put(None)

    threading.Thread(target=read, daemon=True).start()
    while True:
        try:
            line = said.get(timeout=1)
        except queue.Empty:
            screen.progress.see(at_work(ran.pid))
            screen.show()
            continue
        if line is None:
            return
        yield line


def follow(ran, log, screen):
    """Writes the log and shows what happens, until rt has ended or a crate fails: gives that crate, and what was said
    of it, or else what was said last."""
    progress, block = screen.progress, []
    screen.show()
    for line in lines_of(ran, screen):
        log.write(line)
        log.flush()
        ended = re.match(r"rt: (\w+) (proved$|is kept: |NOT PROVED)", line)
        name, what = ended.groups() if ended else ("", "")
        if line.startswith("== "):
            block = []
        block.append(line)
        if name in progress.below and what == "NOT PROVED":
            return name, block
        if name in progress.below:
            progress.end(name, is_kept=what != "proved")
            if what == "proved":
                screen.tell(name)
            screen.show()
            block = []
    return None, block


def run(rt, room, screen):
    """Runs rt in the copy: gives the crate that failed, if one did, what was said of it, and rt's status."""
    ran = begin(rt, room, screen.progress.lanes)
    try:
        with open(LOG, "w", encoding="utf-8", errors="replace") as log:
            failed, block = follow(ran, log, screen)
        return failed, block, None if failed else ran.wait()
    finally:
        ran.kill()
        ran.wait()
        screen.rewrite("")


def versions(rt):
    """What to say where README.md names another toolchain."""
    told = re.search(r"^Proved with `([^`]*)`", gate.read(f"{TOP}/README.md"), re.M)
    how = {"stdin": subprocess.DEVNULL, "capture_output": True, "text": True, "check": False}
    here = subprocess.run([rt, "version"], **how).stdout.strip()
    if told and here and here != told[1]:
        say(f"this toolchain is {here}, and these sources are proved with {told[1]}")


def explain(failed, block, status, rt, progress):
    """Says what failed, with the last lines of it, and what helps."""
    what = f"{failed} isn't proved" if failed else "rt didn't build the program"
    say(f"{what}; the last lines of its log:")
    for line in block[-LINES:]:
        print(f"    {line.rstrip()}", file=sys.stderr)
    lanes = progress.lanes
    if status == -signal.SIGKILL or any("most likely for memory" in it for it in block):
        less = f" for {lanes} at once; FMC_JOBS=1 wants {gigabytes(wanted(1))}" if lanes > 1 else ""
        say(f"killed, most likely for memory: {gigabytes(wanted(lanes))} free are wanted{less}")
    elif failed:
        say(f"rt ci {failed} proves it alone, over what is kept")
    versions(rt)
    say(f"the whole log is {LOG}")
    say(f"{progress.count()} crates are proved: {later(rt)}")


def put(room):
    """Puts the program into its place by one rename."""
    os.makedirs(OUT, exist_ok=True)
    shutil.copyfile(f"{room}/crates/{PROGRAM}/out/{PROGRAM}", f"{OUT}/{PROGRAM}.new")
    os.chmod(f"{OUT}/{PROGRAM}.new", 0o755)
    os.replace(f"{OUT}/{PROGRAM}.new", f"{OUT}/{PROGRAM}")


def advise(lanes, room):
    """Says what memory and disk a first build takes, where they bound it."""
    every, free = processors(), memory()
    if lanes < every and not os.environ.get("FMC_JOBS"):
        more = f"FMC_JOBS={every} is faster and takes up to {gigabytes(wanted(every))}"
        what = more if free >= wanted(every) else f"{gigabytes(free)} are free"
        say(f"{lanes} at once take up to {gigabytes(wanted(lanes))} of memory; {what}")
    free = min(shutil.disk_usage(it).free for it in (os.path.dirname(room), tempfile.gettempdir()))
    if free < WORKS:
        say(f"{gigabytes(free)} of disk are free, and the build wants {gigabytes(WORKS)}")


def announce(rt, why, progress, room):
    """Says why a build is needed, and what it does."""
    of, lanes = f"{len(progress.below)} crates", progress.lanes
    if os.path.exists(f"{OUT}/{PROGRAM}"):
        say(f"{why}: building it; of its {of}, those that changed are proved, and those above them, {lanes} at once")
        return
    say(f"{why}: the first build proves {of}, {lanes} at once, in {time_of(progress.ahead())} on a fast machine")
    say(f"if it is cut off, {later(rt)}")
    advise(lanes, room)


def build(rt, why):
    """Builds the program in a copy, and gives whether it is there."""
    below, lines = crates()
    room, began, progress = room_of(), time.monotonic(), Progress(below, jobs(), table_of_seconds())
    screen = Screen(progress)
    announce(rt, why, progress, room)
    try:
        copy(below, lines, room)
        failed, block, status = run(rt, room, screen)
        if failed or status or not os.path.isfile(f"{room}/crates/{PROGRAM}/out/{PROGRAM}"):
            explain(failed, block, status, rt, progress)
            return False
        put(room)
    except Stopped:
        screen.line(f"stopped with {progress.count()} crates proved: {later(rt)}")
        return False
    finally:
        clear(room)
    took, proved = round(time.monotonic() - began), len(below) - len(progress.kept)
    took = f"{took} seconds" if took < 120 else f"{took // 60} minutes"
    say(f"the program is built, {proved} of {len(below)} crates proved now, in {took}")
    return True


def stop(*_):
    for it in (signal.SIGTERM, signal.SIGHUP):
        signal.signal(it, signal.SIG_IGN)
    raise Stopped


def main():
    why, rt = sys.argv[1], shutil.which("rt")
    program = f"{OUT}/{PROGRAM}"
    before = f"the program of before is {program}" if os.path.exists(program) else ""
    for it in (signal.SIGTERM, signal.SIGHUP):
        if signal.getsignal(it) != signal.SIG_IGN:
            signal.signal(it, stop)
    tie(signal.SIGTERM)
    try:
        if os.path.exists("/proc/self/fd/9"):
            # the script's lock, which is taken here where there is no command flock
            fcntl.flock(9, fcntl.LOCK_EX)
        if rt and build(rt, why):
            return 0
        if not rt:
            say(f"{why}, and the command rt, the Rattle toolchain, isn't there to build it")
    except (OSError, ValueError) as error:
        say(f"{why}, and couldn't be built: {error}")
    except Stopped:
        return 1
    if before:
        say(before)
    return 1


if __name__ == "__main__":
    sys.exit(main())
