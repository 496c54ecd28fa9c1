#!/usr/bin/env python3
"""Whether extras/look plays runs as `fmc replay` does, and finds the ends that there are.

    bench/look.py [--plain] [BINARY [FOLDER ..]]

Takes the programs of the folders, by default those of examples/ and its gallery. Of each it keeps runs by several
slices and numbers of workers, and a run that is spent; it bends entries of them, so that some are illegal or
unfinished; and wants that the player comes to the same report, turns and exit as `replay --vars`. Then it wants:

- every end that schedules at random come to is one that the search finds, and `replay` has the same report of its
  trace. The search is left out where a program has too many states;
- both ends of examples/gallery/dining_dead.f, and all six of the race of LANGUAGE.md, by `--explore` and by `--all`;
- with --plain: of the programs with few states, and of some with PROBE, the search finds the ends that one finds
  which goes on by every step of each state;
- each way to call extras/look shows something, and answers bad input by a line and status 1.

Prints each finding, and how much was tried. BINARY is the built program, by default crates/fmc_cli/out/fmc_cli. The
status is 1 where there is a finding.
"""
import glob
import os
import re
import signal
import subprocess
import sys
import tempfile
import time

TOP = os.path.dirname(os.path.dirname(os.path.abspath(__file__)))
sys.path.insert(0, os.path.join(TOP, "extras"))

from player import ends
from player.playing import Playing, Progress
from player.texts import Failed, Program, Trace, answer

PLAIN_STATES = 2_000
RUNS = [("--workers", "1"), ("--workers", "1", "--slice", "1"), ("--workers", "1", "--slice", "7"), ()]
TURNS, TRIES, STATES, STEPS, BREAK = "20000", 20, 300, 40_000, 1
QUIET = Progress("bench")
LOOK = os.path.join(TOP, "extras/look")

CLOSES = """
      PROGRAM MAIN
      INPORT (INTEGER) I
      OUTPORT (INTEGER) O
      CHANNEL(IN=I, OUT=O)
      PROCESSES
        PROCESSCALL LOOKER(I)
        PROCESSCALL CLOSER(O)
      ENDPROCESSES
      END
      PROCESS CLOSER(O)
      OUTPORT (INTEGER) O
      ENDCHANNEL(O)
      END
      PROCESS LOOKER(I)
      INPORT (INTEGER) I
      LOGICAL E
      PROBE(I, EMPTY=E)
      PRINT *, E
      END
"""
POLLS = """
      PROGRAM MAIN
      INPORT (INTEGER) A, B
      OUTPORT (INTEGER) P, Q
      CHANNEL(IN=A, OUT=P)
      CHANNEL(IN=B, OUT=Q)
      PROCESSES
        PROCESSCALL GIVE(P, 10)
        PROCESSCALL GIVE(Q, 20)
        PROCESSCALL POLL(A, B)
      ENDPROCESSES
      END
      PROCESS GIVE(P, N)
      OUTPORT (INTEGER) P
      INTENT(IN) P, N
      SEND(P) N
      END
      PROCESS POLL(A, B)
      INPORT (INTEGER) A, B
      INPORT (INTEGER) NEXT
      LOGICAL E
      DO 20 NTH = 1, 3
      PROBE(A, EMPTY=E)
      IF (.NOT. E) RECEIVE(A, END=20) K
      MOVEPORT(FROM=A, TO=NEXT)
      MOVEPORT(FROM=B, TO=A)
      MOVEPORT(FROM=NEXT, TO=B)
   20 CONTINUE
      PRINT *, K
      END
"""
# a port is stored over another one: the reader that the other end had is closed
OVER = """
      PROGRAM MAIN
      INPORT (INTEGER) A, B
      OUTPORT (INTEGER) P, Q
      CHANNEL(IN=A, OUT=P)
      CHANNEL(IN=B, OUT=Q)
      PROCESSES
        PROCESSCALL MOVES(P, Q)
        PROCESSCALL LOOKS(A)
        PROCESSCALL LOOKS(B)
      ENDPROCESSES
      END
      PROCESS MOVES(P, Q)
      OUTPORT (INTEGER) P, Q
      INTENT(IN) P, Q
      MOVEPORT(FROM=P, TO=Q)
      SEND(Q) 1
      END
      PROCESS LOOKS(A)
      INPORT (INTEGER) A
      LOGICAL E
      PROBE(A, EMPTY=E)
      PRINT *, E
      END
"""
SMALL = {"closes": CLOSES, "polls": POLLS, "over": OVER}


class Tries:
    """What was tried, and how many findings there were."""

    def __init__(self):
        self.counts, self.wrong = {}, 0

    def note(self, what, is_well, told=""):
        """Counts something that was tried, and prints it where it isn't well."""
        self.counts[what] = self.counts.get(what, 0) + 1
        if not is_well:
            self.wrong += 1
            print(f"{what}: {told}", flush=True)


# ---- runs


def bent(trace):
    """Traces with other entries: two of them changed about, the last one left out, the first one longer."""
    head, source = trace.split(b"source\n", 1)
    rows = head.split(b"\n")[:-1]
    entries = rows[3:]
    if len(entries) > 1:
        for changed in ([entries[1], entries[0], *entries[2:]], entries[:-1], [entries[0] + b"0", *entries[1:]]):
            if all(one.split()[:2] != other.split()[:2] for one, other in zip(changed, changed[1:])):
                text = b"\n".join([*rows[:2], b"lines %d" % len(changed), *changed])
                yield text + b"\nsource\n" + source


def try_run(tries, name, program, text):
    """Plays a trace, and wants what `replay` says of it."""
    try:
        trace = Trace(text)
    except Failed as why:
        tries.note("runs", False, f"{name}: {why}")
        return
    playing = Playing(program, trace)
    playing.play()
    difference = playing.difference()
    tries.note("runs", not difference, f"{name}: {difference}")


def try_runs(tries, name, source):
    """Runs of a program by several slices, a spent one, and bent ones."""
    try:
        program = Program(source)
    except Failed:
        tries.note("refused", True)
        return None
    for words in RUNS:
        _, text = answer(["trace", "--turns", TURNS, *words], source)
        try_run(tries, f"{name} {' '.join(words)}", program, text)
    _, text = answer(["trace", "--turns", "40"], source)
    try_run(tries, f"{name} --turns 40", program, text)
    for number, other in enumerate(bent(answer(["trace", *RUNS[2]], source)[1]), 1):
        try_run(tries, f"{name} bent {number}", program, other)
    return program


# ---- ends


def try_end(tries, name, end, source):
    status, report = answer(["replay"], end.trace(source))
    tries.note("ends", status in (0, 1, 2) and report == end.report, f"{name}: an end is told otherwise by replay")


def explored(program, tries):
    found = ends.Tries(program, 1)
    found.explore(tries, QUIET)
    return found.found()


def searched(program, has_rule=True, states=STATES):
    search = ends.Search(program, states, STEPS, has_rule)
    search.search(QUIET)
    return search


def try_ends(tries, name, source, program):
    """Schedules at random come to no end that the search doesn't find."""
    ends.TRY_STEPS = STEPS
    found = explored(program, TRIES)
    search = searched(program)
    for end in [*found, *search.found()]:
        try_end(tries, name, end, source)
    if not search.cut:
        missed = {end.report for end in found} - set(search.ends)
        tries.note("searches", not missed, f"{name}: a schedule ends otherwise: {missed}")


def try_wanted(tries, name, source, wanted):
    """A program has so many ends, by both ways to find them."""
    program = Program(source)
    found = explored(program, 200)
    all_ends = searched(program).ends
    tries.note("wanted ends", len(found) == wanted, f"{name}: --explore finds {len(found)} ends and not {wanted}")
    tries.note("wanted ends", len(all_ends) == wanted, f"{name}: --all finds {len(all_ends)} ends and not {wanted}")


def try_plain(tries, name, program, states):
    """The search finds the ends that one without the rule finds, if that comes to its end."""
    whole = searched(program, False, states)
    quick = searched(program, True, states)
    if whole.cut:
        return False
    told = f"{name}: {len(quick.ends)} ends, and {len(whole.ends)} without the rule"
    is_well = not quick.cut and set(quick.ends) == set(whole.ends) and quick.is_endless == whole.is_endless
    tries.note("plain searches", is_well, told)
    return True


# ---- calls of look


def called(words, folder, text=b""):
    done = subprocess.run([LOOK, *words], input=text, cwd=folder, stdout=subprocess.PIPE, stderr=subprocess.PIPE,
                          check=False)
    return done.returncode, done.stdout.decode("latin-1"), done.stderr.decode("latin-1")


GOOD = {
    "trace": "these wait for each other: main/1.1, main/1.2", "--vars trace": "N = 2", "--at 2 trace": "it goes on",
    "--order trace": "step", "--messages trace": "values", "--profile trace": "in the longest chain",
    "--step trace": "look> v n", "--explore 3 --seed 7 my.f": "deadlocked, my.1.trace",
    "--all my.f": "1 end, 1 state; no other end, and every schedule ends", "--help": "Looks into a run"}
BAD = ["missing", "my.f", "--at x trace", "--explore 0 my.f", "--fast trace", "", "--all trace", "--step -"]


def try_calls(tries, source):
    """Each way to call look, on a deadlock, and bad input."""
    with tempfile.TemporaryDirectory() as folder:
        for name, text in ("my.f", source), ("trace", answer(["trace"], source)[1]):
            with open(os.path.join(folder, name), "wb") as file:
                file.write(text)
        for words, wanted in GOOD.items():
            status, told, errors = called(words.split(), folder, b"2\nv n\nb 18\np main/1.2\nl\n\n99\n")
            is_well = status == 0 and wanted in told and not errors
            tries.note("calls", is_well, f"look {words}: {status} {told} {errors}")
        for words in BAD:
            status, told, errors = called(words.split(), folder)
            is_well = status == 1 and not told and errors.count("\n") == 1
            tries.note("calls", is_well, f"look {words}: {status} {told} {errors}")


def seconds_of(pid):
    """The processor time of a process."""
    with open(f"/proc/{pid}/stat", encoding="latin-1") as file:
        user, system = file.read().rsplit(")", 1)[1].split()[11:13]
    return (int(user) + int(system)) / os.sysconf("SC_CLK_TCK")


def try_break(tries, words, wanted, source):
    """A call that goes on for long, and is broken off."""
    with tempfile.TemporaryDirectory() as folder:
        with open(os.path.join(folder, "my.f"), "wb") as file:
            file.write(source)
        call = subprocess.Popen([LOOK, *words, "my.f"], cwd=folder, stdout=subprocess.PIPE, stderr=subprocess.PIPE)
        while call.poll() is None and seconds_of(call.pid) < BREAK:
            time.sleep(0.1)
        call.send_signal(signal.SIGINT)
        told, errors = call.communicate()
    is_well = call.returncode == 130 and wanted in told and b"look: broken off behind " in errors
    tries.note("calls", is_well, f"look {words}, broken off: {call.returncode} {told} {errors}")


def race_of_language():
    with open(os.path.join(TOP, "docs/LANGUAGE.md"), encoding="utf-8") as file:
        return re.search(r"```fortran\n( +PROGRAM RACE\n.*?)```", file.read(), re.S).group(1).encode()


def read(path):
    with open(path, "rb") as file:
        return file.read()


def main():
    words = sys.argv[1:]
    is_plain = words[:1] == ["--plain"]
    binary, *folders = words[is_plain:] or [os.path.join(TOP, "crates/fmc_cli/out/fmc_cli")]
    os.environ["FMC"] = os.path.abspath(binary)
    tries, examples = Tries(), os.path.join(TOP, "examples")
    for folder in folders or [examples]:
        for path in sorted(glob.glob(os.path.join(folder, "**/*.f"), recursive=True)):
            name, source = os.path.relpath(path, folder), read(path)
            program = try_runs(tries, name, source)
            if program:
                try_ends(tries, name, source, program)
            if program and is_plain:
                try_plain(tries, name, program, PLAIN_STATES)
    try_wanted(tries, "dining_dead.f", read(os.path.join(examples, "gallery/dining_dead.f")), 2)
    try_wanted(tries, "the race", race_of_language(), 6)
    if is_plain:
        for name, text in SMALL.items():
            is_whole = try_plain(tries, name, Program(text.lstrip("\n").encode()), 20_000)
            tries.note("small programs", is_whole, f"{name}: too many states")
    try_calls(tries, read(os.path.join(examples, "deadlock.f")))
    try_break(tries, ["--explore", "1000000"], b"schedules at random", read(os.path.join(examples, "merger.f")))
    try_break(tries, ["--all"], b"cut off, since it was broken off", read(os.path.join(examples, "gallery/workers.f")))
    print(", ".join(f"{count} {what}" for what, count in tries.counts.items()) + f"; {tries.wrong} wrong")
    sys.exit(1 if tries.wrong else 0)


if __name__ == "__main__":
    main()
