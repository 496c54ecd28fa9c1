"""Plays the entries of a trace, and compares what came of it with the answer of `fmc replay`."""
import sys
import time

from .machine import Run
from .report import report_of, status_of

PIECE, SECONDS = 100_000, 0.2


class Progress:
    """Says on a terminal how far something is."""

    def __init__(self, name, stream=sys.stderr):
        self.name, self.stream, self.is_shown = name, stream if stream.isatty() else None, False
        self.next = time.monotonic() + 1

    def say(self, text):
        """Writes a text over the one before, some times a second."""
        if self.stream and time.monotonic() > self.next:
            self.next = time.monotonic() + SECONDS
            self.stream.write(f"\r{self.name}: {text}\x1b[K")
            self.stream.flush()
            self.is_shown = True

    def end(self):
        if self.is_shown:
            self.stream.write("\r\x1b[K")
            self.stream.flush()
        self.is_shown = False


class Playing:
    """The run of a trace, entry by entry. `illegal` is the first entry that asks for a step that isn't there."""

    def __init__(self, program, trace, progress=None, is_noted=False):
        self.run, self.trace, self.progress = Run(program, is_noted), trace, progress
        self.illegal, self.entry, self.next, self.asked = None, 0, None, ""

    def pieces(self, most):
        """Each process that comes next, with the steps that it is to make in one go, up to so many steps in all."""
        run = self.run
        for line, (number, steps, times) in enumerate(self.trace.entries()):
            left = steps * times if most is None else min(steps * times, most - run.clock)
            if left <= 0:
                return
            if number >= len(run.processes):
                self.illegal, self.asked = self.entry + 1, f"process {number}"
                return
            self.next = process = run.processes[number]
            self.asked = process.name
            while left:
                piece = min(left, PIECE)
                yield process, piece
                left -= piece
                if self.progress and (piece > 1000 or line % 1000 == 0):
                    self.progress.say(f"step {run.clock:,}, line {line + 1:,} of {self.trace.lines:,}")
            self.entry += times

    def play(self, most=None, watch=None):
        """Plays the whole trace, or so many steps of it. `watch` gets the process and the span of each piece."""
        for process, count in self.pieces(most):
            before = self.run.clock
            made = self.run.play(process, count)
            if watch:
                watch(process, before, self.run.clock)
            if made < count:
                self.illegal = self.first_illegal(made)
                break
        if self.progress:
            self.progress.end()

    def first_illegal(self, made):
        """The entry whose process had so many steps of the piece that was played, and no more."""
        done = self.run.clock
        entry = 0
        for _, steps, times in self.trace.entries():
            if done < steps * times:
                return entry + done // steps + 1
            done -= steps * times
            entry += times
        return entry

    def one_by_one(self):
        """The process of each step, before it is made."""
        for number, steps, times in self.trace.entries():
            for _ in range(steps * times):
                if number >= len(self.run.processes):
                    return
                yield self.run.processes[number]

    def difference(self):
        """What `fmc replay` says otherwise of the whole trace; nothing where both say the same."""
        run, trace = self.run, self.trace
        if trace.status == 11:
            mine, theirs = b"illegal turn: entry %d\n" % (self.illegal or 0), trace.answer
        elif self.illegal:
            mine, theirs = b"illegal turn: entry %d\n" % self.illegal, trace.answer
        elif trace.status == 4:
            mine, theirs = (b"spent" if run.turns > trace.turns else b"%d turns" % run.turns), b"spent"
        elif trace.status == 12:
            mine, theirs = (b"unfinished" if any(map(run.can_step, run.processes)) else b"finished"), b"unfinished"
        else:
            mine = b"status %d\n" % status_of(run) + report_of(run, True)
            theirs = b"status %d\n" % trace.status + trace.answer
        return "" if mine == theirs else first_difference(mine, theirs)


def first_difference(mine, theirs):
    """The first line in which two texts differ."""
    mine, theirs = (text.decode("latin-1").split("\n") for text in (mine, theirs))
    for ours, other in zip(mine + [""] * len(theirs), theirs + [""] * len(mine)):
        if ours != other:
            return f"`{ours}` instead of `{other}`"
    return ""
