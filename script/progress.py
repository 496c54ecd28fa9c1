"""How far a build of `fmc` is, and what its user sees of it."""
import heapq
import os
import sys
import time

# The seconds of a crate that the table doesn't have.
UNKNOWN = 30


def say(text):
    """Writes a line for the user, if there is still a terminal or a file for it."""
    try:
        print(f"fmc: {text}", file=sys.stderr, flush=True)
    except OSError:
        pass


def table_of_seconds():
    """The seconds that each crate's proof took where the table was made."""
    with open(f"{os.path.dirname(os.path.abspath(__file__))}/seconds.txt", encoding="utf-8") as file:
        return {name: float(seconds) for name, seconds in (line.split() for line in file if line.strip())}


def time_of(seconds):
    minutes = round(seconds / 60)
    return f"about {minutes} minute{'s' * (minutes != 1)}" if minutes else "less than a minute"


class Progress:
    """What is proved, what is at work since when, and how long the rest takes.

    below: the crates, lowest first, each with those right below it. lanes: how many checks work at once.
    """

    def __init__(self, below, lanes, seconds):
        self.below, self.lanes = below, lanes
        self.seconds = {it: seconds.get(it, UNKNOWN) for it in below}
        self.begun, self.proved, self.kept = {}, set(), set()
        # what the checks that ended took, and what the table says of them; a first minute is as in the table
        self.took = self.told = 60.0
        self.chain = self.chains()

    def chains(self):
        """For each crate the seconds of the longest chain of crates from it up."""
        above, chain = {it: [] for it in self.below}, {}
        for name, others in self.below.items():
            for it in others:
                above[it].append(name)
        for name in reversed(list(self.below)):
            chain[name] = self.seconds[name] + max((chain[it] for it in above[name]), default=0)
        return chain

    def see(self, names):
        """Notes which crates are at work."""
        now = time.monotonic()
        self.begun = {it: self.begun.get(it, now) for it in names if it in self.below and it not in self.proved}

    def end(self, name, is_kept):
        """Notes that a crate is proved, now or by an earlier build."""
        begun = self.begun.pop(name, None)
        if begun is not None and not is_kept:
            self.took += time.monotonic() - begun
            self.told += self.seconds[name]
        self.proved.add(name)
        self.kept.update([name] * is_kept)

    def left(self, name):
        """The seconds that are left of a crate's check, by what this machine took so far."""
        whole = self.seconds[name] * self.took / self.told
        return max(whole - (time.monotonic() - self.begun[name]), whole / 10) if name in self.begun else whole

    def ahead(self):
        """The seconds until all is proved: a check begins when those below are proved and a lane is free, and those
        with the longest chain above them begin first."""
        todo = [it for it in self.below if it not in self.proved]
        todo.sort(key=lambda it: (it not in self.begun, -self.chain[it]))
        done, running, now = set(self.proved), [], 0.0
        while todo or running:
            ready = [it for it in todo if done.issuperset(self.below[it])]
            for name in ready[: self.lanes - len(running)]:
                todo.remove(name)
                heapq.heappush(running, (now + self.left(name), name))
            now, name = heapq.heappop(running)
            done.add(name)
        return now

    def count(self):
        return f"{len(self.proved)} of {len(self.below)}"


class Screen:
    """What the user sees: at a terminal one line that is rewritten, elsewhere a line for each crate."""

    def __init__(self, progress):
        self.progress, self.is_terminal, self.has_told = progress, sys.stderr.isatty(), False

    def rewrite(self, text):
        """Gives a terminal's line another text, cut to its width."""
        if not self.is_terminal:
            return
        try:
            width = os.get_terminal_size(2).columns or 80
            print(f"\r{text[: width - 1]}\x1b[K", end="", file=sys.stderr, flush=True)
        except OSError:
            # it is closed
            pass

    def show(self):
        it = self.progress
        text = "reading the sources"
        if it.begun or it.proved:
            text = f"{it.count()} crates proved, {time_of(it.ahead())} left"
        self.rewrite(f"fmc: {text}{': ' if it.begun else ''}{' '.join(sorted(it.begun))}")

    def tell(self, name):
        """Says that a crate is proved now; in front of the first of these, how many were proved before."""
        it = self.progress
        if not self.has_told and it.kept:
            self.line(f"{len(it.kept)} of {len(it.below)} crates were proved before: going on from there")
        self.has_told = True
        if not self.is_terminal:
            say(f"{name} proved, {it.count()}, {time_of(it.ahead())} left")

    def line(self, text):
        """Says what stays on a terminal."""
        self.rewrite("")
        say(text)
