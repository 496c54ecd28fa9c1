"""The texts that a run is looked into by: the trace, the object text of its program, and the answers of `fmc`."""
import bisect
import io
import re

import common
from source import rows_of

PROGRAM, PROCESS, SUBROUTINE, FUNCTION = range(4)
INTEGER, LOGICAL, INPORT, OUTPORT = range(4)
LOOP, PROBE = 28, 57

HEADING = re.compile(r"(?:PROGRAM|PROCESS|SUBROUTINE|(?:INTEGER|LOGICAL)?FUNCTION)([A-Z]\w*)")
# the statuses of `replay` that judge a run, and not the text of the trace
PLAYED = {0: "done", 1: "faulted", 2: "deadlocked", 4: "spent", 11: "illegal", 12: "unfinished"}


class Failed(Exception):
    """There is nothing to look into; the text says why."""


def answer(words, text):
    """The status and the text of a call of `fmc`."""
    try:
        status, told = common.call(words, text)
    except OSError as error:
        raise Failed(f"{common.fmc()} can't be run: {error.strerror}") from None
    if status == 125 or status < 0:
        raise Failed(f"{common.fmc()} can't be run")
    return status, told


def answer_of(words, text):
    """The text of a call of `fmc` that has to end with status 0."""
    status, told = answer(words, text)
    if status:
        raise Failed(told.decode("latin-1").strip() or f"fmc {words[0]}: status {status}")
    return told


class Trace:
    """The text of a trace, with what `replay --vars` answers of it."""

    def __init__(self, text):
        self.status, self.answer = answer(["replay", "--vars"], text)
        if self.status not in PLAYED:
            raise Failed(self.answer.decode("latin-1").strip() or f"fmc replay: status {self.status}")
        self.file = io.BytesIO(text)
        self.form, turns, lines = (self.file.readline() for _ in range(3))
        self.turns, self.lines = int(turns.split()[1]), int(lines.split()[1])
        self.source, self.entries_from = text[text.index(b"\nsource\n") + 8 :], self.file.tell()

    def entries(self):
        """Each line of the entries: a process by its number, its steps, and how often the entry comes."""
        self.file.seek(self.entries_from)
        for _ in range(self.lines):
            words = self.file.readline().split()
            yield int(words[0]), int(words[1]), int(words[2]) if len(words) > 2 else 1


def trace_text(turns, entries, source):
    """The text of a trace of these entries, pairs of a number and steps. Equal ones in a row share a line."""
    lines = []
    for entry in entries:
        if lines and lines[-1][0] == entry:
            lines[-1][1] += 1
        else:
            lines.append([entry, 1])
    rows = [b"%d %d\n" % entry if times == 1 else b"%d %d %d\n" % (*entry, times) for entry, times in lines]
    return b"fmc trace 2\nturns %d\nlines %d\n" % (turns, len(rows)) + b"".join(rows) + b"source\n" + source


class Cell:
    """A variable of a unit."""

    def __init__(self, words):
        self.name = words[0]
        self.kind, self.of, self.first, self.count, self.formal, self.back = map(int, words[1:])
        self.is_port = self.kind >= INPORT
        self.gives_back = bool(self.formal and self.back)

    def places(self):
        return range(self.first, self.first + self.count)


class Unit:
    """A unit of the code. `statements` has what was made of the statement at an address, once it was come to."""

    def __init__(self, number, heading, name):
        self.number, self.heading, self.name = number, heading, name
        self.extents, self.cells, self.entries, self.code = [], [], [], []

    def finish(self):
        """Sets what follows from the lines of the unit."""
        self.formals = sorted((cell for cell in self.cells if cell.formal), key=lambda cell: cell.formal)
        self.of_word = [cell for cell in self.cells for _ in cell.places()]
        self.words = len(self.of_word)
        self.port_places = [place for place, cell in enumerate(self.of_word) if cell.is_port]
        self.unset = [None if cell.is_port else 0 for cell in self.of_word]
        self.loops = 1 + max((first for op, first, _ in self.code if op == LOOP), default=-1)
        self.addresses = [address for _, address in self.entries]
        self.statements = [None] * len(self.code)

    def line_at(self, address):
        """The line of the statement whose code has this address."""
        place = bisect.bisect_right(self.addresses, address)
        return self.entries[place - 1][0] if place else 0


def unit_names(listing):
    """The names of the units, in the order of the source."""
    names, is_heading = [], True
    for row in listing.decode("latin-1").split("\n")[:-1]:
        text = row[13:]
        if is_heading:
            found = HEADING.match(text)
            names.append(found.group(1) if found else "?")
        is_heading = text == "END"
    return names


class Program:
    """A program: its source, its code, and the fields of the messages of its types of ports."""

    def __init__(self, source):
        self.source, self.text = source, ["", *rows_of(source)]
        self.units, self.types = [], []
        listed = answer_of(["compile"], source)
        self.names = unit_names(answer_of(["list"], source))
        for row in listed.decode("latin-1").split("\n"):
            self.read(row.split())
        for unit in self.units:
            unit.finish()
        self.main = next(unit for unit in self.units if unit.heading == PROGRAM)
        self.has_probe = any(part[0] == PROBE for unit in self.units for part in unit.code)

    def read(self, words):
        """Takes in a line of the object text."""
        kind = words[0] if words else ""
        if kind == "instr":
            self.units[-1].code.append((int(words[1]), int(words[2]), int(words[3])))
        elif kind == "entry":
            self.units[-1].entries.append((int(words[1]), int(words[2])))
        elif kind == "cell":
            self.units[-1].cells.append(Cell(words[1:]))
        elif kind == "extent":
            self.units[-1].extents.append(int(words[1]))
        elif kind == "unit":
            self.units.append(Unit(len(self.units), int(words[1]), self.names[len(self.units)]))
        elif kind == "type":
            self.types.append([])
        elif kind == "field":
            self.types[-1].append(int(words[1]))

    def line(self, number):
        """The text of a line of the source."""
        return self.text[number].strip() if number < len(self.text) else ""
