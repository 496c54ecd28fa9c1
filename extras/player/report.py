"""The report of a run, as docs/LANGUAGE.md says it: lines, faults, who waits for whom, cycles."""
from .state import ENDED, FAULTED, path_text
from .texts import LOGICAL

DONE, FAULTS, DEADLOCK = 0, 1, 2


class Wait:
    """What a process that can't step waits for: a message of a channel, or the end of a child."""

    def __init__(self, process, line, channel, on):
        self.process, self.line, self.channel, self.on = process, line, channel, on

    def text(self):
        what = f"receive {self.channel}" if self.channel else "join"
        whom = path_text(self.on) if self.on is not None else "nobody"
        return f"wait {self.process.name} line {self.line} {what} for {whom}"


def in_order(run):
    """The processes in the order of their paths."""
    return sorted(run.processes, key=lambda process: process.path)


def holders(run):
    """For each channel its least writer that a process holds, with the path of the holder.

    A process that has ended keeps what it gives back for the one that started it.
    """
    found = {}
    for process in run.processes:
        path = process.path[:-1] if process.phase is ENDED else process.path
        for channel, writer in process.ports():
            if writer >= 0 and (channel not in found or writer < found[channel][0]):
                found[channel] = writer, path
    return found


def waits_of(run):
    """The waits of all processes, in the order of their paths."""
    found, held = [], holders(run)
    for process in in_order(run):
        children, channel = run.awaited_children(process), run.awaited_channel(process)
        if children:
            found.append(Wait(process, process.frame.line(), None, children[0].path))
        elif channel:
            found.append(Wait(process, process.frame.line(), channel.name, held.get(channel.name, (0, None))[1]))
    return found


def cycles_of(waits):
    """The rings of processes that wait for each other, each from its least path."""
    onward = {wait.process.path: wait.on for wait in waits}
    rings, seen = [], set()
    for first in sorted(onward):
        way, path = {}, first
        while path in onward and path not in way and path not in seen:
            way[path] = len(way)
            path = onward[path]
        if path in way:
            ring = list(way)[way[path] :]
            least = ring.index(min(ring))
            rings.append(ring[least:] + ring[:least])
        seen.update(way)
    return sorted(rings)


def word_text(word, kind):
    """A word as it is shown: a number, T or F, a channel or NULL."""
    if word is None:
        return "NULL"
    if type(word) is tuple:
        return word[0]
    return str(word) if kind != LOGICAL else "T" if word else "F"


def cell_text(frame, cell):
    """What a variable holds, element after element."""
    return " ".join(word_text(word, cell.kind) for word in frame.words[cell.first : cell.first + cell.count])


def status_of(run):
    """The status of a run whose processes have no step any more."""
    if any(process.phase is FAULTED for process in run.processes):
        return FAULTS
    return DONE if run.processes[0].phase is ENDED else DEADLOCK


def report_of(run, with_vars=False):
    """The report of a run whose processes have no step any more."""
    rows = [line for process in in_order(run) for line in process.output]
    told, waits = [], waits_of(run)
    if with_vars:
        frame = run.processes[0].frames[0]
        cells = sorted(frame.unit.cells, key=lambda cell: cell.name)
        told += [f"var {cell.name} = {cell_text(frame, cell)}" for cell in cells]
    told += [f"fault {process.name} line {process.fault[0]} {process.fault[1]}"
             for process in in_order(run) if process.fault]
    told += [wait.text() for wait in waits]
    told += ["cycle " + " ".join(map(path_text, ring)) for ring in cycles_of(waits)]
    told += [f"turns {run.turns}"] if with_vars else []
    return b"".join(row + b"\n" for row in rows + [text.encode("latin-1") for text in told])
