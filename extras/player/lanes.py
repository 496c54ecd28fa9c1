"""What there is to draw of a run: a lane for each process, with where it runs, waits and ends, and the messages."""
import array

from .report import cycles_of, in_order, waits_of
from .state import ENDED, FAULTED, path_text


class Lane:
    """A process as it is drawn. Spans are pairs of numbers of steps, from which to which."""

    def __init__(self, process):
        self.process, self.name, self.unit = process, process.name, process.unit.name
        self.born, self.steps, self.end = process.born, process.steps, 0
        self.bars, self.waits = [], []
        # how it stands at the end: `ended`, `fault`, `waits` or `ready`, with a text for the last three
        self.state, self.told, self.on = "ended", "", None


class Watch:
    """Notes the stretches in which a process runs with no other one between."""

    def __init__(self):
        self.bars = {}
        self.last = None

    def note(self, process, low, high):
        if high == low:
            return
        bars = self.bars.setdefault(process.number, array.array("Q"))
        if self.last == process.number:
            bars[-1] = high
        else:
            bars.extend((low, high))
        self.last = process.number

    def of(self, process):
        bars = self.bars.get(process.number, ())
        return list(zip(bars[::2], bars[1::2]))


def joined(spans):
    """Spans without those that touch the one before, which is made longer."""
    found = []
    for low, high in spans:
        if found and low <= found[-1][1]:
            found[-1] = found[-1][0], max(found[-1][1], high)
        else:
            found.append((low, high))
    return found


def lane_of(run, process, watch, waits):
    """The lane of a process, which waits at the end where there is a wait of it."""
    lane = Lane(process)
    lane.bars, lane.waits, lane.end = watch.of(process), joined(process.waits), run.clock
    wait = waits.get(process.path)
    if process.phase is ENDED:
        lane.end = process.ended
    elif process.phase is FAULTED:
        lane.state, lane.end = "fault", process.last
        lane.told = f"has faulted in line {process.fault[0]}: {process.fault[1]}"
    elif wait:
        lane.state, lane.on = "waits", wait.on
        whom = path_text(wait.on) if wait.on is not None else "nobody"
        what = f"a message of {wait.channel}" if wait.channel else "its end"
        lane.told = f"waits in line {wait.line} for {whom}: {what}"
        lane.waits = joined(lane.waits + [(process.last, run.clock)])
    else:
        lane.state, lane.told = "ready", f"can go on in line {process.frame.line()}"
    return lane


class Drawing:
    """All that is drawn: lanes in the order of paths, messages, and rings of processes that wait for each other."""

    def __init__(self, run, watch):
        waits = waits_of(run)
        by_path = {wait.process.path: wait for wait in waits}
        processes = in_order(run)
        self.name, self.total, self.turns = run.program.main.name, run.clock, run.turns
        self.lanes = [lane_of(run, process, watch, by_path) for process in processes]
        self.rings = [[path_text(path) for path in ring] for ring in cycles_of(waits)]
        self.row = {process.number: row for row, process in enumerate(processes)}
        self.messages = run.messages
        self.left = [message for channel in run.channels.values() for message in channel.queue]
