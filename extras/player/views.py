"""What there is to see of a run: where its processes stand, and what was printed, sent and spent."""
from .report import cell_text, cycles_of, in_order, waits_of, word_text
from .state import ENDED, FAULTED, JOINS, path_text

WIDE, MANY, ROWS = 72, 6, 40


def many(count, word):
    """A number of things: `1 step`, `2 steps`, `2 processes`."""
    return f"{count:,} {word if count == 1 else word + ('es' if word.endswith('s') else 's')}"


def shortened(text, most=WIDE):
    return text if len(text) <= most else text[: most - 2] + ".."


def listed(texts, most=MANY):
    """The first texts of a list, and how many more there are."""
    more = len(texts) - most
    return ", ".join(texts[:most]) + (f" and {more:,} more" if more > 0 else "")


def table(rows, right=()):
    """Rows of cells in columns, of which those with these numbers are flush right."""
    rows = [[str(cell) for cell in row] for row in rows]
    wide = [max(map(len, column)) for column in zip(*rows)]
    for row in rows:
        cells = [cell.rjust(wide[at]) if at in right else cell.ljust(wide[at]) for at, cell in enumerate(row)]
        yield "  ".join(cells).rstrip()


def message_text(message):
    """The values of a message."""
    kinds = message.fields or [0] * len(message.items)
    return " ".join(word_text(word, kind) for item, kind in zip(message.items, kinds) for word in item)


# ---- where processes stand


class Holding:
    """Where a port stands: in a variable of a frame, in a start that waits, or, with no process, in a message."""

    def __init__(self, process, frame, name, is_start=False, channel=None):
        self.process, self.frame, self.name, self.is_start, self.channel = process, frame, name, is_start, channel

    def rows(self, run, reader):
        """Who has the port that a reader waits for, and what would close it."""
        if not self.process:
            return [f"whoever receives the message of {self.channel} that holds this outport"]
        if self.is_start:
            return [f"{self.name} of a process {self.frame.unit.name} that {self.process.name} is about to start"]
        return [self.place() + self.state(run, reader), *self.advice()]

    def place(self):
        frames = self.process.frames
        if self.frame is frames[0]:
            return f"{self.name} of {self.process.name} {self.frame.unit.name}"
        below = frames[frames.index(self.frame) - 1]
        caller = f"{self.process.name} {below.unit.name}"
        return f"{self.name} of {self.frame.unit.name}, called in line {below.called} by {caller}"

    def state(self, run, reader):
        process = self.process
        if process is reader:
            return ", the very process that waits"
        if process.phase is ENDED:
            return f", which has ended and keeps it for {path_text(process.path[:-1])} until the join"
        if process.phase is FAULTED:
            return ", which has faulted and keeps it"
        if process.phase is JOINS:
            return ", which waits for the end of its block"
        channel = run.awaited_channel(process)
        return f", which waits for a message of {channel.name}" if channel else ""

    def advice(self):
        if self.process.phase is ENDED:
            return [f"    INTENT(IN) {self.name}, or ENDCHANNEL({self.name}) at its end, would close it"]
        return [f"    ENDCHANNEL({self.name}) before the block would close it"] if self.process.phase is JOINS else []


def names_in(frame):
    """The ports of a frame's variables, each with the variable's name, and with a subscript in an array."""
    for place in frame.unit.port_places:
        port, cell = frame.words[place], frame.unit.of_word[place]
        if port is not None:
            yield port, cell.name if cell.count == 1 else f"{cell.name}, element {place - cell.first + 1},"


def holdings(run):
    """Where each port stands."""
    found = {}
    for process in in_order(run):
        for frame in process.frames:
            found.update({port: Holding(process, frame, name) for port, name in names_in(frame)})
            for start in frame.starts:
                found.update({port: Holding(process, start.frame, name, True) for port, name in names_in(start.frame)})
    for channel in run.channels.values():
        for message in channel.queue:
            found.update({port: Holding(None, None, "", False, channel.name) for port in message.ports()})
    return found


def state_text(run, process):
    """How a process stands: whether it can go on, or what it waits for."""
    if process.phase is ENDED:
        return "has ended"
    if process.phase is FAULTED:
        return f"has faulted in line {process.fault[0]}: {process.fault[1]}"
    children, channel = run.awaited_children(process), run.awaited_channel(process)
    if children:
        return "waits for the end of " + listed([child.name for child in children])
    return f"waits for a message of {channel.name}" if channel else "can go on"


def call_rows(run, process, with_vars):
    """The statements at which the frames of a process stand, the innermost first, and their variables."""
    inner = process.frames[-1]
    for frame in reversed(process.frames):
        line = frame.called if frame is not inner or process.phase is ENDED else frame.line()
        if process.phase is not ENDED:
            front = "line" if frame is inner else "called in line"
            yield f"    {front} {line} of {frame.unit.name}: {run.program.line(line)}"
        for cell in frame.unit.cells if with_vars else ():
            yield "        " + shortened(f"{cell.name} = {cell_text(frame, cell)}")


def queue_rows(run, process):
    """The messages that wait for a process, by its inports."""
    for frame in process.frames:
        for (channel, writer), name in names_in(frame):
            queue = run.channels[channel].queue if writer < 0 else ()
            if queue:
                texts = [message_text(message) for message in list(queue)[:MANY]] + [".."] * (len(queue) > MANY)
                count = many(len(queue), "message")
                yield "    " + shortened(f"{count} in {name} = {channel}: {'; '.join(texts)}", 110)


def writer_rows(run, process, held):
    """Who could still send to a process that waits for a message."""
    channel = run.awaited_channel(process)
    if channel is None:
        return
    yield f"    {channel.name} can still be written by"
    writers = sorted(channel.writers)
    for writer in writers[:MANY]:
        yield from ("        " + row for row in held[channel.name, writer].rows(run, process))
    if len(writers) > MANY:
        yield f"        and {len(writers) - MANY:,} more"


def process_rows(run, process, with_vars, held):
    """All that is shown of a process."""
    yield f"{process.name} {process.unit.name} {state_text(run, process)}"
    if process.frames and (process.phase is not ENDED or with_vars):
        yield from call_rows(run, process, with_vars)
    if process.phase is not ENDED:
        yield from queue_rows(run, process)
        yield from writer_rows(run, process, held)


def where(run, with_vars=False):
    """Where each process stands. Of those that have ended, the first ones alone are listed where there are many."""
    held, ended = holdings(run), 0
    for process in in_order(run):
        ended += process.phase is ENDED
        if process.phase is not ENDED or ended <= ROWS:
            yield from process_rows(run, process, with_vars, held)
    if ended > ROWS:
        yield f"{ended - ROWS:,} more have ended"
    for ring in cycles_of(waits_of(run)):
        yield "these wait for each other: " + ", ".join(map(path_text, ring))


def heading(run, ending):
    """A line on the whole run."""
    counts = [many(len(run.processes), "process"), many(run.clock, "step"), many(run.turns, "turn")]
    return f"{run.program.main.name}: {', '.join(counts)}" + (f"; {ending}" if ending else "")


# ---- what was printed, sent and spent


def order(run):
    """The printed lines in the order in which they were printed."""
    rows = [("step", "process", "unit", "line", "printed")]
    rows += [(clock, process.name, unit.name, line, text.decode("latin-1"))
             for clock, process, unit, line, text in run.printed]
    return table(rows, (0, 3))


def messages(run):
    """Each message that was received, in that order, and then those that wait."""
    rows = [("sent", "by", "line", "got", "by", "line", "channel", "values")]
    for it in run.messages:
        rows.append((it.sent, it.sender.name, it.sent_line, it.got, it.receiver.name, it.got_line, it.channel.name,
                     shortened(message_text(it))))
    for channel in run.channels.values():
        for it in channel.queue:
            rows.append((it.sent, it.sender.name, it.sent_line, "-", "nobody", "-", channel.name,
                         shortened(message_text(it))))
    yield from table(rows, (0, 2, 3, 5))
    if run.discarded:
        yield f"{many(run.discarded, 'message')} discarded: the inport was gone"


def line_rows(run):
    """The turns and steps of each line of the source, the dearest first."""
    found = {}
    for unit in run.program.units:
        for statement in filter(None, unit.statements):
            steps, turns = found.get(statement.line, (0, 0))
            found[statement.line] = steps + statement.steps, turns + statement.turns
    for line, (steps, turns) in sorted(found.items(), key=lambda it: (-it[1][1], it[0])):
        yield turns, f"{100 * turns / max(run.turns, 1):.1f}", steps, line, shortened(run.program.line(line))


def profile(run):
    """Where the turns go: by lines of the source, by processes; and how much can run at once."""
    lines = [*line_rows(run)]
    yield from table([("turns", "%", "steps", "line", "")] + lines[:ROWS], (0, 1, 2, 3))
    yield from [f"{len(lines) - ROWS:,} more lines"] if len(lines) > ROWS else []
    yield ""
    dear = sorted(run.processes, key=lambda process: (-process.turns, process.path))
    rows = [(it.turns, f"{100 * it.turns / max(run.turns, 1):.1f}", it.steps, it.name, it.unit.name)
            for it in dear[:ROWS]]
    yield from table([("turns", "%", "steps", "process", "unit")] + rows, (0, 1, 2))
    yield from [f"{len(dear) - ROWS:,} more processes"] if len(dear) > ROWS else []
    yield ""
    longest = max(process.chain for process in run.processes)
    yield f"{many(run.clock, 'step')} and {many(run.turns, 'turn')} in all"
    if longest:
        yield (f"{many(longest, 'step')} in the longest chain, in which each step needs the one before it: "
               f"on average at most {run.clock / longest:.1f} processes run at once")
