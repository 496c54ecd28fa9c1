"""What a run consists of: channels with messages, and processes with frames.

A port is a pair of its channel's name and its writer, or READER for an inport. It stands in one word or one message.
"""
from collections import deque

RUNS, JOINS, ENDED, FAULTED = "runs", "joins", "ended", "faulted"
READER = -1


def path_text(path):
    """A process's path as the report names it."""
    return "main" + "".join("/%d.%d" % pair for pair in path)


class Channel:
    """A channel: its messages, oldest first, its open writers, and whether its inport lives."""

    __slots__ = ("name", "queue", "writers", "lives", "fields", "closed", "chain")

    def __init__(self, name, writers, fields):
        self.name, self.queue, self.writers, self.lives, self.fields = name, deque(), set(writers), True, fields
        # behind which step the last writer was closed, and how many steps lead there one behind the other
        self.closed = self.chain = 0


class Message:
    """A message: its items, and where and when it was sent; and received, once it is."""

    __slots__ = ("items", "channel", "fields", "sender", "sent_line", "sent", "chain", "receiver", "got_line", "got")

    def __init__(self, items, channel=None, sender=None, line=0, sent=0, chain=0):
        self.items, self.channel, self.fields = items, channel, channel.fields if channel else []
        self.sender, self.sent_line, self.sent, self.chain = sender, line, sent, chain
        self.receiver, self.got_line, self.got = None, 0, 0

    def ports(self):
        return [word for item in self.items for word in item if type(word) is tuple]


class Frame:
    """A unit at work: its words, its loops, results of references, starts of its open block, what it gives back."""

    __slots__ = ("unit", "at", "words", "loops", "results", "starts", "backs", "called")

    def __init__(self, unit):
        self.unit, self.at, self.words, self.loops = unit, 0, list(unit.unset), [None] * unit.loops
        self.results, self.starts, self.backs, self.called = [], [], [], 0

    def line(self):
        """The line of the statement that comes next."""
        return self.unit.line_at(self.at)

    def ports(self):
        """The ports in the frame's variables and in its starts."""
        words = self.words
        kept = [words[place] for place in self.unit.port_places if words[place] is not None]
        return kept + [port for start in self.starts for port in start.frame.ports()]


class Start:
    """A child of an open block that hasn't begun, on a node of its machine: the first node, and how many there are."""

    __slots__ = ("frame", "machine", "node")

    def __init__(self, frame, machine, node):
        self.frame, self.machine, self.node = frame, machine, node


class Process:
    """A process: its phase, its frames, the innermost one last, and what it did."""

    def __init__(self, number, path, start):
        self.number, self.path, self.name = number, path, path_text(path)
        self.unit, self.frames, self.machine, self.node = start.frame.unit, [start.frame], start.machine, start.node
        self.phase, self.fault, self.output, self.family = RUNS, None, [], []
        self.blocks = self.channels = 0
        # its steps and their turns, how many steps lead to its last one, each needed by the next, and the steps of the
        # run behind which it began, made its last step, and ended
        self.steps = self.turns = self.chain = self.born = self.last = self.ended = 0
        self.waits = []

    @property
    def frame(self):
        return self.frames[-1]

    def ports(self):
        """The ports that it holds."""
        return [port for frame in self.frames for port in frame.ports()]
