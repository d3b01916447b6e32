"""The output of a run, read: its events, its records and its ending, in the order of the lines.

docs/LOG.md says what the lines mean. Nothing here judges a run; a line in no known form is kept as an `Other`, so that a tool can still
print it.
"""
import re

ACCESSES = ("read", "write", "update")
RELEASES = ("RELEASE", "ACQ_REL", "SEQ_CST")
ACQUIRES = ("CONSUME", "ACQUIRE", "ACQ_REL", "SEQ_CST")
ENDINGS = ("done", "stop", "undefined", "heap", "threads", "all", "budget")
RECORDS = ("returned", "exited", "trap", "watchpoint", "frame", "kept", "timed")
REFUSALS = ("refused", "usage", "too", "read")
RACE = re.compile(r"undefined DataRace t(\d+) (@\S+) (\d+) (read|write|update) (\S+) (#\S+) (\d+) (.*) with (\d+)\Z", re.S)


class Event:
    """One event. `row` is the number of its line in the output, from 0; `number` is its number in the log."""

    __slots__ = ("row", "text", "number", "thread", "kind", "order", "cell", "position", "value", "other")

    def __init__(self, row, text, number, thread, kind):
        self.row, self.text, self.number, self.thread, self.kind = row, text, number, thread, kind
        self.order = self.cell = self.position = self.value = self.other = None

    @property
    def is_access(self):
        """Whether the event reads or writes a cell."""
        return self.cell is not None and self.kind in ACCESSES

    @property
    def is_modification(self):
        """Whether the event takes a position of a cell."""
        return self.kind == "write" or self.kind == "update"

    @property
    def is_release(self):
        """Whether the event releases: a write, an update or a fence with such an order."""
        return self.order in RELEASES and self.kind != "read"

    @property
    def is_acquire(self):
        """Whether the event acquires: a read, an update or a fence with such an order."""
        return self.order in ACQUIRES and self.kind != "write"

    @property
    def taken(self):
        """The position that a read or an update takes."""
        return self.position - (self.kind == "update")


class Record:
    """One record. `thread` is None for `frame` and `kept`, which belong to the trap before them; `place` is (block, index) or None."""

    __slots__ = ("row", "text", "kind", "thread", "place", "cell")

    def __init__(self, row, text, kind, thread, place, cell=None):
        self.row, self.text, self.kind, self.thread, self.place, self.cell = row, text, kind, thread, place, cell


class Ending:
    """The last line. `place` is that of an `undefined`; `race` is the event that was not made, and `race_with` the number of the other."""

    __slots__ = ("row", "text", "kind", "thread", "place", "race", "race_with")

    def __init__(self, row, text, kind):
        self.row, self.text, self.kind = row, text, kind
        self.thread = self.place = self.race = self.race_with = None


class Other:
    """A line in no known form."""

    __slots__ = ("row", "text")

    def __init__(self, row, text):
        self.row, self.text = row, text


class Log:
    """All lines of a run, and by themselves its events, its records and its ending (None where the text was cut)."""

    def __init__(self, lines):
        self.lines = lines
        self.events = [line for line in lines if type(line) is Event]
        self.records = [line for line in lines if type(line) is Record]
        self.ending = lines[-1] if lines and type(lines[-1]) is Ending else None

    def threads(self):
        """The numbers of the threads that were made, in order."""
        return sorted({0} | {event.thread for event in self.events} | {event.other for event in self.events if event.kind == "thread"})


def read_event(row, text, words):
    """The event of a line that begins with a number."""
    kind = words[2]
    event = Event(row, text, int(words[0]), int(words[1][1:]), kind)
    if kind in ACCESSES:
        event.order, event.cell, event.position, event.value = words[3], words[4], int(words[5]), words[6]
    elif kind == "fence":
        event.order = words[3]
    elif kind == "wake":
        event.cell, event.other = words[3], int(words[4])
    elif kind == "woken":
        event.other = int(words[3])
    else:
        event.other = int(words[3][1:])
    return event


def read_record(row, text, words):
    """The record of a line."""
    kind = words[0]
    if kind in ("frame", "kept"):
        place = (words[2], int(words[3])) if kind == "frame" else None
        return Record(row, text, kind, None, place)
    if kind == "timed":
        return Record(row, text, kind, int(words[2][1:]), None, words[3])
    place = (words[2], int(words[3])) if kind in ("trap", "watchpoint") else None
    return Record(row, text, kind, int(words[1][1:]), place)


def read_ending(row, text, words):
    """The ending that a line says."""
    ending = Ending(row, text, words[0])
    if words[0] == "undefined":
        ending.thread, ending.place = int(words[2][1:]), (words[3], int(words[4]))
        race = RACE.match(text)
        if race:
            event = Event(row, text, None, int(race[1]), race[4])
            event.order, event.cell, event.position, event.value = race[5], race[6], int(race[7]), race[8]
            ending.race, ending.race_with = event, int(race[9])
    elif words[0] in ("heap", "threads"):
        ending.thread = int(words[2][1:])
    return ending


def read_line(row, text):
    """The line, by its first word."""
    words = text.split(" ")
    try:
        if words[0].isdigit():
            return read_event(row, text, words)
        if words[0] in RECORDS:
            return read_record(row, text, words)
        if words[0] in ENDINGS:
            return read_ending(row, text, words)
    except (IndexError, ValueError):
        return Other(row, text)
    return Other(row, text)


def read_log(text):
    """The log of a run's output."""
    return Log([read_line(row, line) for row, line in enumerate(text.splitlines())])


def is_refusal(text):
    """Whether the output is that of a run that never began: a refusal, `usage`, a fault of a file."""
    words = text[:16].split()
    return not words or words[0] in REFUSALS
