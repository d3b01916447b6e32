"""`--picture OUT`: a run as a picture. OUT ends with `.html` (a page), `.svg` (a drawing) or `.dot` (a text for Graphviz).

Here is what a picture shows, as rows and arrows; `drawing.py`, `page.py` and `graph.py` write it down.
"""
import os
import shlex
import sys

import drawing
import graph
import page
from log import ACCESSES, Ending, Event, Record
from failure import Failure
from relations import INITIAL
from seeds import seeded
from session import Session, named

# Of the positions that a load could have taken so many are named.
MOST_CHOICES = 12
ARROW_NAMES = {"from": "reads from", "sync": "synchronizes with", "stack": "stack goes on", "thread": "makes the thread", "wake": "wakes",
               "race": "race"}


class Row:
    """A row of the picture: a line of the run. `label` is what stands in its lane, and `source` the line that made it."""

    __slots__ = ("number", "thread", "stack", "kind", "label", "source")

    def __init__(self, number, thread, stack, kind, label, source):
        self.number, self.thread, self.stack, self.kind, self.label, self.source = number, thread, stack, kind, label, source


class Arrow:
    """An arrow from one row to a later one, of a kind of ARROW_NAMES."""

    __slots__ = ("first", "last", "kind")

    def __init__(self, first, last, kind):
        self.first, self.last, self.kind = first, last, kind


# What is said of an instruction that has no choice, by its word; what a read could have done instead, by what its option is.
ALWAYS_NEWEST = {"COMMINST": "a futex wait reads the newest value always", "ATOMICRMW": "an ATOMICRMW takes the newest value always"}
HOW = {"read": "read ", "fails": "failed on ", "succeeds": "succeeded"}


class Modification:
    """A value of a cell: its position, the row that wrote it (None for the initial value) and the value (None where not known)."""

    __slots__ = ("position", "row", "value")

    def __init__(self, position, row, value):
        self.position, self.row, self.value = position, row, value


class Picture:
    """All that a picture shows of a run."""

    def __init__(self, session, command):
        self.session, self.command = session, command
        self.relations, self.instructions, self.file = session.relations, session.instructions, session.call.bundle
        self.lines, self.names = session.log.lines, session.cell_names
        machine = session.machine
        self.picks = {machine.step(pick.step).row: pick for pick in machine.picks if pick.is_read}
        self.threads = session.log.threads()
        self.stacks = {thread: [] for thread in self.threads}
        self.rows = self.make_rows()
        self.arrows = self.make_arrows()
        self.cells = self.make_cells()

    def make_rows(self):
        """A row for each line."""
        rows, on_stack, trapped = [], {0: 0}, None
        for line in self.lines:
            thread = getattr(line, "thread", None)
            if type(line) is Record:
                trapped = thread if thread is not None else trapped
                thread = trapped
            if type(line) is Event and line.kind == "enter":
                on_stack[thread] = line.other
            stack = on_stack.get(thread)
            if stack is not None and stack not in self.stacks[thread]:
                self.stacks[thread].append(stack)
            rows.append(self.make_row(line, thread, stack))
        return rows

    def make_row(self, line, thread, stack):
        """The row of a line."""
        if type(line) is Event:
            label = self.event_label(line)
            return Row(line.number, thread, stack, line.kind, label, self.source_text(line))
        text = named(line.text, self.names)
        kind, label = "ending", text
        if type(line) is Record:
            kind = "record"
            words = text.split(" ")
            label = " ".join([words[0], *words[2:]]) if line.kind in ("returned", "exited", "trap", "watchpoint") else text
        elif type(line) is Ending and line.race:
            kind = "race"
        return Row(None, thread, stack, kind, label, self.source_text(line))

    def event_label(self, event):
        """The text of an event, without number and thread; after a read whether it took the initial value, or an old one."""
        names = self.names
        if event.kind not in ACCESSES:
            return named(event.text, names).split(" ", 2)[2]
        label = f"{event.kind} {event.order} {names.get(event.cell, event.cell)} {event.position} {named(event.value, names)}"
        if event.kind != "read":
            return label
        said = ["initial"] if self.relations.reads_from[event.number] == INITIAL else []
        said += ["old"] if self.relations.is_old(event.number) else []
        return f"{label} ({', '.join(said)})" if said else label

    def source_text(self, line):
        """The source line of a row, in words."""
        found = self.instructions[line.row]
        if found is None:
            return "line not known" if type(line) is Event else ""
        return found.shown

    def details(self, number):
        """What is said of a row where somebody points at it."""
        source = self.rows[number].source
        said = [self.lines[number].text]
        if source:
            said.append(f"{self.file} {source}" if self.instructions[number] else source)
        return said + self.remarks(number)

    def remarks(self, number):
        """What a row took, and what it could have taken, where it is a read or an update."""
        line = self.lines[number]
        return self.reading(line) if type(line) is Event and line.number in self.relations.reads_from else []

    def reading(self, event):
        """What a read or an update took, and what it could have taken."""
        writer = self.relations.reads_from[event.number]
        said = ["takes the initial value" if writer == INITIAL else f"takes the value of event {writer}"]
        instruction = self.instructions[event.row]
        operation = instruction.operation if instruction else None
        if operation is None:
            return said + ["what else it could have read is not known"]
        return said + [ALWAYS_NEWEST.get(operation) or self.choices(event, operation)]

    def choices(self, event, operation):
        """What a load or a comparison could have done in place of an event."""
        pick = self.picks.get(event.row)
        if pick is None:
            return "no other value could have been read" if operation == "LOAD" else "the comparison could do nothing else"
        others = [pick.options[index] for index in range(min(len(pick.options), MOST_CHOICES + 1)) if index != pick.taken][:MOST_CHOICES]
        words = [HOW[what] + ("" if what == "succeeds" else f"{self.value(event.cell, position)} (position {position})")
                 for what, position in others]
        left = len(pick.options) - 1 - len(others)
        return "could have " + ", ".join(words) + (f", and {left} older ones" if left else "")

    def value(self, cell, position):
        """The value at a position of a cell, for people."""
        found = self.relations.value_at(cell, position) if position else self.session.initial(cell)
        return "the initial value" if found is None else found

    def make_arrows(self):
        """All arrows, by the row where they end."""
        events, relations = self.session.log.events, self.session.relations
        found = {}
        for reader, writer in relations.reads_from.items():
            if writer != INITIAL:
                found[writer, reader, "from"] = None
        for edge in relations.edges:
            found[edge.source, edge.target, edge.why if edge.why in ARROW_NAMES else "sync"] = None
        ready = {}
        for event in events:
            if event.kind == "enter" and event.other in ready:
                found[ready.pop(event.other), event.number, "stack"] = None
            elif event.kind in ("leave", "stack"):
                ready[event.other] = event.number
        arrows = [Arrow(events[first].row, events[last].row, kind) for first, last, kind in found]
        ending = self.session.log.ending
        if ending and ending.race:
            arrows.append(Arrow(events[ending.race_with].row, ending.row, "race"))
        return sorted(arrows, key=lambda arrow: (arrow.last, arrow.first, arrow.kind))

    def make_cells(self):
        """The modification order of each cell that the run accessed: (name, modifications)."""
        events, cells = self.session.log.events, []
        for text, cell in self.session.relations.cells.items():
            order = [Modification(0, None, self.session.initial(text))]
            for position, number in list(enumerate(cell.modifications))[1:]:
                order.append(Modification(position, events[number].row, events[number].value))
            cells.append((self.names.get(text, text), order))
        return cells


WRITERS = {".html": page.page, ".svg": drawing.svg, ".dot": graph.dot}


def picture(program, options, words):
    """Writes the picture of the run that the words ask for; returns the program's status."""
    name = options[options.index("--picture") + 1] if len(options) > 1 else ""
    writer = WRITERS.get(os.path.splitext(name)[1])
    if writer is None:
        raise Failure(f"--picture writes a file that ends with .html, .svg or .dot, and not {name}")
    with seeded(program, options, words, "--picture") as call:
        session = Session(program, call)
        if session.refused:
            sys.stdout.write(session.output)
            return session.status
        text = writer(Picture(session, "mu " + shlex.join(words)))
    try:
        with open(name, "w", encoding="utf-8") as file:
            file.write(text)
    except OSError as error:
        raise Failure(f"{name}: {error.strerror}") from error
    return session.status
