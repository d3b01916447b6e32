"""`--show`: a run's log beside its source. `--results`: only its records and its ending.

Each line of the output stands in the column of its thread, with names of globals in place of cells where they are known, with the event
from which it has its value, with what it synchronizes with, and with the line of the source that made it. Arrows between threads are
drawn at the left.
"""
import shutil
import sys

from log import Ending, Event, Record
from paint import Paint
from relations import INITIAL
from seeds import seeded
from session import Session, named

# With more threads than these, or wider columns, all threads stand in one column.
MOST_COLUMNS = 4
WIDEST_COLUMN = 44
MOST_LANES = 6
# An arrow over more lines than these is not drawn; the number of the other event stands beside the event in any case.
LONGEST_ARROW = 60
LEGEND = ("from N: it takes the value that event N wrote; old: that was not the newest. sync N: event N synchronizes with it. Arrows are "
          "those\nbetween threads. What stands beside the program's lines is found by the tools; it is not proved.")


class Arrow:
    """An arrow from one row to a later one, in a lane of the margin."""

    __slots__ = ("first", "last", "kind", "lane")

    def __init__(self, first, last, kind):
        self.first, self.last, self.kind, self.lane = first, last, kind, None


def arrows_of(session):
    """The arrows between threads: of values that are read, and of what synchronizes; one where both go the same way."""
    events, found = session.log.events, {}
    for edge in session.relations.edges:
        found[events[edge.source].row, events[edge.target].row] = "sync"
    for reader, writer in session.relations.reads_from.items():
        if writer != INITIAL and events[writer].thread != events[reader].thread:
            found.setdefault((events[writer].row, events[reader].row), "from")
    ending = session.log.ending
    if ending and ending.race:
        found[events[ending.race_with].row, ending.row] = "race"
    return [Arrow(first, last, kind) for (first, last), kind in sorted(found.items()) if last - first <= LONGEST_ARROW]


def put_in_lanes(arrows):
    """Gives each arrow the first lane that is free; those for which none is free have no lane."""
    busy = []
    for arrow in arrows:
        for lane in range(MOST_LANES):
            if lane == len(busy):
                busy.append(-1)
            if busy[lane] < arrow.first:
                busy[lane], arrow.lane = arrow.last, lane
                break
    return len(busy)


class Margin:
    """The drawn arrows, as a text for each row."""

    COLOURS = {"sync": "green", "from": "cyan", "race": "red"}

    def __init__(self, arrows, paint):
        self.paint = paint
        self.lanes = put_in_lanes(arrows)
        self.rows = {}
        for arrow in arrows:
            if arrow.lane is not None:
                for row in range(arrow.first, arrow.last + 1):
                    self.rows.setdefault(row, []).append(arrow)

    def text(self, row):
        """What stands in the margin of a row."""
        width = 2 * self.lanes + 2
        crossing = self.rows.get(row)
        if not crossing:
            return " " * width
        marks, kinds = [" "] * width, [None] * width
        ends = [arrow for arrow in crossing if row in (arrow.first, arrow.last)]
        if ends:
            left = 2 * min(arrow.lane for arrow in ends)
            incoming = [arrow.kind for arrow in ends if arrow.last == row]
            marks[left:width - 1] = "-" * (width - 2 - left) + (">" if incoming else "-")
            kinds[left:width - 1] = [(incoming or [ends[0].kind])[0]] * (width - 1 - left)
        for arrow in crossing:
            marks[2 * arrow.lane] = "." if row == arrow.first else "'" if row == arrow.last else "|"
            kinds[2 * arrow.lane] = arrow.kind
        if not self.paint.colour:
            return "".join(marks)
        return "".join(self.paint(mark, self.COLOURS[kind]) if kind else mark for mark, kind in zip(marks, kinds))


class Table:
    """The rows of a run, as texts."""

    def __init__(self, session, paint, width):
        self.session, self.paint, self.width = session, paint, width
        self.lines, self.names = session.log.lines, session.cell_names
        self.incoming = {}
        for edge in session.relations.edges:
            self.incoming.setdefault(edge.target, []).append(edge.source)
        self.instructions, self.relations = session.instructions, session.relations
        self.texts = [self.own_text(line) for line in self.lines]
        self.owners = self.find_owners()
        self.columns = self.find_columns()
        self.notes = [self.note(line) for line in self.lines]
        self.note_width = max([len(note) for note in self.notes] + [5])

    def own_text(self, line):
        """The text of a line in its column: without number and thread."""
        text = named(line.text, self.names)
        if type(line) is Event:
            return text.split(" ", 2)[2]
        if type(line) is Record and line.kind in ("returned", "exited", "trap", "watchpoint"):
            words = text.split(" ")
            return " ".join([words[0], *words[2:]])
        if type(line) is Record and line.kind == "timed":
            return f"timed out {text.split(' ')[3]}"
        return text

    def find_owners(self):
        """The thread of each line; frames and kept values belong to the trap before them. None is the whole run's."""
        owners, trapped = [], None
        for line in self.lines:
            thread = getattr(line, "thread", None)
            if type(line) is Record:
                trapped = thread if thread is not None else trapped
                thread = trapped
            owners.append(None if type(line) is Ending else thread)
        return owners

    def find_columns(self):
        """Where the column of each thread begins, and how wide it is; the same for all where they are too many or too wide."""
        widths = {}
        for text, owner in zip(self.texts, self.owners):
            if owner is not None:
                widths[owner] = max(len(text), widths.get(owner, 6))
        if len(widths) > MOST_COLUMNS or any(width > WIDEST_COLUMN for width in widths.values()):
            self.width_of_columns = max(len(text) + 5 for text in self.texts)
            return None
        columns, start = {}, 0
        for thread in sorted(widths):
            columns[thread] = start
            start += widths[thread] + 3
        self.width_of_columns = start
        return columns

    def note(self, line):
        """From which event a line has its value, and what synchronizes with it."""
        if type(line) is not Event:
            return ""
        said = []
        writer = self.relations.reads_from.get(line.number)
        if writer is not None:
            old = " (old)" if self.relations.is_old(line.number) else ""
            said.append(("from initial" if writer == INITIAL else f"from {writer}") + old)
        sources = self.incoming.get(line.number)
        if sources:
            said.append("sync " + " ".join(map(str, sorted(sources))))
        return ", ".join(said)

    def source_text(self, line):
        """The line of the source that made a line of the run."""
        found = self.instructions[line.row]
        if found is None:
            return "line not known" if type(line) is Event else ""
        return found.shown

    def in_column(self, line):
        """The text of a line at its thread's column, padded to the width of all columns."""
        text, owner = self.texts[line.row], self.owners[line.row]
        if owner is None:
            return text.ljust(self.width_of_columns)
        before = ""
        if self.columns is None:
            text = f"t{owner}".ljust(4) + text
        else:
            before = " " * self.columns[owner]
        return before + self.paint.thread(text, owner) + " " * (self.width_of_columns - len(before) - len(text))

    def head(self, margin_width, number_width):
        """The line above all rows."""
        names = "thread" if self.columns is None else ""
        for thread, start in (self.columns or {}).items():
            names = names.ljust(start) + f"t{thread}"
        text = " " * margin_width + "event".ljust(number_width) + "  " + names.ljust(self.width_of_columns) + "takes".ljust(self.note_width)
        return self.paint(text + "  line of the source", "bold")

    def print_to(self, out):
        """Prints all rows."""
        margin = Margin(arrows_of(self.session), self.paint)
        margin_width = 2 * margin.lanes + 2 if margin.lanes else 0
        number_width = max(5, len(str(len(self.session.log.events))))
        rows = [self.head(margin_width, number_width)]
        for line in self.lines:
            number = str(line.number) if type(line) is Event else ""
            text = f"{number.rjust(number_width)}  {self.in_column(line)}{self.notes[line.row].ljust(self.note_width)}"
            source = self.source_text(line)
            room = self.width - margin_width - number_width - 4 - self.width_of_columns - self.note_width if self.width else None
            if room is not None and len(source) > max(room, 20):
                source = source[:max(room, 20) - 2] + ".."
            before = margin.text(line.row) if margin_width else ""
            rows.append(f"{before}{text}  {self.paint(source, 'dim')}".rstrip())
        out.write("\n".join(rows) + "\n")


def show(program, options, words):
    """Shows the run that the words ask for; returns the program's status."""
    with seeded(program, options, words, "--show") as call:
        session = Session(program, call)
        if session.refused:
            sys.stdout.write(session.output)
            return session.status
        paint = Paint()
        width = shutil.get_terminal_size().columns if sys.stdout.isatty() else None
        Table(session, paint, width).print_to(sys.stdout)
        print()
        print(paint(LEGEND, "dim"))
        if session.machine.lost:
            print(f"Which lines of the source made the rest is not known: {session.machine.lost}.")
        return session.status


def results(program, options, words):
    """Prints the records and the ending of the run that the words ask for; returns the program's status."""
    with seeded(program, options, words, "--results") as call:
        session = Session(program, call)
        if session.refused:
            sys.stdout.write(session.output)
            return session.status
        sys.stdout.write("".join(f"{line.text}\n" for line in session.log.lines if type(line) is not Event))
        return session.status
