"""`--picks`: what each pick of a run chose among, and how many numbers of the schedule were left.

The program prints no picks. `machine.py` goes through the run by what it printed, and keeps them.
"""
import sys

from failure import Failure
from seeds import seeded
from session import Session, named

MOST_SHOWN = 8


class Rows:
    """The rows of the table, as lists of texts."""

    def __init__(self, session):
        self.names, self.machine = session.cell_names, session.machine
        self.rows = [("step", "number", "takes", "of", "by")]
        # What threads were picked among, and which thread, as texts: a run has few of these.
        self.shown = {}
        for pick in self.machine.picks:
            self.rows.append(self.row(pick))

    def row(self, pick):
        """The row of a pick."""
        step = self.machine.step(pick.step)
        number = "-" if pick.number is None else str(pick.number)
        if pick.is_read:
            takes, among = self.option(pick, pick.taken, step.node), self.options(pick, step.node)
        else:
            takes, among = f"t{step.thread}", self.threads(pick.options)
        by = f"t{step.thread} waits" if step.waited_at else f"t{step.thread} {step.node.instruction.shown}"
        return str(pick.step + 1), number, takes, among, by

    def threads(self, threads):
        """The threads that a pick chose among."""
        if threads not in self.shown:
            self.shown[threads] = ", ".join(f"t{thread}" for thread in threads[:MOST_SHOWN]) + more(threads)
        return self.shown[threads]

    def options(self, pick, node):
        """The options that a read chose among."""
        return ", ".join(self.option(pick, index, node) for index in range(min(len(pick.options), MOST_SHOWN))) + more(pick.options)

    def option(self, pick, index, node):
        """One option of a read."""
        what, position = pick.options[index]
        if what == "succeeds":
            return what
        value = named(self.machine.value_at(node, pick.options.cell, position), self.names)
        return f"{'fails on ' if what == 'fails' else ''}{value} (position {position})"


def more(options):
    """What stands after the options that are shown."""
    return f", .. ({len(options)} in all)" if len(options) > MOST_SHOWN else ""


def print_picks(session):
    """The table of picks, and what is left of the schedule."""
    machine, rows = session.machine, Rows(session).rows
    if machine.picks:
        widths = [max(map(len, column)) for column in zip(*rows)][:-1]
        form = "  ".join(f"{{:{width}}}" for width in widths) + "  {}"
        print("\n".join(form.format(*row) for row in rows))
    count, used = len(machine.numbers), machine.used
    left = count - used
    print(f"{len(machine.picks)} picks. The schedule has {count} number{'' if count == 1 else 's'}: {used} {'was' if used == 1 else 'were'} used"
          f"{' so far' if machine.lost else ''}, {left} {'is' if left == 1 else 'are'} left.")


def picks(program, options, words):
    """Shows the picks of the run that the words ask for; returns the program's status."""
    with seeded(program, options, words, "--picks") as call:
        session = Session(program, call)
        if session.refused:
            sys.stdout.write(session.output)
            return session.status
        print_picks(session)
        if session.machine.lost:
            raise Failure(f"the picks after these cannot be shown: {session.machine.lost}")
        return session.status
