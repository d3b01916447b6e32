"""A run that somebody looks at step by step, and changes by choosing what a pick takes.

The program makes the whole run by a schedule, and `machine.py` goes through it; what is shown is the run after so many of its steps. A
choice replaces one number of the schedule, by which the program then makes the run anew. A step back needs no run, where nothing was chosen
after it.
"""
import bisect

from acts import made_ready
from acts_in_log import OPTIONS
from nodes import printed
from session import Folder, Session


class Standing:
    """A thread between two steps: its state, its next instruction (of one that waits its wait), the variables there, and the cell of a wait."""

    __slots__ = ("state", "node", "values", "cell")

    def __init__(self, state, cell):
        self.state, self.cell, self.node, self.values = state, cell, None, {}

    def variables(self):
        """The names and the texts of the variables that have values before the instruction."""
        instruction = self.node.instruction
        return [(name, printed(self.values[name])) for name in instruction.block.variables_at(instruction.index)]


class Replay:
    """The run, and how many of its steps are shown: `at`."""

    def __init__(self, program, call):
        self.program, self.call, self.folder = program, call, Folder()
        self.given, self.chosen, self.at = None, {}, 0
        self.make_run()

    def make_run(self):
        """Makes the run by the given schedule and the choices, which replace some of its numbers."""
        call = self.call
        if self.chosen:
            numbers = self.given + [0] * (max(self.chosen) + 1 - len(self.given))
            for place, number in self.chosen.items():
                numbers[place] = number
            path = self.folder.write("schedule", "\n".join(map(str, numbers)) + "\n")
            call = call.with_options(schedule=path)
        self.session = Session(self.program, call)
        if self.session.refused:
            return
        self.machine = self.session.machine
        self.given = self.machine.numbers if self.given is None else self.given
        self.steps_of = {}
        for number, (thread, *_) in enumerate(self.machine.made):
            self.steps_of.setdefault(thread, []).append(number)
        self.pick_steps = [pick.step for pick in self.machine.picks]

    # What is shown.

    @property
    def is_over(self):
        """Whether all steps are shown."""
        return self.at == len(self.machine.made)

    def row(self, at):
        """How many lines the run has after so many steps."""
        return self.machine.step(at).row if at < len(self.machine.made) else self.machine.row + (not self.machine.lost)

    def lines(self, first=0):
        """The texts of the lines so far, without those of the first steps."""
        return [line.text for line in self.session.log.lines[self.row(first) if first else 0:self.row(self.at)]]

    def events(self):
        """How many events the run has so far."""
        return bisect.bisect_left(self.session.log.events, self.row(self.at), key=lambda event: event.row)

    def threads(self):
        """Where each thread stands, by its number in rising order."""
        found = {}
        for at, number, state, cell in self.machine.states:
            if at > self.at:
                break
            found[number] = Standing(state, cell)
        for number, standing in sorted(found.items()):
            if standing.state != "ended":
                self.place(number, standing)
        return dict(sorted(found.items()))

    def place(self, number, standing):
        """Finds the instruction and the variables of a thread: those of its next step, or where it stands at the end."""
        steps = self.steps_of.get(number, ())
        next_one = bisect.bisect_left(steps, self.at)
        if next_one < len(steps):
            step = self.machine.step(steps[next_one])
            standing.node, standing.values = step.node, step.values
        else:
            frame = self.machine.threads[number].frames[-1]
            standing.node, standing.values = frame.node, frame.values

    def runnable(self):
        """The threads that a pick chooses among."""
        return [number for number, it in self.threads().items() if it.state in ("ready", "may time out")]

    def next_thread(self):
        """The thread that makes the next step; None where no step is left."""
        return None if self.is_over else self.machine.step(self.at).thread

    def options(self, number, standing):
        """What the read of a thread's next step chooses among; empty where it chooses nothing."""
        node = standing.node
        if standing.state != "ready" or node.read.word not in OPTIONS:
            return ()
        if node.options is None:
            made_ready(node)
        return node.options(self.machine, number, standing.values, self.events()) or ()

    # What is chosen.

    def step(self, thread=None, option=None):
        """Goes on by a step of a thread, its read taking an option; what is not given is as the schedule picks it."""
        place = self.picks_before(self.at)
        runnable = self.runnable()
        if len(runnable) > 1:
            if thread is not None and thread != self.next_thread():
                self.choose(place, runnable.index(thread))
            place += 1
        if option is not None:
            pick = self.machine.picks[place] if place < len(self.machine.picks) else None
            if pick and pick.step == self.at and pick.is_read and pick.taken != option:
                self.choose(place, option)
        self.at += 1

    def run_to(self, line):
        """Goes on until the next step is on a line of the source, or to the end; at least one step, where one is left."""
        made = self.machine.made
        while self.at < len(made):
            self.at += 1
            if self.at < len(made) and made[self.at][4] is None and made[self.at][1].instruction.line == line:
                return

    def picks_before(self, at):
        """How many picks the first steps made, so also how many numbers of the schedule come before those of the next step."""
        return bisect.bisect_left(self.pick_steps, at)

    def choose(self, place, number):
        """Replaces a number of the schedule, and takes back the choices after it."""
        self.chosen = {at: chosen for at, chosen in self.chosen.items() if at < place}
        self.chosen[place] = number
        self.make_run()

    def back(self, count):
        """Goes back by steps; what was chosen for them, or after them, is chosen no more."""
        self.at = max(self.at - count, 0)
        kept = {at: chosen for at, chosen in self.chosen.items() if at < self.picks_before(self.at)}
        if kept != self.chosen:
            self.chosen = kept
            self.make_run()

    def picks(self):
        """The picks of the steps so far."""
        return self.machine.picks[:self.picks_before(self.at)]
