"""`--step`: a run made step by step, as somebody chooses, on a terminal or by a list of commands on standard input.

`replay.py` says how. A schedule among the words of the run gives the picks where nothing else is chosen; after it, or without one, they are
option 0, as in a run.
"""
import re
import sys

from caret import as_read
from failure import Failure
from paint import Paint
from replay import Replay
from seeds import seeded
from session import named

MOST_CELLS = 12
MOST_OPTIONS = 6
LONGEST_VALUE = 40
HELP = """step [tN] [K]   make a step: of thread N, its read taking option K; what is left out is picked by the schedule (also: s, or an empty line)
back [N]        take N steps back (b)
run [LINE]      make steps until a thread's next step is on this line of the source, or until the end (r)
threads         where each thread stands, its variables, and the named globals (t)
lines           all lines of the run so far (l)
source [LINE]   the source around the next step, or around a line (c)
write FILE      write the schedule of the steps so far (w)
help            this text (h)
quit            end (q)"""


class Stepper:
    """A session: what is shown of the replay, and what is asked of it."""

    def __init__(self, replay, paint):
        self.replay, self.paint = replay, paint
        self.source, self.names = replay.session.source, replay.session.cell_names

    def say(self, text="", *colours):
        """Prints a line."""
        print(self.paint(text.rstrip(), *colours))

    def can_go_on(self):
        """Whether a step is left; says so where none is."""
        replay = self.replay
        if replay.is_over and replay.machine.lost:
            raise Failure(f"the run cannot be shown further: {replay.machine.lost}")
        if replay.is_over:
            self.say(f"The run has ended: {replay.lines()[-1]}", "bold")
        return not replay.is_over

    def step(self, thread=None, option=None):
        """Makes one step; what is not given is picked by the schedule. Returns whether it was made."""
        if not self.can_go_on():
            return False
        replay, threads = self.replay, self.replay.threads()
        number = replay.next_thread() if thread is None else thread
        if number not in replay.runnable():
            self.say(f"Thread t{number} cannot make a step now.")
            return False
        count = len(replay.options(number, threads[number])) if option is not None else 0
        if count > 1 and option >= count:
            self.say(f"That read has {count} options, from 0.")
            return False
        replay.step(thread, option)
        return True

    def show_step(self):
        """What the last step was, and the lines that it made."""
        at = self.replay.at
        step = self.replay.machine.step(at - 1)
        what = "the end of its wait" if step.waited_at else step.node.instruction.shown
        self.say(f"step {at}: t{step.thread}, {what}", "bold")
        for text in self.replay.lines(at - 1):
            self.say("  " + self.named(text), "green")

    def named(self, text):
        """A text with the names of globals."""
        return named(text, self.names)

    def show_threads(self):
        """Where each thread stands, what it can choose, its variables, and the globals."""
        picked = self.replay.next_thread()
        for number, thread in self.replay.threads().items():
            mark = ">" if number == picked else " "
            self.say(f"{mark} {self.paint.thread(f't{number}', number)}  {self.standing(number, thread)}")
            variables = thread.variables() if thread.state == "ready" and not self.replay.is_over else []
            if variables:
                self.say("       " + "  ".join(f"{name} = {shortened(self.named(value))}" for name, value in variables))
        self.show_globals()

    def standing(self, number, thread):
        """What one thread does next."""
        if thread.state == "ended":
            return "ended"
        where = thread.node.instruction.shown
        if self.replay.is_over:
            return "at " + where
        if thread.state != "ready":
            return f"waits at {self.named(thread.cell)}{' and may time out' if thread.state == 'may time out' else ''}, {where}"
        options = self.replay.options(number, thread)
        if len(options) < 2:
            return where
        said = [self.option(thread.node, options, index) for index in range(min(len(options), MOST_OPTIONS))]
        more = f", .. {len(options)} options" if len(options) > MOST_OPTIONS else ""
        return f"{where}   [{', '.join(said)}{more}]"

    def option(self, node, options, index):
        """One option of the read at a node."""
        what, position = options[index]
        value = self.named(self.replay.machine.value_at(node, options.cell, position))
        return f"{index}: {what} {value}" + ("" if what == "succeeds" else f" (position {position})")

    def show_globals(self):
        """The newest value of each cell of the globals, the first of them."""
        session, events, said = self.replay.session, self.replay.events(), []
        for cell, name in list(self.names.items())[:MOST_CELLS]:
            newest = session.relations.newest(cell, events)
            value = session.relations.value_at(cell, newest) if newest else session.initial(cell)
            said.append(f"{name} = {shortened(self.named(value))} (position {newest})")
        left = len(self.names) - MOST_CELLS
        if said:
            self.say("  memory  " + "  ".join(said) + (f"  .. and {left} more cells" if left > 0 else ""), "dim")

    def run(self, line):
        """Makes steps until the next one is on a line of the source, or until the end."""
        if self.can_go_on():
            self.replay.run_to(line)
        if self.replay.at:
            self.show_step()

    def back(self, count):
        """Takes steps back."""
        self.replay.back(count)
        self.say(f"after step {self.replay.at}", "bold")

    def show_source(self, line):
        """The source around a line; the next instructions of threads are marked."""
        next_lines = {}
        for number, thread in self.replay.threads().items():
            if thread.node:
                next_lines.setdefault(thread.node.instruction.line, []).append(f"t{number}")
        if line is None:
            line = min(next_lines, default=1)
            if not self.replay.is_over:
                line = self.replay.machine.step(self.replay.at).node.instruction.line
        for number in range(max(line - 5, 1), min(line + 5, len(self.source.lines)) + 1):
            marks = ",".join(next_lines.get(number, []))
            self.say(f"{marks:>6} {number:4}  {as_read(self.source.lines[number - 1])}", *(["bold"] if marks else []))

    def write(self, name):
        """Writes the schedule so far."""
        try:
            with open(name, "w", encoding="utf-8") as file:
                for pick in self.replay.picks():
                    what = "read" if pick.is_read else "thread"
                    file.write(f"{pick.taken}    // step {pick.step + 1}, {what}: one of {len(pick.options)}\n")
        except OSError as error:
            self.say(f"{name}: {error.strerror}")
            return
        self.say(f"wrote {name}: the schedule of {self.replay.at} steps")


def shortened(value):
    """A value, cut where it is long."""
    return value if len(value) <= LONGEST_VALUE else value[:LONGEST_VALUE - 2] + ".."


def obey(stepper, words):
    """Does one command; returns whether the session goes on."""
    name = words[0] if words else "step"
    numbers = [int(word.lstrip("t")) for word in words[1:] if re.fullmatch(r"t?\d+", word)]
    if name in ("step", "s"):
        thread = next((int(word[1:]) for word in words[1:] if re.fullmatch(r"t\d+", word)), None)
        option = next((int(word) for word in words[1:] if word.isdigit()), None)
        if stepper.step(thread, option):
            stepper.show_step()
        stepper.show_threads()
    elif name in ("back", "b"):
        stepper.back(numbers[0] if numbers else 1)
        stepper.show_threads()
    elif name in ("run", "r"):
        stepper.run(numbers[0] if numbers else None)
        stepper.show_threads()
    elif name in ("threads", "t"):
        stepper.show_threads()
    elif name in ("lines", "l"):
        for text in stepper.replay.lines():
            stepper.say(stepper.named(text))
    elif name in ("source", "c"):
        stepper.show_source(numbers[0] if numbers else None)
    elif name in ("write", "w") and len(words) == 2:
        stepper.write(words[1])
    elif name in ("quit", "q"):
        return False
    else:
        stepper.say(HELP)
    return True


def commands(paint):
    """The commands: asked for on a terminal, else the lines of standard input, which are printed as they are done."""
    while True:
        if sys.stdin.isatty():
            print(paint("mu> ", "bold"), end="", flush=True)
        line = sys.stdin.readline()
        if not line:
            return
        if not sys.stdin.isatty():
            print(f"mu> {line.strip()}")
        yield line.split()


def step(program, options, words):
    """Steps through the run that the words ask for."""
    with seeded(program, options, words, "--step") as call:
        replay = Replay(program, call)
        if replay.session.refused:
            sys.stdout.write(replay.session.output)
            return replay.session.status
        paint = Paint()
        stepper = Stepper(replay, paint)
        if sys.stdin.isatty():
            stepper.say("help says the commands", "dim")
        stepper.show_threads()
        try:
            for command in commands(paint):
                if not obey(stepper, command):
                    break
        except KeyboardInterrupt:
            print()
        return 0
