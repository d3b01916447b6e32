"""A run made again from what it printed: each step, with its thread, its instruction, its variables, its lines and its picks.

The program prints neither steps nor variables. They follow from the bundle, the schedule and the lines: what an instruction computes is
computed here, what memory gave is taken from the lines, and which thread makes a step is said by the schedule. So the run is gone through
once, from its first step to its last. Each line that the program printed has to come where it comes here, and of the same thread, cell and
value: else `lost` says so, and nothing is said of the steps from there on. This is no part of the program, and it is not proved; the tests
compare it with runs of a copy of the bundle with traps (`tests/by_copies.py`).
"""
import typing

import fitting
from acts import made_ready
from acts_in_log import TIME_OVER, WOKEN
from log import Ending, Event, Record
from nodes import NULL, printed
from read_options import ReadOptions

MOST_THREADS = 64


class Lost(Exception):
    """A line is not the one that comes here."""


class Ended(Exception):
    """The step makes the ending."""


class Frame:
    """A call that has not returned: the instruction where it stands, None before the first one, and the variables of its block."""

    __slots__ = ("node", "values")

    def __init__(self, node, values):
        self.node, self.values = node, values


class Stack:
    """A stack: its frames, the lowest first; it is `ready` to be entered, `active` or `dead`. `block` is where its next frame begins, of a new
    stack, and of one on which the client pushed a function."""

    __slots__ = ("frames", "state", "block")

    def __init__(self, block):
        self.frames, self.state, self.block = [], "ready", block


class Thread:
    """A thread: `ready`, `waits` (without a limit) at a cell, `may time out` there, or `ended`."""

    __slots__ = ("number", "stack", "frames", "state", "cell", "own_value")

    def __init__(self, number, own_value):
        self.number, self.own_value = number, own_value
        self.stack, self.frames, self.state, self.cell = None, [], "ready", None


class Step(typing.NamedTuple):
    """One step: its thread's number, its instruction, the variables of its block (also those that come later), the row of its first line,
    and the cell at which its thread waited, whose wait it ended; None where it did its instruction."""

    thread: int
    node: object
    values: dict
    row: int
    waited_at: str


class Pick:
    """One pick among two or more: the number of its step, from 0; the threads, or the options of a read; which of them was taken; and the
    number of the schedule, None after its end."""

    __slots__ = ("step", "options", "taken", "number")

    def __init__(self, step, options, taken, number):
        self.step, self.options, self.taken, self.number = step, options, taken, number

    @property
    def is_read(self):
        """Whether a read picks, and no thread is picked."""
        return type(self.options) is ReadOptions


class Machine:
    """The threads and stacks of a run after some of its steps, and all that was seen of the steps so far.

    `made` has the fields of each step, `states` each change of what a thread does: (number of steps before it, thread, state, cell), and
    `waits` the instruction of the wait that ended at the row of a `woken`. `ends` says that the last step made the ending.
    """

    def __init__(self, setting):
        self.setting, self.code = setting, setting.code
        self.log, self.relations = setting.log, setting.relations
        self.lines, self.row = [*setting.log.lines, None], 0
        self.threads, self.stacks, self.runnable = {}, {}, ()
        self.made, self.picks, self.states, self.waits = [], [], [], {}
        self.numbers, self.used = setting.numbers, 0
        self.objects, self.cells_left = fitting.Objects(setting.code, list(setting.objects)), setting.cells
        self.watched, self.traps, self.by_value = set(), 0, {}
        self.lost, self.ends = None, False

    # Going through the run.

    def follow(self):
        """Goes through the run to its end, or until a line is not the one that comes here."""
        try:
            self.begin()
            self.make_steps()
            self.check_end()
        except Ended:
            self.ends = True
        except Lost as lost:
            self.lost = str(lost)
        return self

    def begin(self):
        """Puts thread 0 on stack 0, in the entry."""
        self.make_stack(0, self.code.entry_of(self.setting.entry))
        thread = self.make_thread(0, NULL)
        self.enter_stack(thread, 0, [], None)

    def make_steps(self):
        """Makes steps, as long as a thread can go on and the budget allows it."""
        made, threads, budget = self.made, self.threads, self.setting.budget
        while self.runnable and len(made) < budget:
            runnable = self.runnable
            number = runnable[0] if len(runnable) == 1 else self.pick_thread(runnable)
            thread = threads[number]
            frame = thread.frames[-1]
            node = frame.node
            made.append((number, node, frame.values, self.row, thread.cell))
            if thread.cell is None:
                (node.act or made_ready(node))(self, thread)
            else:
                self.record(thread, "timed")
                self.end_wait(thread, TIME_OVER)

    def step(self, number):
        """A step by its number, from 0."""
        return Step(*self.made[number])

    def check_end(self):
        """After the last step only the ending may be left, and it says why there is no next step."""
        is_left = any(thread.state != "ended" for thread in self.threads.values())
        word = "budget" if self.runnable else "all" if is_left else "done"
        line = self.lines[self.row]
        if type(line) is not Ending or line.kind != word:
            self.lose(f"the run ends with `{word}`")

    def lose(self, what):
        """Ends what can be said: the next line is another than `what`."""
        line = self.lines[self.row]
        found = f"`{line.text}`" if line else "nothing"
        raise Lost(f"after {len(self.made)} steps the run prints {found}, and as the tool follows it {what}")

    def instruction_of_rows(self):
        """Of each row of the output the instruction that made it, None where none did. A `woken` has that of its thread's wait."""
        found = [None] * (len(self.lines) - 1)
        rows = [row for _, _, _, row, _ in self.made] + [self.row + self.ends]
        for (_, node, _, _, _), first, end in zip(self.made, rows, rows[1:]):
            for row in range(first, end):
                found[row] = node.instruction
        for row, node in self.waits.items():
            found[row] = node.instruction
        return found

    # Picks.

    def take(self):
        """The next number of the schedule; None after its end."""
        if self.used >= len(self.numbers):
            return None
        self.used += 1
        return self.numbers[self.used - 1]

    def pick_thread(self, runnable):
        """The thread that the schedule picks."""
        number = self.take()
        taken = (number or 0) % len(runnable)
        self.picks.append(Pick(len(self.made), runnable, taken, number))
        return runnable[taken]

    def note_read(self, options, event):
        """Keeps the pick of a read."""
        if len(options) < 2:
            return
        number, taken = self.take(), options.index(event)
        if (number or 0) % len(options) != taken:
            self.lose("the schedule picks another option of this read")
        self.picks.append(Pick(len(self.made) - 1, options, taken, number))

    # Lines.

    def event(self, thread, kind):
        """The next line, which is an event of a thread and of a kind; where the ending stands the step makes it."""
        line = self.lines[self.row]
        if type(line) is Ending:
            self.end(thread)
        if type(line) is not Event or line.kind != kind or line.thread != thread.number:
            self.lose(f"t{thread.number} makes `{kind}`")
        self.row += 1
        return line

    def record(self, thread, kind, text=None):
        """The next line, which is a record of a thread and of a kind, and of a text where that is known."""
        line = self.lines[self.row]
        if type(line) is not Record or line.kind != kind or line.thread != thread.number or text not in (None, line.text):
            self.lose(f"t{thread.number} makes `{text or kind}`")
        self.row += 1
        return line

    def access(self, thread, kind, cell, order, written=None):
        """The line of an access that picks nothing."""
        event = self.next_access(thread, {kind: order}, cell, written)
        self.pass_access(thread, event)
        return event

    def next_access(self, thread, orders, cell, written=None):
        """The access that the next line is, of one of the kinds that have orders; where the ending is a race the event that was not made.

        `written` is the value of a modification, where it is known.
        """
        line = self.lines[self.row]
        if type(line) is Ending:
            if not line.race or line.thread != thread.number:
                self.end(thread)
            event = line.race
            event.number = len(self.log.events)
        else:
            event = line
        if type(event) is not Event or event.thread != thread.number or event.order != orders.get(event.kind, False) or event.cell != cell:
            self.lose(f"t{thread.number} makes `{' or '.join(f'{kind} {order}' for kind, order in orders.items())} {cell}`")
        if written is not None and event.kind != "read" and event.value != str(written):
            self.lose(f"t{thread.number} writes {written}")
        return event

    def pass_access(self, thread, event):
        """Goes past the line of an access; one that raced was not made."""
        if self.lines[self.row] is not event:
            self.end(thread)
        self.row += 1

    def end(self, thread):
        """The step of a thread makes the ending."""
        line = self.lines[self.row]
        if type(line) is not Ending or line.thread != thread.number:
            self.lose(f"t{thread.number} ends the run")
        raise Ended

    def is_at_ending(self, thread, node):
        """Whether an instruction that makes no line may make the ending: all lines were made, and the ending names it."""
        line = self.lines[self.row]
        return type(line) is Ending and line.kind == "undefined" and line.thread == thread.number and line.place == node.instruction.place

    def fault(self, thread, node):
        """An instruction cannot do its work: it goes to its destination for exceptions, with NULL, or makes the ending."""
        if node.exceptional is None:
            self.end(thread)
        node.exceptional.go(thread.frames[-1], NULL)

    # Memory.

    def value_at(self, node, cell, position):
        """The text of the value at a position of a cell."""
        found = self.relations.value_at(cell, position)
        if found is None:
            found = self.setting.initial(cell)
        return found if found is not None else printed(self.code.zero(node.type()))

    def read(self, thread, orders, cell, options, written=None):
        """The line of a LOAD or a CMPXCHG, which took one of its options."""
        event = self.next_access(thread, orders, cell, written)
        self.note_read(options(self, thread.number, thread.frames[-1].values, event.number), event)
        self.pass_access(thread, event)
        return event

    def load_options(self, thread, cell, order, number):
        """What a LOAD of a thread has to choose among, were it the event with a number."""
        return ReadOptions("read", cell, self.relations.options_at(thread, order, cell, number))

    def compare_options(self, thread, node, cell, order, expected, is_weak, number):
        """What a CMPXCHG of a thread has to choose among, were it the event with a number."""
        positions = self.relations.options_at(thread, order, cell, number)
        expected = str(expected)
        succeeds = self.value_at(node, cell, positions[0]) == expected
        return ReadOptions("fails", cell, positions, succeeds, () if is_weak else self.positions_of(node, cell, expected))

    def positions_of(self, node, cell, value):
        """All positions of a cell that have a value."""
        if cell not in self.by_value:
            found = self.by_value[cell] = {}
            for position in range(self.relations.count(cell)):
                found.setdefault(self.value_at(node, cell, position), []).append(position)
        return self.by_value[cell].get(value, ())

    def new_object(self, thread, node, size, made, suffix):
        """An object of so many cells, which is `made` of a type with so many elements, and the reference to it."""
        if size > self.cells_left:
            self.fault(thread, node)
            return
        self.cells_left -= size
        node.give(thread.frames[-1], (f"#{self.objects.add(made)}{suffix}",))

    # Threads and stacks.

    def set_state(self, thread, state, cell=None):
        """What a thread does from here on."""
        thread.state, thread.cell = state, cell
        self.states.append((len(self.made), thread.number, state, cell))
        self.runnable = tuple(number for number, it in sorted(self.threads.items()) if it.state in ("ready", "may time out"))

    def is_full_of_threads(self):
        """Whether no thread can be made."""
        return len(self.threads) >= MOST_THREADS

    def make_thread(self, number, own_value):
        """A new thread."""
        thread = self.threads[number] = Thread(number, own_value)
        self.set_state(thread, "ready")
        return thread

    def end_thread(self, thread):
        """A thread has ended, and its stack is dead."""
        self.stacks[thread.stack].state = "dead"
        self.set_state(thread, "ended")

    def let_wait(self, thread, cell, is_limited):
        """A thread begins to wait; where its wait is what it does the line of the wait was just passed."""
        self.set_state(thread, "may time out" if is_limited else "waits", cell)

    def end_wait(self, thread, result):
        """The wait of a thread is over, and gives a result."""
        self.set_state(thread, "ready")
        frame = thread.frames[-1]
        frame.node.give(frame, (result,))

    def wake(self):
        """The next line, by which a thread is woken."""
        line = self.lines[self.row]
        if type(line) is not Event or line.kind != "woken" or self.threads[line.thread].cell is None:
            self.lose("a thread is woken")
        thread = self.threads[line.thread]
        self.waits[self.row] = thread.frames[-1].node
        self.row += 1
        self.end_wait(thread, WOKEN)

    def make_stack(self, number, block):
        """A new stack, on which nothing was done yet."""
        self.stacks[number] = Stack(block)

    def new_frame(self, block, passed):
        """A frame at the beginning of a function, with its arguments."""
        return Frame(block.first, dict(zip(block.parameters, passed)))

    def leave(self, thread):
        """The line by which a thread leaves its stack."""
        self.event(thread, "leave")
        self.stacks[thread.stack].state = "ready"

    def kill_ready(self, thread, stack):
        """Kills a stack that is ready."""
        if stack == NULL or self.stacks[int(stack[1:])].state != "ready":
            self.end(thread)
        self.stacks[int(stack[1:])].state = "dead"

    def enter(self, thread, values, exception):
        """The line by which a thread enters a stack, with values or with an exception."""
        event = self.event(thread, "enter")
        if thread.stack is not None and self.stacks[thread.stack].state == "active":
            self.stacks[thread.stack].state = "dead"
        self.enter_stack(thread, event.other, values, exception)

    def enter_stack(self, thread, number, values, exception):
        """A thread goes on on a stack."""
        stack = self.stacks[number]
        thread.stack, thread.frames, stack.state = number, stack.frames, "active"
        if exception is not None:
            stack.block = None
            self.unwind(thread, exception)
        elif stack.block is not None:
            stack.frames.append(self.new_frame(stack.block, values))
            stack.block = None
        else:
            frame = stack.frames[-1]
            frame.node.give(frame, values)

    def unwind(self, thread, exception):
        """Ends frames down to the first that has a destination for exceptions, which gets the exception."""
        frames = thread.frames
        catching = next((at for at in reversed(range(len(frames))) if frames[at].node.exceptional), None)
        if catching is None:
            self.end(thread)
        del frames[catching + 1:]
        frames[-1].node.exceptional.go(frames[-1], exception)

    # Traps.

    def trap(self, thread, node, kind):
        """A trap: the thread leaves its stack, the client answers, and where that goes on the thread enters a stack."""
        self.leave(thread)
        if self.record(thread, kind).place != node.instruction.place:
            self.row -= 1
            self.lose(f"t{thread.number} traps at another instruction")
        while type(self.lines[self.row]) is Record and self.lines[self.row].kind in ("frame", "kept"):
            self.row += 1
        if type(self.lines[self.row]) is Ending:
            raise Ended
        if self.traps < len(self.setting.entries):
            self.traps += 1
            self.reply(thread, self.setting.entries[self.traps - 1])
        elif self.setting.is_auto:
            self.enter(thread, [self.code.zero(token.text) for token in node.read.types], None)
        else:
            self.lose("the client stops the run")

    def reply(self, thread, entry):
        """What an entry of the client does, where the run goes on."""
        for action in entry.actions:
            if action.token.text == "watch":
                self.watched.add(action.number)
            elif action.token.text == "unwatch":
                self.watched.discard(action.number)
        given = [self.argument(thread, argument) for argument in entry.arguments]
        self.edit(thread, entry)
        if entry.reply.text == "exit":
            self.record(thread, "exited")
            self.set_state(thread, "ended")
        elif entry.throws:
            self.enter(thread, None, given[0])
        else:
            self.enter(thread, given, None)

    def edit(self, thread, entry):
        """What an entry does to the frames of the trapped stack: a frame that is pushed is there once the stack is entered."""
        stack = self.stacks[thread.stack]
        if entry.pop and entry.pop.number:
            del stack.frames[-entry.pop.number:]
        if entry.push:
            stack.block = self.code.entry_of(entry.push.text)

    def argument(self, thread, argument):
        """The value of an argument of a client's entry: a constant's, or one that a frame of the trapped stack keeps."""
        if argument.frame is None:
            return self.code.constant(argument.token.text)
        frame = thread.frames[-1 - argument.frame]
        return frame.values[frame.node.read.kept()[argument.number].text]
