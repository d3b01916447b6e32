"""What the memory model says of a run's log: who reads from whom, what synchronizes, what happens before what, what a read may take.

This is the text of docs/MEMORY.md in Python, by clocks. It is not proved, and the program does not use it; `scripts/check_runs` compares it
with the rules as relations, on random logs, and with what the program offers its reads.

A *clock* is a tuple with a number for each thread: an event is known to it where the event's number is below that of its thread.
"""
import bisect

from log import ACCESSES, ACQUIRES, RELEASES

INITIAL = -1


class Edge:
    """That one event synchronizes with a later one. `why` is `position`, `fence`, `stack`, `thread` or `wake`."""

    __slots__ = ("source", "target", "why")

    def __init__(self, source, target, why):
        self.source, self.target, self.why = source, target, why


class Cell:
    """What is kept of a cell: its modifications by position, its accesses by thread, and the releases of its newest position."""

    def __init__(self):
        self.modifications = [INITIAL]
        self.values = [None]
        self.numbers, self.positions = {}, {}
        self.strong_numbers, self.strong_positions = [], []
        self.heads = {}
        self.released = [{}]


class Relations:
    """The relations of a log, computed once, from its first event to its last.

    `reads_from[n]` is the number of the event that read or update n takes its value from, or INITIAL. `edges` are the pairs that
    synchronize; of those with one target, such as follow from the others are left out. `cells` has the modifications of each cell.
    """

    def __init__(self, log, rule="c11"):
        self.events = log.events
        self.rule = rule
        self.width = max(log.threads(), default=0) + 2
        nothing = (0,) * self.width
        self.clock_of = [nothing] * self.width
        # Of each event what happens before it; of each thread the numbers of its events.
        self.known, self.numbers = [], {}
        self.reads_from, self.edges, self.cells = {}, [], {}
        self.fence_source = [{} for _ in range(self.width)]
        self.pending = [{} for _ in range(self.width)]
        self.has_fences = any(event.kind == "fence" for event in self.events)
        self.stack_source, self.thread_source = {}, {}
        # The numbers of the SEQ_CST fences, also by thread, and what is known to each of them or to one before it.
        self.strong_fences, self.strong_fences_of, self.strong_clocks = [], {}, []
        self.clocks_after = {}
        for event in self.events:
            self.add(event)

    def happens_before(self, first, second):
        """Whether the event with the first number happens before that with the second."""
        if first == INITIAL or first >= second:
            return first == INITIAL
        a, b = self.events[first], self.events[second]
        return a.thread == b.thread or first < self.known[second][a.thread]

    def is_old(self, number):
        """Whether a read took another position than the newest."""
        event = self.events[number]
        return event.kind == "read" and event.position < self.newest(event.cell, number)

    def options_at(self, thread, order, cell_text, number):
        """The positions that a load could have taken if it had been the event with a number, the newest first."""
        cell = self.cells.get(cell_text)
        if cell is None:
            return range(0, -1, -1)
        newest = self.newest(cell_text, number)
        return range(newest, self.floor(thread, order, number, cell, self.clock_before(thread, number)) - 1, -1)

    def clock_before(self, thread, number):
        """What happens before whatever a thread does next, where the next event has a number."""
        numbers = self.numbers.get(thread, ())
        at = bisect.bisect_left(numbers, number)
        if at:
            return self.known[numbers[at - 1]]
        maker = self.thread_source.get(thread)
        return self.clock_of[thread] if maker is None else self.clock_after(maker)

    def next_options(self, thread, order, cell_text):
        """The positions that a load could take if it were the next event, the newest first."""
        return self.options_at(thread, order, cell_text, len(self.known))

    def newest(self, cell_text, number):
        """The newest position of a cell before the event with a number."""
        cell = self.cells.get(cell_text)
        return bisect.bisect_left(cell.modifications, number) - 1 if cell else 0

    def count(self, cell_text):
        """How many positions a cell has."""
        return len(self.cells[cell_text].modifications) if cell_text in self.cells else 1

    def value_at(self, cell_text, position):
        """The value at a position of a cell; None where no event says what the initial value is."""
        cell = self.cells.get(cell_text)
        return cell.values[position] if cell and position < len(cell.values) else None

    def add(self, event):
        """Adds the next event: it takes, then its clock is known, then it gives."""
        thread = event.thread
        if thread not in self.numbers:
            self.numbers[thread] = []
            if thread in self.thread_source:
                self.take(event, {None: self.thread_source[thread]}, "thread")
        self.numbers[thread].append(event.number)
        if event.kind in ACCESSES:
            cell = self.cells.get(event.cell)
            if cell is None:
                cell = self.cells[event.cell] = Cell()
            self.take_position(event, cell)
            self.known.append(self.clock_of[thread])
            self.give_access(event, cell)
            return
        if event.kind == "fence":
            self.take_fence(event)
        elif event.kind == "enter" and event.other in self.stack_source:
            self.take(event, {None: self.stack_source.pop(event.other)}, "stack")
        elif event.kind == "woken":
            self.take(event, {None: event.other}, "wake")
        self.known.append(self.clock_of[thread])
        self.give(event)

    def take(self, event, sources, why):
        """The event's thread takes the clocks after some events; an edge stands for each that does not follow from another of them.

        What an acquire fence knows already has no edge either: its thread's reads may have been long ago.
        """
        own = self.clock_of[event.thread]
        taken = own if why == "fence" else (0,) * self.width
        for number in sorted(set(sources.values()), reverse=True):
            source = self.events[number]
            if source.thread != event.thread and number >= taken[source.thread]:
                self.edges.append(Edge(number, event.number, why))
                taken = joined(taken, self.clock_after(number))
        self.clock_of[event.thread] = joined(own, taken)

    def clock_after(self, number):
        """What an event knew, and itself."""
        if number not in self.clocks_after:
            thread, clock = self.events[number].thread, self.known[number]
            self.clocks_after[number] = clock[:thread] + (number + 1,) + clock[thread + 1:]
        return self.clocks_after[number]

    def take_position(self, event, cell):
        """What a read or an update takes: its value, and the releases of its position."""
        kind, number = event.kind, event.number
        if kind == "write":
            return
        taken = event.position if kind == "read" else event.position - 1
        if taken >= len(cell.modifications):
            self.reads_from[number] = INITIAL
            return
        self.reads_from[number] = cell.modifications[taken]
        if taken == 0 and kind == "read":
            cell.values[0] = event.value
        released = cell.released[taken]
        if released and event.order != "NOT_ATOMIC":
            if event.order in ACQUIRES:
                self.take(event, released, "position")
            elif self.has_fences:
                self.pending[event.thread] = with_newer(self.pending[event.thread], released)

    def take_fence(self, event):
        """What an acquire fence takes: all that its thread's atomic reads left for it."""
        if event.is_acquire:
            self.take(event, self.pending[event.thread], "fence")

    def give(self, event):
        """What the event leaves for later ones."""
        if event.kind == "fence":
            if event.is_release:
                self.fence_source[event.thread] = {event.thread: event.number}
            if event.order == "SEQ_CST":
                before = self.strong_clocks[-1] if self.strong_clocks else (0,) * self.width
                self.strong_fences.append(event.number)
                self.strong_fences_of.setdefault(event.thread, []).append(event.number)
                self.strong_clocks.append(joined(before, self.clock_after(event.number)))
        elif event.kind in ("stack", "leave"):
            self.stack_source[event.other] = event.number
        elif event.kind == "thread":
            self.thread_source[event.other] = event.number

    def give_access(self, event, cell):
        """Keeps an access of its cell, and the release sequences that a modification is in."""
        thread, number, position = event.thread, event.number, event.position
        if thread not in cell.numbers:
            cell.numbers[thread], cell.positions[thread] = [], []
        cell.numbers[thread].append(number)
        cell.positions[thread].append(position)
        if event.order == "SEQ_CST":
            cell.strong_numbers.append(number)
            cell.strong_positions.append(max(position, cell.strong_positions[-1] if cell.strong_positions else 0))
        if event.kind != "read":
            cell.heads = self.heads_after(event, cell.heads)
            cell.released.append(cell.heads)
            cell.modifications.append(number)
            cell.values.append(event.value)

    def heads_after(self, event, heads):
        """The releases that an acquire of a modification's position takes: of each thread the newest. `heads` are those before it."""
        thread = event.thread
        if event.kind == "write":
            if event.order == "NOT_ATOMIC":
                return {}
            heads = {thread: heads[thread]} if self.rule == "c11" and thread in heads else {}
        if event.order in RELEASES:
            return {**heads, thread: event.number}
        own = self.fence_source[thread]
        return with_newer(heads, own) if own else heads

    def floor(self, thread, order, number, cell, clock):
        """The lowest position that a read may take: it knows an access that has it, or the order of SEQ_CST says so."""
        best = self.highest_known(cell, clock, thread, number)
        limit = number if order == "SEQ_CST" else self.last_strong_fence(thread, clock, number)
        if limit:
            at = bisect.bisect_left(cell.strong_numbers, limit)
            if at:
                best = max(best, cell.strong_positions[at - 1])
            at = bisect.bisect_left(self.strong_fences, limit)
            if at:
                best = max(best, self.highest_known(cell, self.strong_clocks[at - 1], None, 0))
        return best

    def last_strong_fence(self, thread, clock, number):
        """The number of the last SEQ_CST fence that a thread knows before an event, 0 without one. SEQ_CST events before it bind its reads."""
        last = 0
        for other, fences in self.strong_fences_of.items():
            at = bisect.bisect_left(fences, number if other == thread else clock[other])
            last = max(last, fences[at - 1] if at else 0)
        return last

    def highest_known(self, cell, clock, own, limit):
        """The highest position among the accesses of a cell that a clock knows, and those of the thread `own` below a number."""
        best = 0
        for thread, numbers in cell.numbers.items():
            at = bisect.bisect_left(numbers, limit if thread == own else clock[thread])
            if at:
                best = max(best, cell.positions[thread][at - 1])
        return best


def joined(first, second):
    """The clock that knows what either knows."""
    return tuple(map(max, first, second))


def with_newer(kept, more):
    """Of each thread the newer of two sources."""
    return {**kept, **{thread: max(number, kept.get(thread, number)) for thread, number in more.items()}}
