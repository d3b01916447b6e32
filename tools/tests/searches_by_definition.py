"""Small programs without branches, and the searches through all their schedules, made from the definitions: an odometer over the picks of runs
by the rules of docs/MEMORY.md, as relations (`relations_by_definition.py`). Nothing here is taken from the program.

In a search with local steps first, a thread that has only steps left which no other thread can see makes them at once, without a pick. What is
seen is the same, in fewer runs.
"""
import relations_by_definition as relations
from log import Event

TYPES = {"compare": ["@i64", "@i64"], "wait": ["@i32"], "wake": ["@i32"]}
GIVE_NOTHING = ("store", "fence")


class Operation:
    """One instruction: its kind, its global, its order, and its number. A comparison puts `value` in place of `expected`, and has an order for
    where it fails; `copied` is the number of the result of its thread that a store stores, where it is no constant."""

    def __init__(self, kind, name=None, order="RELAXED", value=0, expected=0, failure="RELAXED", copied=None):
        self.kind, self.name, self.order, self.value = kind, name, order, value
        self.expected, self.failure, self.copied = expected, failure, copied

    def types(self):
        """The types of its results."""
        return [] if self.kind in GIVE_NOTHING else TYPES.get(self.kind, ["@i64"])

    def constants(self):
        """The numbers that it names."""
        if self.kind in ("load", "fence", "wake") or self.copied is not None:
            return []
        return [self.value, self.expected] if self.kind == "compare" else [self.value]

    def lines(self, first):
        """Its lines, where its first result has this number in its thread."""
        result, at = f"%r{first}", f"<@i64> {self.name}"
        stored = f"@c{self.value}" if self.copied is None else f"%r{self.copied}"
        return {
            "load": lambda: [f"{result} = LOAD {self.order} {at}"],
            "store": lambda: [f"STORE {self.order} {at} {stored}"],
            "add": lambda: [f"{result} = ATOMICRMW {self.order} ADD {at} @c{self.value}"],
            "exchange": lambda: [f"{result} = ATOMICRMW {self.order} XCHG {at} @c{self.value}"],
            "compare": lambda: [f"({result} %w{first + 1}) = CMPXCHG {self.order} {self.failure} {at} @c{self.expected} @c{self.value}",
                                f"%r{first + 1} = ZEXT <@i1 @i64> %w{first + 1}"],
            "fence": lambda: [f"FENCE {self.order}"],
            "wait": lambda: [f"{result} = COMMINST @uvm.futex.wait <@i64> ({self.name} @c{self.value})"],
            "wake": lambda: [f"{result} = COMMINST @uvm.futex.wake <@i64> ({self.name} @one)"],
        }[self.kind]()


def bundle_text(threads, names, title):
    """The bundle of these globals in which thread 0, from @main, makes the others, and then does its own."""
    kinds = {operation.kind for operations in threads for operation in operations}
    types = [[name for operation in operations for name in operation.types()] for operations in threads]
    signatures = {" ".join(of): f"@r{''.join(name[2:] for name in of)}" if set(of) - {"@i64"} else f"@r{len(of)}" for of in types}
    lines = [f"// {title}", *[".typedef @i1 = int<1>"] * ("compare" in kinds), *[".typedef @i32 = int<32>"] * bool(kinds & {"wait", "wake"})]
    lines += [".typedef @i64 = int<64>", *[".const @one <@i32> = 1"] * ("wake" in kinds)]
    lines += [f".funcsig {name} = () -> ({of})" for of, name in sorted(signatures.items())]
    constants = sorted({number for operations in threads for operation in operations for number in operation.constants()})
    lines += [f".const @c{number} <@i64> = {number}" for number in constants] + [f".global {name} <@i64>" for name in names]
    for number in [*range(1, len(threads)), 0]:
        lines += [f".funcdef @{f'p{number}' if number else 'main'} VERSION %v <{signatures[' '.join(types[number])]}> {{", "%e():"]
        if number == 0:
            others = range(1, len(threads))
            lines += [f"  %s{n} = COMMINST @uvm.new_stack <[{signatures[' '.join(types[n])]}]> (@p{n})" for n in others]
            lines += [f"  %t{n} = NEWTHREAD %s{n} PASS_VALUES<> ()" for n in others]
        first = 0
        for operation in threads[number]:
            lines += [f"  {line}" for line in operation.lines(first)]
            first += len(operation.types())
        lines += [f"  RET ({' '.join(f'%r{n}' for n in range(first))})", "}"]
    return "\n".join(lines) + "\n"


def steps_of(operations):
    """The steps of a thread, each with its operation. A comparison's second result is widened by a step of its own."""
    steps = [step for it in operations for step in ((it.kind, it), *[("widen", it)] * (it.kind == "compare"))]
    return [*steps, ("end", None)]


class Raced(Exception):
    """An access races: the run is over."""


class Memory:
    """The log of a run by some picks, which go on with 0; each pick with the number of its options, and the schedule."""

    # The rule of release sequences, and what is known of logs with one event more, for all runs of a program.
    release_sequences, known = "c11", {}

    def __init__(self, picks):
        self.given, self.picks, self.events, self.schedule = picks, [], [], []

    def pick(self, count):
        """The option that is taken, of so many."""
        if count == 1:
            return 0
        number = self.given[len(self.picks)] if len(self.picks) < len(self.given) else 0
        self.picks.append((count, number))
        self.schedule.append(number)
        return number

    def event(self, thread, kind, order=None, cell=None, position=None, value=None, other=None):
        """The event that may come next."""
        event = Event(0, "", len(self.events), thread, kind)
        event.order, event.cell, event.position, event.value, event.other = order, cell, position, value, other
        return event

    def holds(self, rule, event):
        """Whether a rule holds of the log with this event added."""
        key = (rule, *((it.thread, it.kind, it.order, it.cell, it.position, it.value, it.other) for it in [*self.events, event]))
        if key not in self.known:
            self.known[key] = rule([*self.events, event], self.release_sequences)
        return self.known[key]

    def values(self, cell):
        """All values of a cell, by their positions."""
        return [0, *(it.value for it in self.events if it.is_modification and it.cell == cell)]

    def log(self, thread, kind, order=None, cell=None, position=None, value=None, other=None):
        """Logs an event, unless it races."""
        event = self.event(thread, kind, order, cell, position, value, other)
        if event.is_access and self.holds(races, event):
            raise Raced(f"{kind} {order} {cell} {position} {value}")
        self.events.append(event)
        return event

    def reads(self, thread, order, cell):
        """The positions that a read may take, the newest first."""
        values = self.values(cell)
        return [at for at in reversed(range(len(values))) if self.holds(meets, self.event(thread, "read", order, cell, at, values[at]))]

    def read(self, thread, order, cell):
        """A load: it picks its position."""
        options, values = self.reads(thread, order, cell), self.values(cell)
        at = options[self.pick(len(options))]
        return self.log(thread, "read", order, cell, at, values[at]).value

    def compared(self, thread, cell, orders, expected, new):
        """A strong comparison: success first, then failures. Gives the value that it read, and whether it succeeded."""
        values = self.values(cell)
        options = [None] * (values[-1] == expected) + [at for at in self.reads(thread, orders[1], cell) if values[at] != expected]
        at = options[self.pick(len(options))]
        if at is None:
            self.log(thread, "update", orders[0], cell, len(values), new)
            return [values[-1], 1]
        self.log(thread, "read", orders[1], cell, at, values[at])
        return [values[at], 0]


class Run(Memory):
    """A run of threads without branches by some picks: what is seen of it."""

    def __init__(self, threads, names, picks, local_first):
        super().__init__(picks)
        self.threads, self.names, self.local_first = threads, names, local_first
        self.alive, self.waiting, self.ended = [0], [], {}
        # How many steps each thread has made, and what it got.
        self.at, self.got = [0] * len(threads), [[] for _ in threads]
        self.steps = [steps_of(operations) for operations in threads]
        # Thread 0 first makes the stacks of the others, and then the threads.
        self.steps[0] = [("make", (kind, n)) for kind in ("stack", "thread") for n in range(1, len(threads))] + self.steps[0]
        self.seen = self.go()

    def cell(self, it):
        """The cell of an operation's global, as a log writes it."""
        return f"#{self.names.index(it.name)}+0"

    def go(self):
        """Makes the run; gives what is seen of it."""
        while able := [it for it in self.alive if it not in self.waiting]:
            local = [it for it in able if self.local_first and self.steps[it][self.at[it]][0] in ("widen", "end")]
            thread = local[0] if local else able[self.pick(len(able))]
            self.schedule += [able.index(thread)] * bool(local and len(able) > 1)
            kind, operation = self.steps[thread][self.at[thread]]
            try:
                getattr(self, kind)(thread, operation)
            except Raced as race:
                function = f"p{thread}" if thread else "main"
                return f"undefined DataRace t{thread} @{function}.v.e {self.at[thread]} {race}\n"
            self.at[thread] += 1
        lines = [" ".join(map(str, ["returned", f"t{thread}", *values])) for thread, values in sorted(self.ended.items())]
        lines += [f"final {name} {self.values(f'#{n}+0')[-1]}" for n, name in enumerate(self.names)]
        lines.append("done" if not self.alive else " ".join(["all waiting", *(f"t{it}" for it in self.alive)]))
        return "\n".join(lines) + "\n"

    def make(self, thread, made):
        """A stack or a thread is made."""
        kind, other = made
        self.log(thread, kind, other=other)
        if kind == "thread":
            self.log(other, "enter", other=other)
            self.alive.append(other)

    def end(self, thread, _):
        """The thread returns what it got."""
        self.alive.remove(thread)
        self.ended[thread] = self.got[thread]

    def widen(self, thread, _):
        """The second result of a comparison gets more bits."""

    def load(self, thread, it):
        """A load."""
        self.got[thread].append(self.read(thread, it.order, self.cell(it)))

    def store(self, thread, it):
        """A store."""
        cell = self.cell(it)
        self.log(thread, "write", it.order, cell, len(self.values(cell)), it.value if it.copied is None else self.got[thread][it.copied])

    def update(self, thread, it, new):
        """An unconditional update."""
        cell = self.cell(it)
        values = self.values(cell)
        self.log(thread, "update", it.order, cell, len(values), new(values[-1]))
        self.got[thread].append(values[-1])

    def add(self, thread, it):
        """The sum of what the cell holds and a constant."""
        self.update(thread, it, lambda old: old + it.value)

    def exchange(self, thread, it):
        """A constant in place of what the cell holds."""
        self.update(thread, it, lambda old: it.value)

    def compare(self, thread, it):
        """A strong comparison."""
        self.got[thread] += self.compared(thread, self.cell(it), (it.order, it.failure), it.expected, it.value)

    def fence(self, thread, it):
        """A fence."""
        self.log(thread, "fence", it.order)

    def wait(self, thread, it):
        """A wait: it reads the newest value, and its result is -1, or 0 once it is woken."""
        cell = self.cell(it)
        values = self.values(cell)
        self.log(thread, "read", "RELAXED", cell, len(values) - 1, values[-1])
        if values[-1] == it.value:
            self.waiting.append(thread)
        self.got[thread].append(0 if values[-1] == it.value else 2**32 - 1)

    def wake(self, thread, it):
        """A wake of one thread, the one that waits longest there."""
        woken = [other for other in self.waiting if self.steps[other][self.at[other] - 1][1].name == it.name][:1]
        event = self.log(thread, "wake", cell=self.cell(it), other=len(woken))
        for other in woken:
            self.waiting.remove(other)
            self.log(other, "woken", other=event.number)
        self.got[thread].append(len(woken))


def meets(events, release_sequences):
    """Whether a log meets the axioms."""
    return relations.meets_axioms(events, release_sequences)


def races(events, release_sequences):
    """Whether the last event races with one before."""
    *earlier, new = events
    before = relations.happens_before(events, release_sequences)
    return any(it.is_access and it.cell == new.cell and it.thread != new.thread and (it.is_modification or new.is_modification)
               and "NOT_ATOMIC" in (it.order, new.order) and (it.number, new.number) not in before for it in earlier)


def outcomes_of(run_by, most_runs, release_sequences="c11"):
    """What is seen of all runs, as a rising list of texts, where `run_by` makes a run by some picks; None where there are more runs, or something of
    one is not known."""
    Memory.release_sequences, Memory.known, found, picks = release_sequences, {}, set(), []
    for _ in range(most_runs):
        run = run_by(picks)
        found.add(run.seen)
        at = max((n for n, (count, taken) in enumerate(run.picks) if taken + 1 < count), default=None)
        if run.seen is None or at is None:
            return None if run.seen is None else sorted(found)
        picks = [taken for _, taken in run.picks[:at]] + [run.picks[at][1] + 1]
    return None


def search(threads, names, most_runs, local_first=True):
    """What is seen of all runs of threads without branches, as a rising list of texts; None where there are more runs."""
    return outcomes_of(lambda picks: Run(threads, names, picks, local_first), most_runs)


def search_text(found, answers=()):
    """What a complete search with these outcomes has to write, with `schedule *` for whatever schedule shows one, and these lines of answers."""
    outcomes = "".join(f"outcome {number}\n{text}schedule *\n" for number, text in enumerate(found))
    return outcomes + "".join(f"{line}\n" for line in answers) + f"complete {len(found)}\n"
