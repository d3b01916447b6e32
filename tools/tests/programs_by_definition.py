"""Small programs with branches, calls, arrays and waits, read from their bundles, and the outcomes of all their runs, by the rules of
docs/MEMORY.md and docs/INSTRUCTIONS.md. A bundle has one instruction on a line, and only instructions that are named below; nothing here is taken
from the program. Steps that no other thread can see are made first, without a pick, as far as they are known here.
"""
import re

from searches_by_definition import Memory, Raced, outcomes_of

DEFINITION = re.compile(r"\.funcdef (@\w+) VERSION %\w+ <\S+> \{")
HEAD = re.compile(r"(%\w+)\((.*)\):")
RESULTS = re.compile(r"(?:(%\w+)|\(([^)]*)\)) = (.*)")
GOAL = re.compile(r"(%\w+)\(([^)]*)\)")
ORDERS = ("NOT_ATOMIC", "RELAXED", "ACQUIRE", "RELEASE", "ACQ_REL", "SEQ_CST")
COMPUTED = {"ADD": lambda a, b: a + b, "SUB": lambda a, b: a - b, "AND": lambda a, b: a & b, "EQ": lambda a, b: int(a == b)}
UPDATES = {"ADD": lambda a, b: a + b, "SUB": lambda a, b: a - b, "XCHG": lambda _, b: b}
LOCAL = (*COMPUTED, "ZEXT", "GETELEMIREF", "BRANCH", "BRANCH2", "CALL", "RET")


class Program:
    """A bundle: its constants, its globals with how many cells each has, its functions, and how wide its integer types are."""

    def __init__(self, text):
        self.constants, self.globals, self.functions, widths, arrays = {}, {}, {}, {}, {}
        for line in (it.split("//")[0].strip() for it in text.splitlines()):
            words = line.split()
            if found := re.fullmatch(r"\.typedef (@\w+) = int<(\d+)>", line):
                widths[found[1]] = int(found[2])
            elif found := re.fullmatch(r"\.typedef (@\w+) = array<@\w+ (\d+)>", line):
                arrays[found[1]] = int(found[2])
            elif words[:1] == [".const"]:
                self.constants[words[1]] = int(words[4])
            elif words[:1] == [".global"]:
                self.globals[words[1]] = arrays.get(words[2][1:-1], 1)
            elif found := DEFINITION.fullmatch(line):
                blocks = self.functions[found[1]] = {}
            elif found := HEAD.fullmatch(line):
                block = blocks[found[1]] = ([name for name in found[2].split() if name.startswith("%")], [])
            elif line and not line.startswith((".typedef", ".funcsig", "}")):
                block[1].append(instruction(line))
        self.widths, self.objects = widths, list(self.globals)


def instruction(line):
    """An instruction: the names of its results, its word, and the rest of its words."""
    results, rest = [], line
    if found := RESULTS.fullmatch(line):
        results, rest = (found[1] or found[2]).split(), found[3]
    word, _, rest = rest.partition(" ")
    return results, word, rest


class Frame:
    """A call that has not returned: its function, its block, how many instructions were made of it, its variables, and the results of the call
    that waits for it."""

    def __init__(self, function, values):
        self.function, self.block, self.at, self.values, self.results = function, "", 0, values, []


class Run(Memory):
    """A run of a program by some picks."""

    def __init__(self, program, picks, most_steps):
        super().__init__(picks)
        self.program, self.most_steps = program, most_steps
        self.frames, self.waiting, self.ended, self.stacks = {0: []}, {}, {}, 0
        self.enter(0, "@main", [])
        self.seen = self.go()

    def enter(self, thread, function, values):
        """Enters a function."""
        block = next(iter(self.program.functions[function]))
        frame = Frame(function, {})
        self.frames[thread].append(frame)
        self.branch(frame, block, values)

    def branch(self, frame, block, values):
        """Goes to a block."""
        names, _ = self.program.functions[frame.function][block]
        frame.block, frame.at, frame.values = block, 0, dict(zip(names, values))

    def next_of(self, thread):
        """The instruction that a thread makes next."""
        frame = self.frames[thread][-1]
        return self.program.functions[frame.function][frame.block][1][frame.at]

    def go(self):
        """Makes the run; gives what is seen of it."""
        for _ in range(self.most_steps):
            able = [it for it in sorted(self.frames) if it not in self.waiting]
            if not able:
                break
            local = [it for it in able if self.next_of(it)[1] in LOCAL]
            thread = local[0] if local else able[self.pick(len(able))]
            frame, (results, word, rest) = self.frames[thread][-1], self.next_of(thread)
            try:
                given = getattr(self, f"do_{word.lower()}", None)
                given = given(thread, frame, rest) if given else self.compute(frame, word, rest)
            except Raced as race:
                return f"undefined DataRace t{thread} {frame.function}.v.{frame.block[1:]} {frame.at} {race}\n"
            if given is not None:
                frame.values.update(zip(results, given))
                frame.at += 1
            elif word == "CALL":
                frame.results = results
        else:
            return None
        lines = [" ".join(map(str, ["returned", f"t{thread}", *values])) for thread, values in sorted(self.ended.items())]
        cells = [(name, f"#{n}+0") for n, name in enumerate(self.program.objects) if self.program.globals[name] == 1]
        lines += [f"final {name} {self.values(cell)[-1]}" for name, cell in cells]
        lines.append("done" if not self.frames else " ".join(["all waiting", *(f"t{it}" for it in sorted(self.frames))]))
        return "\n".join(lines) + "\n"

    def value(self, frame, word):
        """The value of an operand: a variable, a constant, or a global, which is its first cell."""
        if word.startswith("%"):
            return frame.values[word]
        return self.program.constants[word] if word in self.program.constants else (self.program.objects.index(word), 0)

    def listed(self, frame, text):
        """The values between two brackets."""
        return [self.value(frame, word) for word in text.split()]

    def compute(self, frame, word, rest):
        """An instruction of two integers, or a wider integer."""
        kind, *operands = re.sub(r"<@\w+ @\w+>", "<@i64>", rest).split()
        values = [self.value(frame, it) for it in operands]
        return [values[0] if word == "ZEXT" else COMPUTED[word](*values) % 2 ** self.program.widths[kind[1:-1]]]

    def cell(self, frame, word):
        """The cell of an operand, as a log writes it."""
        return "#{}+{}".format(*self.value(frame, word))

    def do_getelemiref(self, _thread, frame, rest):
        """The cell of an element."""
        *_, base, index = rest.split()
        number, offset = self.value(frame, base)
        return [(number, offset + self.value(frame, index))]

    def do_branch(self, _thread, frame, rest):
        """To a block."""
        block, values = GOAL.fullmatch(rest).groups()
        self.branch(frame, block, self.listed(frame, values))

    def do_branch2(self, _thread, frame, rest):
        """To one of two blocks."""
        condition, rest = rest.split(" ", 1)
        block, values = GOAL.findall(rest)[0 if self.value(frame, condition) == 1 else 1]
        self.branch(frame, block, self.listed(frame, values))

    def do_call(self, thread, frame, rest):
        """Into a function."""
        _, function, values = re.fullmatch(r"<(\S+)> (@\w+) \(([^)]*)\)", rest).groups()
        self.enter(thread, function, self.listed(frame, values))

    def do_ret(self, thread, frame, rest):
        """Back to the caller; the thread ends where there is none."""
        values = self.listed(frame, rest.strip("()"))
        self.frames[thread].pop()
        if self.frames[thread]:
            caller = self.frames[thread][-1]
            caller.values.update(zip(caller.results, values))
            caller.at += 1
        else:
            del self.frames[thread]
            self.ended[thread] = values

    def do_load(self, thread, frame, rest):
        """A load."""
        order, place = ordered(rest)[0], rest.split()[-1]
        return [self.read(thread, order, self.cell(frame, place))]

    def do_store(self, thread, frame, rest):
        """A store."""
        *_, place, value = rest.split()
        cell = self.cell(frame, place)
        self.log(thread, "write", ordered(rest)[0], cell, len(self.values(cell)), self.value(frame, value))
        return []

    def do_atomicrmw(self, thread, frame, rest):
        """An unconditional update."""
        _, operator, kind, place, value = rest.split()
        cell = self.cell(frame, place)
        values = self.values(cell)
        new = UPDATES[operator](values[-1], self.value(frame, value)) % 2 ** self.program.widths[kind[1:-1]]
        self.log(thread, "update", ordered(rest)[0], cell, len(values), new)
        return [values[-1]]

    def do_cmpxchg(self, thread, frame, rest):
        """A strong comparison."""
        order, failure, _, place, expected, new = rest.split()
        return self.compared(thread, self.cell(frame, place), (order, failure), self.value(frame, expected), self.value(frame, new))

    def do_fence(self, thread, _frame, rest):
        """A fence."""
        self.log(thread, "fence", rest)
        return []

    def do_newthread(self, thread, frame, rest):
        """A thread on a new stack."""
        stack, function = self.value(frame, rest.split()[0])
        made = len(self.frames) + len(self.ended)
        self.log(thread, "thread", other=made)
        self.log(made, "enter", other=stack)
        self.frames[made] = []
        self.enter(made, function, [])
        return [("thread", made)]

    def do_comminst(self, thread, frame, rest):
        """A new stack, a wait, or a wake."""
        name, values = re.fullmatch(r"@uvm\.(\S+) <.*> \(([^)]*)\)", rest).groups()
        if name == "new_stack":
            self.stacks += 1
            self.log(thread, "stack", other=self.stacks)
            return [(self.stacks, values)]
        place, value = values.split()
        cell = self.cell(frame, place)
        if name == "futex.wait":
            newest = self.values(cell)
            self.log(thread, "read", "RELAXED", cell, len(newest) - 1, newest[-1])
            if newest[-1] != self.value(frame, value):
                return [2**32 - 1]
            self.waiting[thread] = cell
            return [0]
        woken = [other for other, at in self.waiting.items() if at == cell][:self.value(frame, value)]
        event = self.log(thread, "wake", cell=cell, other=len(woken))
        for other in woken:
            del self.waiting[other]
            self.log(other, "woken", other=event.number)
        return [len(woken)]


def ordered(rest):
    """The orders that an access names; NOT_ATOMIC where it names none."""
    return [word for word in rest.split() if word in ORDERS] or ["NOT_ATOMIC"]


def search(text, most_runs, most_steps, release_sequences):
    """What is seen of all runs of a bundle, as a rising list of texts; None where there are more runs, or one has more steps."""
    program = Program(text)
    return outcomes_of(lambda picks: Run(program, picks, most_steps), most_runs, release_sequences)
