"""Explains how a run ended, where it did not end by itself: the source line of the instruction, and where each thread stands."""
import re

import caret
import command
import faults
import value_types
from client_misuse import explain_misuse, explain_types
from client_script import ClientReader
from session import Session
from text_reader import Source

# How many bytes of an instruction are shown.
MOST_TEXT = 100
# How many of a thread's last instructions are looked at for a loop.
LOOK_BACK = 2_000


class Ended:
    """A run that ended: its call, its bundle, and what it printed."""

    def __init__(self, program, call, printed, last):
        self.program, self.call, self.printed, self.last = program, call, printed, last
        self.session = Session(program, call, printed)
        self.bundle = self.session.source.bundle
        self.machine = self.session.machine

    def maker(self, number):
        """The instruction that made the event with a number; None where the run could not be followed so far."""
        return read_of(self.session.instructions[self.session.log.events[number].row])

    def last_instruction(self):
        """The instruction whose step made the ending, or None."""
        return read_of(self.session.instructions[-1])

    def last_of_threads(self):
        """The last instruction that each thread began, by the thread's name; empty where the run could not be followed to its end."""
        return {} if self.machine.lost else {f"t{step[0]}": step[1].read for step in self.machine.made}

    def place(self, instruction):
        """The place of an instruction, its line and a caret."""
        return caret.shown(self.call.bundle, self.bundle.source, instruction.start.start)

    def line_of(self, instruction):
        """An instruction in one line: its source line, its text and the name that a run gives it."""
        text = self.bundle.text_of(instruction)
        shown = text if len(text) <= MOST_TEXT else text[:MOST_TEXT] + " .."
        return f"line {self.bundle.source.line(instruction.start.start)}: {shown} ({instruction.block.full_name} {instruction.index})"

    def threads(self):
        """The threads that are left at the end, by their names in rising number."""
        made = ["t0"] + re.findall(r"^\d+ t\d+ thread (t\d+)$", self.printed, re.MULTILINE)
        ended = re.findall(r"^(?:returned|exited) (t\d+)", self.printed, re.MULTILINE)
        return [thread for thread in made if thread not in ended]

    def last_event(self, thread):
        """The last event line of a thread, or nothing."""
        at = max(self.printed.rfind(f" {thread} {kind} ") for kind in ("read", "write", "update", "fence", "stack", "thread", "leave",
                                                                       "enter", "wake", "woken"))
        if at < 0:
            return ""
        start = self.printed.rfind("\n", 0, at) + 1
        return self.printed[start:self.printed.find("\n", at)]

    def cell_name(self, text):
        """A cell as the program prints it, with the global that it is of: `@x (#0+0)`."""
        found = re.fullmatch(r"#(\d+)\+(\d+)", text)
        names = list(self.bundle.globals)
        if not found or int(found[1]) >= len(names):
            return text
        name, cell = names[int(found[1])], int(found[2])
        size = value_types.leaves(self.bundle, self.bundle.globals[name].type.text)
        return f"{name} ({text})" if size == 1 else f"cell {cell} of {name} ({text})"


def read_of(instruction):
    """The instruction as the reader of bundles has it; None where there is none."""
    return instruction.read if instruction else None


def explain(program, call, printed, last):
    """The lines that explain an ending."""
    ended = Ended(program, call, printed, last)
    word = last.split()[0]
    explainers = {"undefined": undefined, "budget": budget, "all": all_waiting, "heap": heap_full, "threads": threads_full, "stop": stop}
    return explainers[word](ended) if word in explainers else []


def detail(label, text):
    """A line with a label."""
    return [f"  {label}: {text}"] if text else []


# Undefined cases

def undefined(ended):
    """`undefined CASE tT BLOCK I`."""
    _, case, thread, block, index, *more = ended.last.split()
    instruction = ended.last_instruction() or ended.bundle.instruction(block, int(index))
    lines = ended.place(instruction) if instruction else [f"{block} {index}, which more than one block of the bundle may be"]
    lines.append(f"{case}: {faults.CASES.get(case, '')}")
    if instruction is None:
        return lines
    lines += detail("thread", f"{thread} did {block} {index}: {ended.bundle.text_of(instruction)}")
    details = {"DataRace": lambda: race(ended, thread, more), "ClientMisuse": lambda: at_client(ended, explain_misuse),
               "StackTypes": lambda: stack_types(ended, instruction)}
    lines += details[case]() if case in details else operands(ended, instruction, case)
    return lines


def race(ended, thread, fields):
    """The two accesses of a race."""
    kind, order, cell, _, value, _, other = fields
    line = re.search(rf"^{other} (t\d+) (\w+) (\w+) .*$", ended.printed, re.MULTILINE)
    lines = detail("access", f"{thread} {kind} {order} of {ended.cell_name(cell)}, value {value}")
    if line:
        lines += detail("races with", f"event {other}, {line[1]} {line[2]} {line[3]}: `{line[0]}`")
        lines += detail("made by", maker_of_event(ended, int(other)))
    orders = {order, line[3] if line else ""}
    hint = "both accesses are NOT_ATOMIC" if orders == {"NOT_ATOMIC"} else "one of the accesses is NOT_ATOMIC"
    return lines + detail("hint", f"{hint}: make them atomic, or let the earlier happen before the later, as by a RELEASE store that an "
                          "ACQUIRE load reads")


def maker_of_event(ended, number):
    """The instruction that made an event, in words, or nothing."""
    instruction = ended.maker(number)
    return ended.line_of(instruction) if instruction else None


def operands(ended, instruction, case):
    """What the operands of an instruction are, and what is likely wrong with them."""
    bundle = ended.bundle
    variables = value_types.variables_of(bundle, instruction.block, instruction)
    values = [part.token for part in instruction.parts if part.kind == "value"]
    lines = []
    for token in dict.fromkeys(token.text for token in values):
        variable = variables.get(token)
        if variable:
            line = f"line {bundle.source.line(variable.name.start)}"
            lines += detail("operand", f"{token} is of {line}: {bundle.text_of(variable.instruction)}" if variable.instruction else
                            f"{token} is a parameter of the block {instruction.block.name.text}, {line}")
    hints = {"DivideByZero": "test the divisor before, or give the instruction an EXC",
             "NullAccess": "compare with a NULL constant before, or give an access an EXC",
             "DeadCell": "an object that outlives its frame is made by NEW", "NullCall": "compare with a NULL constant before",
             "NoBody": "a `.funcdecl` says only that there is a function; the run needs its `.funcdef`",
             "Uncaught": "an exception goes to the second destination of EXC, or of WPEXC, of an instruction where a frame of this stack "
                         "stands",
             "StackNotReady": "a stack can be entered once after it was made or left, and not after its function returned or it was killed"}
    return lines + detail("hint", hints.get(case))


def stack_types(ended, instruction):
    """StackTypes: at a trap the client's entry; at another instruction what it passes, and what the stack was made for. What it waits for
    once it was entered nobody can see."""
    if instruction.word in ("TRAP", "WATCHPOINT"):
        return at_client(ended, explain_types)
    bundle = ended.bundle
    passed = next((part.asked.removeprefix("passed").split() for part in instruction.parts if (part.asked or "").startswith("passed")),
                  None)
    lines = detail("passed", f"({' '.join(passed)})" if passed is not None else None)
    stack = next(part.token for part in instruction.parts if part.kind == "value")
    variable = value_types.variables_of(bundle, instruction.block, instruction).get(stack.text)
    maker = variable and variable.instruction
    if maker and maker.word == "@uvm.new_stack":
        name = maker.names["S"].text
        takes = " ".join(token.text for token in bundle.signatures[name].parameters)
        return lines + detail("expected", f"({takes}), by the signature {name}, where it was not entered since it was made: "
                              f"{ended.line_of(maker)}")
    return lines + detail("expected", "what the stack waits for: the parameters of its function where it is new, else the types of its "
                          "RET_WITH or of its TRAP; which of these it is cannot be shown")


def at_client(ended, explain_entry):
    """The entry of the client script, and the reason."""
    path = ended.call.file("client")
    if not path:
        return []
    details = explain_entry(ended.program, ended.call, ended.bundle, ended.printed)
    if details is None:
        return []
    place, lines = details
    shown = caret.shown(path, Source.of_file(path), place)
    return ["the entry of the client script:", *shown, *(line for label, text in lines for line in detail(label, text))]


# Endings that stop threads

def where_threads_stand(ended, threads):
    """For each thread the last instruction that it began, or its last event where that is all that is known."""
    last = ended.last_of_threads()
    lines = []
    for thread in threads:
        if thread in last:
            lines += detail(thread, f"its last instruction is {ended.line_of(last[thread])}")
        elif not ended.machine.lost:
            lines += detail(thread, "it has made no step")
        else:
            event = ended.last_event(thread)
            lines += detail(thread, f"its last event is `{event}`" if event else "it has made no event")
    return lines + detail("not shown", ended.machine.lost and f"what a thread did after its last event: {ended.machine.lost}")


def budget(ended):
    """`budget N`."""
    steps = ended.call.steps()
    lines = [f"budget: the run made {steps} steps, as many as it may, and a thread could go on; --steps N allows up to 1000000"]
    threads = ended.threads()
    lines += where_threads_stand(ended, threads)
    if len(threads) > 1 and not ended.call.file("schedule"):
        lines += detail("hint", "without a schedule each step is made by the thread with the lowest number that can go on; --schedule F or "
                        "--seed N let others go")
    return lines + loop(ended)


def loop(ended):
    """The blocks in which the last instructions of the thread that made the last step stand, where they are few."""
    made = ended.machine.made
    if ended.machine.lost or len(made) < LOOK_BACK:
        return []
    thread, blocks = made[-1][0], {}
    for number, node, *_ in made[-LOOK_BACK:]:
        if number == thread:
            blocks.setdefault(node.block.read.full_name, node.block.read)
    if len(blocks) > 6:
        return []
    named = ", ".join(f"{name} (line {ended.bundle.source.line(block.name.start)})" for name, block in blocks.items())
    return detail("hint", f"the last {LOOK_BACK} instructions of t{thread} are all in {named}: does this loop end?")


def all_waiting(ended):
    """`all waiting THREADS`."""
    threads = ended.last.split()[2:]
    lines = ["all waiting: each thread that is left waits without a limit, and no thread is left to wake it"]
    last = dict.fromkeys(threads) | ended.last_of_threads()
    for thread in threads:
        event = ended.last_event(thread)
        fields = event.split()
        cell = fields[4] if len(fields) > 4 else ""
        lines += detail(thread, f"it waits at {ended.cell_name(cell)}, since event {fields[0]}: `{event}`" if cell else None)
        lines += detail("wait", last[thread] and ended.line_of(last[thread]))
        lines += detail("wakes", wakes_at(ended, cell, fields))
    return lines


def wakes_at(ended, cell, wait):
    """The last wake at a cell, and whether it came before the wait, whose line has these fields."""
    wakes = re.findall(rf"^(\d+) (t\d+) wake {re.escape(cell)} (\d+)$", ended.printed, re.MULTILINE) if cell else []
    if not wakes:
        return "no thread made a wake at this cell"
    number, thread, woken = wakes[-1]
    when = "before this thread waited" if int(number) < int(wait[0]) else "after this thread waited, and woke others"
    return f"the last wake at this cell is event {number} of {thread}, {when}; it woke {woken}"


def heap_full(ended):
    """`heap full tT asked A left L`."""
    fields = ended.last.split()
    thread, asked, left = fields[2], fields[4], fields[6]
    limit = ended.call.options.get("--cells", command.DEFAULT_CELLS)
    lines = [f"heap full: {thread} asked for {asked} cells, and {left} of {limit} were left; --cells N allows up to 1000000, and no cell is "
             "ever given back"]
    lines += asked_by(ended, thread)
    others = [other for other in ended.threads() if other != thread]
    lines += where_threads_stand(ended, others) if others else []
    return lines + detail("hint", "with an EXC the instruction goes to its second destination instead")


def asked_by(ended, thread):
    """The instruction by which a thread asked for what was not left."""
    instruction = ended.last_instruction()
    return ended.place(instruction) + detail(thread, ended.line_of(instruction)) if instruction else detail("not shown", ended.machine.lost)


def threads_full(ended):
    """`threads full tT`."""
    thread = ended.last.split()[2]
    return ["threads full: 64 threads were made, thread 0 among them, and a number is not used again when its thread ends",
            *asked_by(ended, thread), *detail("hint", "with an EXC a NEWTHREAD goes to its second destination instead")]


def stop(ended):
    """`stop`, where no entry of the client says so."""
    traps = re.findall(r"^(trap|watchpoint) (t\d+) (\S+) (\d+)", ended.printed, re.MULTILINE)
    if not traps:
        return []
    kind, _, block, index = traps[-1]
    instruction = ended.bundle.instruction(block, int(index))
    lines = ended.place(instruction) if instruction else []
    path = ended.call.file("client")
    entries = len(ClientReader(Source.of_file(path).text).entries) if path else 0
    if len(traps) <= entries:
        return lines + [f"stop: entry {len(traps)} of the client script stops the run at this {kind}"]
    script = f"the client script has {entries} entr{'y' if entries == 1 else 'ies'}" if path else "there is no client script"
    return lines + [f"stop: this {kind} is number {len(traps)}, and {script}; after the last entry the run is stopped",
                    "  hint: --client F names a file with an entry for each trap, and --auto passes zero and NULL at each"]
