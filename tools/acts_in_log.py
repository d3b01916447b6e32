"""What each instruction does whose step may make lines: the machine gives the lines of the run, and the step agrees with them or is wrong.

As in `acts.py` each maker gives a function of the machine and a thread. A value that memory gave is taken from its line.
"""
from nodes import NULL, printed

WOKEN, NOT_EQUAL, TIME_OVER = 0, (1 << 32) - 1, (1 << 32) - 3


# Accesses.

def orders_of(node):
    """The orders that an instruction names; a LOAD or STORE without one is not atomic."""
    return [part.token.text for part in node.read.parts if part.kind == "order"] or ["NOT_ATOMIC"]


def reader_of(node):
    """The function from the text of a value in a line to the value, for the type of an access."""
    return int if node.code.width(node.type()) is not None else str


def load_options(node):
    """What a LOAD may read, as a function of the machine, the thread's number, the variables, and the number of the event; None of NULL."""
    operand, = node.operands()
    order, = orders_of(node)

    def options(machine, thread, values, number):
        cell = values.get(*operand)
        return None if cell == NULL else machine.load_options(thread, cell, order, number)
    return options


def compare_options(node):
    """What a CMPXCHG may do, as `load_options` says it of a LOAD."""
    place, expected, _ = node.operands()
    order, is_weak = orders_of(node)[1], any(part.kind == "weak" for part in node.read.parts)

    def options(machine, thread, values, number):
        cell = values.get(*place)
        return None if cell == NULL else machine.compare_options(thread, node, cell, order, values.get(*expected), is_weak, number)
    return options


def load(node):
    """LOAD: what its line says, of all that it may have read."""
    (name, constant), = node.operands()
    (order,), value_of, options = orders_of(node), reader_of(node), node.options

    def act(machine, thread):
        frame = thread.frames[-1]
        cell = frame.values.get(name, constant)
        if cell == NULL:
            machine.fault(thread, node)
            return
        event = machine.read(thread, {"read": order}, cell, options)
        node.give(frame, (value_of(event.value),))
    return act


def store(node):
    """STORE."""
    place, stored = node.operands()
    order, = orders_of(node)

    def act(machine, thread):
        frame = thread.frames[-1]
        cell = frame.values.get(*place)
        if cell == NULL:
            machine.fault(thread, node)
            return
        machine.access(thread, "write", cell, order, frame.values.get(*stored))
        node.give(frame)
    return act


def exchange_if(node):
    """CMPXCHG: success, or a failure at a value that its line says."""
    place, expected, wanted = node.operands()
    orders = dict(zip(("update", "read"), orders_of(node)))
    value_of, options = reader_of(node), node.options

    def act(machine, thread):
        frame = thread.frames[-1]
        cell, value = frame.values.get(*place), frame.values.get(*expected)
        if cell == NULL:
            machine.fault(thread, node)
            return
        event = machine.read(thread, orders, cell, options, frame.values.get(*wanted))
        node.give(frame, (value, 1) if event.kind == "update" else (value_of(event.value), 0))
    return act


def update(node):
    """ATOMICRMW: gives the value of the position before its own."""
    place, _ = node.operands()
    (order,), value_of = orders_of(node), reader_of(node)

    def act(machine, thread):
        frame = thread.frames[-1]
        cell = frame.values.get(*place)
        if cell == NULL:
            machine.fault(thread, node)
            return
        event = machine.access(thread, "update", cell, order)
        node.give(frame, (value_of(machine.value_at(node, cell, event.position - 1)),))
    return act


def fence(node):
    """FENCE."""
    def act(machine, thread):
        machine.event(thread, "fence")
        node.give(thread.frames[-1])
    return act


def wait(node):
    """The futex waits: where the value is the expected one the thread waits."""
    place, expected, *_ = node.operands()
    is_limited, value_of = node.read.word == "@uvm.futex.wait_timeout", reader_of(node)

    def act(machine, thread):
        frame = thread.frames[-1]
        cell = frame.values.get(*place)
        if cell == NULL:
            machine.end(thread)
        event = machine.access(thread, "read", cell, "RELAXED")
        if value_of(event.value) == frame.values.get(*expected):
            machine.let_wait(thread, cell, is_limited)
        else:
            node.give(frame, (NOT_EQUAL,))
    return act


def wake(node):
    """@uvm.futex.wake: its line says how many it woke, and a line more which."""
    place, _ = node.operands()

    def act(machine, thread):
        frame = thread.frames[-1]
        if frame.values.get(*place) == NULL:
            machine.end(thread)
        event = machine.event(thread, "wake")
        node.give(frame, (event.other,))
        for _ in range(event.other):
            machine.wake()
    return act


# Stacks and threads.

def new_stack(node):
    """@uvm.new_stack."""
    operand, = node.operands()

    def act(machine, thread):
        frame = thread.frames[-1]
        block = node.code.entry_of(frame.values.get(*operand))
        if block is None:
            machine.end(thread)
        event = machine.event(thread, "stack")
        machine.make_stack(event.other, block)
        node.give(frame, (f"s{event.other}",))
    return act


def entering(node):
    """What a stack gets that an instruction enters, as a function of the variables: its values, or the exception; the other is None."""
    arguments = node.list_of()
    if arguments is not None:
        return lambda values: ([values.get(*operand) for operand in arguments], None)
    exception = node.operands()[-1]
    return lambda values: (None, values.get(*exception))


def swap(node):
    """SWAPSTACK: leaves the thread's stack, or kills it, and enters another."""
    passed = entering(node)

    def act(machine, thread):
        values = thread.frames[-1].values
        given = passed(values)
        if not node.read.kills_old:
            machine.leave(thread)
        machine.enter(thread, *given)
    return act


def new_thread(node):
    """NEWTHREAD: a thread more, on a stack that it enters."""
    passed, operands = entering(node), node.operands()
    # The operands are the stack, the thread-local value where there is one, and an exception where no list is passed.
    own = operands[1] if len(operands) > 1 + (node.list_of() is None) else (None, NULL)

    def act(machine, thread):
        frame = thread.frames[-1]
        if machine.is_full_of_threads():
            machine.fault(thread, node)
            return
        event = machine.event(thread, "thread")
        made = machine.make_thread(event.other, frame.values.get(*own))
        given = passed(frame.values)
        node.give(frame, (f"t{event.other}",))
        machine.enter(made, *given)
    return act


def give_back(node):
    """RET: to the frame below, or to the run where there is none."""
    results = node.list_of()

    def act(machine, thread):
        frames = thread.frames
        values = [frames[-1].values.get(*operand) for operand in results]
        if len(frames) == 1:
            machine.record(thread, "returned", " ".join(["returned", f"t{thread.number}", *map(printed, values)]))
            machine.end_thread(thread)
            return
        frames.pop()
        frame = frames[-1]
        frame.node.give(frame, values)
    return act


def exit_thread(_node):
    """@uvm.thread_exit."""
    def act(machine, thread):
        machine.record(thread, "exited")
        machine.end_thread(thread)
    return act


def trap(node):
    """TRAP: the client answers."""
    def act(machine, thread):
        machine.trap(thread, node, "trap")
    return act


def watchpoint(node):
    """WATCHPOINT: as a trap where it is enabled, else it goes to its first destination."""
    disabled, = node.destinations()
    number = node.number

    def act(machine, thread):
        if number in machine.watched:
            machine.trap(thread, node, "watchpoint")
        else:
            disabled.go(thread.frames[-1])
    return act


OPTIONS = {"LOAD": load_options, "CMPXCHG": compare_options}
OPERATIONS = {"LOAD": load, "STORE": store, "CMPXCHG": exchange_if, "ATOMICRMW": update, "FENCE": fence, "SWAPSTACK": swap,
              "NEWTHREAD": new_thread, "RET": give_back, "TRAP": trap, "WATCHPOINT": watchpoint}
COMMON = {"@uvm.new_stack": new_stack, "@uvm.thread_exit": exit_thread, "@uvm.futex.wait": wait, "@uvm.futex.wait_timeout": wait,
          "@uvm.futex.wake": wake}
