"""What each instruction does that makes no line: it computes, branches, calls, returns, throws, makes objects and internal references.

`made_ready(node)` gives a function of the machine and a thread, which makes the step of the instruction at which the thread's top frame stands.
`acts_in_log.py` has the instructions whose steps make lines.
"""
from acts_in_log import COMMON as COMMON_IN_LOG
from acts_in_log import OPERATIONS as OPERATIONS_IN_LOG
from acts_in_log import OPTIONS
from arithmetic import BINARIES, EQUALITIES, WITH_SIGN, WITHOUT_SIGN
from nodes import NULL, as_tuple
from text_reader import number_value


def made_ready(node):
    """The step of an instruction, which is kept with it; and of one that picks what it may pick among."""
    word = node.read.word
    if word in OPTIONS:
        node.options = OPTIONS[word](node)
    node.act = MAKERS[word](node) if word in MAKERS else simple(node, *FUNCTIONS[word](node))
    return node.act


def simple(node, function, operands):
    """The step of an instruction that gives one value, by a function of the values of its operands."""
    result, following = node.results[0], node.following
    names = list(operands)
    if len(names) == 1:
        (name, constant), = names

        def act_of_one(_machine, thread):
            frame = thread.frames[-1]
            values = frame.values
            values[result] = function(values.get(name, constant))
            frame.node = following
        return act_of_one

    def act(_machine, thread):
        frame = thread.frames[-1]
        values = frame.values
        values[result] = function(*[values.get(*operand) for operand in names])
        frame.node = following
    return act


# Instructions that compute: each gives the function and its operands.

def binary(node):
    """ADD and its kin: a division by zero goes to the destination for exceptions."""
    width = node.code.width(node.type())
    function, mask = BINARIES[node.read.word], (1 << width) - 1
    (first, first_constant), (second, second_constant) = node.operands()
    result, following = node.results[0], node.following

    def act(machine, thread):
        frame = thread.frames[-1]
        values = frame.values
        value = function(values.get(first, first_constant), values.get(second, second_constant), width)
        if value is None:
            machine.fault(thread, node)
            return
        values[result] = value & mask
        if node.normal is None:
            frame.node = following
        else:
            node.normal.go(frame)
    return act


def comparison(node):
    """EQ, NE and the comparisons of numbers."""
    word, width = node.read.word, node.code.width(node.type())
    if word in WITH_SIGN:
        compare, half = WITH_SIGN[word], 1 << (width - 1)
        # With the highest bit turned the order without a sign is that with one.
        return (lambda a, b: int(compare(a ^ half, b ^ half))), node.operands()
    compare = EQUALITIES.get(word) or WITHOUT_SIGN[word]
    return (lambda a, b: int(compare(a, b))), node.operands()


def narrowed(node):
    """TRUNC."""
    mask = (1 << node.code.width(node.type("U"))) - 1
    return (lambda value: value & mask), node.operands()


def widened(node):
    """SEXT."""
    half, more = 1 << (node.code.width(node.type()) - 1), 1 << node.code.width(node.type("U"))
    return (lambda value: ((value ^ half) - half) % more), node.operands()


def unchanged(node):
    """ZEXT."""
    return (lambda value: value), node.operands()


def select(node):
    """SELECT."""
    return (lambda which, first, second: first if which == 1 else second), node.operands()


def field(node):
    """The first scalar of a field of a struct, the one after its last, and whether it is a scalar itself."""
    parts = node.code.parts(node.type())
    begin = sum(map(node.code.size, parts[:node.number]))
    return begin, begin + node.code.size(parts[node.number]), node.code.is_scalar(parts[node.number])


def extract(node):
    """EXTRACTVALUE."""
    begin, end, is_scalar = field(node)
    return (lambda value: value[begin] if is_scalar else value[begin:end]), node.operands()


def insert(node):
    """INSERTVALUE."""
    begin, end, _ = field(node)
    return (lambda value, part: value[:begin] + as_tuple(part) + value[end:]), node.operands()


# Internal references.

def moved(node, wanted, distance, elements=None):
    """The step of an instruction that moves an internal reference by `distance` of its other operand, in cells, to a place of a type.

    Of GETELEMIREF `elements` is how many the array has.
    """
    (name, constant), *other = node.operands()
    result, following = node.results[0], node.following

    def act(machine, thread):
        frame = thread.frames[-1]
        values = frame.values
        place = values.get(name, constant)
        if place == NULL:
            machine.end(thread)
        base, _, cell = place.partition("+")
        by = distance(*[values.get(*operand) for operand in other])
        target = int(cell) + by
        if machine.is_at_ending(thread, node):
            is_outside = elements is not None and not 0 <= by < elements * node.code.size(wanted)
            if is_outside or not machine.objects.place_fits(int(base[1:]), target, wanted):
                machine.end(thread)
        values[result] = f"{base}+{target}"
        frame.node = following
    return act


def get_iref(node):
    """GETIREF: the first cell of an object."""
    (name, constant), = node.operands()

    def act(machine, thread):
        frame = thread.frames[-1]
        reference = frame.values.get(name, constant)
        if reference == NULL:
            machine.end(thread)
        node.give(frame, (reference + "+0",))
    return act


def field_iref(node):
    """GETFIELDIREF: past the fields before."""
    parts = node.code.parts(node.type())
    before = sum(map(node.code.size, parts[:node.number]))
    return moved(node, parts[node.number], lambda: before)


def varpart_iref(node):
    """GETVARPARTIREF: past the fixed fields."""
    before = node.code.size(node.type())
    return moved(node, node.code.parts(node.type())[-1], lambda: before)


def shifted_iref(node):
    """SHIFTIREF: on by values of the type; the number has a sign."""
    return moved(node, node.type(), by_values(node, node.type()))


def element_iref(node):
    """GETELEMIREF: on by elements; the number has a sign."""
    element, count = node.code.source.types[node.type()][1]
    return moved(node, element, by_values(node, element), number_value(count))


def by_values(node, type_name):
    """The distance in cells of so many values of a type; the number has a sign."""
    size, half = node.code.size(type_name), 1 << (node.code.width(node.type("U")) - 1)
    return lambda count: ((count ^ half) - half) * size


def cast(node):
    """REFCAST: the same value."""
    operand, = node.operands()

    def act(machine, thread):
        frame = thread.frames[-1]
        value = frame.values.get(*operand)
        if machine.is_at_ending(thread, node) and not machine.objects.fits(value, node.type("U")):
            machine.end(thread)
        node.give(frame, (value,))
    return act


# Objects.

def new(node):
    """NEW and ALLOCA: the next object, or the first cell of it."""
    type_name, suffix = node.type(), "+0" if node.read.word == "ALLOCA" else ""
    size = node.code.size(type_name)

    def act(machine, thread):
        machine.new_object(thread, node, size, (type_name, 0), suffix)
    return act


def new_hybrid(node):
    """NEWHYBRID: an object with so many elements."""
    type_name = node.type("H")
    fixed, each = node.code.size(type_name), node.code.size(node.code.parts(type_name)[-1])
    operand, = node.operands()

    def act(machine, thread):
        count = thread.frames[-1].values.get(*operand)
        machine.new_object(thread, node, fixed + each * count, (type_name, count), "")
    return act


# Control.

def branch(node):
    """BRANCH."""
    destination, = node.destinations()

    def act(_machine, thread):
        destination.go(thread.frames[-1])
    return act


def branch2(node):
    """BRANCH2."""
    first, second = node.destinations()
    (name, constant), = node.operands()

    def act(_machine, thread):
        frame = thread.frames[-1]
        (first if frame.values.get(name, constant) == 1 else second).go(frame)
    return act


def switch(node):
    """SWITCH: the first case whose constant is equal."""
    default, *others = node.destinations()
    operand, = node.operands()
    cases = {}
    for part, destination in zip([part for part in node.read.parts if part.kind == "case"], others):
        cases.setdefault(node.code.constant(part.token.text), destination)

    def act(_machine, thread):
        frame = thread.frames[-1]
        cases.get(frame.values.get(*operand), default).go(frame)
    return act


def watch_branch(node):
    """WPBRANCH: the first destination where the watchpoint is disabled."""
    disabled, enabled = node.destinations()
    number = node.number

    def act(machine, thread):
        (enabled if number in machine.watched else disabled).go(thread.frames[-1])
    return act


def call(node):
    """CALL and TAILCALL: a new frame, above this one or in its place."""
    callee, arguments = node.operands()[0], node.list_of()
    is_tail = node.read.word == "TAILCALL"

    def act(machine, thread):
        values = thread.frames[-1].values
        block = node.code.entry_of(values.get(*callee))
        if block is None:
            machine.end(thread)
        passed = [values.get(*operand) for operand in arguments]
        if is_tail:
            thread.frames.pop()
        thread.frames.append(machine.new_frame(block, passed))
    return act


def throw(node):
    """THROW."""
    operand, = node.operands()

    def act(machine, thread):
        machine.unwind(thread, thread.frames[-1].values.get(*operand))
    return act


# Common instructions without lines.

def kill_stack(node):
    """@uvm.kill_stack."""
    operand, = node.operands()

    def act(machine, thread):
        frame = thread.frames[-1]
        machine.kill_ready(thread, frame.values.get(*operand))
        node.give(frame)
    return act


def current_stack(node):
    """@uvm.current_stack."""
    def act(_machine, thread):
        node.give(thread.frames[-1], (f"s{thread.stack}",))
    return act


def set_own(node):
    """@uvm.set_threadlocal."""
    operand, = node.operands()

    def act(_machine, thread):
        frame = thread.frames[-1]
        thread.own_value = frame.values.get(*operand)
        node.give(frame)
    return act


def get_own(node):
    """@uvm.get_threadlocal."""
    def act(_machine, thread):
        node.give(thread.frames[-1], (thread.own_value,))
    return act


FUNCTIONS = {**dict.fromkeys([*EQUALITIES, *WITHOUT_SIGN, *WITH_SIGN], comparison), "TRUNC": narrowed, "SEXT": widened, "ZEXT": unchanged,
             "SELECT": select, "EXTRACTVALUE": extract, "INSERTVALUE": insert}
MAKERS = {**dict.fromkeys(BINARIES, binary), "GETIREF": get_iref, "GETFIELDIREF": field_iref, "GETVARPARTIREF": varpart_iref,
          "SHIFTIREF": shifted_iref, "GETELEMIREF": element_iref, "REFCAST": cast, "NEW": new, "ALLOCA": new, "NEWHYBRID": new_hybrid,
          "BRANCH": branch, "BRANCH2": branch2, "SWITCH": switch, "WPBRANCH": watch_branch, "CALL": call, "TAILCALL": call, "THROW": throw,
          "@uvm.kill_stack": kill_stack, "@uvm.current_stack": current_stack, "@uvm.set_threadlocal": set_own,
          "@uvm.get_threadlocal": get_own, **OPERATIONS_IN_LOG, **COMMON_IN_LOG}
