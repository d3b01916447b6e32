"""The code of a bundle as a run goes through it: each instruction with what comes after it, its operands and its destinations.

A value is a number of 0 or more for an integer, the text that a run prints for any other scalar (`#1`, `#1+0`, `@f`, `s1`, `t1`, `NULL`),
and for a struct or an array the tuple of its scalars. An operand is a pair of a name and a constant: its value is that of the variable of
this name where there is one, and else the constant, so that `values.get(*operand)` gives it.
"""
import value_types
from text_reader import number_value

NULL = "NULL"


def printed(value):
    """The text of a value as a run prints it."""
    return "{" + " ".join(map(str, value)) + "}" if type(value) is tuple else str(value)


class Destination:
    """A block that an instruction may lead to: where it begins, and the value of each of its variables there."""

    __slots__ = ("block", "arguments", "handler")

    def __init__(self, code, block, part):
        self.block = block
        self.arguments = [(name, *code.operand(token)) for name, token in zip(block.parameters, part.list.members)]
        self.handler = block.read.handler.text if block.read.handler else None

    def go(self, frame, exception=None):
        """Sends a frame there; the block's handler gets the exception."""
        values = frame.values
        frame.values = {name: values.get(variable, constant) for name, variable, constant in self.arguments}
        if self.handler is not None:
            frame.values[self.handler] = exception
        frame.node = self.block.first


class CodeBlock:
    """A block, with a node for each instruction once it was entered."""

    __slots__ = ("code", "read", "parameters", "instructions", "nodes")

    def __init__(self, code, read, instructions):
        self.code, self.read, self.instructions, self.nodes = code, read, instructions, None
        self.parameters = [name.text for _, name in read.parameters]

    @property
    def first(self):
        """The node of the first instruction."""
        if self.nodes is None:
            self.nodes = []
            following = None
            for instruction in reversed(self.instructions):
                following = Node(self.code, self, instruction, following)
                self.nodes.append(following)
            self.nodes.reverse()
        return self.nodes[0]


class Node:
    """An instruction with what comes after it. `act` makes its step, and `options` gives what a read picks among, once it was made ready.

    `normal` is its destination where its work is done, None where that is the next instruction; `exceptional` that for exceptions.
    """

    __slots__ = ("code", "block", "instruction", "read", "results", "following", "normal", "exceptional", "act",
                 "options")

    def __init__(self, code, block, instruction, following):
        self.code, self.block, self.instruction, self.read, self.following = code, block, instruction, instruction.read, following
        self.results = instruction.results
        ways = {part.asked: part for part in self.read.destinations()}
        self.normal, self.exceptional = self.destination(ways.get("own")), self.destination(ways.get("exceptional"))
        self.act = self.options = None

    def destination(self, part):
        """The destination that a part of the instruction names; None where there is no part."""
        return Destination(self.code, self.code.block_called(self.block, part.token.text), part) if part else None

    def destinations(self):
        """Its destinations for the normal way, in text order."""
        return [self.destination(part) for part in self.read.destinations() if part.asked == "normal"]

    def operands(self):
        """The operands that stand one by one."""
        return [self.code.operand(part.token) for part in self.read.parts if part.kind == "value"]

    def list_of(self):
        """The operands of its list, or None where it has none."""
        lists = [part for part in self.read.parts if part.kind == "list"]
        return [self.code.operand(token) for token in lists[0].members] if lists else None

    def type(self, letter="T"):
        """The name of the type that its form calls by a letter."""
        return self.read.names[letter].text

    @property
    def number(self):
        """The number in its form."""
        return number_value(self.read.names["number"].text)

    def give(self, frame, values=()):
        """Its work is done, and gives values: the frame goes on."""
        if values:
            frame.values.update(zip(self.results, values))
        if self.normal is None:
            frame.node = self.following
        else:
            self.normal.go(frame)


class Code:
    """All code of a bundle, its constants, and the sizes of its types."""

    def __init__(self, source):
        self.source, self.bundle = source, source.bundle
        self.blocks, self.constants, self.sizes = {}, {}, {}
        for name, function in source.functions.items():
            for label, block in function.blocks.items():
                self.blocks[name, label] = CodeBlock(self, block.read, block.instructions)

    def block_called(self, block, label):
        """The block with a label of the function that another block is of."""
        return self.blocks[block.read.function.name.text, label]

    def entry_of(self, name):
        """The first block of a function with a body; None where it has none."""
        function = self.source.functions.get(name)
        return self.blocks[name, function.entry.label] if function else None

    def operand(self, token):
        """The operand that a token names."""
        return token.text, None if token.text[0] == "%" else self.constant(token.text)

    def constant(self, name):
        """The value that the name of a constant, a global or a function stands for."""
        if name not in self.constants:
            constant = self.bundle.constants.get(name)
            if constant is None:
                number = self.source.global_numbers.get(name)
                self.constants[name] = name if number is None else f"#{number}+0"
            elif constant.literal.text == "{":
                self.constants[name] = tuple(scalar for member in constant.members for scalar in as_tuple(self.constant(member.text)))
            elif constant.literal.text == NULL:
                self.constants[name] = NULL
            else:
                self.constants[name] = number_value(constant.literal.text) % (1 << self.width(constant.type.text))
        return self.constants[name]

    def width(self, type_name):
        """The width of an int type; None of other types."""
        return self.source.width(type_name)

    def size(self, type_name):
        """How many scalars a type has, without the elements of a hybrid."""
        if type_name not in self.sizes:
            self.sizes[type_name] = value_types.leaves(self.bundle, type_name)
        return self.sizes[type_name]

    def parts(self, type_name):
        """The types of the fields of a struct, of the fixed fields and the element of a hybrid, or of the element of an array."""
        return value_types.parts_of(self.bundle, type_name)

    def is_scalar(self, type_name):
        """Whether a type of variables is that of one scalar."""
        return self.source.types[type_name][0] not in ("struct", "array")

    def zero(self, type_name):
        """The value of a type that is zero and NULL in all its parts."""
        word, arguments = self.source.types[type_name]
        if word == "struct":
            return tuple(scalar for part in arguments for scalar in as_tuple(self.zero(part)))
        if word == "array":
            return as_tuple(self.zero(arguments[0])) * number_value(arguments[1])
        return 0 if word == "int" else NULL


def as_tuple(value):
    """The scalars of a value."""
    return value if type(value) is tuple else (value,)
