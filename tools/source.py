"""The source of a bundle that was accepted, as the tools for runs need it: its names, and each instruction with its place and its line.

`bundle.py` reads the text. The place of an instruction is the block's full name and how many instructions stand before it there, as a run's
output names it. Names may hold dots, so two blocks may have one full name.
"""
import bisect

from bundle import Bundle
from caret import as_read
from text_reader import number_value

# The most leaves of an object that are given names of their own.
MOST_NAMES = 4096


class Instruction:
    """One instruction. `read` is the instruction as `bundle.py` has it; `start` is the offset of its first token, `line` that line.

    `shown` is the line and the text, for people.
    """

    __slots__ = ("read", "place", "block", "index", "results", "operation", "start", "line", "shown")

    def __init__(self, block, read, line, text):
        self.read, self.block, self.index, self.results = read, block, read.index, texts(read.results)
        self.operation = read.operation.text
        self.place = (block.name, read.index)
        self.start, self.line = read.start.start, line
        self.shown = f"{line}: {as_read(text)}"


class Block:
    """One block. `name` is its full name, and `variables` are those that it begins with: its parameters and its handler."""

    __slots__ = ("read", "function", "label", "name", "variables", "instructions")

    def __init__(self, function, read):
        self.read, self.function, self.label, self.name = read, function, read.name.text, read.full_name
        self.variables = [name.text for _, name in read.parameters] + ([read.handler.text] if read.handler else [])
        self.instructions = []

    def variables_at(self, index):
        """The names of the variables that have values before an instruction, in text order."""
        names = list(self.variables)
        for instruction in self.instructions[:index]:
            names += instruction.results
        return names


class Function:
    """One function that has a body; `blocks` has its blocks by their labels."""

    __slots__ = ("name", "signature", "blocks")

    def __init__(self, read):
        self.name, self.signature, self.blocks = read.name.text, read.signature.text, {}

    @property
    def entry(self):
        """The first block."""
        return next(iter(self.blocks.values()))


class Source:
    """A bundle's text, read."""

    def __init__(self, text):
        self.text = text
        self.lines = [line.rstrip("\r") for line in text.split("\n")]
        read = self.bundle = Bundle(text)
        self.starts = [token.start for token in read.tokens]
        self.types = {name: (it.word, texts(it.arguments)) for name, it in read.types.items()}
        self.globals = [(name, it.type.text) for name, it in read.globals.items()]
        self.global_numbers = {name: number for number, (name, _) in enumerate(self.globals)}
        self.instructions, self.widths, self.functions = [], {}, {}
        for name, function in read.functions.items():
            self.functions[name] = self.function(function)

    def function(self, read):
        """A function, with its blocks and instructions."""
        function = Function(read)
        for one in read.blocks:
            block = function.blocks[one.name.text] = Block(function, one)
            block.instructions = [self.instruction(block, it) for it in one.instructions]
        return function

    def instruction(self, block, read):
        """An instruction of a block."""
        first, last = (bisect.bisect_left(self.starts, offset) for offset in (read.start.start, read.end))
        text = " ".join(self.text[read.start.start:read.end].split())
        if "//" in text:
            text = " ".join(texts(self.bundle.tokens[first:last]))
        instruction = Instruction(block, read, self.bundle.source.line(read.start.start), text)
        self.instructions.append(instruction)
        return instruction

    def leaves(self, name, path, found):
        """Adds the leaves of a type to `found`, at most MOST_NAMES of them: the path of each and the name of its type."""
        word, arguments = self.types.get(name, ("void", []))
        if len(found) >= MOST_NAMES or word == "void":
            return
        if word == "struct":
            for number, member in enumerate(arguments):
                self.leaves(member, f"{path}.{number}", found)
        elif word == "array":
            for number in range(min(number_value(arguments[1]), MOST_NAMES)):
                self.leaves(arguments[0], f"{path}[{number}]", found)
        else:
            found.append((path, name))

    def cells(self):
        """Of each cell of the globals: its text, as `#0+0`, its name, which is `@g`, and of parts `@g.1` or `@g[2]`, and its type."""
        for number, (name, type_name) in enumerate(self.globals):
            found = []
            self.leaves(type_name, name, found)
            for cell, (path, leaf) in enumerate(found):
                yield f"#{number}+{cell}", path, leaf

    def cell_names(self):
        """From the text of a cell of a global to its name."""
        return {text: path for text, path, _ in self.cells()}

    def cell_types(self):
        """From the text of a cell of a global to the name of its type."""
        return {text: leaf for text, _, leaf in self.cells()}

    def width(self, type_name):
        """The width of an int type, or None."""
        if type_name not in self.widths:
            word, arguments = self.types.get(type_name, ("", []))
            self.widths[type_name] = number_value(arguments[0]) if word == "int" else None
        return self.widths[type_name]

    def zero(self, type_name):
        """What a cell of a type holds that nothing filled."""
        return "NULL" if self.width(type_name) is None else "0"


def texts(tokens):
    """The texts of tokens."""
    return [token.text for token in tokens]
