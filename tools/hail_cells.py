"""What a HAIL script, which the program accepted, makes before a run: its objects, and the values with which it fills cells.

docs/SCRIPTS.md says what each command does. The elements of a hybrid are a *part* of it, as its fields are; they have a type and a number.
"""
import typing

from hail_script import HailReader
from nodes import as_tuple, printed
from text_reader import number_value


class Part(typing.NamedTuple):
    """A part of an object: the object's number, its first cell, its type, and of a hybrid, or of all its elements, how many these are.

    `is_elements` says that it is all elements of a hybrid, each of the type.
    """

    object: int
    cell: int
    type: str
    count: int = 0
    is_elements: bool = False


class Filled:
    """What a script made: `values` has the text of each cell that it filled, `objects` the globals and the objects by name, in order."""

    def __init__(self, code, text):
        self.code, self.values = code, {}
        self.objects = {name: Part(number, 0, type_name) for number, (name, type_name) in enumerate(code.source.globals)}
        self.cells_taken = 0
        for command in HailReader(text).commands:
            if command.start.text == ".init":
                self.fill(self.part(command.target), command.source)
            else:
                self.make(command)

    def make(self, command):
        """Makes an object, after all others."""
        count = number_value(command.count.text) if command.count else 0
        part = Part(len(self.objects), 0, command.type.text, count)
        self.objects[command.object.text] = part
        self.cells_taken += self.size(part)

    def size(self, part):
        """How many cells a part has."""
        if part.is_elements:
            return part.count * self.code.size(part.type)
        elements = part.count * self.code.size(self.code.parts(part.type)[-1]) if part.count else 0
        return self.code.size(part.type) + elements

    def part(self, target):
        """The part that a target names."""
        part = self.objects[target.name.text]
        for _, index in target.indexes:
            part = self.inner(part, number_value(index.text))
        return part

    def inner(self, part, index):
        """Part `index` of a part."""
        word, arguments = ("elements", [part.type]) if part.is_elements else self.code.source.types[part.type]
        if word in ("array", "elements"):
            return Part(part.object, part.cell + index * self.code.size(arguments[0]), arguments[0])
        cell = part.cell + sum(map(self.code.size, arguments[:index]))
        is_elements = word == "hybrid" and index == len(arguments) - 1
        return Part(part.object, cell, arguments[index], part.count if is_elements else 0, is_elements)

    def fill(self, part, source):
        """Sets the cells of a part."""
        if source.members is not None:
            for index, member in enumerate(source.members):
                self.fill(self.inner(part, index), member)
            return
        for cell, scalar in enumerate(as_tuple(self.value(part, source)), part.cell):
            self.values[f"#{part.object}+{cell}"] = printed(scalar)

    def value(self, part, source):
        """The value of a source that is no list."""
        token = source.token
        if source.target:
            target = self.part(source.target)
            return f"#{target.object}+{target.cell}"
        if token.kind == "number":
            return number_value(token.text) % (1 << self.code.width(part.type))
        if token.kind == "object":
            return f"#{self.objects[token.text].object}"
        return token.text if token.text == "NULL" else self.code.constant(token.text)
