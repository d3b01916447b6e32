"""A refused bundle, and what all explanations of refusals need: where the fault stands, and names, types and values in words."""
import value_types
from bundle import Constant, Declaration, Function, Global, Type


def count(number, noun):
    """A number with its noun: 1 value, 2 values, no value."""
    return f"{number or 'no'} {noun}{'s' if number > 1 else ''}"


def in_list(texts):
    """Type names as a list in brackets."""
    return f"({' '.join(texts)})"


class Refusal:
    """A refused bundle: the place of the fault, the token there, and the function and the instruction that it stands in."""

    def __init__(self, bundle, place, fault):
        self.bundle, self.place, self.fault = bundle, place, fault
        self.token = next((token for token in bundle.tokens if token.start >= place), bundle.tokens[-1])
        self.before = next((token for token in reversed(bundle.tokens) if token.start < place), None)
        self.instruction = bundle.instruction_at(place)
        self.part = self.instruction and self.instruction.part_at(place)
        self.function = self.instruction.block.function if self.instruction else bundle.function_at(place)
        self.lines = []

    def say(self, label, text):
        """Adds a line, where there is something to say."""
        if text:
            self.lines.append((label, text))

    def line(self, token):
        """The line that a token stands in, in words."""
        return f"line {self.bundle.source.line(token.start)}"

    def defined(self, name):
        """Where a global name is defined, in words."""
        item = self.bundle.definition(name)
        return self.line(item.start) if item else "not defined"

    def written(self, type_text):
        """A type in words."""
        return value_types.written(self.bundle, type_text)

    def item_in_words(self, name):
        """What a global name stands for, its type among that, and where it is defined."""
        item = self.bundle.definition(name)
        where = item and self.line(item.start)
        if isinstance(item, Constant):
            return f"{name} is a constant of type {self.written(item.type.text)}; {where} defines it"
        if isinstance(item, Global):
            return f"{name} is a global of type {item.type.text}, so as a value an iref<{item.type.text}>; {where} defines it"
        if isinstance(item, (Function, Declaration)):
            by = "defines" if isinstance(item, Function) else "declares"
            return f"{name} is a function, so as a value a funcref<{item.signature.text}>; {where} {by} it"
        if isinstance(item, Type):
            return f"{name} is a type, {self.written(name)}; {where} defines it"
        return f"{name} is a signature, {self.signature_in_words(name)}; {where} defines it" if item else None

    def signature_in_words(self, name):
        """Parameters and results of a signature."""
        item = self.bundle.signatures.get(name)
        if item is None:
            return name
        return f"{in_list(token.text for token in item.parameters)} -> {in_list(token.text for token in item.results)}"

    def value_in_words(self, token, own=False):
        """What a value is, its type, and where it is defined."""
        if token.kind == "global":
            return self.item_in_words(token.text)
        variable = value_types.variables_of(self.bundle, self.instruction.block, self.instruction, own).get(token.text)
        if variable is None:
            return None
        role = {"parameter": "a parameter", "handler": "the handler", "result": "a result"}[variable.role]
        by = f": {self.bundle.text_of(variable.instruction)}" if variable.instruction else ""
        return f"{token.text} is {role} of type {self.written(variable.type)}; {self.line(variable.name)} defines it{by}"
