"""Explains why a HAIL script, a client script, a schedule, a file of conditions or the entry of a run is refused."""
import difflib

import lexical
import value_types
from bundle import Bundle
from client_script import ClientReader
from hail_script import HailReader
from text_reader import alternatives, number_value

# How many names are shown where one is not known.
MOST_NAMES = 8


def explain(file, call, source, place, fault):
    """What can be said of a refused file besides its place, as pairs of a label and a text."""
    if file == "schedule":
        return of_schedule(source, place, fault)
    if file == "condition":
        return of_condition(source, place, fault)
    bundle = Bundle.of_file(call.bundle)
    reader = HailReader(source.text) if file == "hail" else ClientReader(source.text)
    at = next((n for n, token in enumerate(reader.tokens) if token.start >= place), len(reader.tokens) - 1)
    token = reader.tokens[at]
    if fault in ("BadByte", "BadName", "NumberTooLarge", "TooLong"):
        return lexical.explain(fault, token, reader.tokens[at - 1] if at else None)
    if fault == "Unexpected":
        found = f"`{token.text}`" if token.kind != "end" else "the end of the text"
        expected = reader.fault.expected if reader.fault and reader.fault.token.start == place else []
        return [("found", found)] + [("expected", alternatives(expected))] * bool(expected)
    return of_hail(bundle, reader, token, fault) if file == "hail" else of_client(bundle, token, fault)


def of_schedule(source, place, fault):
    """A fault of a schedule."""
    group = source.text[place:place + 40].split("//")[0].split()
    if fault == "NumberTooLarge":
        return [("expected", "a number below 4294967296, which is 2^32")]
    return [("found", f"`{group[0] if group else ''}`"),
            ("expected", "decimal numbers with blanks or comments between them; a comment begins with `//`")]


def of_condition(source, place, fault):
    """A fault of conditions."""
    rest = source.text[place:].split("//")[0].split()
    found = [("found", f"`{rest[0]}`" if rest else "the end of the text")]
    if fault != "Unknown":
        return found
    return [*found, ("expected", "`exists`, `never` or `always` where a condition begins; in a list a thread from `t0` to `t63`, an ending "
                                 "as `done` or `DataRace`, or the name of a global of one cell")]


def values_of(bundle):
    """The names that stand for a value."""
    return [name for table in (bundle.constants, bundle.globals, bundle.functions, bundle.declarations) for name in table]


def nearest(name, names):
    """The nearest name as a hint, or none."""
    near = difflib.get_close_matches(name, list(names), 1)
    return [("hint", f"is {near[0]} meant?")] if near else []


def in_bundle(bundle, name):
    """What a global name stands for in the bundle, where it is not what is asked."""
    item = bundle.definition(name)
    return [("found", f"{name} is defined by `{item.start.text}`")] if item else []


def of_client(bundle, token, fault):
    """A name of a client script that stands for no value."""
    if fault != "Unknown":
        return []
    return [*in_bundle(bundle, token.text), ("expected", "the name of a constant, a global or a function of the bundle"),
            *nearest(token.text, values_of(bundle))]


def of_hail(bundle, reader, token, fault):
    """A fault of a HAIL script that is no matter of its grammar."""
    command = next((command for command in reversed(reader.commands) if command.start.start <= token.start), None)
    made = [other.object.text for other in reader.commands if other.object and other.start.start < token.start]
    if command is None:
        return []
    if fault == "Unknown":
        return unknown_in_hail(bundle, command, made, token)
    if fault == "Duplicate":
        first = next(other for other in reader.commands if other.object and other.object.text == token.text)
        return [("defined", f"{token.text} is made already at line {reader.source.line(first.start.start)}")]
    if fault == "HeapFull":
        return [("expected", "no more cells than `--cells` says, which is 100000 where nothing is said")]
    return Fit(bundle, reader).explain(command, token, fault)


def unknown_in_hail(bundle, command, made, token):
    """A name of a HAIL script that stands for nothing there."""
    if token.kind == "object":
        return [("expected", "an object that an earlier command makes"), *nearest(token.text, made)]
    if command.type and command.type.start == token.start:
        return [*in_bundle(bundle, token.text), ("expected", "the name of a type"), *nearest(token.text, bundle.types)]
    if command.target and command.target.name.start == token.start:
        return [*in_bundle(bundle, token.text), ("expected", "an object, or the name of a global"), *nearest(token.text, bundle.globals)]
    return [*in_bundle(bundle, token.text), ("expected", "the name of a constant, a global or a function"),
            *nearest(token.text, values_of(bundle))]


class Fit:
    """Follows the targets of a script through types, up to the source or the index at fault."""

    def __init__(self, bundle, reader):
        self.bundle = bundle
        self.objects = {command.object.text: command.type.text for command in reversed(reader.commands) if command.object and command.type}

    def explain(self, command, token, fault):
        """What was asked at a token."""
        if command.start.text != ".init":
            written = value_types.written(self.bundle, command.type.text)
            return [("found", written), ("expected", "a hybrid" if command.start.text == ".newhybrid" else "a type that is no hybrid")]
        asked, lines = self.type_of(command.target, token)
        if lines:
            return lines
        return self.of_source(command.source, asked, token, fault) or []

    def type_of(self, target, token):
        """The type of a target; or, where the token is one of its indexes, what is wrong there."""
        name = target.name.text
        item = self.bundle.globals.get(name)
        current = self.objects.get(name) if target.name.kind == "object" else item and item.type.text
        for mark, number in target.indexes:
            if token.start == mark.start:
                return None, [("found", f"what stands before it has the type {self.written(current)}, which has no parts")]
            if token.start == number.start:
                return None, [("found", f"index {number.text}"), ("expected", f"the number of a part, from 0, of {self.written(current)}")]
            current = self.part(current, number_value(number.text))
        return current, []

    def part(self, type_text, number):
        """The type of a part; `elements of @t` for all elements of a hybrid."""
        if type_text is None:
            return None
        if type_text.startswith("elements of "):
            return type_text.removeprefix("elements of ")
        found = value_types.shape(self.bundle, type_text)
        parts = value_types.parts_of(self.bundle, type_text)
        if found is None or found.word == "array":
            return parts[0] if parts else None
        if found.word == "hybrid" and number == len(parts) - 1:
            return f"elements of {parts[-1]}"
        return parts[number] if number < len(parts) else None

    def written(self, type_text):
        """A type in words."""
        if type_text and type_text.startswith("elements of "):
            return f"the elements of a hybrid, each of type {self.written(type_text.removeprefix('elements of '))}"
        return value_types.written(self.bundle, type_text)

    def of_source(self, source, asked, token, fault):
        """What was asked of the source at the token, which is this one or stands in it; None where it stands elsewhere."""
        if source.token.start == token.start:
            return self.misfit(source, asked, fault)
        if source.target:
            _, lines = self.type_of(source.target, token)
            return lines or None
        for number, member in enumerate(source.members or []):
            found = self.of_source(member, self.part(asked, number), token, fault)
            if found:
                return found
        return None

    def misfit(self, source, asked, fault):
        """A source that does not fit."""
        bits = asked and not asked.startswith("elements") and value_types.width(self.bundle, asked)
        if fault == "OutOfRange" and bits:
            return [("expected", f"a number from -{2 ** (bits - 1)} to {2 ** bits - 1}, for the type {self.written(asked)}")]
        lines = [("found", self.source_in_words(source)), ("expected", f"what fits {self.written(asked)}")]
        if source.members is not None and asked and value_types.parts_of(self.bundle, asked):
            shape = value_types.shape(self.bundle, asked)
            wanted = number_value(shape.arguments[1]) if shape.word == "array" else len(shape.arguments)
            lines.append(("hint", f"a list for it has {wanted} source{'s' * (wanted != 1)}"))
        return lines

    def source_in_words(self, source):
        """What a source is, and its type."""
        token = source.token
        if source.members is not None:
            return f"a list of {len(source.members)} source{'s' * (len(source.members) != 1)}"
        if source.target:
            return f"an internal reference to {source.target.name.text}"
        if token.kind == "object":
            return f"{token.text}, an object of type {self.written(self.objects.get(token.text))}"
        if token.kind == "global":
            return f"{token.text}, a value of type {self.written(value_types.type_of_global_name(self.bundle, token.text))}"
        return token.text


def explain_entry(call, fault):
    """What is wrong with the function that the run begins with."""
    bundle, name = Bundle.of_file(call.bundle), call.options.get("--entry", "")
    functions = [*bundle.functions, *bundle.declarations]
    item = bundle.definition(name)
    if fault == "Unknown":
        if "@" + name in functions:
            return [("found", name), ("hint", f"the name of a function begins with `@`: --entry @{name}")]
        bodies = " ".join(list(bundle.functions)[:MOST_NAMES])
        others = [("hint", f"the bundle's functions are {bodies}" if bodies else "the bundle has no function")]
        return [("found", name), *in_bundle(bundle, name), *(nearest(name, functions) or others)]
    signature = item and bundle.signatures.get(item.signature.text)
    where = f"line {bundle.source.line(item.start.start)}" if item else ""
    if fault == "BadSignature" and signature:
        takes = " ".join(token.text for token in signature.parameters)
        return [("found", f"{name}, {where}, takes ({takes}), by the signature {item.signature.text}"),
                ("expected", "a function without parameters"),
                ("hint", f"a function of its own may call {name} with constants")]
    return [("found", f"{name}, {where}")]
