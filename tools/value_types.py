"""Types of a bundle, and which type each value has.

A type is written as a text: the name of a `.typedef` (`@i64`), or a type that the forms build of names (`iref<@i64>`, `int<1>`,
`ref<void>`). Functions take the bundle first. What is not known, since a name is not defined or a number is out of range, is None.
"""
import re
import typing

from bundle import Constant, Declaration, Function, Global
from text_reader import number_value

_BUILT = re.compile(r"(\w+)<(.*)>")
REFERENCES = ("ref", "iref", "funcref", "stackref", "threadref")


class Shape(typing.NamedTuple):
    """A type's word and what stands in its brackets, as texts."""

    word: str
    arguments: tuple


class Variable(typing.NamedTuple):
    """A variable of a block: its name's token, its type, and what it is: `parameter`, `handler` or `result`; of a result the
    instruction."""

    name: object
    type: str
    role: str
    instruction: object = None


def shape(bundle, type_text):
    """The word and the arguments of a type, or None where the name is not defined."""
    if type_text is None:
        return None
    if type_text.startswith("@"):
        found = bundle.types.get(type_text)
        return found and Shape(found.word, tuple(token.text for token in found.arguments))
    built = _BUILT.fullmatch(type_text)
    return Shape(built[1], (built[2],)) if built else Shape(type_text, ())


def written(bundle, type_text):
    """A type in words: a name with what it stands for, `@i64 = int<64>`."""
    found = shape(bundle, type_text)
    if found is None or not type_text.startswith("@"):
        return type_text or "a type that is not known"
    arguments = f"<{' '.join(found.arguments)}>" if found.arguments else ""
    return f"{type_text} = {found.word}{arguments}"


def width(bundle, type_text):
    """The width of an int, or None where the type is no int."""
    found = shape(bundle, type_text)
    return number_value(found.arguments[0]) if found and found.word == "int" else None


def target(bundle, type_text, word):
    """What a type leads to, where it has this word: of a ref or an iref its type, of a funcref its signature."""
    found = shape(bundle, type_text)
    return found.arguments[0] if found and found.word == word else None


def same(bundle, one, other, assumed=frozenset()):
    """Whether two types are the same once names are replaced by what they stand for; types that lead to themselves are compared as
    far as they differ."""
    if one == other or (one, other) in assumed:
        return True
    left, right = shape(bundle, one), shape(bundle, other)
    if left is None or right is None or left.word != right.word or len(left.arguments) != len(right.arguments):
        return False
    assumed = assumed | {(one, other)}
    if left.word == "funcref":
        return same_signature(bundle, left.arguments[0], right.arguments[0], assumed)
    return all(same_argument(bundle, a, b, assumed) for a, b in zip(left.arguments, right.arguments))


def same_argument(bundle, one, other, assumed):
    """Whether two arguments of a type are the same: numbers by their values, types as types."""
    if one[0] in "+-0123456789":
        return other[0] in "+-0123456789" and number_value(one) == number_value(other)
    return same(bundle, one, other, assumed)


def same_signature(bundle, one, other, assumed=frozenset()):
    """Whether two signatures have the same parameters and results."""
    left, right = bundle.signatures.get(one), bundle.signatures.get(other)
    if left is None or right is None:
        return one == other
    pairs = [(left.parameters, right.parameters), (left.results, right.results)]
    return all(len(a) == len(b) and all(same(bundle, x.text, y.text, assumed) for x, y in zip(a, b)) for a, b in pairs)


def parts_of(bundle, type_text):
    """The types of the fields of a struct, or of the fixed fields and the element of a hybrid; of an array its element."""
    found = shape(bundle, type_text)
    if found is None or found.word not in ("struct", "hybrid", "array"):
        return []
    return [argument for argument in found.arguments if argument.startswith("@")]


def leaves(bundle, type_text, above=()):
    """How many scalars a type has, without the elements of a hybrid; None where it is a part of itself, or a name is not defined."""
    found = shape(bundle, type_text)
    if found is None or type_text in above:
        return None
    if found.word == "void":
        return 0
    if found.word not in ("struct", "array", "hybrid"):
        return 1
    counted = parts_of(bundle, type_text)[:-1 if found.word == "hybrid" else None]
    each = [leaves(bundle, part, above + (type_text,)) for part in counted]
    if None in each:
        return None
    times = (number_value(found.arguments[-1]) or 0) if found.word == "array" else 1
    return sum(each) * times


def path_to_itself(bundle, type_text):
    """The names on a way from a type through its parts back to it, it first and last; None where there is none."""
    ways = [[type_text]]
    seen = set()
    while ways:
        way = ways.pop(0)
        for part in parts_of(bundle, way[-1]):
            if part == type_text:
                return way + [part]
            if part not in seen:
                seen.add(part)
                ways.append(way + [part])
    return None


def type_in_form(bundle, instruction, expression):
    """The type that an expression of a form stands for in an instruction."""
    if expression in instruction.names:
        return instruction.names[expression].text
    built = _BUILT.fullmatch(expression)
    if built and not built[2].isdigit():
        inner = type_in_form(bundle, instruction, built[2])
        return inner and f"{built[1]}<{inner}>"
    called = re.fullmatch(r"(field|element)\((\w)\)", expression)
    if not called:
        return expression
    parts = parts_of(bundle, instruction.names[called[2]].text)
    if called[1] == "element":
        return parts[-1] if parts else None
    number = number_value(instruction.names["number"].text)
    return parts[number] if number is not None and 0 <= number < len(parts) else None


def types_in_list(bundle, instruction, expression):
    """The types that a list of an instruction asks, or that its results have: None where a name is not defined."""
    if expression in ("parameters(S)", "results(S)"):
        signature = bundle.signatures.get(instruction.names["S"].text)
        found = signature and (signature.parameters if expression.startswith("p") else signature.results)
    elif expression == "results":
        signature = bundle.signatures.get(instruction.block.function.signature.text)
        found = signature and signature.results
    elif expression.startswith("passed"):
        return expression.split()[1:]
    elif expression.startswith("block"):
        block = instruction.block.function.block(expression.split()[1])
        return block and [name.text for name, _ in block.parameters]
    else:
        found = instruction.types
    return None if found is None else [token.text for token in found]


def result_types(bundle, instruction):
    """The types of what an instruction gives; None where a name is not defined."""
    if instruction.form is None or instruction.kills_old:
        return []
    types = []
    for given in instruction.form.gives:
        if given == "results(S)" or given == "types":
            more = types_in_list(bundle, instruction, given)
            if more is None:
                return None
            types += more
        else:
            types.append(type_in_form(bundle, instruction, given))
    return types


def variables_of(bundle, block, before=None, own=False):
    """The variables of a block by name: all, or those that stand before an instruction; with `own` its results as well."""
    found = {name.text: Variable(name, type_name.text, "parameter") for type_name, name in reversed(block.parameters)}
    if block.handler:
        found.setdefault(block.handler.text, Variable(block.handler, "ref<void>", "handler"))
    for instruction in block.instructions[:None if before is None else before.index + own]:
        types = result_types(bundle, instruction) or []
        for number, name in enumerate(instruction.results):
            type_text = types[number] if number < len(types) else None
            found.setdefault(name.text, Variable(name, type_text, "result", instruction))
    return found


def type_of_global_name(bundle, name):
    """The type of a constant, a global or a function as a value; None for any other name."""
    item = bundle.definition(name)
    if isinstance(item, Constant):
        return item.type.text
    if isinstance(item, Global):
        return f"iref<{item.type.text}>"
    if isinstance(item, (Function, Declaration)):
        return f"funcref<{item.signature.text}>"
    return None


def type_of_value(bundle, token, instruction, own=False):
    """The type of a value of an instruction."""
    if token.kind == "global":
        return type_of_global_name(bundle, token.text)
    variable = variables_of(bundle, instruction.block, instruction, own).get(token.text)
    return variable and variable.type
