"""Likely causes where a type or a value is not what a form asks."""
import value_types
from value_types import REFERENCES, same, shape, target, width


def name_of(bundle, type_text):
    """A name of the bundle for a type, or the type as it is written where the bundle has none."""
    if type_text.startswith("@"):
        return type_text
    return next((name for name in bundle.types if same(bundle, name, type_text)), type_text)


def hint_for_type(bundle, instruction, part):
    """Why a type may have been written that the form does not take."""
    found = shape(bundle, part.token.text)
    if found is None:
        return None
    word = instruction.word
    if word in ("LOAD", "STORE", "CMPXCHG", "ATOMICRMW") and found.word in ("struct", "array", "hybrid"):
        way = {"struct": "GETFIELDIREF leads to a field", "array": "GETELEMIREF leads to an element",
               "hybrid": "GETFIELDIREF leads to a fixed field, and "
               "GETVARPARTIREF to the first element"}[found.word]
        return f"each access is of one scalar: {way}"
    if word in ("NEW", "ALLOCA") and found.word == "hybrid":
        return f"a hybrid is made by `NEWHYBRID <{part.token.text} @length_type> %length`"
    if word == "NEWHYBRID" and part.asked == "hybrid":
        return f"`NEW <{part.token.text}>` makes an object of it"
    if word in ("TRUNC", "ZEXT", "SEXT") and found.word == "int":
        return "TRUNC goes to fewer bits, ZEXT and SEXT go to more"
    if part.asked in ("int", "index") and found.word in REFERENCES:
        return "no arithmetic is done on references: GETFIELDIREF, GETELEMIREF and SHIFTIREF move an iref"
    if word == "ATOMICRMW":
        return "on references only XCHG is done"
    if word == "GETELEMIREF" and found.word == "hybrid":
        return "GETVARPARTIREF leads to the first element, and SHIFTIREF from there to others"
    return None


def hint_for_value(bundle, instruction, token, found, asked):
    """Why a value may have another type than is asked, and what gives one of the asked type."""
    have, want = shape(bundle, found), shape(bundle, asked)
    if have is None or want is None:
        return None
    value = token.text
    if have.word == "int" and want.word == "int":
        return between_ints(bundle, value, found, asked)
    if have.word == "iref":
        return from_iref(bundle, value, found, asked)
    if have.word == "ref" and want.word == "iref":
        return f"`GETIREF <{target(bundle, found, 'ref')}> {value}` makes an iref of a ref" + also_to_part(bundle, have.arguments[0],
                                                                                                           want.arguments[0])
    if have.word == "ref" and want.word == "ref" and value_types.leaves(bundle, found):
        return f"REFCAST makes a ref of the other type: `REFCAST <{name_of(bundle, found)} {name_of(bundle, asked)}> {value}`"
    if have.word == "funcref" and want.word == "funcref":
        signature = have.arguments[0]
        form = "COMMINST @uvm.new_stack <[{}]> ({})" if instruction.word == "@uvm.new_stack" else instruction.word + " <{}> {} .."
        return f"{value} has the signature {signature}: `{form.format(signature, value)}`"
    if have.word == "funcref" and want.word == "stackref":
        return f"a stack for a function is made by `COMMINST @uvm.new_stack <[{have.arguments[0]}]> ({value})`"
    if have.word == "threadref" and want.word == "stackref":
        return "a thread is no stack; @uvm.current_stack gives the stack that a thread is on"
    if have.word == "funcref":
        return f"the name of a function is a reference to it; `CALL <{have.arguments[0]}> {value} (..)` calls it"
    if have.word == "struct":
        number = next((n for n, part in enumerate(value_types.parts_of(bundle, found)) if same(bundle, part, asked)), None)
        return None if number is None else f"`EXTRACTVALUE <{name_of(bundle, found)} {number}> {value}` gives a field of that type"
    if want.word == "int" and have.word in REFERENCES:
        return "EQ and NE compare references; there is no number in them"
    return None


def between_ints(bundle, value, found, asked):
    """From one width to another."""
    names = f"<{name_of(bundle, found)} {name_of(bundle, asked)}>"
    have, want = width(bundle, found), width(bundle, asked)
    if want == 1:
        return f"a comparison gives an int<1>: `NE <{name_of(bundle, found)}> {value} @zero`, with a constant @zero"
    if have == 1:
        return f"a comparison gives an int<1>; `ZEXT {names} {value}` makes an int<{want}> of it"
    if have < want:
        return f"`ZEXT {names} {value}` or, with its sign, `SEXT {names} {value}` widens it"
    return f"`TRUNC {names} {value}` takes its low {want} bits"


def from_iref(bundle, value, found, asked):
    """From an internal reference to what is asked."""
    inner = target(bundle, found, "iref")
    if same(bundle, inner, asked):
        stands = "a global stands for an iref to its first cell" if value.startswith("@") else f"{value} leads to a cell"
        return f"{stands}: `LOAD <{inner}> {value}` gives what the cell holds"
    wanted = target(bundle, asked, "iref")
    if wanted is None:
        return "an iref of an object cannot be turned back into a ref" if target(bundle, asked, "ref") else None
    number = next((n for n, part in enumerate(value_types.parts_of(bundle, inner)) if same(bundle, part, wanted)), None)
    if number is None:
        return None
    word = shape(bundle, inner).word
    if word == "array":
        return f"`GETELEMIREF <{inner} @index_type> {value} %index` leads to an element"
    if word == "hybrid" and number == len(value_types.parts_of(bundle, inner)) - 1:
        return f"`GETVARPARTIREF <{inner}> {value}` leads to the first element"
    return f"`GETFIELDIREF <{inner} {number}> {value}` leads to a field of that type"


def also_to_part(bundle, inner, wanted):
    """What a ref's iref needs besides, where the asked iref is one of a part."""
    if same(bundle, inner, wanted):
        return ""
    parts = value_types.parts_of(bundle, inner)
    number = next((n for n, part in enumerate(parts) if same(bundle, part, wanted)), None)
    return f", and `GETFIELDIREF <{inner} {number}>` leads from there to the field" if number is not None else ""
