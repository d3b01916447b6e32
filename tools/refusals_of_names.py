"""Why a bundle is refused: names that stand for nothing, for something else, or for two things."""
import difflib

import value_types
from bundle import Constant, Declaration, Function, Type

NAMES_OF_SORTS = {"type": "a type", "signature": "a signature", "constant": "a constant", "value": "a constant, a global or a function",
                  "variable": "a variable of the function", "block": "a block of the function"}
# How many names are shown where one is not known.
MOST_NAMES = 8


def not_local(refusal):
    """NotLocal: a variable of another block, or one that gets its value later."""
    name, block = refusal.token.text, refusal.instruction.block if refusal.instruction else None
    if block is None:
        return
    own = value_types.variables_of(refusal.bundle, block).get(name)
    if own and own.instruction is refusal.instruction:
        refusal.say("defined", f"{name} is the result of this instruction itself, which has no value before it is done")
    elif own:
        refusal.say("defined", f"{name} gets its value at {refusal.line(own.name)}, after this use")
    else:
        variable_of_other_blocks(refusal, name, block)


def variable_of_other_blocks(refusal, name, block):
    """Where a variable is defined that another block needs, and how it comes there."""
    found = [(other, value_types.variables_of(refusal.bundle, other).get(name)) for other in refusal.function.blocks]
    found = [(other, variable) for other, variable in found if variable]
    if not found:
        return
    other, variable = found[0]
    blocks = " and ".join(f"{other.name.text} ({refusal.line(variable.name)})" for other, variable in found[:3])
    refusal.say("defined", f"{name} belongs to the block {blocks}; it is known only there")
    ways = [part for source in refusal.function.blocks for instruction in source.instructions for part in instruction.destinations()
            if part.token.text == block.name.text]
    lines = ", ".join(dict.fromkeys(refusal.line(part.token) for part in ways[:3]))
    refusal.say("hint", f"pass it: a parameter <{variable.type or '@t'}> {name} of the block {block.name.text} ({refusal.line(block.name)})"
             + (f", and {name} among the arguments of {block.name.text} ({lines})" if ways else ""))


def sort_asked(refusal):
    """The sort of name that is asked at the place: a word of NAMES_OF_SORTS, or None."""
    if refusal.token.kind == "local":
        return "block" if refusal.part and refusal.part.kind == "destination" and refusal.part.token.start == refusal.place else "variable"
    if refusal.part:
        return {"type": "type", "signature": "signature", "case": "constant"}.get(refusal.part.kind, "value")
    for item in refusal.bundle.items:
        if item.start.start <= refusal.place:
            last = item
    if isinstance(last, Constant):
        return "type" if last.type.start == refusal.place else "constant"
    if isinstance(last, Declaration) or (isinstance(last, Function) and last.signature.start == refusal.place):
        return "signature"
    return "signature" if isinstance(last, Type) and last.word == "funcref" else "type"


def names_of_sort(refusal, sort):
    """All names of a sort that could stand at the place."""
    bundle = refusal.bundle
    if sort == "block":
        return [block.name.text for block in refusal.function.blocks]
    if sort == "variable":
        return [name for block in refusal.function.blocks for name in value_types.variables_of(bundle, block)]
    tables = {"type": [bundle.types], "signature": [bundle.signatures], "constant": [bundle.constants],
              "value": [bundle.constants, bundle.globals, bundle.functions, bundle.declarations]}
    return [name for table in tables[sort] for name in table]


def unknown(refusal):
    """Unknown: the nearest name of the sort, and what else has that name."""
    name, sort = refusal.token.text, sort_asked(refusal)
    names = names_of_sort(refusal, sort)
    refusal.say("expected", f"the name of {NAMES_OF_SORTS[sort]}")
    labels = [instruction for block in (refusal.function.blocks if refusal.function else []) for instruction in block.instructions
              if instruction.label and instruction.label.text == name]
    if sort == "variable" and labels:
        refusal.say("hint", f"{name} is a label ({refusal.line(labels[0].label)}), and a label is no variable")
        return
    if sort == "variable" and refusal.function.block(name):
        refusal.say("hint", f"{name} is a block, and a block is no variable")
        return
    turned = {"@": "%", "%": "@"}.get(name[0], "") + name[1:]
    turns = {"variable": "value", "value": "variable"} if refusal.function else {}
    others = names_of_sort(refusal, turns[sort]) if sort in turns else []
    near = difflib.get_close_matches(name, list(dict.fromkeys(names)), 1)
    if turned in others:
        refusal.say("hint", f"is {turned} meant? A global name begins with `@`, and a local one with `%`")
    elif near:
        refusal.say("hint", f"is {near[0]} meant?")
    else:
        refusal.say("hint", names_in_words(refusal, sort, names))


def names_in_words(refusal, sort, names):
    """Which names there are, where none is near."""
    names = list(dict.fromkeys(names))
    of = "the bundle" if refusal.token.kind == "global" else f"the function {refusal.function.name.text}"
    plain = NAMES_OF_SORTS[sort].split(" of ")[0].removeprefix("a ")
    if not names:
        return f"{of} has no {plain}"
    shown = " ".join(names[:MOST_NAMES]) + " .." * (len(names) > MOST_NAMES)
    return f"no {plain} of {of} has a name like it; there {'are' if len(names) > 1 else 'is only'} {shown}"


def wrong_kind(refusal):
    """WrongKind: what the name stands for, and what was asked."""
    sort = sort_asked(refusal)
    refusal.say("found", refusal.item_in_words(refusal.token.text))
    refusal.say("expected", f"the name of {NAMES_OF_SORTS[sort]}")
    near = difflib.get_close_matches(refusal.token.text, names_of_sort(refusal, sort), 1)
    refusal.say("hint", near and f"is {near[0]} meant?")


def duplicate(refusal):
    """Duplicate: where the name was defined first."""
    name = refusal.token.text
    if refusal.token.kind == "global":
        first = next((item for item in refusal.bundle.items if item.name.text == name), None)
        refusal.say("defined", first and f"{name} is defined already at {refusal.line(first.name)}, by `{first.start.text}`; all global "
                    "names are of one space")
        return
    block = next((block for block in refusal.function.blocks if block.name.start == refusal.place), None)
    if block:
        refusal.say("defined", f"the function has a block {name} already, at {refusal.line(refusal.function.block(name).name)}")
        return
    first = first_definer_in_block(refusal, name)
    refusal.say("defined", first and f"the block has a {name} already, at {refusal.line(first)}")
    refusal.say("hint", "each variable gets its value once; a new value needs a new name")


def first_definer_in_block(refusal, name):
    """The first token that defines a local name in the block that the place stands in."""
    block = next(block for block in reversed(refusal.function.blocks) if block.name.start < refusal.place)
    definers = [token for _, token in block.parameters] + [block.handler] * bool(block.handler)
    for instruction in block.instructions:
        definers += instruction.results + [instruction.label] * bool(instruction.label)
    return next((token for token in definers if token.text == name and token.start < refusal.place), None)
