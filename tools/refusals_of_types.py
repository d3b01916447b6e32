"""Why a bundle is refused: types of operands and arguments, and how many there are."""
import value_types
from bundle import Global
from hints import hint_for_type, hint_for_value
from language import SORTS
from refusal import count, in_list


def operand_type(refusal):
    """OperandType: at a type or at a value."""
    part = refusal.part
    if part is None:
        type_outside_of_instructions(refusal)
    elif part.kind == "type":
        refusal.say("found", refusal.item_in_words(part.token.text))
        refusal.say("expected", sort_in_words(refusal, part))
        refusal.say("hint", hint_for_type(refusal.bundle, refusal.instruction, part))
    elif part.kind == "case":
        value_of_type(refusal, part.token, refusal.instruction.names["T"].text, "the type of the SWITCH")
    else:
        asked = value_types.type_in_form(refusal.bundle, refusal.instruction, part.asked)
        value_of_type(refusal, part.token, asked, why_asked(refusal, part))


def type_outside_of_instructions(refusal):
    """A type of a global or of a block's parameter."""
    item = next((item for item in refusal.bundle.items if isinstance(item, Global) and item.type.start == refusal.place), None)
    refusal.say("found", refusal.item_in_words(refusal.token.text))
    if item:
        refusal.say("expected", "the type of a global is neither void nor a hybrid, since its cells are made before the run")
        refusal.say("hint", "a global of a `ref` may lead to an object that NEWHYBRID makes")
    else:
        refusal.say("expected", "the type of a parameter is " + SORTS["value type"].split(": ")[1])


def sort_in_words(refusal, part):
    """What is asked of a type of the instruction, in words."""
    word = refusal.instruction.word
    first = refusal.instruction.names.get("T")
    beside = f" ({refusal.written(first.text)})" if first and part.token is not first and "first type" in SORTS[part.asked] else ""
    return f"{SORTS[part.asked]}{beside}, in {word}"


def why_asked(refusal, part):
    """What the type that is asked of a value comes from, in words."""
    instruction = refusal.instruction
    if part.asked == "funcref<S>":
        return f"by the signature of the {instruction.word}: {refusal.signature_in_words(instruction.names['S'].text)}"
    names = " ".join(token.text for token in instruction.names.values())
    return f"by {instruction.word}" + (f" <{names}>" if names else "")


def value_of_type(refusal, token, asked, why):
    """A value of another type than is asked."""
    found = value_types.type_of_value(refusal.bundle, token, refusal.instruction, own=refusal.part.kind == "list")
    refusal.say("found", refusal.value_in_words(token, own=refusal.part.kind == "list"))
    refusal.say("expected", asked and f"{refusal.written(asked)}, {why}")
    refusal.say("hint", found and asked and hint_for_value(refusal.bundle, refusal.instruction, token, found, asked))


def argument_type(refusal):
    """ArgumentType: at a value of a list."""
    asked = value_types.types_in_list(refusal.bundle, refusal.instruction, refusal.part.asked) if refusal.part else None
    number = next((n for n, member in enumerate(refusal.part.members) if member.start == refusal.place), None) if refusal.part else None
    if asked is None or number is None or number >= len(asked):
        return
    value_of_type(refusal, refusal.part.members[number], asked[number], f"as value {number + 1} of {len(asked)}, {list_in_words(refusal)}")


def list_in_words(refusal):
    """What says how many values a list has, and of which types."""
    asked, function = refusal.part.asked, refusal.function
    if asked.endswith("(S)"):
        name = refusal.instruction.names["S"].text
        return f"by the signature {name} = {refusal.signature_in_words(name)}, {refusal.defined(name)}"
    if asked == "results":
        name = function.signature.text
        return f"the results of {function.name.text} by its signature {name} = {refusal.signature_in_words(name)}, {refusal.defined(name)}"
    if asked.startswith("block"):
        block = function.block(asked.split()[1])
        parameters = in_list(f"<{kind.text}> {name.text}" for kind, name in block.parameters)
        return f"the parameters of the block {block.name.text}, {refusal.line(block.name)}: {parameters}"
    return f"the types that stand before it: {in_list(asked.split()[1:])}"


def argument_count(refusal):
    """ArgumentCount: at the bracket of a list."""
    asked = value_types.types_in_list(refusal.bundle, refusal.instruction, refusal.part.asked) if refusal.part else None
    if asked is None:
        return
    given = len(refusal.part.members)
    values = " ".join(member.text for member in refusal.part.members)
    refusal.say("found", count(given, "value") + (f": {values}" if values else ""))
    refusal.say("expected", f"{count(len(asked), 'value')}, {list_in_words(refusal)}")
    if refusal.part.asked == "results" and not given:
        refusal.say("hint", f"RET gives what the function returns: {' '.join(refusal.written(name) for name in asked)}")


def result_count(refusal):
    """ResultCount: at the first token of an instruction."""
    instruction = refusal.instruction
    types = instruction and value_types.result_types(refusal.bundle, instruction)
    if types is None:
        return
    signature = instruction.names["S"].text if "S" in instruction.names else None
    by = f", by the signature {signature}, {refusal.defined(signature)}" if signature else ""
    refusal.say("found", count(len(instruction.results),
                               "result") + (f": {' '.join(token.text for token in instruction.results)}" if instruction.results else ""))
    refusal.say("expected",
                f"{count(len(types), 'result')}" + (f" of type {', '.join(refusal.written(name) for name in types)}" if types else "")
             + f", as {instruction.word} gives{by}")
    if len(instruction.results) < len(types):
        names = " ".join(f"%r{n}" for n in range(len(types))) if len(types) > 1 else "%r"
        named = f"({names})" if len(types) > 1 else names
        refusal.say("hint", f"each result gets a name, also one that is not used: `{named} = {instruction.word} ..`")
    elif not types:
        refusal.say("hint", f"leave out what stands before {instruction.word}")


def bad_index(refusal):
    """BadIndex: how many fields there are."""
    if refusal.part is None:
        return
    refusal.say("found", refusal.token.text)
    if refusal.part.asked == "watchpoint":
        refusal.say("expected", "a number from 0 to 4294967295")
        return
    name = refusal.instruction.names["T"].text
    is_hybrid = value_types.shape(refusal.bundle, name).word == "hybrid"
    fields = len(value_types.parts_of(refusal.bundle, name)) - is_hybrid
    numbers = f"a number from 0 to {fields - 1}" if fields > 1 else "0" if fields else "nothing, as there is no fixed field"
    refusal.say("expected", f"{numbers}; fields are counted from 0: {refusal.written(name)}")
    refusal.say("hint", is_hybrid and refusal.token.text == str(fields) and "GETVARPARTIREF leads to the elements")
