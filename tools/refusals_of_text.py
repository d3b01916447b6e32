"""Why a text is no bundle: what stands there, what may stand there, and the likely cause."""
import difflib

import language
import lexical
import value_types
from bundle import A_TYPE, A_VALUE, AN_INSTRUCTION, AN_OPERATION
from refusal import in_list
from text_reader import alternatives, number_value


def form_text(word):
    """A form as the documents write it."""
    form = language.COMMON_FORMS.get(word) or language.FORMS[word]
    spelled = {"T": "@t", "U": "@u", "H": "@h", "S": "@s", "number": "n", "arguments": "( value* )", "returned": "( value* )",
               "destination": "dest", "types": "< @t* >", "update": "UPDATE", "local?": "local?", "swap": "RET_WITH .. or KILL_OLD ..",
               "cases": "{ case* }", "common": "@uvm.NAME ..", "empty?": "( )?"}
    elements = [element.partition(":")[0] for element in form.elements]
    elements = ["order?" if element in ("order:LOAD", "order:STORE") else name for element, name in zip(form.elements, elements)]
    prefix = "COMMINST " if word in language.COMMON_FORMS else ""
    return " ".join([prefix + word, *(spelled.get(element, element) for element in elements)])


def of_token(refusal):
    """A fault of a single token."""
    for label, text in lexical.explain(refusal.fault, refusal.token, refusal.before):
        refusal.say(label, text)


def too_many(refusal):
    """TooMany: which list is too long."""
    most, what = language.MOST_MEMBERS, "members of this list"
    if any(item.start.start == refusal.place for item in refusal.bundle.items):
        most, what = language.MOST_ITEMS, "items of a bundle"
    elif any(block.name.start == refusal.place for block in refusal.bundle.blocks()):
        most, what = language.MOST_BLOCKS, "blocks of a function"
    elif refusal.instruction and refusal.instruction.start.start == refusal.place:
        most, what = language.MOST_INSTRUCTIONS, "instructions of a block"
    elif refusal.part and refusal.part.kind == "case":
        most, what = language.MOST_CASES, "cases of a SWITCH"
    refusal.say("expected", f"at most {most} {what}; this is one more")


def not_in_profile(refusal):
    """NotInProfile: what the machine has instead."""
    text = refusal.token.text
    floats = ("float", "double", "BITCAST", "SITOFP", "UITOFP")
    if text in floats or (text.startswith("F") and text in language.LEFT_OUT_OPERATIONS):
        refusal.say("hint", "there are no floating-point numbers; a program may compute with integers, as fixed-point numbers")
    elif text in ("CCALL", "ufuncptr", "uptr", "PTRCAST", ".expose"):
        refusal.say("hint", "nothing outside of the machine can be called or reached; a TRAP asks the client")
    elif text == "tagref64":
        refusal.say("hint", "a struct of an int<8> as the tag, an int<64> and a ref<void> holds a value of any type")
    elif text == "ALLOCAHYBRID":
        refusal.say("hint", "NEWHYBRID makes a hybrid")
    elif text == "weakref":
        refusal.say("hint", "there is no garbage collection, so a `ref` does the same")
    elif refusal.token.kind == "global":
        near = difflib.get_close_matches(text, language.COMMON_NAMES, 1)
        refusal.say("expected", "one of " + " ".join(language.COMMON_NAMES))
        refusal.say("hint", near and f"is {near[0]} meant?")


def unexpected(refusal):
    """Unexpected: what may stand there."""
    stop = refusal.bundle.fault
    if stop is None or stop.token.start != refusal.place:
        return
    refusal.say("found", f"`{refusal.token.text}`" if refusal.token.kind != "end" else "the end of the text")
    refusal.say("expected", alternatives(stop.expected))
    reading = refusal.bundle.open_instruction
    if reading and reading.word:
        refusal.say("form", f"{form_text(reading.word)}; the instruction begins at {refusal.line(reading.start)}")
    refusal.say("hint", cause_of_unexpected(refusal, stop.expected, reading))


def cause_of_unexpected(refusal, expected, reading):
    """The likely cause of a token that cannot stand there."""
    text, kind = refusal.token.text, refusal.token.kind
    function = refusal.bundle.open_function
    if kind == "number" and A_VALUE in expected:
        return named_constant(refusal, reading)
    if text in language.TYPE_WORDS and A_TYPE in expected:
        return named_type(refusal)
    if reading and reading.word == "RET":
        return what_is_returned(refusal, function)
    if "`VERSION`" in expected:
        return f"a function begins with `.funcdef {function.name.text} VERSION %v <@signature> {{`"
    if (kind == "directive" or kind == "end") and function and function.blocks:
        return f"the function {function.name.text}, {refusal.line(function.start)}, is still open: is a `}}` missing before this?"
    if kind == "word" and AN_OPERATION in expected or kind == "word" and AN_INSTRUCTION in expected:
        near = difflib.get_close_matches(text.upper(), language.OPERATIONS, 2)
        return f"is {' or '.join(near)} meant?" if near else f"no instruction is called {text}"
    if kind == "directive":
        near = difflib.get_close_matches(text, language.DIRECTIVES, 1)
        return near and f"is {near[0]} meant?"
    begins_anew = kind in ("word", "local") or text in ("}", "(")
    if reading and begins_anew and refusal.line(reading.start) != refusal.line(refusal.token):
        return f"the instruction of {refusal.line(reading.start)} is not complete"
    return None


def what_is_returned(refusal, function):
    """What a RET of a function has to give."""
    signature = refusal.bundle.signatures.get(function.signature.text)
    if signature is None:
        return "RET has its values in brackets, and `RET ()` gives none"
    if not signature.results:
        return f"{function.name.text} returns nothing: `RET ()`"
    return f"{function.name.text} returns {in_list(token.text for token in signature.results)}: `RET (..)` with its values"


def named_constant(refusal, reading):
    """How a number is written as a value: by a constant, which the bundle may have."""
    value = number_value(refusal.token.text)
    same = [item for item in refusal.bundle.constants.values() if number_value(item.literal.text) == value]
    asked = reading.names.get("T") if reading else None
    same = [item for item in same if asked is None or value_types.same(refusal.bundle, item.type.text, asked.text)]
    if same:
        return f"a value is a variable or the name of a constant: {same[0].name.text} is {refusal.token.text}"
    name = f"@c{refusal.token.text.lstrip('+-')}"
    defined = f".const {name} <{asked.text if asked else '@t'}> = {refusal.token.text}"
    return f"a value is a variable or the name of a constant: `{defined}`, and then {name}"


def named_type(refusal):
    """How a type is written: by its name, which the bundle may have."""
    at = refusal.bundle.tokens.index(refusal.token)
    text = refusal.token.text
    if refusal.bundle.tokens[at + 1].text == "<":
        end = next(n for n in range(at, len(refusal.bundle.tokens)) if refusal.bundle.tokens[n].text in (">", ""))
        text += f"<{' '.join(token.text for token in refusal.bundle.tokens[at + 2:end])}>"
    same = next((name for name in refusal.bundle.types if value_types.same(refusal.bundle, name, text)), None)
    if same:
        return f"a type is written as its name: {same} is {text}"
    return f"a type is written as its name: `.typedef @t = {text}`, and then @t"
