"""Why a bundle is refused: types, constants and signatures."""
import language
import value_types
from bundle import Signature
from language import SORTS
from refusal import count
from text_reader import number_value


def wrong_argument(refusal):
    """WrongArgument: a width, a length, or a part that no type may have."""
    item = next((item for item in refusal.bundle.types.values() if any(token.start == refusal.place for token in item.arguments)), None)
    if item is None:
        return
    if item.word == "int":
        widths = ", ".join(map(str, language.WIDTHS))
        refusal.say("found", f"int<{refusal.token.text}>")
        refusal.say("expected", f"a width among {widths}")
    elif refusal.token.kind == "number":
        refusal.say("found", f"an array of {refusal.token.text} elements")
        refusal.say("expected", f"a length from 1 to {language.MOST_LEAVES}")
    else:
        refusal.say("found", refusal.item_in_words(refusal.token.text))
        refusal.say("expected", f"a type that is neither void nor a hybrid, as a part of a {item.word}")
        refusal.say("hint", "a `ref` to it may be a part")


def endless_type(refusal):
    """EndlessType: the way from the type back to itself."""
    way = value_types.path_to_itself(refusal.bundle, refusal.token.text)
    refusal.say("found", way and f"{way[0]}, which has a part " + ", which has a part ".join(way[1:]))
    refusal.say("hint", f"let a part be a reference: `.typedef @to = ref<{refusal.token.text}>`")


def too_many_leaves(refusal):
    """TooManyLeaves: how many scalars there are."""
    item = next((item for item in refusal.bundle.globals.values() if item.type.start == refusal.place), None)
    if item:
        refusal.say("expected",
                    f"all globals together have at most {language.MOST_GLOBAL_LEAVES} scalars; with {item.name.text} they have more")
        return
    refusal.say("found", f"{value_types.leaves(refusal.bundle, refusal.token.text)} scalars in {refusal.written(refusal.token.text)}")
    refusal.say("expected", f"at most {language.MOST_LEAVES}")


def constant(refusal):
    """The constant whose literal the place stands in."""
    return next((item for item in refusal.bundle.constants.values()
                 if item.start.start < refusal.place <= (item.members or [item.literal])[-1].start), None)


def out_of_width(refusal):
    """OutOfWidth: the range of the type."""
    item = constant(refusal)
    bits = item and value_types.width(refusal.bundle, item.type.text)
    if bits:
        refusal.say("found", refusal.token.text)
        refusal.say("expected", f"a number from -{2 ** (bits - 1)} to {2 ** bits - 1}, since {item.name.text} has the type "
                    f"{refusal.written(item.type.text)}")


def not_nullable(refusal):
    """NotNullable: the type is no reference."""
    item = constant(refusal)
    if item:
        refusal.say("found", f"NULL for the type {refusal.written(item.type.text)}")
        refusal.say("expected", "a number, where the type is an int; NULL is the value of references only")


def wrong_shape(refusal):
    """WrongShape: a number, a list or a member that does not fit."""
    item = constant(refusal)
    if item is None:
        return
    shape = value_types.shape(refusal.bundle, item.type.text)
    parts = value_types.parts_of(refusal.bundle, item.type.text)
    wanted = f"a value of type {refusal.written(item.type.text)}"
    if refusal.token.text == "{" and shape and shape.word in ("struct", "array"):
        asked = len(parts) if shape.word == "struct" else number_value(shape.arguments[1])
        refusal.say("found", count(len(item.members), "member"))
        refusal.say("expected", f"{wanted}, with {count(asked, 'member')}")
    elif refusal.token.kind == "global":
        number = [member.start for member in item.members].index(refusal.place)
        refusal.say("found", refusal.item_in_words(refusal.token.text))
        member = refusal.written(parts[number if shape.word == "struct" else 0])
        refusal.say("expected", f"a member of type {member}: it is member {number}, from 0, of {wanted}")
    else:
        refusal.say("found", "a list" if refusal.token.text == "{" else "a number")
        refusal.say("expected", wanted)
        refusal.say("hint", shape and shape.word in ("struct", "array") and "it is written as a list of names of constants: `{ @a @b }`")


def bad_signature(refusal):
    """BadSignature: in a signature, of a function that was declared otherwise, or of a tail call."""
    if refusal.instruction and refusal.function:
        name = refusal.token.text
        wanted = refusal.function.signature.text
        refusal.say("found", f"{name} = {refusal.signature_in_words(name)}, {refusal.defined(name)}")
        refusal.say("expected",
                    f"the results of {refusal.function.name.text}, whose signature is {wanted} = {refusal.signature_in_words(wanted)}, "
                 f"{refusal.defined(wanted)}: what a TAILCALL calls returns in place of its function")
        refusal.say("hint", "a CALL and a RET give other results")
        return
    signatures = (item for item in refusal.bundle.items if isinstance(item, Signature))
    if any(token.start == refusal.place for item in signatures for token in item.parameters + item.results):
        refusal.say("found", refusal.item_in_words(refusal.token.text))
        refusal.say("expected", SORTS["value type"])
        return
    declared = refusal.function and refusal.bundle.declarations.get(refusal.function.name.text)
    if declared:
        refusal.say("found", f"{refusal.token.text} = {refusal.signature_in_words(refusal.token.text)}")
        name = declared.signature.text
        refusal.say("expected", f"{name} = {refusal.signature_in_words(name)}, as {refusal.line(declared.start)} declares it")
