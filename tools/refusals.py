"""Explains why a bundle is refused: what stands at the place of the fault, what was expected there, and the likely cause.

Each fault has a function in one of the modules `refusals_of_..`. Where the tree says less than is needed for a line, the line is left out,
so that nothing is said that is not known.
"""
import refusals_of_blocks as blocks
import refusals_of_items as items
import refusals_of_names as names
import refusals_of_text as text
import refusals_of_types as types_
from refusal import Refusal

EXPLAINERS = {
    "BadByte": text.of_token, "BadName": text.of_token, "NumberTooLarge": text.of_token, "TooLong": text.of_token,
    "Unexpected": text.unexpected, "NotInProfile": text.not_in_profile, "TooMany": text.too_many,
    "Duplicate": names.duplicate, "Unknown": names.unknown, "WrongKind": names.wrong_kind, "NotLocal": names.not_local,
    "WrongArgument": items.wrong_argument, "EndlessType": items.endless_type, "TooManyLeaves": items.too_many_leaves,
    "WrongShape": items.wrong_shape, "OutOfWidth": items.out_of_width, "NotNullable": items.not_nullable,
    "BadSignature": items.bad_signature,
    "OperandType": types_.operand_type, "ArgumentType": types_.argument_type, "ArgumentCount": types_.argument_count,
    "ResultCount": types_.result_count, "BadIndex": types_.bad_index,
    "EntryParameters": blocks.entry_parameters, "NoEnding": blocks.no_ending, "AfterEnding": blocks.after_ending,
    "BadOrder": blocks.bad_order, "BadDestination": blocks.bad_destination,
}


def explain(bundle, place, fault):
    """What can be said of a refusal besides its place, as pairs of a label and a text."""
    refusal = Refusal(bundle, place, fault)
    if fault in EXPLAINERS:
        EXPLAINERS[fault](refusal)
    return refusal.lines
