"""A copy of a bundle with a trap before each instruction, which keeps all variables of its block alive.

A run of the copy shows, by its traps, where a thread stands and what its variables hold. A trap leaves its stack and enters it again by
the same thread, so it makes nothing happen before anything else; it takes no cell and no position. A step of the bundle is two steps of
the copy, the trap and the instruction; the end of a wait is one. In a block of the copy instruction I has the index 2 I + 1, and its
trap 2 I.
"""
from failure import Failure
from text_reader import number_value

MOST_BYTES = 1 << 20
MOST_INSTRUCTIONS = 4096
MOST_KEPT = 256
PREFIX = "@mu.step."


def original_index(index):
    """The index in the bundle of an instruction of the copy, and whether it is the trap before that one."""
    return index // 2, index % 2 == 0


def kept_variables(instruction):
    """The variables that the trap before an instruction keeps."""
    return instruction.block.variables_at(instruction.index)[:MOST_KEPT]


def copy_of(source, zeros=()):
    """The text of the copy; `zeros` are types for which it gets constants that are zero and NULL in all their parts."""
    if any(2 * len(block.instructions) > MOST_INSTRUCTIONS for function in source.functions.values() for block in function.blocks.values()):
        raise Failure(f"a block has more than {MOST_INSTRUCTIONS // 2} instructions, so a copy with traps would have too many")
    parts, at = [], 0
    for instruction in sorted(source.instructions, key=lambda it: it.start):
        parts += [source.text[at:instruction.start], f"TRAP <> KEEPALIVE({' '.join(kept_variables(instruction))})\n  "]
        at = instruction.start
    parts += [source.text[at:], "\n"]
    constants = {}
    for type_name in zeros:
        add_zero(source, type_name, constants)
    parts += constants.values()
    text = "".join(parts)
    if len(text) > MOST_BYTES:
        raise Failure("the bundle is so long that a copy with traps would have more than 1,048,576 bytes")
    return text


def zero_name(type_name):
    """The name of the constant that is zero and NULL in all parts of a type."""
    return PREFIX + type_name[1:]


def add_zero(source, type_name, constants):
    """Adds the constant of a type, and those of its parts."""
    if type_name in constants:
        return
    word, arguments = source.types[type_name]
    value = "NULL"
    if word == "int":
        value = "0"
    elif word in ("struct", "array"):
        members = arguments if word == "struct" else arguments[:1] * number_value(arguments[1])
        constants[type_name] = ""
        for member in members:
            add_zero(source, member, constants)
        value = "{ " + " ".join(map(zero_name, members)) + " }"
    constants[type_name] = f".const {zero_name(type_name)} <{type_name}> = {value}\n"
