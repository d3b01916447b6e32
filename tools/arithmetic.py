"""What the instructions that compute give: integers are numbers from 0 up, of a width.

docs/INSTRUCTIONS.md says what each does. A division by zero gives None.
"""
import operator


def signed(value, width):
    """The number that the bits stand for with a sign."""
    return value - (1 << width) if value >> (width - 1) else value


def divided(value, by, width):
    """The quotient, rounded toward zero, of two numbers with signs."""
    value, by = signed(value, width), signed(by, width)
    if by == 0:
        return None
    quotient = abs(value) // abs(by)
    return quotient if (value < 0) == (by < 0) else -quotient


def remainder(value, by, width):
    """What is left of a division that rounds toward zero: it has the sign of the first number."""
    quotient = divided(value, by, width)
    return None if quotient is None else signed(value, width) - quotient * signed(by, width)


# From the word to the result for two numbers and a width; the result is taken modulo 2^width.
BINARIES = {
    "ADD": lambda a, b, width: a + b,
    "SUB": lambda a, b, width: a - b,
    "MUL": lambda a, b, width: a * b,
    "SDIV": divided,
    "SREM": remainder,
    "UDIV": lambda a, b, width: a // b if b else None,
    "UREM": lambda a, b, width: a % b if b else None,
    "SHL": lambda a, b, width: a << b % width,
    "LSHR": lambda a, b, width: a >> b % width,
    "ASHR": lambda a, b, width: signed(a, width) >> b % width,
    "AND": lambda a, b, width: a & b,
    "OR": lambda a, b, width: a | b,
    "XOR": lambda a, b, width: a ^ b,
}
EQUALITIES = {"EQ": operator.eq, "NE": operator.ne}
WITHOUT_SIGN = {"ULT": operator.lt, "ULE": operator.le, "UGT": operator.gt, "UGE": operator.ge}
WITH_SIGN = {"SLT": operator.lt, "SLE": operator.le, "SGT": operator.gt, "SGE": operator.ge}
