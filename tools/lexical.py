"""Explains faults of a single token, in any of the files: what it is, and what is written in its place."""
from language import MOST_TOKEN_BYTES

# Bytes that begin no token, and what people mean by them elsewhere.
MEANT = {
    ",": "members of a list stand one after the other, without commas",
    ";": "a comment begins with `//`, and nothing ends an instruction",
    "#": "a comment begins with `//`",
    "/": "a comment begins with `//`",
    "*": "a comment begins with `//`",
    '"': "there are no strings: an array or a hybrid of int<8> holds one",
    "'": "there are no characters: a constant of int<8> holds one",
    "-": "a number touches its sign, as `-1`",
    "+": "a number touches its sign, as `+1`",
}


def explain(fault, token, before):
    """What can be said of a token at fault, which stands after the token `before`; pairs of a label and a text, or
    of a label and None where there is nothing to say."""
    if fault == "NumberTooLarge":
        return [("expected", "a number below 340282366920938463463374607431768211456, which is 2^128")]
    if fault == "TooLong":
        return [("found", f"a token of {token.end - token.start} bytes"), ("expected", f"at most {MOST_TOKEN_BYTES}")]
    if fault == "BadName":
        return [("hint", of_name(token, before))]
    found = [("found", f"`{token.text}`" if token.text.isprintable() else f"the byte {ord(token.text[0])}")]
    if token.kind == "number":
        return found + [("hint", "a number is decimal without a 0 in front, octal as `017`, or hexadecimal as `0x1F`")]
    return found + [("hint", MEANT.get(token.text))]


def of_name(token, before):
    """A sigil or a `.` without a name."""
    if token.text != ".":
        return f"a name has letters of ASCII, digits, `_`, `-` or `.` after its `{token.text}`, and no blank before them"
    if before and before.kind == "number" and before.end == token.start:
        return "there are no floating-point numbers"
    return "a directive has letters after its `.`, as `.typedef`"
