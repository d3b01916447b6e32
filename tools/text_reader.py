"""Tokens of a text with their byte offsets, and a reader over them that remembers what might have stood where it stopped.

Bundles, HAIL scripts and client scripts are made of the same tokens. A text is read as Latin-1, so that a character's index is a byte
offset; all that a token may hold is ASCII.
"""
import bisect
import re
import typing

from language import MOST_TOKEN_BYTES

_TOKEN = re.compile(
    r"(?P<blank>[ \t\r\n]+|//[^\n]*)"
    r"|(?P<global>@[\w.-]+)|(?P<local>%[\w.-]+)|(?P<object>\$[\w.-]+)"
    r"|(?P<directive>\.[A-Za-z_]+)|(?P<word>[A-Za-z]\w*)|(?P<number>[+-]?[0-9][A-Za-z0-9]*)"
    r"|(?P<mark>->|[(){}<>\[\]=:&])|(?P<bad>.)",
    re.ASCII | re.DOTALL)
_NUMBER = re.compile(r"([+-]?)(?:0[xX]([0-9A-Fa-f]+)|(0[0-7]*)|([1-9][0-9]*))", re.ASCII)

KINDS = {"global": "a global name, as `@name`", "local": "a local name, as `%name`", "object": "an object's name, as `$name`",
         "number": "a number"}


class Token(typing.NamedTuple):
    """A token: its kind, its text, and the byte offsets of its start and its end. The kinds are those of `_TOKEN` and `end`."""

    kind: str
    text: str
    start: int
    end: int


class SyntaxFault(Exception):
    """The first token with which the text cannot go on: the fault's name, the token, and what might have stood there instead."""

    def __init__(self, fault, token, expected=()):
        super().__init__(fault)
        self.fault, self.token, self.expected = fault, token, list(expected)


def alternatives(texts):
    """Texts of which one may stand, in a sentence: `a`, `b` or `c`."""
    texts = list(dict.fromkeys(texts))
    return ", ".join(texts[:-1]) + " or " + texts[-1] if len(texts) > 1 else "".join(texts)


class Source:
    """A text, with its lines."""

    def __init__(self, text):
        self.text = text
        self._starts = [0] + [match.end() for match in re.finditer("\n", text)]

    @classmethod
    def of_file(cls, path):
        """The text of a file; OSError where it cannot be read."""
        with open(path, "rb") as file:
            return cls(file.read().decode("latin-1"))

    def line(self, offset):
        """The number of the line that a byte offset stands in, from 1."""
        return bisect.bisect_right(self._starts, offset)

    def column(self, offset):
        """The column of a byte offset in its line, in bytes, from 1."""
        return offset - self._starts[self.line(offset) - 1] + 1

    def line_text(self, number):
        """The text of a line, from 1, without its line feed."""
        start = self._starts[number - 1]
        end = self._starts[number] - 1 if number < len(self._starts) else len(self.text)
        return self.text[start:end].rstrip("\r")


def number_value(spelling):
    """The value of a number, or None where it is spelled in no way that the language has."""
    form = _NUMBER.fullmatch(spelling)
    if not form or "X" in spelling:
        return None
    sign, hexadecimal, octal, decimal = form.groups()
    size = int(hexadecimal, 16) if hexadecimal else int(octal, 8) if octal else int(decimal)
    return -size if sign == "-" else size


def lexical_fault(token):
    """The fault of what is no token, or nothing."""
    if token.end - token.start > MOST_TOKEN_BYTES and token.kind not in ("blank", "end"):
        return "TooLong"
    if token.kind == "bad":
        return "BadName" if token.text in ("@", "%", "$", ".") else "BadByte"
    if token.kind == "number":
        value = number_value(token.text)
        return "BadByte" if value is None else "NumberTooLarge" if abs(value) >= 2 ** 128 else None
    return None


def tokens_of(text):
    """All tokens of a text, and one of the kind `end` after the last."""
    found = []
    for match in _TOKEN.finditer(text):
        if match.lastgroup != "blank":
            found.append(Token(match.lastgroup, match.group(), match.start(), match.end()))
    found.append(Token("end", "", len(text), len(text)))
    return found


class TextReader:
    """Goes through tokens. What is asked for at a token and does not stand there is remembered until the token is taken."""

    def __init__(self, text):
        self.source = Source(text)
        self.tokens = tokens_of(text)
        self.at = 0
        self.expected = []

    @property
    def token(self):
        """The token that is read next; a lexical fault comes when it is reached."""
        token = self.tokens[self.at]
        fault = lexical_fault(token)
        if fault:
            raise SyntaxFault(fault, token, self.expected)
        return token

    def following(self, count=1):
        """A token further on, which is looked at in advance."""
        token = self.tokens[min(self.at + count, len(self.tokens) - 1)]
        fault = lexical_fault(token)
        if fault:
            raise SyntaxFault(fault, token)
        return token

    def take(self):
        """The next token, which is passed."""
        token = self.token
        self.at += 1
        self.expected = []
        return token

    def wants(self, description):
        """Remembers what may stand here."""
        if description not in self.expected:
            self.expected.append(description)

    def sees(self, *spellings):
        """Whether one of these words or marks stands here."""
        for spelling in spellings:
            self.wants(f"`{spelling}`")
        return self.token.text in spellings and self.token.kind in ("word", "mark", "directive")

    def accept(self, *spellings):
        """One of these words or marks, where it stands here."""
        return self.take() if self.sees(*spellings) else None

    def expect(self, *spellings):
        """One of these words or marks, which has to stand here."""
        return self.accept(*spellings) or self.fail()

    def accept_kind(self, kind, description=None):
        """A token of a kind, where one stands here."""
        self.wants(description or KINDS[kind])
        return self.take() if self.token.kind == kind else None

    def expect_kind(self, kind, description=None):
        """A token of a kind, which has to stand here."""
        return self.accept_kind(kind, description) or self.fail()

    def fail(self, fault="Unexpected"):
        """Stops at the next token."""
        raise SyntaxFault(fault, self.token, self.expected)
