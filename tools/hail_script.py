"""A reader of HAIL scripts: commands with their targets and sources, each with byte offsets."""
import dataclasses

from text_reader import SyntaxFault, TextReader, Token

A_SOURCE = "a source: a number, `NULL`, a global name, an object, `&` and a target, or a list in `{ }`"
A_TARGET = "a target: an object or a global, with indexes"
MOST_DEPTH = 64


@dataclasses.dataclass(slots=True)
class Target:
    """A target: its name, and the tokens of its indexes, each with the `[` before it."""

    name: Token
    indexes: list = dataclasses.field(default_factory=list)


@dataclasses.dataclass(slots=True)
class Source:
    """A source: its first token; of `&` the target, and of a list its members."""

    token: Token
    target: Target = None
    members: list = None


@dataclasses.dataclass(slots=True)
class Command:
    """A command: its directive, and what it names."""

    start: Token
    object: Token = None
    type: Token = None
    count: Token = None
    target: Target = None
    source: Source = None


class HailReader(TextReader):
    """Reads a HAIL script as far as it is one."""

    def __init__(self, text):
        super().__init__(text)
        self.commands = []
        self.fault = None
        try:
            while self.token.kind != "end":
                self.command()
        except SyntaxFault as fault:
            self.fault = fault

    def command(self):
        """A command."""
        command = Command(self.expect(".new", ".newhybrid", ".init"))
        self.commands.append(command)
        if command.start.text == ".init":
            command.target = self.target()
            self.expect("=")
            command.source = self.a_source(0)
            return
        command.object = self.expect_kind("object")
        self.expect("<")
        command.type = self.expect_kind("global", "the name of a type")
        self.expect(">")
        if command.start.text == ".newhybrid":
            command.count = self.index_number("a number of elements")

    def index_number(self, description):
        """A number that is not negative."""
        self.wants(description)
        if self.token.kind != "number" or (self.token.text.startswith("-") and self.token.text.strip("-0x")):
            self.fail()
        return self.take()

    def target(self):
        """A target."""
        name = self.accept_kind("object", A_TARGET) or self.expect_kind("global", A_TARGET)
        target = Target(name)
        while mark := self.accept("["):
            target.indexes.append((mark, self.index_number("an index, from 0")))
            self.expect("]")
        return target

    def a_source(self, depth):
        """A source; lists stand in one another at most 64 deep."""
        self.wants(A_SOURCE)
        token = self.token
        if token.text == "&":
            self.take()
            return Source(token, target=self.target())
        if token.text == "{" and depth < MOST_DEPTH:
            self.take()
            source = Source(token, members=[])
            while not self.sees("}"):
                source.members.append(self.a_source(depth + 1))
            self.take()
            return source
        if token.kind in ("number", "global", "object") or token.text == "NULL":
            return Source(self.take())
        return self.fail()
