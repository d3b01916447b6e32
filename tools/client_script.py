"""A reader of client scripts: entries with their actions, their edit and their reply, each with byte offsets."""
import dataclasses

from text_reader import SyntaxFault, TextReader, Token, number_value

AN_ARGUMENT = "an argument: the name of a constant, a global or a function, or `kept F I`"
A_FUNCTION = "the name of a function"
A_SMALL_NUMBER = "a number from 0 to 4294967295"


@dataclasses.dataclass(slots=True)
class Argument:
    """An argument: a global name, or value `number` of those that `frame` keeps."""

    token: Token
    frame: int = None
    number: int = None


@dataclasses.dataclass(slots=True)
class Action:
    """An action: `frames`, `kept`, `watch` or `unwatch`, and its number."""

    token: Token
    number: int = None


@dataclasses.dataclass(slots=True)
class Entry:
    """An entry: its actions, its edit, and its reply. `pop` has the token and the number of a `pop`, `push` the name of the function that is
    pushed. Of `rebind`, `stack` is the argument that names the stack; `arguments` are those of `pass`, or the one of `throw`, which `throws`
    says."""

    start: Token
    end: Token = None
    actions: list = dataclasses.field(default_factory=list)
    pop: Action = None
    push: Token = None
    reply: Token = None
    stack: Argument = None
    throws: bool = False
    arguments: list = dataclasses.field(default_factory=list)


class ClientReader(TextReader):
    """Reads a client script as far as it is one."""

    def __init__(self, text):
        super().__init__(text)
        self.entries = []
        self.fault = None
        try:
            self.script()
        except SyntaxFault as fault:
            self.fault = fault

    def script(self):
        """All entries."""
        while self.token.kind != "end":
            entry = Entry(self.expect("{"))
            while token := self.accept("frames", "kept", "watch", "unwatch"):
                entry.actions.append(Action(token, None if token.text == "frames" else self.small_number()))
            self.edit(entry)
            self.reply(entry)
            entry.end = self.expect("}")
            self.entries.append(entry)

    def small_number(self):
        """A number below 2^32."""
        self.wants(A_SMALL_NUMBER)
        value = number_value(self.token.text) if self.token.kind == "number" else None
        if value is None or not 0 <= value < 2 ** 32:
            self.fail()
        self.take()
        return value

    def argument(self):
        """An argument, or None where none stands here."""
        name = self.accept_kind("global", AN_ARGUMENT)
        if name:
            return Argument(name)
        kept = self.accept("kept")
        return kept and Argument(kept, self.small_number(), self.small_number())

    def edit(self, entry):
        """The edit of an entry, or none."""
        token = self.accept("pop")
        if token:
            entry.pop = Action(token, self.small_number())
        if self.accept("push"):
            entry.push = self.accept_kind("global", A_FUNCTION) or self.fail()

    def reply(self, entry):
        """The reply of an entry."""
        entry.reply = self.expect("pass", "throw", "rebind", "exit", "stop")
        word = entry.reply.text
        if word == "rebind":
            entry.stack = self.argument() or self.fail()
            word = self.expect("pass", "throw").text
        if word == "pass":
            self.expect("(")
            while argument := self.argument():
                entry.arguments.append(argument)
            self.expect(")")
        elif word == "throw":
            entry.throws = True
            entry.arguments.append(self.argument() or self.fail())
