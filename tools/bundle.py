"""A reader of bundles, for tools: items, types, signatures, functions with blocks and instructions, each with its byte offsets.

`Bundle.of_file(path)` reads as far as the text is a bundle. Where it is none, `bundle.fault` says where it stops and what might have
stood there; what was read before stands in the tree. Names and types are not judged: a tool asks for what it needs.

An instruction has *parts*, one for each element of its form that takes a name or a number: the part at a byte offset says what is
asked there.
"""
import dataclasses

from language import COMMON_FORMS, FORMS, LEFT_OUT_DIRECTIVES, LEFT_OUT_OPERATIONS, LEFT_OUT_TYPES, ORDERS, TYPE_WORDS, UPDATES
from text_reader import Source, SyntaxFault, TextReader, Token

A_TYPE = "the name of a type, as `@i64`"
A_SIGNATURE = "the name of a signature"
A_VALUE = "a value: a variable, or the name of a constant, a global or a function"
A_VARIABLE = "a variable, as `%x`"
A_BLOCK = "a block, as `%next():`"
AN_INSTRUCTION = "an instruction"
AN_OPERATION = "the word of an instruction"
A_DESTINATION = "the name of a block"


@dataclasses.dataclass(slots=True)
class Item:
    """What all items have: their directive, and the name that they define."""

    start: Token
    name: Token


@dataclasses.dataclass(slots=True)
class Type(Item):
    """A `.typedef`: the type's word, and the names and numbers in its brackets."""

    word: str
    arguments: list


@dataclasses.dataclass(slots=True)
class Signature(Item):
    """A `.funcsig`: the names of the types of parameters and results."""

    parameters: list
    results: list


@dataclasses.dataclass(slots=True)
class Constant(Item):
    """A `.const`: its type, and its number, `NULL` or `{` with the members."""

    type: Token
    literal: Token
    members: list


@dataclasses.dataclass(slots=True)
class Global(Item):
    """A `.global` and its type."""

    type: Token


@dataclasses.dataclass(slots=True)
class Declaration(Item):
    """A `.funcdecl` and its signature."""

    signature: Token


@dataclasses.dataclass(slots=True)
class Function(Item):
    """A `.funcdef`: its version, its signature and its blocks."""

    version: Token = None
    signature: Token = None
    blocks: list = dataclasses.field(default_factory=list)

    def block(self, name):
        """The block of that name, with its `%`, or None."""
        return next((block for block in self.blocks if block.name.text == name), None)


@dataclasses.dataclass(slots=True)
class Block:
    """A block: its name, its parameters as pairs of type and name, its handler or None, and its instructions."""

    name: Token
    function: Function
    parameters: list = dataclasses.field(default_factory=list)
    handler: Token = None
    instructions: list = dataclasses.field(default_factory=list)

    @property
    def full_name(self):
        """The name that a run prints: function, version and block, without the sigils of the last two."""
        return f"{self.function.name.text}.{self.function.version.text[1:]}.{self.name.text[1:]}"


@dataclasses.dataclass(slots=True)
class Part:
    """What stands at an element of a form: see `language`. Of a list, `token` is its `(` and `members` are its values; of a destination
    `token` is the block's name and `list` its arguments."""

    kind: str
    token: Token
    asked: str = None
    members: list = dataclasses.field(default_factory=list)
    list: "Part" = None


@dataclasses.dataclass(slots=True)
class Instruction:
    """An instruction. `word` is its word, or after COMMINST the global name; `names` are the type names and numbers that its form
    calls T, U, H, S and number."""

    block: Block
    index: int
    start: Token
    results: list = dataclasses.field(default_factory=list)
    label: Token = None
    operation: Token = None
    word: str = None
    parts: list = dataclasses.field(default_factory=list)
    names: dict = dataclasses.field(default_factory=dict)
    types: list = dataclasses.field(default_factory=list)
    has_exc: bool = False
    kills_old: bool = False
    end: int = 0

    @property
    def form(self):
        """The form of the instruction's word."""
        return COMMON_FORMS.get(self.word) or FORMS.get(self.word)

    @property
    def ends_block(self):
        """Whether nothing may stand after it in its block."""
        return self.has_exc or self.kills_old or bool(self.form and self.form.ends)

    def all_parts(self):
        """Its parts, and those in its lists and destinations."""
        for part in self.parts:
            yield part
            if part.list:
                yield part.list

    def part_at(self, offset):
        """The part that a byte offset stands in: that of a token, or of a list that has it as `(` or as a member. None where there
        is none."""
        for part in self.all_parts():
            if part.token.start == offset or any(member.start == offset for member in part.members):
                return part
        return None

    def kept(self):
        """The variables of its KEEPALIVE."""
        return next((part.members for part in self.parts if part.kind == "keep"), [])

    def destinations(self):
        """Its destinations, in text order."""
        return [part for part in self.parts if part.kind == "destination"]


class Bundle:
    """A bundle: all items in text order, and tables of them by name, in which the first definition counts."""

    def __init__(self, text):
        reader = BundleReader(text, self)
        self.source = reader.source
        self.tokens = reader.tokens
        self.items = []
        self.types, self.signatures, self.constants, self.globals, self.functions, self.declarations = {}, {}, {}, {}, {}, {}
        self.fault = None
        self.open_function = self.open_block = self.open_instruction = None
        try:
            reader.bundle()
        except SyntaxFault as fault:
            self.fault = fault
        self._blocks = None

    @classmethod
    def of_file(cls, path):
        """The bundle of a file; OSError where it cannot be read."""
        return cls(Source.of_file(path).text)

    def add(self, item):
        """Takes an item that was read."""
        tables = {Type: self.types, Signature: self.signatures, Constant: self.constants, Global: self.globals, Function: self.functions,
                  Declaration: self.declarations}
        self.items.append(item)
        tables[type(item)].setdefault(item.name.text, item)

    def definition(self, name):
        """The item that defines a global name, or None; of a function its `.funcdef`, where it has one."""
        for table in (self.types, self.signatures, self.constants, self.globals, self.functions, self.declarations):
            if name in table:
                return table[name]
        return None

    def blocks(self):
        """All blocks, in text order."""
        return (block for item in self.items if isinstance(item, Function) for block in item.blocks)

    def blocks_called(self, full_name):
        """The blocks whose full name is this one. More than one block may have it, since names may hold dots."""
        if self._blocks is None:
            self._blocks = {}
            for block in self.blocks():
                self._blocks.setdefault(block.full_name, []).append(block)
        return self._blocks.get(full_name, [])

    def instruction(self, full_name, index):
        """The instruction that a run calls BLOCK I. None where no block has it, or where more than one block has that name and
        number."""
        found = [block.instructions[index] for block in self.blocks_called(full_name) if index < len(block.instructions)]
        return found[0] if len(found) == 1 else None

    def function_at(self, offset):
        """The function whose text a byte offset stands in, or None."""
        return next((item for item in reversed(self.items) if item.start.start <= offset and isinstance(item, Function)), None)

    def instruction_at(self, offset):
        """The instruction whose text a byte offset stands in, or None."""
        for block in self.blocks():
            for instruction in block.instructions:
                if instruction.start.start <= offset < instruction.end:
                    return instruction
        return None

    def text_of(self, instruction):
        """The text of an instruction in one line, with comments and line breaks left out."""
        first = next(n for n, token in enumerate(self.tokens) if token.start == instruction.start.start)
        text, last = "", None
        for token in self.tokens[first:]:
            if token.start >= instruction.end:
                break
            text += " " * (last is not None and token.start > last) + token.text
            last = token.end
        return text


class BundleReader(TextReader):
    """Reads a bundle, and adds to it what it reads."""

    def __init__(self, text, bundle):
        super().__init__(text)
        self.to = bundle

    def bundle(self):
        """The whole text."""
        readers = {".typedef": self.type, ".funcsig": self.signature, ".const": self.constant, ".global": self.global_,
                   ".funcdecl": self.declaration, ".funcdef": self.function}
        while True:
            self.wants("an item: one of " + " ".join(f"`{word}`" for word in readers))
            if self.token.kind == "end":
                return
            if self.token.text in LEFT_OUT_DIRECTIVES:
                self.fail("NotInProfile")
            if self.token.text not in readers:
                self.fail()
            start = self.take()
            name = self.expect_kind("global", "the name that is defined, as `@name`")
            self.to.add(readers[start.text](start, name))

    def names(self, description):
        """Global names, as many as there are."""
        found = []
        while token := self.accept_kind("global", description):
            found.append(token)
        return found

    def in_brackets(self, description):
        """A global name in `< >`."""
        self.expect("<")
        name = self.expect_kind("global", description)
        self.expect(">")
        return name

    def type(self, start, name):
        """The rest of a `.typedef`."""
        self.expect("=")
        self.wants("a type: one of " + " ".join(f"`{word}`" for word in TYPE_WORDS))
        if self.token.text in LEFT_OUT_TYPES:
            self.fail("NotInProfile")
        if self.token.text not in TYPE_WORDS:
            self.fail()
        word = self.take().text
        arguments = []
        if word not in ("void", "stackref", "threadref"):
            self.expect("<")
            if word != "int":
                arguments.append(self.expect_kind("global", A_SIGNATURE if word == "funcref" else A_TYPE))
            if word in ("struct", "hybrid"):
                arguments += self.names(A_TYPE)
            if word in ("int", "array"):
                arguments.append(self.expect_kind("number"))
            self.expect(">")
        return Type(start, name, word, arguments)

    def signature(self, start, name):
        """The rest of a `.funcsig`."""
        lists = []
        for mark in ("=", "->"):
            self.expect(mark)
            self.expect("(")
            lists.append(self.names(A_TYPE))
            self.expect(")")
        return Signature(start, name, *lists)

    def constant(self, start, name):
        """The rest of a `.const`."""
        type_name = self.in_brackets(A_TYPE)
        self.expect("=")
        literal = self.accept_kind("number") or self.expect("NULL", "{")
        members = []
        if literal.text == "{":
            members = self.names("the name of a constant")
            self.expect("}")
        return Constant(start, name, type_name, literal, members)

    def global_(self, start, name):
        """The rest of a `.global`."""
        return Global(start, name, self.in_brackets(A_TYPE))

    def declaration(self, start, name):
        """The rest of a `.funcdecl`."""
        return Declaration(start, name, self.in_brackets(A_SIGNATURE))

    def function(self, start, name):
        """The rest of a `.funcdef`. It is in the tree from its `{` on, so that the tree has it where the text stops in it."""
        function = Function(start, name)
        self.to.open_function = function
        self.expect("VERSION")
        function.version = self.expect_kind("local", "the name of the version, as `%v`")
        function.signature = self.in_brackets(A_SIGNATURE)
        self.expect("{")
        self.block(function)
        while not self.sees("}"):
            self.wants(A_BLOCK)
            if self.token.kind != "local":
                self.fail()
            self.block(function)
        self.take()
        self.to.open_function = None
        return function

    def block(self, function):
        """A block with its instructions."""
        block = Block(self.expect_kind("local", A_BLOCK), function)
        self.to.open_block = block
        function.blocks.append(block)
        if self.accept("("):
            while self.accept("<"):
                type_name = self.expect_kind("global", A_TYPE)
                self.expect(">")
                block.parameters.append((type_name, self.expect_kind("local", "the name of the parameter, as `%x`")))
            self.expect(")")
        if self.accept("["):
            block.handler = self.expect_kind("local", "the name of the exception, as `%e`")
            self.expect("]")
        self.expect(":")
        while self.begins_instruction():
            self.instruction(block)
        self.to.open_block = None

    def begins_instruction(self):
        """Whether an instruction begins here. A local name needs the token after it: a block's head may begin with it."""
        self.wants(AN_INSTRUCTION)
        token = self.token
        if token.kind == "local":
            next_one = self.following()
            if next_one.text in ("(", "[", ":"):
                return False
            if next_one.text != "=":
                self.take()
                self.expected = ["`=` (the name is a result)", "`(`, `[` or `:` (the name is that of a block)"]
                self.fail()
            return True
        return token.kind == "word" or token.text in ("(", "[")

    def instruction(self, block):
        """An instruction: results, label, word and what its form asks."""
        instruction = Instruction(block, len(block.instructions), self.token)
        self.to.open_instruction = instruction
        if self.token.kind == "local":
            instruction.results.append(self.take())
            self.expect("=")
        elif self.token.text == "(":
            self.take()
            while token := self.accept_kind("local", "the name of a result, as `%x`"):
                instruction.results.append(token)
            self.expect(")")
            self.expect("=")
        if self.accept("["):
            instruction.label = self.expect_kind("local", "a label, as `%here`")
            self.expect("]")
        self.wants(AN_OPERATION)
        if self.token.text in LEFT_OUT_OPERATIONS:
            self.fail("NotInProfile")
        if self.token.kind != "word" or self.token.text not in FORMS:
            self.fail()
        instruction.operation = self.take()
        instruction.word = instruction.operation.text
        self.elements(instruction, FORMS[instruction.word].elements)
        instruction.end = self.tokens[self.at - 1].end
        block.instructions.append(instruction)
        self.to.open_instruction = None

    def elements(self, instruction, elements):
        """What the elements of a form ask, one after the other."""
        for element in elements:
            kind, _, asked = element.partition(":")
            asked = asked.replace("_", " ") if kind in ("T", "U", "H") else asked
            if kind in ("<", ">", "(", ")", "[", "]"):
                self.expect(kind)
            elif kind in ("T", "U", "H", "S"):
                name = self.expect_kind("global", A_SIGNATURE if kind == "S" else A_TYPE)
                instruction.names[kind] = name
                instruction.parts.append(Part("signature" if kind == "S" else "type", name, asked))
            else:
                getattr(self, "read_" + kind.rstrip("?"))(instruction, asked)

    def read_number(self, instruction, asked):
        """A number."""
        instruction.names["number"] = self.expect_kind("number")
        instruction.parts.append(Part("number", instruction.names["number"], asked))

    def a_value(self):
        """A local or a global name."""
        return self.accept_kind("local", A_VALUE) or self.expect_kind("global", A_VALUE)

    def read_value(self, instruction, asked):
        """A value."""
        instruction.parts.append(Part("value", self.a_value(), asked))

    def read_order(self, instruction, asked):
        """A memory order; of a LOAD or a STORE it may be left out."""
        if asked in ("LOAD", "STORE"):
            token = self.accept(*ORDERS)
        else:
            token = self.expect(*ORDERS)
        if token:
            instruction.parts.append(Part("order", token, asked))

    def read_update(self, instruction, _):
        """The word of an update."""
        self.wants("the word of an update: " + " ".join(UPDATES))
        if self.token.text not in UPDATES:
            self.fail()
        instruction.parts.append(Part("update", self.take()))

    def read_weak(self, instruction, _):
        """`WEAK` or nothing."""
        token = self.accept("WEAK")
        if token:
            instruction.parts.append(Part("weak", token))

    def a_list(self, asked, kind="list"):
        """A list of values in brackets."""
        part = Part(kind, self.expect("("), asked)
        while token := self.accept_kind("local", A_VALUE) or self.accept_kind("global", A_VALUE):
            part.members.append(token)
        self.expect(")")
        return part

    def read_arguments(self, instruction, asked):
        """A list of arguments."""
        instruction.parts.append(self.a_list(asked))

    def read_returned(self, instruction, _):
        """What RET gives: one value, or a list."""
        if self.sees("("):
            instruction.parts.append(self.a_list("results"))
        else:
            value = self.a_value()
            instruction.parts.append(Part("list", value, "results", [value]))

    def a_destination(self, way):
        """A block with its arguments."""
        part = Part("destination", self.expect_kind("local", A_DESTINATION), way)
        part.list = self.a_list("block " + part.token.text)
        return part

    def read_destination(self, instruction, asked):
        """A destination."""
        instruction.parts.append(self.a_destination(asked))

    def read_types(self, instruction, _):
        """A list of types."""
        self.expect("<")
        instruction.types = self.names(A_TYPE)
        instruction.parts += [Part("type", name, "value type") for name in instruction.types]
        self.expect(">")

    def read_exc(self, instruction, _):
        """`EXC` with its destinations, or nothing."""
        if self.accept("EXC"):
            instruction.has_exc = True
            self.expect("(")
            instruction.parts += [self.a_destination("own"), self.a_destination("exceptional")]
            self.expect(")")

    def read_wpexc(self, instruction, _):
        """`WPEXC` with its destination, or nothing."""
        if self.accept("WPEXC"):
            self.expect("(")
            instruction.parts.append(self.a_destination("exceptional"))
            self.expect(")")

    def read_keep(self, instruction, _):
        """`KEEPALIVE` with its variables, or nothing."""
        token = self.accept("KEEPALIVE")
        if token:
            self.expect("(")
            part = Part("keep", token)
            while variable := self.accept_kind("local", A_VARIABLE):
                part.members.append(variable)
            self.expect(")")
            instruction.parts.append(part)

    def read_local(self, instruction, _):
        """`THREADLOCAL` with its value, or nothing."""
        if self.accept("THREADLOCAL"):
            self.elements(instruction, ("(", "value:ref<void>", ")"))

    def read_new(self, instruction, _):
        """What a stack gets that is entered."""
        if self.expect("PASS_VALUES", "THROW_EXC").text == "THROW_EXC":
            self.elements(instruction, ("(", "value:ref<void>", ")") if self.sees("(") else ("value:ref<void>",))
            return
        self.expect("<")
        passed = self.names(A_TYPE)
        instruction.parts += [Part("type", name, "value type") for name in passed]
        self.expect(">")
        instruction.parts.append(self.a_list("passed " + " ".join(name.text for name in passed)))

    def read_swap(self, instruction, _):
        """The rest of a SWAPSTACK."""
        if self.expect("RET_WITH", "KILL_OLD").text == "RET_WITH":
            self.elements(instruction, ("types", "new", "exc?", "keep?"))
        else:
            instruction.kills_old = True
            self.elements(instruction, ("new",))

    def read_cases(self, instruction, _):
        """The cases of a SWITCH."""
        self.expect("{")
        while constant := self.accept_kind("global", "a case: the name of a constant, and a block"):
            instruction.parts += [Part("case", constant, "T"), self.a_destination("normal")]
        self.expect("}")

    def read_common(self, instruction, _):
        """The rest of a COMMINST."""
        self.wants("one of " + " ".join(f"`{name}`" for name in COMMON_FORMS))
        if self.token.kind == "global" and self.token.text not in COMMON_FORMS:
            self.fail("NotInProfile")
        if self.token.kind != "global":
            self.fail()
        instruction.word = self.take().text
        self.elements(instruction, COMMON_FORMS[instruction.word].elements)

    def read_empty(self, _instruction, _asked):
        """`( )`, which may be left out: three tokens tell it from the results of the next instruction."""
        if self.sees("(") and self.following().text == ")" and self.following(2).text != "=":
            self.take()
            self.take()
