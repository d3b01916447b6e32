"""Why an entry of a client script ended the run: ClientMisuse and StackTypes.

What an entry could have named is asked of the program: it runs once more with a script that has the entries before, and in place of the one
at fault `{ frames stop }`. So the frames of the trapped stack are those that the program prints; what each keeps stands in the bundle.
"""
import os
import re
import tempfile

import command
import value_types
from client_script import ClientReader
from text_reader import Source


class Trapped:
    """The trapped stack at the entry at fault: the entry, and the instruction at which each frame stands, from the top."""

    def __init__(self, program, call, bundle, printed):
        source = Source.of_file(call.file("client"))
        reader = ClientReader(source.text)
        number = len(re.findall(r"^(?:trap|watchpoint) t", printed, re.MULTILINE))
        self.bundle = bundle
        self.number, self.entries = number, len(reader.entries)
        self.entry = reader.entries[number - 1] if 0 < number <= len(reader.entries) else None
        self.frames = frames_at(program, call, source.text, self.entry) if self.entry else []

    def entry_in_words(self):
        """Which entry it is, and why."""
        return f"entry {self.number} of {self.entries}, since this is trap number {self.number} of the run"

    def instruction(self, frame):
        """The instruction where a frame stands, or None."""
        return self.bundle.instruction(*self.frames[frame]) if frame < len(self.frames) else None

    def kept(self, frame):
        """The variables that a frame keeps, by their names; None where the frame does not exist."""
        if frame >= len(self.frames):
            return None
        instruction = self.instruction(frame)
        return [token.text for token in instruction.kept()] if instruction else []

    def frame_in_words(self, frame):
        """Where a frame stands, and what it keeps."""
        block, index = self.frames[frame]
        kept = self.kept(frame)
        instruction = self.instruction(frame)
        where = f", line {self.bundle.source.line(instruction.start.start)}" if instruction else ""
        return f"frame {frame} stands at {block} {index}{where}, and keeps {' '.join(kept) if kept else 'no value'}"

    def type_of(self, argument):
        """The type of an argument, or None."""
        if argument.frame is None:
            return value_types.type_of_global_name(self.bundle, argument.token.text)
        kept = self.kept(argument.frame)
        instruction = self.instruction(argument.frame)
        if not kept or argument.number >= len(kept) or instruction is None:
            return None
        return value_types.variables_of(self.bundle, instruction.block, instruction)[kept[argument.number]].type


def frames_at(program, call, script, entry):
    """Where the frames of the trapped stack stand, from the top: full names of blocks with numbers of instructions."""
    with tempfile.NamedTemporaryFile("w", suffix=".client", encoding="latin-1", delete=False) as file:
        file.write(script[:entry.start.start] + "{ frames stop }")
    try:
        printed = command.output(program, call.words(client=file.name))
    finally:
        os.unlink(file.name)
    lines = printed[max(printed.rfind("\ntrap "), printed.rfind("\nwatchpoint ")) + 1:]
    return [(block, int(index)) for block, index in re.findall(r"^frame \d+ (\S+) (\d+)$", lines, re.MULTILINE)]


def explain_misuse(program, call, bundle, printed):
    """ClientMisuse: the byte offset in the script of what is at fault, and lines; None where nothing is known."""
    trapped = Trapped(program, call, bundle, printed)
    entry = trapped.entry
    if entry is None:
        return None
    lines = [("entry", f"{trapped.entry_in_words()}; frames are counted from 0")]
    for action in entry.actions:
        if action.token.text == "kept" and trapped.kept(action.number) is None:
            return action.token.start, lines + [("reason", no_frame(trapped, action.number))]
    for argument in [entry.stack] * bool(entry.stack) + entry.arguments:
        reason = argument.frame is not None and missing(trapped, argument)
        if reason:
            return argument.token.start, lines + [("reason", reason)]
    asked = trapped.type_of(entry.stack) if entry.stack else None
    if asked and value_types.shape(bundle, asked) != value_types.shape(bundle, "stackref"):
        return entry.stack.token.start, lines + [("reason",
                                                  f"rebind needs a stackref, and this is of type {value_types.written(bundle, asked)}")]
    if entry.pop and entry.pop.number >= len(trapped.frames):
        return entry.pop.token.start, lines + [("reason", no_frame(trapped, entry.pop.number))]
    return entry.start.start, lines


def no_frame(trapped, frame):
    """That a frame does not exist."""
    count = len(trapped.frames)
    return f"there is no frame {frame}: the trapped stack has {count} frame{'s' if count > 1 else ''}, frame 0 being the top one"


def missing(trapped, argument):
    """Why `kept F I` names nothing, or nothing where it names a value."""
    kept = trapped.kept(argument.frame)
    if kept is None:
        return no_frame(trapped, argument.frame)
    if argument.number < len(kept):
        return None
    return f"there is no kept value {argument.number}; {trapped.frame_in_words(argument.frame)}{could_keep(trapped, argument.frame, kept)}"


def could_keep(trapped, frame, kept):
    """Which other variables the KEEPALIVE of a frame's instruction could name."""
    instruction = trapped.instruction(frame)
    if instruction is None:
        return ""
    variables = [name for name in value_types.variables_of(trapped.bundle, instruction.block, instruction) if name not in kept]
    return f"; its {instruction.word} could keep {' '.join(variables)} by KEEPALIVE" if variables else ""


def explain_types(program, call, bundle, printed):
    """StackTypes at a trap: what the entry passes, and what the stack waits for; where it edits the stack, what the function takes and gives
    that it pushes."""
    trapped = Trapped(program, call, bundle, printed)
    entry = trapped.entry
    if entry is None:
        return None
    lines = [("entry", trapped.entry_in_words())]
    written = lambda names: f"({', '.join(value_types.written(bundle, name) for name in names)})"
    passed = [trapped.type_of(argument) for argument in entry.arguments]
    reply = entry.reply.text if entry.stack is None else "rebind"
    lines.append(("passed", written(passed)))
    if entry.push:
        lines += pushed(trapped, written)
    if entry.throws:
        lines.append(("expected", "an exception, which has the type ref<void>"))
    elif reply == "rebind":
        lines.append(("expected", "what the stack that is entered waits for: the parameters of its function where it is new, else the types "
                      "of its RET_WITH or of its TRAP; which of these it is cannot be shown"))
    elif entry.pop or entry.push:
        lines.append(("expected", edited(trapped)))
    else:
        instruction = trapped.instruction(0)
        types = [token.text for token in instruction.types] if instruction else []
        lines.append(("expected", f"{written(types)}, the types of the {instruction.word}" if instruction else None))
        wrong = next((n for n, (have, want) in enumerate(zip(passed, types)) if have and not value_types.same(bundle, have, want)), None)
        if wrong is not None:
            return entry.arguments[wrong].token.start, lines
    return entry.reply.start, lines



def signature_of(trapped):
    """The signature of the function that an entry pushes, or None."""
    name = trapped.entry.push.text
    function = trapped.bundle.functions.get(name) or trapped.bundle.declarations.get(name)
    return function and trapped.bundle.signatures.get(function.signature.text)


def pushed(trapped, written):
    """What the function takes and gives that an entry pushes."""
    signature = signature_of(trapped)
    if signature is None:
        return []
    takes, gives = ([token.text for token in tokens] for tokens in (signature.parameters, signature.results))
    return [("pushed", f"{trapped.entry.push.text}, which takes {written(takes)} and gives {written(gives)}")]


def edited(trapped):
    """What has to fit in an entry that edits the stack."""
    frame = trapped.entry.pop.number if trapped.entry.pop else 0
    if not trapped.entry.push:
        return f"what frame {frame} waits for: the results of its CALL, or the types of its TRAP"
    function = trapped.entry.push.text
    return f"{function} gives what frame {frame} waits for, and the entry passes what {function} takes"
