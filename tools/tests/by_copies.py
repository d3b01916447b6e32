"""The steps of a run as the program itself shows them: by a run of a copy of the bundle with a trap before each instruction.

The picks that the machine found are given to the copy, each pick of a thread twice, for the trap and for the instruction. So the copy
makes the same steps if the machine is right: its traps say where each thread stands and what its variables hold, and its other lines
are those of the run.
"""
import re

import log as logs
from nodes import printed
from command import answer
from session import Folder
from tests.copy_with_traps import copy_of, kept_variables, original_index, zero_name

GATE = "{ kept 0 pass () }"
VALUE = re.compile(r"\{[^}]*\}|\S+")
MOST_STEPS = 1000000


class Copy:
    """A run of the copy: its lines, and what the machine expects of them."""

    def __init__(self, session):
        self.session, self.machine = session, session.machine
        asking = [it for it in session.source.instructions if it.operation in ("TRAP", "WATCHPOINT")]
        self.is_auto = self.machine.setting.is_auto
        zeros = {token.text for it in asking for token in it.read.types} if self.is_auto else ()
        folder = Folder()
        script = session.text_of("--client")
        self.own_entries = re.findall(r"\{[^}]*\}", re.sub(r"//[^\n]*", "", script))
        numbers, entries = self.schedule(), self.entries()
        ending = session.log.ending
        over = sum(step[4] is not None for step in self.machine.made)
        steps = 2 * len(self.machine.made) - over if ending.kind == "budget" else MOST_STEPS
        call = session.call.with_options(auto=None, client=folder.write("client", "\n".join(entries) + "\n"), steps=steps,
                                           schedule=folder.write("schedule", "\n".join(map(str, numbers)) + "\n"))
        words = call._replace(bundle=folder.write("copy.mu", copy_of(session.source, zeros))).words()
        self.log = logs.read_log(answer(session.program, words)[0])

    def schedule(self):
        """The numbers that the copy takes."""
        numbers, picks = [], {}
        for pick in self.machine.picks:
            picks.setdefault(pick.step, []).append(pick)
        for at, step in enumerate(self.machine.made):
            for pick in picks.get(at, ()):
                numbers += [pick.taken] * (1 if pick.is_read or step[4] is not None else 2)
        return numbers

    def entries(self):
        """The entries of the client: one for each trap of the copy, and those of the bundle's own traps where they come."""
        entries, own = [], 0
        rows = [step[3] for step in self.machine.made] + [len(self.session.log.lines)]
        for (_, node, _, row, waited_at), end in zip(self.machine.made, rows[1:]):
            if waited_at is None:
                entries.append(GATE)
            lines = self.session.log.lines[row:end]
            if any(type(line) is logs.Record and line.kind in ("trap", "watchpoint") for line in lines):
                if self.is_auto:
                    entries.append("{ pass (" + " ".join(zero_name(token.text) for token in node.read.types) + ") }")
                else:
                    entries.append(self.own_entries[own] if own < len(self.own_entries) else "{ stop }")
                own += 1
        return entries

    def compared(self):
        """What the copy shows otherwise than the machine: nothing, or the first difference."""
        lines, wanted, at, own = self.log.lines, self.expected(), 0, []
        while at < len(lines):
            trap = lines[at + 1] if at + 1 < len(lines) else None
            if type(trap) is logs.Record and trap.kind == "trap" and original_index(trap.place[1])[1]:
                place, values = (trap.place[0], original_index(trap.place[1])[0]), VALUE.findall(lines[at + 2].text)[2:]
                step = next(wanted, None)
                if step != (trap.thread, place, values):
                    return f"a trap shows {(trap.thread, place, values)}, and the machine {step}"
                at += 4
                continue
            own.append(self.as_printed(lines[at]))
            at += 1
        return self.compared_lines(own, next(wanted, None))

    def compared_lines(self, own, step):
        """What differs in the lines besides the traps, and a step that the copy did not make."""
        printed_lines = [self.as_printed(line, False) for line in self.session.log.lines]
        if own != printed_lines:
            return f"the copy prints {own}, and the run {printed_lines}"
        return f"the copy does not make {step}" if step else None

    def expected(self):
        """Of each step that begins with a trap of the copy: its thread, its instruction's place, and its variables."""
        for thread, node, values, _, waited_at in self.machine.made:
            if waited_at is None:
                yield thread, node.instruction.place, [printed(values[name]) for name in kept_variables(node.instruction)]

    def as_printed(self, line, is_copy=True):
        """A line without numbers of events; of the copy's places those of the bundle."""
        words = line.text.split(" ")
        if type(line) is logs.Event:
            return " ".join(words[1:-1] if line.kind == "woken" else words[1:])
        if getattr(line, "place", None):
            at = words.index(line.place[0]) + 1
            words[at] = str(original_index(line.place[1])[0]) if is_copy else words[at]
            words = words[:-1] if type(line) is logs.Ending and line.race else words
        return "budget" if words[0] == "budget" else " ".join(words)
