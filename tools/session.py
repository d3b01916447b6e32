"""One run of the program for the tools: its words, its source, its output, and what the tools find out about it."""
import os
import re
import tempfile

import command
import log as logs
import machine
import relations
import setting
import source
from failure import Failure

def read_file(name):
    """The text of a file, a character for each byte."""
    try:
        with open(name, "rb") as file:
            return file.read().decode("latin-1")
    except OSError as error:
        raise Failure(f"{name}: {error.strerror}") from error


class Session:
    """A run, made, or read where its output is given. What the tools find out about it is found when it is first asked for."""

    def __init__(self, program, call, output=None):
        self.program, self.call = program, call
        self.output, self.status = command.answer(program, call.words()) if output is None else (output, None)
        self.log = logs.read_log(self.output)
        self.found = {}

    def once(self, name, make):
        """What `make` gives, made once."""
        if name not in self.found:
            self.found[name] = make()
        return self.found[name]

    @property
    def refused(self):
        """Whether the run never began."""
        return logs.is_refusal(self.output)

    def text_of(self, option):
        """The text of the file that an option of the run names; empty without the option."""
        name = self.call.options.get(option)
        return read_file(name) if name else ""

    @property
    def source(self):
        """The bundle's source."""
        return self.once("source", lambda: source.Source(read_file(self.call.bundle)))

    @property
    def relations(self):
        """What the memory model says of the log."""
        return self.once("relations", lambda: relations.Relations(self.log, self.call.rule))

    @property
    def machine(self):
        """The run, gone through step by step."""
        return self.once("machine", lambda: machine.Machine(setting.Setting(self)).follow())

    @property
    def instructions(self):
        """Of each row of the output the instruction that made it, or None."""
        return self.once("instructions", lambda: self.machine.instruction_of_rows())

    @property
    def cell_names(self):
        """The names of the cells of globals."""
        return self.once("cell_names", self.source.cell_names)

    def initial(self, cell):
        """The text of the value that a cell begins with: as a read or the HAIL script says, else 0 or NULL by the type of a global's cell.

        None where only a program could tell: the cell is of an object that the run made.
        """
        found = self.relations.value_at(cell, 0)
        if found is None:
            found = self.machine.setting.initial(cell)
        types = self.once("cell_types", self.source.cell_types)
        return self.source.zero(types[cell]) if found is None and cell in types else found


CELL = re.compile(r"#\d+\+\d+")


def named(text, names):
    """A text with the names of cells of globals in place of `#O+K`."""
    if "#" not in text:
        return text
    return CELL.sub(lambda match: names.get(match[0], match[0]), text)


class Folder:
    """A folder for files that live as long as a tool's call."""

    def __init__(self):
        self.room = tempfile.TemporaryDirectory(prefix="mu-tools-")

    def write(self, name, text):
        """Writes a file; returns its path."""
        path = os.path.join(self.room.name, name)
        with open(path, "w", encoding="latin-1") as file:
            file.write(text)
        return path
