"""What a run was given: its bundle, its schedule, its client, its objects and its limits; and its log."""
import re

import hail_cells
from client_script import ClientReader
from command import DEFAULT_CELLS
from nodes import Code


class Setting:
    """What a session's call gives its run, and what it printed."""

    def __init__(self, session):
        call = session.call
        self.code, self.log, self.relations = Code(session.source), session.log, session.relations
        self.entry, self.budget, self.is_auto = call.entry, call.steps(), "--auto" in call.options
        self.numbers = [int(number) for number in re.sub(r"//[^\n]*", "", session.text_of("--schedule")).split()]
        self.entries = ClientReader(session.text_of("--client")).entries
        self.filled = hail_cells.Filled(self.code, session.text_of("--hail"))
        self.objects = [(part.type, part.count) for part in self.filled.objects.values()]
        self.cells = int(call.options.get("--cells", DEFAULT_CELLS)) - self.filled.cells_taken

    def initial(self, cell):
        """The text of what a script filled a cell with; None where it filled nothing there."""
        return self.filled.values.get(cell)
