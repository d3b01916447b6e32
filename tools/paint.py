"""Colours for a terminal; none where the output is no terminal, or where NO_COLOR is set."""
import os
import sys

CODES = {"dim": "2", "bold": "1", "red": "31", "green": "32", "yellow": "33", "blue": "34", "magenta": "35", "cyan": "36"}
THREADS = ("cyan", "yellow", "magenta", "green", "blue")


class Paint:
    """Paints texts where `colour` says so."""

    def __init__(self, colour=None):
        self.colour = sys.stdout.isatty() and "NO_COLOR" not in os.environ if colour is None else colour

    def __call__(self, text, *names):
        """The text, with the named colours."""
        if not self.colour or not names or not text:
            return text
        return f"\x1b[{';'.join(CODES[name] for name in names)}m{text}\x1b[0m"

    def thread(self, text, thread):
        """The text in the colour of a thread."""
        return self(text, THREADS[thread % len(THREADS)])
