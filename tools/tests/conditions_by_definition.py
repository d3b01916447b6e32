"""What conditions say of outcomes, made from docs/LOG.md. Nothing here is taken from the program."""
import re

TOKEN = re.compile(r"//[^\n]*|[(){}=]|[^\s(){}=]+")
BUDGET, NO = 10, 13
# The words that the lines of endings begin with, each with its word in conditions; of an undefined case that is the word after it.
ENDINGS = {"done": "done", "stop": "stop", "all": "waiting", "heap": "HeapFull", "threads": "ThreadsFull"}


def conditions(text):
    """The conditions of a text that has no fault: the claim of each, and its lists of atoms, each of these a list of words."""
    words = [word for word in TOKEN.findall(text) if not word.startswith("//")]
    found = []
    while words:
        claim, lists = words.pop(0), []
        words.pop(0)
        while words.pop(0) == "(":
            atoms = []
            while words[0] != ")":
                size = 4 if re.fullmatch(r"t\d+", words[0]) else 3 if words[0].startswith("@") else 1
                atoms.append(words[:size])
                del words[:size]
            words.pop(0)
            lists.append(atoms)
        found.append((claim, lists))
    return found


def values(text):
    """The values that a line shows after its first words, what stands in braces as one."""
    return re.findall(r"\{[^}]*\}|\S+", text)


class Seen:
    """What the lines of an outcome show."""

    def __init__(self, text):
        self.returned = {found[1]: values(found[2]) for found in re.finditer(r"^returned (t\d+)(.*)$", text, re.M)}
        self.finals = dict(re.findall(r"^final (\S+) (.*)$", text, re.M))
        words = next(line.split() for line in text.splitlines() if not re.match("returned |exited |final ", line))
        self.ending = words[1] if words[0] == "undefined" else ENDINGS[words[0]]

    def holds(self, atom):
        """Whether an atom holds."""
        if len(atom) == 1:
            return atom[0] == self.ending
        if len(atom) == 3:
            return same(self.finals.get(atom[0]), atom[2])
        shown, number = self.returned.get(atom[0], []), int(atom[1], 0)
        return number < len(shown) and same(shown[number], atom[3])

    def satisfies(self, lists):
        """Whether each atom of one of the lists holds."""
        return any(all(map(self.holds, atoms)) for atoms in lists)


def same(shown, asked):
    """Whether a value that is shown is the one that is asked for."""
    return shown == "NULL" if asked == "NULL" else shown is not None and shown.isdigit() and int(shown) == int(asked, 0)


def answers(text, outcomes, complete):
    """The lines of the answers to conditions over the texts of outcomes, and the status."""
    seen, lines = [Seen(outcome) for outcome in outcomes], []
    for claim, lists in conditions(text):
        first = next((place for place, one in enumerate(seen) if one.satisfies(lists) != (claim == "always")), None)
        deciding, other = ("yes", "no") if claim == "exists" else ("no", "yes")
        lines.append(f"{claim} {f'{deciding} {first}' if first is not None else other if complete else 'unknown'}")
    said = [line.split()[1] for line in lines]
    return lines, NO if "no" in said else BUDGET if "unknown" in said else 0
