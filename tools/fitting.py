"""Whether a reference fits a type, as docs/RUN.md says it. That is asked only where a run may have ended because one does not."""
import value_types
from nodes import NULL
from text_reader import number_value


class Objects:
    """The objects of a run, by their numbers: the type of each, and of a hybrid how many elements it has."""

    def __init__(self, code, made):
        self.code, self.bundle, self.made = code, code.bundle, made

    def add(self, made):
        """Takes the type of a new object and the number of its elements; returns the object's number."""
        self.made.append(made)
        return len(self.made) - 1

    def leaves_of(self, type_name):
        """The types of the scalars of a type, of a hybrid without its elements."""
        word, arguments = self.code.source.types[type_name]
        if word == "array":
            return self.leaves_of(arguments[0]) * number_value(arguments[1])
        if word in ("struct", "hybrid"):
            return [leaf for part in (arguments if word == "struct" else arguments[:-1]) for leaf in self.leaves_of(part)]
        return [] if word == "void" else [type_name]

    def cells(self, number):
        """The types of all cells of an object."""
        type_name, count = self.made[number]
        return self.leaves_of(type_name) + (count * self.leaves_of(self.code.parts(type_name)[-1]) if count else [])

    def begin_alike(self, cells, type_name):
        """Whether cells begin with the leaves of a type; after those of a hybrid the rest has to be whole elements."""
        wanted = self.leaves_of(type_name)
        if self.code.source.types[type_name][0] == "hybrid" and len(cells) >= len(wanted):
            each = self.leaves_of(self.code.parts(type_name)[-1])
            count, left = divmod(len(cells) - len(wanted), len(each)) if each else (0, 0)
            wanted = wanted + each * (count + (left > 0))
        return len(cells) >= len(wanted) and all(value_types.same(self.bundle, a, b) for a, b in zip(cells, wanted))

    def place_fits(self, number, cell, type_name):
        """Whether a cell of an object, or its end, fits an iref of a type."""
        cells = self.cells(number)
        return cell == len(cells) or 0 <= cell < len(cells) and self.begin_alike(cells[cell:], type_name)

    def fits(self, value, type_name):
        """Whether a reference fits a type of references."""
        word, arguments = self.code.source.types[type_name]
        if value == NULL:
            return True
        if word == "funcref":
            function = self.bundle.functions.get(value) or self.bundle.declarations[value]
            return value_types.same_signature(self.bundle, function.signature.text, arguments[0])
        number, _, cell = value[1:].partition("+")
        if word == "ref":
            return self.begin_alike(self.cells(int(number)), arguments[0])
        return self.place_fits(int(number), int(cell), arguments[0])
