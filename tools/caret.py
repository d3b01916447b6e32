"""Shows a place of a file: file, line and column, the line, and a caret under the column."""

MOST_SHOWN = 160


def shown(name, source, offset):
    """The place as `name:line:column`, with that line and a caret, at most 160 bytes around the place. Columns count bytes, from 1."""
    line, column = source.line(offset), source.column(offset)
    text = source.line_text(line)
    begin = column - MOST_SHOWN // 2 if column > MOST_SHOWN // 2 else 0
    margin = "".join(character if character == "\t" else " " for character in as_read(text[begin:column - 1]))
    return [f"{name}:{line}:{column}", "  " + printable(as_read(text[begin:begin + MOST_SHOWN])), f"  {margin}^"]


def as_read(text):
    """A text whose characters are bytes, as people read it: in UTF-8."""
    return text.encode("latin-1").decode("utf-8", "replace")


def printable(text):
    """A text with a `?` for each character that a terminal might take as a command, or that it cannot show."""
    return "".join(character if character.isprintable() or character == "\t" else "?" for character in text)
