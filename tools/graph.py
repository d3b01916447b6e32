"""A picture as a text for Graphviz: a cluster for each thread, a node for each line, an edge for each arrow."""
from drawing import COLOURS, LEGEND, rows_to_show


def quoted(text):
    """A text between quotes, as Graphviz reads it."""
    return '"' + text.replace("\\", "\\\\").replace('"', '\\"') + '"'


def dot(picture):
    """The text for `dot`. Of a long run it has the rows that a drawing has."""
    shown = rows_to_show(picture)
    lines = ["digraph run {", f"  label={quoted(picture.command)}; labelloc=t; fontname=monospace;",
             "  node [shape=box, fontname=monospace, fontsize=10]; edge [fontname=monospace, fontsize=9];"]
    for thread in picture.threads:
        own = [number for number in shown if picture.rows[number].thread == thread]
        lines.append(f"  subgraph cluster_t{thread} {{ label=\"t{thread}\"; color=gray;")
        lines += [f"    r{number} [label={quoted(label_of(picture.rows[number]))}, tooltip={quoted(' / '.join(picture.details(number)))}];"
                  for number in own]
        if len(own) > 1:
            lines.append("    " + " -> ".join(f"r{number}" for number in own) + " [color=gray, arrowhead=none, weight=10];")
        lines.append("  }")
    for number in shown:
        if picture.rows[number].thread is None:
            lines.append(f"  r{number} [label={quoted(label_of(picture.rows[number]))}, shape=plaintext];")
    kept = set(shown)
    for arrow in picture.arrows:
        if arrow.first in kept and arrow.last in kept:
            lines.append(f"  r{arrow.first} -> r{arrow.last} [label={quoted(LEGEND[arrow.kind])}, color={quoted(COLOURS[arrow.kind])}, "
                         f"fontcolor={quoted(COLOURS[arrow.kind])}, constraint=false];")
    return "\n".join(lines + ["}"]) + "\n"


def label_of(row):
    """The text of a node."""
    return row.label if row.number is None else f"{row.number} {row.label}"
