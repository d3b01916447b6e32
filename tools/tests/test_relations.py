"""The relations by clocks against the relations by definition, on random logs that meet the axioms."""
import random

import relations
from log import Log, read_line
from tests import relations_by_definition as definition

ORDERS = {"read": ["RELAXED", "ACQUIRE", "SEQ_CST", "CONSUME"], "write": ["RELAXED", "RELEASE", "SEQ_CST", "NOT_ATOMIC"],
          "update": ["RELAXED", "ACQUIRE", "RELEASE", "ACQ_REL", "SEQ_CST"], "fence": ["ACQUIRE", "RELEASE", "ACQ_REL", "SEQ_CST"]}
CELLS = ("#0+0", "#1+0")
THREADS = 3
LOGS = 60
LENGTH = 14


def event_text(number, thread, kind, order, cell, position):
    """The line of an access; its value is its position."""
    return f"{number} t{thread} {kind} {order} {cell} {position} {position}"


def begin():
    """The lines by which thread 0 makes the others."""
    lines = []
    for thread in range(1, THREADS):
        lines += [f"{len(lines)} t0 stack s{thread}", f"{len(lines) + 1} t0 thread t{thread}", f"{len(lines) + 2} t{thread} enter s{thread}"]
    return lines


def read(lines):
    """The log of some lines."""
    return Log([read_line(row, text) for row, text in enumerate(lines)])


def offered(lines, thread, order, cell, newest, rule):
    """By definition: the positions of which a log with such a read meets the axioms, the newest first."""
    number = len(lines)
    return [position for position in range(newest, -1, -1)
            if definition.meets_axioms(read(lines + [event_text(number, thread, "read", order, cell, position)]).events, rule)]


def random_step(source, lines, newest, rule, failures):
    """Adds one random event; a read takes one of its options, which are compared."""
    thread, number = source.randrange(THREADS), len(lines)
    kind = source.choice(["read", "read", "write", "update", "fence"])
    order, cell = source.choice(ORDERS[kind]), source.choice(CELLS)
    if kind == "fence":
        lines.append(f"{number} t{thread} fence {order}")
        return
    if kind == "read":
        wanted = offered(lines, thread, order, cell, newest[cell], rule)
        found = list(relations.Relations(read(lines), rule).next_options(thread, order, cell))
        if wanted != found:
            failures.append(f"options {found}, and by definition {wanted}, of t{thread} {order} {cell} after\n" + "\n".join(lines))
        lines.append(event_text(number, thread, kind, order, cell, source.choice(wanted)))
        return
    newest[cell] += 1
    lines.append(event_text(number, thread, kind, order, cell, newest[cell]))


def compare_order(lines, rule, failures):
    """Compares happens-before of all pairs, and the edges: they are in the relation, and with the rest they give all of it."""
    log = read(lines)
    found, wanted = relations.Relations(log, rule), definition.happens_before(log.events, rule)
    ours = {(a, b) for b in range(len(log.events)) for a in range(b) if found.happens_before(a, b)}
    if ours != wanted:
        failures.append(f"happens-before differs by {ours ^ wanted} under {rule} of\n" + "\n".join(lines))
    pairs = {(edge.source, edge.target) for edge in found.edges}
    pairs |= {(a.number, b.number) for b in log.events for a in log.events[:b.number] if a.thread == b.thread}
    if definition.closed(pairs, len(log.events)) != wanted:
        failures.append(f"the edges do not give happens-before under {rule} of\n" + "\n".join(lines))


def main(_program):
    """The failures."""
    failures, source = [], random.Random(52)
    for count in range(LOGS):
        rule, lines, newest = ("c11", "rmw")[count % 2], begin(), dict.fromkeys(CELLS, 0)
        for _ in range(LENGTH):
            random_step(source, lines, newest, rule, failures)
        compare_order(lines, rule, failures)
    return failures
