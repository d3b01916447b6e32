"""The memory model as relations, for tests: the text of docs/MEMORY.md on whole logs, slow and without clocks."""


def happens_before(events, rule):
    """The relation, as a set of pairs of numbers."""
    pairs = {(a.number, b.number) for b in events for a in events[:b.number] if a.thread == b.thread}
    pairs |= by_positions(events, rule) | by_stacks(events) | by_threads(events) | by_wakes(events)
    return closed(pairs, len(events))


def closed(pairs, count):
    """The least transitive relation that has the pairs."""
    after = [set() for _ in range(count)]
    for first, second in pairs:
        after[first].add(second)
    for first in reversed(range(count)):
        for second in list(after[first]):
            after[first] |= after[second]
    return {(first, second) for first in range(count) for second in after[first]}


def by_positions(events, rule):
    """Case 1: a release, or a release fence before it, and an acquire that takes a position of its sequence, or a fence after that."""
    modifications = {(it.cell, it.position): it for it in events if it.is_modification}
    pairs = set()
    for reader in events:
        if reader.kind not in ("read", "update") or reader.order == "NOT_ATOMIC":
            continue
        for position in range(1, reader.taken + 1):
            head = modifications[reader.cell, position]
            if head.order == "NOT_ATOMIC" or not continues(modifications, head, reader.taken, rule):
                continue
            sources = [it for it in events[:head.number] if it.kind == "fence" and it.thread == head.thread and it.is_release]
            sources += [head] if head.is_release else []
            targets = [it for it in events[reader.number + 1:] if it.kind == "fence" and it.thread == reader.thread and it.is_acquire]
            targets += [reader] if reader.is_acquire else []
            pairs |= {(a.number, b.number) for a in sources for b in targets}
    return pairs


def continues(modifications, head, position, rule):
    """Whether the release sequence of a head reaches a position."""
    for between in range(head.position + 1, position + 1):
        it = modifications[head.cell, between]
        own_write = it.kind == "write" and it.order != "NOT_ATOMIC" and it.thread == head.thread and rule == "c11"
        if it.kind != "update" and not own_write:
            return False
    return True


def by_stacks(events):
    """Case 2: the last event that left or made a stack, and the next that enters it."""
    pairs = set()
    for enter in events:
        if enter.kind == "enter":
            before = [it for it in events[:enter.number] if it.kind in ("stack", "leave") and it.other == enter.other]
            pairs |= {(it.number, enter.number) for it in before[-1:]}
    return pairs


def by_threads(events):
    """Case 3: the event that made a thread, and each event of it."""
    return {(a.number, b.number) for a in events if a.kind == "thread" for b in events[a.number:] if b.thread == a.other}


def by_wakes(events):
    """Case 4: a wake, and the events that it woke."""
    return {(it.other, it.number) for it in events if it.kind == "woken"}


def meets_axioms(events, rule):
    """Whether a log meets coherence and the order of SEQ_CST (its form and atomicity are given)."""
    before = happens_before(events, rule)
    accesses = [it for it in events if it.is_access]
    for x in accesses:
        for y in accesses:
            if x.cell != y.cell or x is y:
                continue
            if (x.number, y.number) in before and y.kind == "read" and y.position < x.position:
                return False
            reads_it = x.is_modification and y.kind == "read" and x.position == y.position
            if (x.position < y.position or reads_it) and not strong_in_order(events, before, x, y):
                return False
    return True


def strong_in_order(events, before, x, y):
    """Axiom 3 for two accesses."""
    fences = [it for it in events if it.kind == "fence"]
    firsts = [x] + [it for it in fences if (it.number, x.number) in before]
    seconds = [y] + [it for it in fences if (y.number, it.number) in before]
    return all(a.number < b.number for a in firsts for b in seconds if a.order == b.order == "SEQ_CST")
