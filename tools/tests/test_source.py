"""The reader of sources against the program's canonical text, in which each instruction has a line of its own."""
import re

import source
from tests.helpers import EXAMPLES, Failures, run


def canonical(text):
    """The instructions of a canonical text: (block, index, text without brackets and blanks)."""
    found, function, block, index = [], None, None, 0
    for line in text.splitlines():
        head = re.match(r"\.funcdef (\S+) VERSION %(\S+)", line)
        if head:
            function = ".".join(head.groups())
        elif line.startswith("%"):
            block, index = f"{function}.{re.match(r'%([^(]+)', line)[1]}", 0
        elif line.startswith("  "):
            found.append((block, index, bare(line)))
            index += 1
    return found


def bare(text):
    """An instruction without what two spellings of it may differ in."""
    words = re.sub(r"//[^\n]*", "", text).replace("NOT_ATOMIC", "")
    return re.sub(r"[\s()]", "", words)


def main(program):
    """The failures."""
    failures = Failures()
    count = 0
    for file in sorted(EXAMPLES.glob("*/bundle.mu")):
        printed, status = run(program, ["print", file])
        if status or run(program, ["check", file])[1]:
            continue
        count += 1
        read = source.Source(file.read_bytes().decode("latin-1"))
        ours = [(it.block.name, it.index, bare(it.shown.split(": ", 1)[1])) for it in read.instructions]
        wanted = canonical(printed)
        failures.check(sorted(it[:2] for it in ours) == sorted(it[:2] for it in wanted), f"{file}: other instructions than in canonical text")
        for mine, theirs in zip(ours, wanted):
            failures.check(mine == theirs or re.search("0x|RET|EXC|THROW", mine[2]), f"{file}: {mine} and canonical {theirs}")
    failures.check(count >= 30, f"only {count} examples were read")
    return failures
