#!/usr/bin/env python3
"""main.py PROGRAM OPTION.. WORDS..: the one entry of the tools for people.

PROGRAM is the built `mu`, the OPTIONs are those of one tool, and WORDS are what `mu` would be given, as `run FILE --entry @main`. The
first option names the tool; the table below says which module has it. A module is imported only when its tool is asked for, so that
each call starts fast. Each tool is a function

    function(program: str, options: list[str], words: list[str]) -> int

which gets all options with their values, in the order in which they stand, and returns the exit status.
"""
import difflib
import gc
import importlib
import os
import subprocess
import sys

from failure import WRONG_WORDS, Failure

# From option to (module, function).
TOOLS = {
    "--explain": ("explain", "explain"),
    "--check-all": ("check_all", "check_all"),
    "--show": ("show", "show"),
    "--results": ("show", "results"),
    "--picture": ("picture", "picture"),
    "--step": ("stepper", "step"),
    "--picks": ("picks", "picks"),
    "--seed": ("seeds", "seed"),
}
# Options that take the next word as their value.
WITH_VALUE = {"--picture", "--seed"}
# Each tool that shows a run takes this option too, so it names the tool only where no other option does.
SEED = "--seed"
# As a shell says that a signal ended a program.
INTERRUPTED, NOBODY_READS = 130, 141


def split(words):
    """The options that `words` begin with, with their values, and the words after them."""
    at = 0
    while at < len(words) and words[at] in TOOLS:
        at += 2 if words[at] in WITH_VALUE else 1
    return words[:at], words[at:]


def without_tool(program, words):
    """No tool is asked for: the program answers, and where the first word looks like an option it is said which there are."""
    status = subprocess.run([program, *words], check=False).returncode
    if words and words[0].startswith("--"):
        near = difflib.get_close_matches(words[0], TOOLS, 1)
        print(f"mu: no option {words[0]}{f'; is {near[0]} meant?' if near else ''} Options stand before the command: {' '.join(TOOLS)}",
              file=sys.stderr)
    return status


def main(words):
    """Runs the tool that the first option names."""
    if not words:
        print("usage: main.py PROGRAM OPTION.. WORDS..", file=sys.stderr)
        return WRONG_WORDS
    program, *given = words
    options, rest = split(given)
    if not options:
        return without_tool(program, given)
    named = next((option for option in options if option in TOOLS and option != SEED), options[0])
    module, function = TOOLS[named]
    return guarded(lambda: getattr(importlib.import_module(module), function)(program, options, rest))


def guarded(tool):
    """The status of a tool; also where it fails, where nobody reads on, or where it is interrupted."""
    # A call is short, and what it makes lives to its end.
    gc.disable()
    try:
        status = tool()
        sys.stdout.flush()
        return status
    except Failure as failure:
        print(f"mu: {failure}", file=sys.stderr)
        return failure.status
    except KeyboardInterrupt:
        return INTERRUPTED
    except BrokenPipeError:
        os.dup2(os.open(os.devnull, os.O_WRONLY), sys.stdout.fileno())
        return NOBODY_READS


if __name__ == "__main__":
    sys.exit(main(sys.argv[1:]))
