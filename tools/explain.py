"""`--explain`: runs the program, and then says on standard error what its answer means, where it is a refusal or no ordinary ending.

The program writes its own standard output, and its status is the status of the call. Only where there is something to explain the
program runs a second time, and what it prints then is read and not shown. So a file that cannot be read twice, as a pipe, is not
explained. Where standard output is /dev/null it runs once. A search that is bounded is not made twice: what it says is explained by the
words.
"""
import os
import subprocess
import sys

import caret
import command
import endings
import faults
import refusals
import scripts
from bundle import Bundle
from failure import Failure
from text_reader import Source

EXPLAINED = (command.USAGE, command.READ_FAULT, command.REFUSED, command.STOP, command.UNDEFINED, command.HEAP_FULL, command.THREADS_FULL,
             command.ALL_WAITING, command.BUDGET, command.TOO_LONG)


# Faults of joining. A file that is joined is not checked, so it has no other `Duplicate`.
JOINING = ("Duplicate", "OtherType", "OtherSignature")


def explain(program, _options, words):
    """Runs the program with the words and explains its answer. Gives its status."""
    if is_printed_nowhere():
        printed, status = command.answer(program, words)
    else:
        printed, status = None, subprocess.run([program, *words], check=False).returncode
    if status in EXPLAINED:
        for line in of_search(words, status) or explanation(program, words, command.output(program, words) if printed is None else printed):
            print(caret.printable(line), file=sys.stderr)
    return command.as_shell(status)


def is_printed_nowhere():
    """Whether standard output is /dev/null, so that nobody reads what the program prints there."""
    try:
        return os.path.samestat(os.fstat(1), os.stat(os.devnull))
    except OSError:
        return False


def of_search(words, status):
    """The lines that explain a search that is bounded; none of another answer."""
    return command.explain_bounded(command.Call.of_words(words)) if words[:1] == ["explore"] and status == command.BUDGET else []


def explanation(program, words, printed):
    """The lines that explain what the program printed."""
    last = printed[printed.rstrip("\n").rfind("\n") + 1:].rstrip("\n")
    try:
        return of_answer(program, words, printed, last)
    except (OSError, Failure):
        # A file that was read before cannot be read again: nothing is said.
        return []


def of_answer(program, words, printed, last):
    """The lines that explain an answer, which ends with the line `last`."""
    fields = last.split()
    if last == "usage":
        return command.explain_usage(words)
    call = command.Call.of_words(words)
    if call is None or not fields:
        return []
    if fields[:2] == ["read", "fault"] or fields[:2] == ["too", "long"]:
        return command.explain_file(call, fields)
    if fields[0] == "refused":
        return of_refusal(call, fields[1:])
    return endings.explain(program, call, printed, last)


def of_refusal(call, fields):
    """The lines that explain `refused ..`."""
    if fields[0] == "entry":
        return of_entry(call, fields[1])
    file, place, fault = " ".join(fields[:-2]), int(fields[-2]), fields[-1]
    path = call.file(file)
    source = Source.of_file(path)
    if file.startswith("bundle ") and fault in JOINING:
        details = of_joining(call, int(fields[1]), Bundle(source.text), place)
    elif file == "log":
        details = []
    elif file.startswith("bundle"):
        details = refusals.explain(Bundle(source.text), place, fault)
    else:
        details = scripts.explain(file, call, source, place, fault)
    return [*caret.shown(path, source, place), f"{fault}: {faults.FAULTS.get(fault, '')}", *indented(details)]


def of_joining(call, number, bundle, place):
    """Where an earlier file defines the name that cannot go into the joined bundle."""
    item = next(item for item in reversed(bundle.items) if item.start.start <= place)
    for path in call.joined[:number]:
        earlier = Bundle.of_file(path)
        found = earlier.definition(item.name.text)
        if found:
            return [("earlier", f"{path}:{earlier.source.line(found.start.start)} has {item.name.text}")]
    return []


def of_entry(call, fault):
    """The lines that explain `refused entry ..`."""
    try:
        details = scripts.explain_entry(call, fault)
    except OSError:
        details = []
    return ["the function that the run begins with:", f"{fault}: {faults.ENTRY_FAULTS.get(fault, '')}", *indented(details)]


def indented(details):
    """Details as lines, each with its label."""
    return [f"  {label}: {text}" for label, text in details if text]
