"""`--check-all FILE..`: checks many bundles, and prints a line for each in the format of compilers, so that editors and builds find places.

    FILE: ok
    FILE:LINE:COLUMN: error: FAULT: what is said of it
    FILE: error: why the file was not checked

Lines and columns count from 1, columns in bytes. The status is 0 where all files are ok, else that of the first which is not.
"""
import concurrent.futures
import os
import subprocess
import sys

import caret
import faults
import refusals
from bundle import Bundle

WRONG_WORDS = 1


def check_all(program, _options, words):
    """Checks the files, side by side, and prints their lines in the order in which they are given."""
    if not words:
        print("usage: mu --check-all FILE..", file=sys.stderr)
        return WRONG_WORDS
    with concurrent.futures.ThreadPoolExecutor(os.cpu_count()) as pool:
        found = list(pool.map(lambda path: check(program, path), words))
    for line, _ in found:
        print(line)
    return next((status for _, status in found if status), 0)


def check(program, path):
    """The line of a file, and the status of its check."""
    done = subprocess.run([program, "check", path], stdin=subprocess.DEVNULL, stdout=subprocess.PIPE, stderr=subprocess.DEVNULL,
                          check=False)
    printed = done.stdout.decode("latin-1").strip()
    name = caret.printable(path)
    if printed == "ok":
        return f"{name}: ok", done.returncode
    fields = printed.split()
    try:
        if fields[:2] == ["refused", "bundle"]:
            return error_line(name, Bundle.of_file(path), int(fields[2]), fields[3]), done.returncode
        with open(path, "rb") as file:
            file.read(1)
    except OSError as error:
        return f"{name}: error: {error.strerror}", done.returncode
    return f"{name}: error: {printed or 'the program printed nothing'}", done.returncode


def error_line(name, bundle, place, fault):
    """The line of a bundle that is refused."""
    details = [f"{label} {text}" if label in ("found", "expected") else text for label,
               text in refusals.explain(bundle, place, fault) if label != "form"]
    said = "; ".join(details) or faults.FAULTS.get(fault, "")
    return f"{name}:{bundle.source.line(place)}:{bundle.source.column(place)}: error: {fault}: {caret.printable(said)}"
