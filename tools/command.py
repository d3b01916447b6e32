"""The words that the program takes, its statuses, and what is wrong with words that it does not take."""
import difflib
import os
import subprocess
import typing

from failure import Failure

USAGE, READ_FAULT, REFUSED, SINK_FAULT, STOP, UNDEFINED, HEAP_FULL, THREADS_FULL, ALL_WAITING, BUDGET, MEMORY, TOO_LONG, NO = range(1, 14)

# The options of `run`: what the next word is; None where there is no next word.
RUN_OPTIONS = {"--entry": "the name of a function, with its `@`", "--hail": "a file with a HAIL script",
               "--client": "a file with a client script",
               "--schedule": "a file with a schedule", "--steps": "a number from 0 to 1000000", "--cells": "a number from 0 to 1000000",
               "--release-sequences": "c11 or rmw", "--auto": None}
# The options of `explore`, likewise.
EXPLORE_OPTIONS = {**RUN_OPTIONS, "--runs": "a number from 1 to 100000000", "--condition": "a file with conditions"}
del EXPLORE_OPTIONS["--schedule"]
OPTIONS = {"run": RUN_OPTIONS, "explore": EXPLORE_OPTIONS}
JUDGE_OPTION = "--release-sequences"
COMMANDS = {"check": "check FILE", "print": "print FILE", "trial": "trial N, with N from 1 to 1000", "run": "run FILE --entry @NAME",
            "explore": "explore FILE --entry @NAME", "judge": "judge FILE", "join": "join FILE .., with 1 to 16 files"}
MOST_JOINED = 16
# The least and the greatest value of an option that has numbers.
BOUNDS = {"--steps": (0, 1_000_000), "--cells": (0, 1_000_000), "--runs": (1, 100_000_000)}
DEFAULT_STEPS, DEFAULT_CELLS = 200_000, 100_000
DEFAULT_RUNS, DEFAULT_STEPS_OF_EACH = 1_000_000, 1_000
# The files that a refusal may name besides the bundle, each with the option that names it.
FILES = {"hail": "--hail", "client": "--client", "schedule": "--schedule", "condition": "--condition"}


class Call(typing.NamedTuple):
    """A call that the program takes: its command, its bundle's file, its options with their values, and for `join` all files."""

    command: str
    bundle: str
    options: dict
    joined: tuple = ()

    @classmethod
    def of_words(cls, words):
        """The call that words are, or None where the command has no file. The file of `judge` stands in the place of the bundle."""
        if len(words) < 2 or words[0] not in ("check", "print", "run", "explore", "judge", "join"):
            return None
        if words[0] == "join":
            return cls(words[0], words[1], {}, tuple(words[1:]))
        options, at = {}, 2
        while words[0] in ("run", "explore", "judge") and at < len(words):
            has_value = {**RUN_OPTIONS, **EXPLORE_OPTIONS}.get(words[at]) is not None
            options[words[at]] = words[at + 1] if has_value and at + 1 < len(words) else ""
            at += 2 if has_value else 1
        return cls(words[0], words[1], options)

    @classmethod
    def of_run(cls, words, tool):
        """The call of a run; a tool that shows runs fails where the words are none."""
        if len(words) < 2 or words[0] != "run":
            raise Failure(f"{tool} shows a run: put it before `run FILE --entry @NAME ..`")
        at = run_fault(words)[0]
        if at < len(words):
            raise Failure(f"{tool} cannot read the word {words[at]}; the program answers: usage")
        return cls.of_words(words)

    @property
    def entry(self):
        """The function that a run begins with; None where the words name none."""
        return self.options.get("--entry")

    @property
    def rule(self):
        """The rule of a run for release sequences."""
        return self.options.get("--release-sequences", "c11")

    def file(self, name):
        """The path of a file that a refusal names: `bundle`, `hail`, `client`, `schedule`, `condition`, `log`, or `bundle K` for `join`."""
        if name.startswith("bundle "):
            return self.joined[int(name.split()[1])]
        return self.bundle if name in ("bundle", "log") else self.options.get(FILES[name], "")

    def steps(self):
        """How many steps the run may make."""
        return int(self.options.get("--steps", DEFAULT_STEPS))

    def with_options(self, **changed):
        """This call with other options; one that is None is left out. Names are written with `_` for `-`."""
        options = {**self.options, **{"--" + name.replace("_", "-"): value for name, value in changed.items()}}
        return self._replace(options={name: value for name, value in options.items() if value is not None})

    def words(self, **changed):
        """The words of this call, with other options."""
        words = [self.command, self.bundle]
        for name, value in self.with_options(**changed).options.items():
            words += [name] if RUN_OPTIONS.get(name) is None else [name, str(value)]
        return words


def as_shell(status):
    """The status of a program as a shell gives it: 128 and the number of the signal that ended it."""
    return status if status >= 0 else 128 - status


def answer(program, words):
    """What the program prints, with bytes as characters, and its status."""
    try:
        done = subprocess.run([program, *words], stdin=subprocess.DEVNULL, stdout=subprocess.PIPE, stderr=subprocess.DEVNULL, check=False)
    except OSError as error:
        raise Failure(f"{program}: {error.strerror}") from error
    return done.stdout.decode("latin-1"), done.returncode


def output(program, words):
    """What the program prints, with bytes as characters."""
    return answer(program, words)[0]


def explain_file(call, fields):
    """What is wrong with a file that could not be read, or that is too long."""
    name = " ".join(fields[2:])
    path = call.file(name)
    if fields[0] == "too":
        return [f"{path}: the file has {os.path.getsize(path)} bytes; at most 1048576 are read"]
    try:
        with open(path, "rb") as file:
            file.read(1)
    except OSError as error:
        return [f"{path}: {error.strerror}",
                f"  it is the file of {'' if name.startswith('bundle ') else 'the '}{name}" + (f", by {FILES[name]}" if name in FILES else "")]
    return []


def explain_usage(words):
    """Which word is at fault, and what was expected there."""
    at, found = usage_fault(words)
    shown = " ".join(words)
    lines = [f"usage: mu {shown}"]
    if at < len(words):
        lines.append("          " + " " * len(" ".join(words[:at]) + " " * (at > 0)) + "^" * max(1, len(words[at])))
    return lines + [f"  {text}" for text in found]


def near(word, words):
    """The nearest of some words, as a question, or nothing."""
    found = difflib.get_close_matches(word, words, 1)
    return f"; is {found[0]} meant?" if found else ""


def usage_fault(words):
    """The number of the word at fault, which may be after the last one, and what is said of it."""
    if not words:
        return 0, ["expected: a command: " + "; ".join(COMMANDS.values())]
    if words[0] not in COMMANDS:
        return 0, [f"`{words[0]}` is no command{near(words[0], COMMANDS)}", "expected: " + "; ".join(COMMANDS.values())]
    if len(words) == 1:
        return 1, [f"expected: {COMMANDS[words[0]]}"]
    if words[0] in OPTIONS:
        return run_fault(words)
    if words[0] == "judge":
        return judge_fault(words)
    if words[0] == "join":
        return 1 + MOST_JOINED, [f"expected: nothing more; at most {MOST_JOINED} files are joined"]
    if words[0] == "trial" and not is_number(words[1], 1, 1000):
        return 1, ["expected: a number from 1 to 1000, in decimal digits"]
    return 2, [f"expected: nothing more; the command is {COMMANDS[words[0]]}"]


def is_number(word, least, most):
    """Whether a word is a number that the program takes: one to ten decimal digits."""
    return word.isascii() and word.isdigit() and len(word) <= 10 and least <= int(word) <= most


def judge_fault(words):
    """The word at fault of `judge ..`."""
    if len(words) > 2 and words[2] != JUDGE_OPTION:
        return 2, [f"`{words[2]}` is no option of judge{near(words[2], [JUDGE_OPTION])}", f"expected: {JUDGE_OPTION}, or nothing more"]
    if len(words) == 3 or len(words) > 3 and words[3] not in ("c11", "rmw"):
        return 3, [f"expected: after {JUDGE_OPTION} {RUN_OPTIONS[JUDGE_OPTION]}"]
    return min(len(words), 4), ["expected: nothing more"]


def run_fault(words):
    """The word at fault of `run ..` or `explore ..`."""
    options, seen, at = OPTIONS[words[0]], set(), 2
    while at < len(words):
        word = words[at]
        if word not in options:
            of_run = "; a search goes through all schedules" if word in RUN_OPTIONS else near(word, options)
            return at, [f"`{word}` is no option of {words[0]}{of_run}", "expected: one of " + " ".join(options)]
        if word in seen:
            return at, [f"{word} stands twice; each option stands at most once"]
        seen.add(word)
        if options[word] is not None:
            at += 1
            if at == len(words):
                return at, [f"expected: after {word} {options[word]}"]
            value = words[at]
            if word in BOUNDS and not is_number(value, *BOUNDS[word]) or word == "--release-sequences" and value not in ("c11", "rmw"):
                return at, [f"expected: after {word} {options[word]}"]
        at += 1
    return len(words), ["expected: --entry @NAME, which names the function that the run begins with"]


def explain_bounded(call):
    """What a search that was bounded has used up, which its last line says."""
    runs = call.options.get("--runs", DEFAULT_RUNS)
    steps = call.options.get("--steps", DEFAULT_STEPS_OF_EACH)
    return ["bounded: there may be further outcomes; the last line says what was used up",
            f"  `runs` means that one is left after the {runs} that may be made; --runs N allows up to 100000000",
            f"  `steps` means that a run came to its budget of {steps} steps; --steps N allows up to 1000000"]
