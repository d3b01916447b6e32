"""`--seed N`: a run by a schedule of pseudo-random numbers, and the schedule that replays it.

The numbers are the same for the same N, on each machine. They are below 60, which is a multiple of 2, 3, 4, 5 and 6, so that each of so
many options is as likely as the others. As many are given to the run as make a difference.
"""
import contextlib
import random
import sys

from command import Call, answer
from failure import Failure
from session import Folder

BELOW = 60
FIRST_LENGTH = 256
# So many numbers fit into the file of a schedule.
MOST_NUMBERS = 340000


def numbers_of(seed, count):
    """The first numbers of a seed."""
    source = random.Random(seed)
    return [int(source.random() * BELOW) for _ in range(count)]


def text_of(numbers):
    """The text of a schedule."""
    return "\n".join(" ".join(map(str, numbers[at:at + 40])) for at in range(0, len(numbers), 40)) + "\n"


class Seeded:
    """The schedule of a seed for a run: the shortest beginning of the seed's numbers that was found to give the same output."""

    def __init__(self, program, call, seed, folder):
        if "--schedule" in call.options:
            raise Failure("--seed makes a schedule, so it does not go with --schedule")
        self.program, self.call, self.folder = program, call, folder
        self.path = folder.write("schedule", "")
        self.numbers = numbers_of(seed, FIRST_LENGTH)
        output = self.output_of(self.numbers)
        while len(self.numbers) < MOST_NUMBERS:
            longer = numbers_of(seed, min(2 * len(self.numbers), MOST_NUMBERS))
            more = self.output_of(longer)
            if more == output:
                break
            self.numbers, output = longer, more
        self.shorten(output)

    def output_of(self, numbers):
        """What the run prints by a schedule."""
        self.folder.write("schedule", text_of(numbers))
        return answer(self.program, self.call.words(schedule=self.path))

    def shorten(self, output):
        """Drops numbers at the end that make no difference; more of them than are found here may make none."""
        low, high = 0, len(self.numbers)
        while low < high:
            middle = (low + high) // 2
            if self.output_of(self.numbers[:middle]) == output:
                high = middle
            else:
                low = middle + 1
        self.numbers = self.numbers[:high]
        self.folder.write("schedule", text_of(self.numbers))


def seed_of(options):
    """The number after `--seed` among the options of a tool, or None."""
    if "--seed" not in options:
        return None
    at = options.index("--seed") + 1
    if at == len(options) or not options[at].isdigit():
        raise Failure("--seed takes a number")
    return int(options[at])


@contextlib.contextmanager
def seeded(program, options, words, tool):
    """The call of a run; where the options have a seed, with a schedule of its numbers, which is said on standard error."""
    call = Call.of_run(words, tool)
    seed = seed_of(options)
    if seed is None:
        yield call
        return
    folder = Folder()
    made = Seeded(program, call, seed, folder)
    print(f"// the schedule of --seed {seed}, with which --schedule replays this run", file=sys.stderr)
    sys.stderr.write(text_of(made.numbers))
    yield call.with_options(schedule=made.path)


def seed(program, options, words):
    """Runs by the schedule of a seed: prints what the program prints, and on standard error the schedule; returns the status."""
    with seeded(program, options, words, "--seed") as call:
        output, status = answer(program, call.words())
        sys.stdout.write(output)
        return status
