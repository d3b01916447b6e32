"""`--show`, `--results` and `--seed`."""
import itertools
import re
import tempfile

from tests.helpers import Failures, run, runs, tool, words_of

# What docs/LOG.md says of two runs: (example, number of the event, what its row must have).
SAID = [
    ("passes_a_message_between_threads", 7, ["read ACQUIRE @ready 1 1", "from 5", "sync 5", "LOAD ACQUIRE <@i1> @ready"]),
    ("passes_a_message_between_threads", 8, ["read NOT_ATOMIC @data 1 42", "from 4", "LOAD <@i64> @data"]),
    ("passes_a_message_between_threads", 3, ["from initial"]),
    ("stores_cross_between_threads", 5, ["read RELAXED @y 0 0", "from initial", "LOAD RELAXED <@i64> @y"]),
    ("waits_for_a_wake", 8, ["woken 7", "sync 7"]),
    ("waits_for_a_wake", 4, ["read RELAXED @ready 0 0", "@uvm.futex.wait"]),
]


def rows_of(output):
    """The rows of a shown run by the numbers of their events."""
    rows = {}
    for line in output.splitlines():
        found = re.match(r"[-.'|> ]*?\s(\d+)  ", line)
        if found:
            rows[int(found[1])] = line
    return rows


def results_by_hand(output):
    """The records and the ending of an output: the lines that do not begin with a number."""
    return "".join(f"{line}\n" for line in output.splitlines() if not line[:1].isdigit())


def main(program):
    """The failures."""
    failures = Failures()
    for name, number, wanted in SAID:
        output, _, _ = tool(program, "--show", *words_of(name))
        row = rows_of(output).get(number, "")
        for text in wanted:
            failures.check(text in row, f"--show {name}: event {number} lacks {text!r}: {row!r}")
    for name in runs():
        output, status = run(program, words_of(name))
        if output.startswith(("usage", "read fault")):
            continue
        shown, said, code = tool(program, "--show", *words_of(name))
        failures.check(code == status, f"--show {name}: status {code}, and of the program {status}: {said}")
        events = sum(line[:1].isdigit() for line in output.splitlines())
        failures.check(len(rows_of(shown)) == events, f"--show {name}: {len(rows_of(shown))} rows for {events} events")
        found, _, code = tool(program, "--results", *words_of(name))
        failures.check((found, code) == (results_by_hand(output), status), f"--results {name}: {found!r}")
    failures += race(program) + seeds(program) + all_outcomes(program)
    return failures


def race(program):
    """The race of the example stands beside its source line, and its arrow comes from event 4."""
    failures = Failures()
    output, _, status = tool(program, "--show", *words_of("races_on_a_cell"))
    last = next((line for line in output.splitlines() if "DataRace" in line), "")
    failures.check(status == 6, f"--show of a race: status {status}")
    failures.check("LOAD <@i64> @count" in last and re.match("'-+> ", last), f"--show of a race: {last!r}")
    failures.check(re.search(r"^\.-+ +4  write", output, re.M), f"--show of a race: no arrow at event 4: {output}")
    return failures


def seeds(program):
    """A seed's schedule replays its run; one seed gives one run; not all seeds give the same."""
    failures, outputs, words = Failures(), set(), words_of("stores_cross_between_threads")[:4]
    for seed in range(6):
        output, schedule, status = tool(program, "--seed", seed, *words)
        again = tool(program, "--seed", seed, *words)
        failures.check((output, schedule, status) == again, f"--seed {seed}: two calls differ")
        path = words_file(schedule)
        failures.check(run(program, [*words, "--schedule", path.name]) == (output, status), f"--seed {seed}: its schedule gives another run")
        outputs.add(output)
    failures.check(len(outputs) > 1, "--seed: six seeds give the same run")
    shown, _, _ = tool(program, "--seed", 1, "--show", *words)
    failures.check("line of the source" in shown, "--seed with --show shows nothing")
    _, said, status = tool(program, "--seed", 1, *words, "--schedule", path.name)
    failures.check(status == 1 and "does not go with" in said, f"--seed with a schedule: {status} {said}")
    return failures


def all_outcomes(program):
    """The 128 lists of seven numbers 0 and 1 give all four outcomes of store buffering, as docs/GUIDE.md says."""
    failures, found, words = Failures(), set(), words_of("stores_cross_between_threads")[:4]
    for numbers in itertools.product("01", repeat=7):
        schedule = words_file(" ".join(numbers))
        output, _ = run(program, [*words, "--schedule", schedule.name])
        found.add(tuple(sorted(line for line in output.splitlines() if line.startswith("returned"))))
    wanted = {(f"returned t0 {first}", f"returned t1 {second}") for first in "01" for second in "01"}
    failures.check(found == wanted, f"128 schedules give {sorted(found)}")
    return failures


def words_file(text):
    """A file with a text, which lives as long as the value."""
    file = tempfile.NamedTemporaryFile("w", suffix=".schedule")
    file.write(text)
    file.flush()
    return file
