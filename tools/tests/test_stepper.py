"""`--step` by lists of commands, and `--picks`."""
import pathlib
import re
import tempfile

from tests.helpers import EXAMPLES, Failures, run, tool, words_of

WORDS = words_of("stores_cross_between_threads")[:4]


def lines_of(output):
    """What the last command `lines` printed."""
    return output.rsplit("mu> lines\n", 1)[1].split("mu> ", 1)[0]


def cross(program):
    """Store buffering, chosen by hand: each thread reads the old value; the schedule that is written replays it."""
    failures = Failures()
    with tempfile.TemporaryDirectory() as room:
        schedule = pathlib.Path(room) / "schedule"
        commands = ["step", "step", "step t0", "step t1", "threads", "step t0 1", "step t1 1", "run", "lines", f"write {schedule}", "quit"]
        output, said, status = tool(program, "--step", *WORDS, commands="\n".join(commands) + "\n")
        failures.check(status == 0 and not said, f"--step: {status} {said}")
        # As docs/LOG.md shows this run.
        expected = (EXAMPLES / "stores_cross_between_threads/expected").read_text()
        failures.check(lines_of(output).replace("@x", "#0+0").replace("@y", "#1+0") == expected, f"--step: lines {lines_of(output)}")
        threads = output.split("mu> threads\n")[1].split("mu> ")[0]
        failures.check(threads.count("[0: read 1 (position 1), 1: read 0 (position 0)]") == 2, f"--step: options {threads}")
        failures.check("%s = s1  %t = t1" in threads and "@x = 1 (position 1)" in threads, f"--step: values {threads}")
        failures.check(run(program, [*WORDS, "--schedule", schedule]) == (expected, 0), "--step: the schedule written gives another run")
    return failures


def back_and_lines(program):
    """Back takes steps back, and `run` stops at a line; wrong commands are answered."""
    failures = Failures()
    output, _, _ = tool(program, "--step", *WORDS, commands="run 18\nlines\nback 2\nlines\nstep t7\nnothing\n")
    parts = output.split("mu> ")
    failures.check(len(parts[2].splitlines()) == 1 + 4, f"--step: run 18 made {parts[2]}")
    failures.check(len(parts[4].splitlines()) == 1 + 1, f"--step: back 2 left {parts[4]}")
    failures.check("cannot make a step" in parts[5], f"--step: of a thread that does not exist: {parts[5]}")
    failures.check("make a step" in parts[6], f"--step: no help: {parts[6]}")
    return failures


def examples(program):
    """A run to the end makes the lines of the program's own run: with waits, stacks, traps, watchpoints, a race, a lock."""
    failures = Failures()
    for name in ("waits_for_a_wake", "swaps_with_a_generator", "schedules_stacks_by_its_client", "switches_a_watchpoint_on",
                 "answers_traps_by_zero", "races_on_a_cell", "catches_an_exception", "stops_at_a_trap", "stops_at_its_budget",
                 "reads_what_a_script_made"):
        output, said, status = tool(program, "--step", *words_of(name), commands="run\nlines\n")
        names = dict(re.findall(r"^\.global (@\S+)()", "\n".join((EXAMPLES / name / "bundle.mu").read_text().splitlines()), re.M))
        lines = lines_of(output)
        for number, cell in enumerate(names):
            lines = lines.replace(f"{cell} ", f"#{number}+0 ")
        failures.check(status == 0 and lines == run(program, words_of(name))[0], f"--step {name}: {said} {lines}")
    return failures


WAITS = """.typedef @i32 = int<32>
.typedef @i64 = int<64>
.typedef @i1 = int<1>
.funcsig @small = () -> (@i32)
.const @zero <@i64> = 0
.const @one <@i64> = 1
.const @count <@i32> = 1
.const @limit <@i64> = 10
.global @cell <@i64>
.funcdef @other VERSION %v <@small> {
%e():
  STORE RELAXED <@i64> @cell @one
  %w = COMMINST @uvm.futex.wake <@i64> (@cell @count)
  (%was %ok) = CMPXCHG WEAK SEQ_CST RELAXED <@i64> @cell @one @limit
  RET (%w)
}
.funcdef @main VERSION %v <@small> {
%e():
  %s = COMMINST @uvm.new_stack <[@small]> (@other)
  %t = NEWTHREAD %s PASS_VALUES<> ()
  %a = COMMINST @uvm.futex.wait_timeout <@i64> (@cell @zero @limit)
  %b = COMMINST @uvm.futex.wait_timeout <@i64> (@cell @zero @limit)
  RET (%b)
}
"""
# Each wait of thread 0 finds its value and is over by its time, which gives -3; nobody waits when thread 1 wakes; its comparison fails
# although the value is the expected one.
WAITED = """0 t0 stack s1
1 t0 thread t1
2 t1 enter s1
3 t0 read RELAXED @cell 0 0
timed out t0 @cell
4 t0 read RELAXED @cell 0 0
5 t1 write RELAXED @cell 1 1
timed out t0 @cell
6 t1 wake @cell 0
7 t1 read RELAXED @cell 1 1
returned t0 4294967293
returned t1 0
done
"""


def waits(program):
    """Waits whose time is over, and a weak comparison that fails: chosen, replayed, and seen by `--picks` and `--show`."""
    failures = Failures()
    with tempfile.TemporaryDirectory() as room:
        bundle, schedule = pathlib.Path(room) / "bundle.mu", pathlib.Path(room) / "schedule"
        bundle.write_text(WAITS)
        words = ["run", bundle, "--entry", "@main"]
        commands = ["step", "step", "step", "step t0", "step t0", "step t1", "step", "step t1", "step t1 1", "run", "lines", f"write {schedule}"]
        output, said, status = tool(program, "--step", *words, commands="\n".join(commands) + "\n")
        failures.check(status == 0 and lines_of(output) == WAITED, f"--step of waits: {said} {lines_of(output)}")
        failures.check("waits at @cell and may time out" in output and "0: succeeds 1, 1: fails 1" in output, f"--step of waits: {output}")
        printed, _ = run(program, [*words, "--schedule", schedule])
        failures.check(printed.replace("#0+0", "@cell") == WAITED, f"--step of waits: the schedule gives {printed}")
        output, said, _ = tool(program, "--picks", *words, "--schedule", schedule)
        failures.check("9 numbers: 9 were used, 0 are left" in output, f"--picks of waits: {output} {said}")
        output, _, _ = tool(program, "--show", *words, "--schedule", schedule)
        timed = [line for line in output.splitlines() if "timed out" in line]
        failures.check(["futex.wait_timeout" in line for line in timed] == [True, True], f"--show of waits: {output}")
    return failures


def picks(program):
    """The picks of the example are those that the comments of its schedule say; numbers more are left."""
    failures = Failures()
    words = words_of("stores_cross_between_threads")
    output, said, _ = tool(program, "--picks", *words)
    rows = [line.split() for line in output.splitlines() if line[:1].isdigit()][:-1]
    found = [(row[0], row[1], row[2]) for row in rows]
    # Steps 1 and 2 make the stack and the thread; then t0 writes, t1 writes, t0 reads 0, t1 reads 0, t0 returns.
    wanted = [("3", "0", "t0"), ("4", "1", "t1"), ("5", "0", "t0"), ("5", "1", "0"), ("6", "1", "t1"), ("6", "1", "0"), ("7", "0", "t0")]
    failures.check(found == wanted, f"--picks: {found} {said}")
    failures.check(output.endswith("7 picks. The schedule has 7 numbers: 7 were used, 0 are left.\n"), f"--picks: {output}")
    with tempfile.NamedTemporaryFile("w") as file:
        file.write((EXAMPLES / "stores_cross_between_threads/schedule").read_text() + "\n5 5 5\n")
        file.flush()
        output, _, _ = tool(program, "--picks", *words[:4], "--schedule", file.name)
        failures.check("has 10 numbers: 7 were used, 3 are left" in output, f"--picks with three numbers more: {output}")
    for name in ("locks_by_compare_exchange", "waits_for_a_wake", "passes_a_message_between_threads"):
        failures += unused(program, words_of(name))
    return failures


def unused(program, words):
    """As many numbers as are used, and no fewer that end with another than 0, give the run."""
    failures = Failures()
    text, wanted = pathlib.Path(words[5]).read_text(), run(program, words)
    numbers = re.sub("//[^\n]*", "", text).split()
    output, said, _ = tool(program, "--picks", *words)
    count = re.search(r"numbers: (\d+) were used", output)
    failures.check(count is not None, f"--picks {words[1]}: {output} {said}")
    if count:
        with tempfile.NamedTemporaryFile("w") as file:
            file.write(" ".join(numbers[:int(count[1])]) + " 1 1 1\n" if int(count[1]) < len(numbers) else " ".join(numbers))
            file.flush()
            failures.check(run(program, [*words[:5], file.name]) == wanted, f"--picks {words[1]}: numbers past the used ones matter")
    return failures


def main(program):
    """The failures."""
    return cross(program) + back_and_lines(program) + waits(program) + examples(program) + picks(program)
