"""The run as the tools go through it, against the program: the steps by copies with traps, the options of picks by changed schedules."""
import json
import pathlib
import random
import tempfile

from command import FILES, Call
from session import Session
from tests import random_programs
from tests.by_copies import Copy
from tests.helpers import EXAMPLES, TOP, Failures, neighbour, runs, words_of

# The statuses of runs that began.
ENDED = (0, 5, 6, 7, 8, 9, 10)
PROGRAMS, EXPLAINED = TOP / "tools/tests/programs", TOP / "tools/tests/explained"
# Runs of more steps have no copy: the file of its client would be too long.
MOST_STEPS_OF_A_COPY = 20000
# A case is left out where it makes more steps, or prints more.
MOST_STEPS_OF_A_CASE, MOST_BYTES_OF_A_CASE = 50000, 500000
RANDOM_RUNS = 40
PICKS_OF_A_RUN = 5


def compared_with_copy(session, name):
    """What differs between the run as the tools go through it and a copy with traps."""
    failures, machine = Failures(), session.machine
    failures.check(machine.lost is None, f"{name}: lost: {machine.lost}")
    if machine.lost is None and len(machine.made) <= MOST_STEPS_OF_A_COPY:
        found = Copy(session).compared()
        failures.check(found is None, f"{name}: {found}")
    return failures


def folders(program):
    """Examples, and programs that people wrote."""
    failures, count = Failures(), 0
    for folder in (EXAMPLES, PROGRAMS, EXPLAINED):
        for name in runs(folder):
            words = words_of(name, folder)
            session = Session(program, Call.of_words(words)) if "--entry" in words and pathlib.Path(words[1]).is_file() else None
            if session and not session.refused:
                failures += compared_with_copy(session, name)
                count += 1
    failures.check(count > 80, f"only {count} runs of folders were compared")
    return failures


def is_long(words, printed):
    """Whether a case is left out, by its budget and by what it prints."""
    budget = int(words[words.index("--steps") + 1]) if "--steps" in words else 0
    return len(printed) > MOST_BYTES_OF_A_CASE or budget > MOST_STEPS_OF_A_CASE or printed.endswith(b"budget 200000\n")


def cases(program):
    """The cases of cases/ that are runs."""
    module = neighbour("run_cases")
    parts = json.loads((TOP / "cases/parts.json").read_text(encoding="utf-8"))
    failures, count = Failures(), 0
    for name, line in module.cases_of(TOP / "cases"):
        case = json.loads(line)
        words = [word.decode("utf-8", "replace") for word in module.words_of(case, parts)]
        is_run = words[:1] == ["run"] and case["status"] in ENDED and not {"beginnings", "full"} & {*case}
        if not is_run or is_long(words, module.text(case["stdout"], parts)):
            continue
        with tempfile.TemporaryDirectory() as room:
            for file, text in case["files"].items():
                (pathlib.Path(room) / file).write_bytes(module.text(text, parts))
            call = Call.of_words(words)
            files = {name: f"{room}/{path}" for name, path in call.options.items() if name in FILES.values()}
            call = call._replace(bundle=f"{room}/{call.bundle}", options={**call.options, **files})
            lost = Session(program, call).machine.lost
            failures.check(lost is None, f"{name}: lost: {lost}")
        count += 1
    failures.check(count > 300, f"only {count} cases were gone through")
    return failures


def changed_schedules(program, session, source):
    """Some picks of a run, each with each of its options in place of the one that was taken: the program has to do what the option says.

    The number of options stands for option 0, so that the program has to print the same for both.
    """
    failures, machine = Failures(), session.machine
    numbers = [pick.taken for pick in machine.picks]
    for place in source.sample(range(len(numbers)), min(PICKS_OF_A_RUN, len(numbers))):
        pick, found = machine.picks[place], []
        for number in range(len(pick.options) + 1):
            with tempfile.NamedTemporaryFile("w") as file:
                file.write(" ".join(map(str, numbers[:place] + [number])) + "\n")
                file.flush()
                found.append(Session(program, session.call.with_options(schedule=file.name)))
                failures.check(found[-1].machine.lost is None, f"lost: {found[-1].machine.lost}")
        failures.check(found[0].output == found[-1].output, f"pick {place} has not {len(pick.options)} options")
        made = [option_made(other, pick) for other in found[:-1]]
        failures.check(made == [pick.options[number] for number in range(len(pick.options))], f"pick {place}: the program does {made}")
    return failures


def option_made(session, pick):
    """The option that a run took at a pick: of threads by its step, of a read by the program's own line."""
    step = session.machine.step(pick.step)
    if not pick.is_read:
        return step.thread
    line = session.log.lines[step.row]
    # An access that raced stands in the ending.
    event = getattr(line, "race", None) or line
    return ("succeeds", event.position - 1) if event.kind == "update" else (pick.options.what, event.position)


# Thread 1 goes past the end of an array in a loop that makes no line, while thread 0 goes on.
SILENT = """.typedef @i1 = int<1> .typedef @i64 = int<64> .typedef @row = array<@i64 3> .typedef @place = iref<@i64>
.funcsig @none = () -> () .const @one <@i64> = 1 .const @zero <@i64> = 0 .global @row3 <@row>
.funcdef @walks VERSION %v <@none> {
%e():
  %p = GETELEMIREF <@row @i64> @row3 @zero
  BRANCH %next(%p)
%next(<@place> %p):
  %q = SHIFTIREF <@i64 @i64> %p @one
  BRANCH %next(%q)
}
.funcdef @main VERSION %v <@none> {
%e():
  %s = COMMINST @uvm.new_stack <[@none]> (@walks)
  %t = NEWTHREAD %s PASS_VALUES<> ()
  BRANCH %loop()
%loop():
  BRANCH %loop()
}
"""


def silent_end(program):
    """A run that ends at an instruction which was done before without a line."""
    with tempfile.TemporaryDirectory() as room:
        (pathlib.Path(room) / "bundle").write_text(SILENT)
        (pathlib.Path(room) / "schedule").write_text("1 0 1 1 " * 20)
        call = Call("run", f"{room}/bundle", {"--entry": "@main", "--schedule": f"{room}/schedule"})
        session = Session(program, call)
        failures = compared_with_copy(session, "a silent end")
        failures.check("OutOfRange" in session.output, f"a silent end: {session.output}")
        return failures


def random_runs(program):
    """Random programs, by both rules of release sequences."""
    failures, source, reads = Failures(), random.Random(58), 0
    with tempfile.TemporaryDirectory() as room:
        bundle, schedule = pathlib.Path(room) / "bundle.mu", pathlib.Path(room) / "schedule"
        for count in range(RANDOM_RUNS):
            bundle.write_text(random_programs.program(source))
            schedule.write_text(" ".join(map(str, random_programs.schedule(source))) + "\n")
            words = ["run", str(bundle), "--entry", "@main", "--schedule", str(schedule), "--release-sequences", ("c11", "rmw")[count % 2]]
            session = Session(program, Call.of_words(words))
            found = compared_with_copy(session, f"random program {count}") + changed_schedules(program, session, source)
            failures += [f"{text}\n{bundle.read_text()}\n{schedule.read_text()}" for text in found]
            reads += sum(pick.is_read for pick in session.machine.picks)
    failures.check(reads > RANDOM_RUNS // 2, f"only {reads} reads of random programs had a choice")
    return failures


def main(program):
    """The failures."""
    return folders(program) + silent_end(program) + cases(program) + random_runs(program)
