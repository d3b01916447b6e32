"""How much processor time a tool takes beside the program for a log of 10,000 events: the program is one that prints a log made before.

It is the time of a processor, the best of some calls, beside the time in which Python starts. A processor that is slow just now, since it
does much else, may take longer: by as much as a loop then takes longer than on one that makes 5 million short texts in a second.
"""
import resource
import subprocess
import sys
import time

from tests.helpers import COUNTING, OLD_READS, Failures, OldReads, Pretended, counting_log, counting_schedule, counting_steps, tool

MOST_SECONDS = 0.3
# The status of a run that made as many steps as it may.
BUDGET = 10
CALLS = 5
LOOP = 200000
SECONDS_OF_LOOP = 0.04


def processor_time():
    """The processor time that ended children took so far."""
    used = resource.getrusage(resource.RUSAGE_CHILDREN)
    return used.ru_utime + used.ru_stime


def best_time(call):
    """The least processor time of some calls."""
    taken = []
    for _ in range(CALLS):
        begun = processor_time()
        call()
        taken.append(processor_time() - begun)
    return min(taken)


def slowness():
    """How many times longer a loop takes than it should; 1 where it takes less."""
    taken = []
    for _ in range(CALLS):
        begun = time.process_time()
        [f"{number} t0 write {number}" for number in range(LOOP)]
        taken.append(time.process_time() - begun)
    return max(1, min(taken) / SECONDS_OF_LOOP)


def check(failures, pretended, run_words, words, start, what):
    """One tool for one log: prints its time, and says where that is too long."""
    call = lambda: tool(str(pretended.program), *words, "run", *run_words, commands="run\nback 3\n")
    slow = slowness()
    seconds = best_time(call) - start
    slow = max(slow, slowness())
    name = " ".join([words[0], *(str(word).rsplit(".", 1)[1] for word in words[1:])])
    print(f"  {name}: {seconds:.2f} s for {what}, on a processor that takes {slow:.1f} times as long as it should")
    failures.check(seconds <= MOST_SECONDS * slow, f"{name} takes {seconds:.2f} s for {what}, more than {MOST_SECONDS * slow:.2f}")


def prepared(log, bundle, schedule, steps):
    """A program that prints a log, and the words of the run that printed it."""
    pretended = Pretended(log, BUDGET)
    pretended.path("bundle.mu").write_text(bundle)
    pretended.path("schedule").write_text(schedule)
    return pretended, [pretended.path("bundle.mu"), "--entry", "@main", "--schedule", pretended.path("schedule"), "--steps", steps]


def main(_program):
    """The failures; the times are printed."""
    failures = Failures()
    start = best_time(lambda: subprocess.run([sys.executable, "-c", "pass"], check=True))
    print(f"  Python starts in {start:.2f} s")
    pretended, words = prepared(counting_log(2500), COUNTING, counting_schedule(2500), counting_steps(2500))
    pictures = [["--picture", pretended.path(f"p.{kind}")] for kind in ("svg", "dot", "html")]
    for tool_words in (["--explain"], ["--results"], ["--picks"], ["--step"], ["--show"], *pictures):
        check(failures, pretended, words, tool_words, start, "10,003 events")
    old = OldReads(2500, 2500)
    pretended, words = prepared(old.log, OLD_READS, old.schedule, old.steps)
    for tool_words in (["--picks"], ["--step"], ["--picture", pretended.path("p.html")]):
        check(failures, pretended, words, tool_words, start, "10,003 events with 2,501 options of a load")
    return failures
