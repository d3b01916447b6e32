"""What the tests of the tools for runs share."""
import importlib.machinery
import importlib.util
import os
import pathlib
import shlex
import stat
import subprocess
import sys
import tempfile

TOP = pathlib.Path(__file__).resolve().parents[2]
EXAMPLES = TOP / "examples"
ENTRY = TOP / "tools" / "main.py"
SECONDS = 300


def neighbour(name):
    """A script of scripts/, as a module."""
    loader = importlib.machinery.SourceFileLoader(name, str(TOP / "scripts" / name))
    module = importlib.util.module_from_spec(importlib.util.spec_from_loader(name, loader))
    loader.exec_module(module)
    return module


def tool(program, *words, commands="", folder=None):
    """Runs a tool, in a folder; returns its output, what it said on standard error, and its status."""
    done = subprocess.run([sys.executable, str(ENTRY), program, *map(str, words)], input=commands, capture_output=True, text=True, cwd=folder,
                          timeout=SECONDS, check=False)
    return done.stdout, done.stderr, done.returncode


def run(program, words):
    """The output and the status of the program."""
    done = subprocess.run([program, *map(str, words)], stdin=subprocess.DEVNULL, capture_output=True, text=True, timeout=SECONDS, check=False)
    return done.stdout, done.returncode


def words_of(name, folder=EXAMPLES):
    """The words of an example's run, with the paths of its files."""
    folder = folder / name
    return [str(folder / word) if (folder / word).is_file() else word for word in (folder / "words").read_text().split()]


def runs(folder=EXAMPLES):
    """The names of the examples that are runs."""
    return sorted(it.name for it in folder.iterdir() if (it / "words").is_file() and (it / "words").read_text().startswith("run "))


class Failures(list):
    """What did not hold."""

    def check(self, holds, text):
        """Keeps the text where something does not hold."""
        if not holds:
            self.append(text)


class Pretended:
    """A program that prints a text whatever it is asked, so that its own time is nearly none."""

    def __init__(self, text, status=0):
        self.room = tempfile.TemporaryDirectory(prefix="mu-tests-")
        folder = pathlib.Path(self.room.name)
        (folder / "output").write_text(text)
        self.program = folder / "program"
        self.program.write_text(f"#!/bin/sh\ncat {shlex.quote(str(folder / 'output'))}\nexit {status}\n")
        os.chmod(self.program, stat.S_IRWXU)

    def path(self, name):
        """A path for a file in its folder."""
        return pathlib.Path(self.room.name) / name


COUNTING = """.typedef @i64 = int<64>
.funcsig @none = () -> ()
.const @one <@i64> = 1
.global @count <@i64>
.funcdef @add VERSION %v <@none> {
%again():
  %n = ATOMICRMW ACQ_REL ADD <@i64> @count @one
  %m = LOAD RELAXED <@i64> @count
  BRANCH %again()
}
.funcdef @main VERSION %v <@none> {
%e():
  %s = COMMINST @uvm.new_stack <[@none]> (@add)
  %t = NEWTHREAD %s PASS_VALUES<> ()
  CALL <@none> @add ()
  RET ()
}
"""


def counting_log(turns):
    """A log of two threads that count in turn in a cell, and each read it after that: 4 events a turn."""
    lines = ["0 t0 stack s1", "1 t0 thread t1", "2 t1 enter s1"]
    for turn in range(turns):
        for thread in (0, 1):
            position = 2 * turn + thread + 1
            lines.append(f"{len(lines)} t{thread} update ACQ_REL #0+0 {position} {position}")
            lines.append(f"{len(lines)} t{thread} read RELAXED #0+0 {position} {position}")
    return "\n".join([*lines, f"budget {counting_steps(turns)}"]) + "\n"


def counting_steps(turns):
    """How many steps that run makes."""
    return 6 * turns + 3


def counting_schedule(turns):
    """A schedule of that run: after the CALL of thread 0 each thread updates and reads in each turn, and then both branch."""
    return "0 " + "0 0 1 1 0 1 " * turns


OLD_READS = """.typedef @i64 = int<64>
.funcsig @none = () -> ()
.const @one <@i64> = 1
.global @count <@i64>
.funcdef @reads VERSION %v <@none> {
%again():
  %n = LOAD RELAXED <@i64> @count
  (%m %is) = CMPXCHG RELAXED RELAXED <@i64> @count @one @one
  FENCE SEQ_CST
  BRANCH %again()
}
.funcdef @main VERSION %v <@none> {
%e():
  %s = COMMINST @uvm.new_stack <[@none]> (@reads)
  %t = NEWTHREAD %s PASS_VALUES<> ()
  BRANCH %again()
%again():
  STORE RELAXED <@i64> @count @one
  BRANCH %again()
}
"""


class OldReads:
    """A run whose thread 1 reads the initial value again and again, by loads and by comparisons, after thread 0 wrote many times: its log,
    its schedule and its steps. Each load has an option for each write, and one more."""

    def __init__(self, writes, turns):
        lines = ["0 t0 stack s1", "1 t0 thread t1", "2 t1 enter s1"]
        lines += [f"{number + 2} t0 write RELAXED #0+0 {number} 1" for number in range(1, writes + 1)]
        for _ in range(turns):
            lines += [f"{len(lines)} t1 read RELAXED #0+0 0 0", f"{len(lines) + 1} t1 read RELAXED #0+0 0 0",
                      f"{len(lines) + 2} t1 fence SEQ_CST"]
        self.steps = 3 + 2 * writes + 4 * turns
        self.log = "\n".join([*lines, f"budget {self.steps}"]) + "\n"
        self.schedule = "0 " + "0 0 " * writes + f"1 {writes} 1 1 1 1 " * turns
