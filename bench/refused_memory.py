#!/usr/bin/env python3
"""Refuses requests for memory of every command, and checks how the program ends and what it leaves.

    bench/refused_memory.py PROGRAM [--only WORD..] [--first N] [--more N]

Each call of `hostile/commands.py` is run once as it is. Then each number of a request for memory is tried twice, in a run of its own:
that request alone is refused, and that one with all later ones. Of a call with more than N requests (`--first`, 1,000) these are all up
to N, and `--more` (1,000) evenly spaced ones of the rest. Checked is of each run:

- it ends with the status 6 and the one line `covered: memory`; or it can do without, and ends with the status and the line of the
  run without a refusal; or the words of the command line were not read yet, and it ends with 5 or 6 and no line;
- the output has its old bytes, or a front of the text that the run without a refusal writes; all of it where it ends as that run;
- no other file is changed, made or removed;
- what is printed is a front of what the run without a refusal prints, and all of it where it ends as that run.

One line for each call is printed: its requests, the runs, how they ended, in how many the output had a front that is not the whole
text, and the faults. The status is 1 where there was a fault. It needs cc.
"""
import argparse
import collections
import os
import subprocess
import sys
import tempfile

from hostile.commands import BEFORE, CALLS, OUTPUT, files, named
from hostile.examples import tree

HERE = os.path.dirname(os.path.abspath(__file__))
OLD = b"old bytes of the output\n"
BESIDE = {"beside": b"a file that no word names\n"}
LINE = b"covered: memory\n"
HEAD = ("Call", "Ends with", "Requests", "Runs", "6", "as without", "no line, 6", "no line, 5", "Fronts", "Faults")


class Ended:
    """How a run ended: its status, or the negated signal, its two outputs, and the files after it."""

    def __init__(self, done, after):
        self.status, self.out, self.err, self.after = done.returncode, done.stdout, done.stderr, after

    def shown(self):
        """The status and the line."""
        return f"status {self.status}, {self.err[:80]!r}"


class Machine:
    """A folder in which a program runs with a count of its requests for memory."""

    def __init__(self, program, base):
        self.program, self.base = program, base
        self.folder, self.library, self.count = (os.path.join(base, name) for name in ("work", "refused_memory.so", "requests"))
        source = os.path.join(HERE, "refused_memory.c")
        subprocess.run(["cc", "-O1", "-shared", "-fPIC", "-o", self.library, source], check=True)
        os.mkdir(self.folder)
        self.before = {}

    def lay(self, before):
        """Makes the folder hold these files."""
        now = tree(self.folder)
        for name in set(now) - set(before):
            os.remove(os.path.join(self.folder, name))
        for name, text in before.items():
            if now.get(name) != text:
                path = os.path.join(self.folder, name)
                os.makedirs(os.path.dirname(path), exist_ok=True)
                with open(path, "wb") as it:
                    it.write(text)
        self.before = before

    def run(self, words, **environment):
        """A run, after which the folder is again as before."""
        done = subprocess.run([self.program, *words], cwd=self.folder, stdin=subprocess.DEVNULL, capture_output=True,
                              env={"LD_PRELOAD": self.library, **environment}, timeout=600)
        ended = Ended(done, tree(self.folder))
        self.lay(self.before)
        return ended

    def requests(self, words):
        """A run in which nothing is refused, and its requests for memory."""
        ended = self.run(words, COUNT_TO=self.count)
        with open(self.count, encoding="ascii") as it:
            return ended, int(it.read())


class Call:
    """A call of the program: the run without a refusal, and the last request that may come before its words are read."""

    def __init__(self, machine, words, found):
        self.machine, self.words = machine, words
        self.output = words[words.index("-o") + 1] if "-o" in words else None
        old = {OUTPUT: OLD} if self.output == OUTPUT else {}
        machine.lay(named(words, found) | old | BESIDE)
        self.good, self.count = machine.requests(words)
        # a word that is no command is refused as soon as all words are read
        self.reading = machine.requests(["x" * len(words[0]), *words[1:]])[1]

    def end_of(self, number, run):
        """How a run ended in which the request with this number was refused, or nothing if it may not end so."""
        if (run.status, run.err) == (self.good.status, self.good.err):
            return "as without"
        if run.status == 6 and run.err == LINE:
            return "6"
        if run.status in (5, 6) and not run.err and number <= self.reading:
            return f"no line, {run.status}"
        return None

    def may_hold(self, end, name, text):
        """Whether a file may hold a text, or be absent, after a run that ended so."""
        old, good = self.machine.before.get(name), self.good.after.get(name)
        if end == "as without":
            return text == good
        if text == old:
            return True
        return end == "6" and self.good.status == 0 and name == self.output and text is not None and good.startswith(text)

    def faults(self, end, run):
        """What is wrong with a run."""
        if end is None:
            yield run.shown()
        if run.out != self.good.out if end == "as without" else not self.good.out.startswith(run.out):
            yield "what is printed is no front of what it should be"
        for name in sorted(set(self.machine.before) | set(run.after)):
            if not self.may_hold(end, name, run.after.get(name)):
                yield f"{name} is neither as before nor a front of what it should be"

    def is_front(self, run):
        """Whether a run left a front of the text in its output, and not all of it."""
        return run.after.get(self.output) not in (self.machine.before.get(self.output), self.good.after.get(self.output))


def numbers(count, first, more):
    """The numbers of the requests to refuse."""
    rest = max(count - first, 0)
    spaced = rest if rest <= more else more
    return [*range(1, min(count, first) + 1), *(first + (it + 1) * rest // spaced for it in range(spaced))]


def row(name, call, options):
    """The cells of a call, and its faults."""
    ends, fronts = collections.Counter(), 0
    found = [] if call.count else [f"{name}: no request was counted"]
    tried = numbers(call.count, options.first, options.more)
    for number in tried:
        for more in ({}, {"LASTING": "1"}):
            run = call.machine.run(call.words, REFUSE=str(number), **more)
            end = call.end_of(number, run)
            ends[end] += 1
            fronts += call.is_front(run)
            found += [f"{name}: request {number}{' and later ones' if more else ''}: {it}" for it in call.faults(end, run)]
    which = "" if len(tried) == call.count else f", {options.first} and {len(tried) - options.first} of the rest"
    cells = [name, call.good.status, f"{call.count}{which}", 2 * len(tried), *(ends[it] for it in HEAD[4:8]), fronts, len(found)]
    return cells, found


def prepared(machine, found):
    """The files, and the databases that are made of them."""
    machine.lay(found)
    for words in BEFORE:
        done = machine.run(words)
        if done.status != 0:
            sys.exit(f"{' '.join(words)}: {done.shown()}")
        machine.lay(done.after)
    return machine.before


def main():
    parser = argparse.ArgumentParser(description=__doc__, formatter_class=argparse.RawDescriptionHelpFormatter)
    parser.add_argument("program", type=os.path.abspath)
    parser.add_argument("--only", default=[""], nargs="+", metavar="WORD", help="the calls whose name has one of these words")
    parser.add_argument("--first", type=int, default=1000)
    parser.add_argument("--more", type=int, default=1000)
    options = parser.parse_args()
    bad = 0
    with tempfile.TemporaryDirectory(dir="/dev/shm" if os.path.isdir("/dev/shm") else None) as base:
        machine = Machine(options.program, base)
        found = prepared(machine, files(os.path.join(HERE, "..")))
        print(f"| {' | '.join(HEAD)} |\n|{'---|' * len(HEAD)}")
        for name, words in CALLS.items():
            if any(word in name for word in options.only):
                cells, faults = row(name, Call(machine, words, found), options)
                print(f"| {' | '.join(map(str, cells))} |", flush=True)
                print(*faults[:10], sep="\n", file=sys.stderr, flush=True) if faults else None
                bad += len(faults)
    return 1 if bad else 0


if __name__ == "__main__":
    sys.exit(main())
