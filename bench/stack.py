#!/usr/bin/env python3
"""Measures the least stack with which designs and dumps that nest as deep as the limits allow are scored, merged and reported.

    bench/stack.py PROGRAM [--only WORD..] [--long] [--allowed KB]

Each shape of `hostile/nested.py` nests one kind of part in itself: statements, expressions and constants in the last of 64 instances
in one another, macros, included files, instances, scopes of a dump, and all of them together. The deepest that is accepted is searched
for; one level more must be refused for its depth. The deepest is scored with a dump, and what that wrote is merged with itself,
reported, ranked, made a tracefile of, and a point of it is excluded and restored. Each is run under a limit of the stack (`ulimit -s`) of
8,192 kB and then of half of the size before, as long as it ends and writes as under the first; between the last two sizes the least is
searched for in steps of 4 kB. With `--long` the shapes are those ideas of `doubling.py` that have one level and very many parts: the
stack must not grow with these.

Printed are of each shape the deepest, and the least sizes for the score and for the other commands, in kB. The status is 1 where one of
them is above `--allowed` (4,096), or where a level more is not refused for its depth, with that size as with the first.
"""
import argparse
import os
import resource
import subprocess
import sys
import tempfile

from hostile.design_ideas import IDEAS as DESIGN_IDEAS
from hostile.examples import POINT, tree
from hostile.ideas import call
from hostile.nested import shapes
from hostile.text_ideas import IDEAS as TEXT_IDEAS

WHOLE, LEAST, STEP = 8192, 32, 4
LONG = {"conditions-nest": 100000, "elsif-list": 100000, "defines-and-uses": 10000, "empty-statements": 100000, "parameters-chain": 5000,
        "list-of-modules": 10000, "list-of-instances": 10000, "ports-by-position": 5000, "list-of-nets": 10000,
        "assigns-that-chain-backwards": 10000, "blocks-that-chain-backwards": 10000, "assigns-in-a-ring": 10000,
        "one-block-reads-many": 10000, "one-block-writes-many": 10000, "one-list-of-many-edges": 5000, "list-of-labels": 10000,
        "list-of-arms": 10000, "registers-of-one-clock": 10000, "ripple-of-clocks": 1000, "registers-that-chain-by-blocking": 1000,
        "undecided-ifs-in-a-row": 10000, "variables-of-a-dump": 100000, "scopes-in-a-row": 100000, "report-of-points": 100000,
        "report-of-instances": 10000, "tracefile-of-points-of-a-line": 10000, "merge-of-files": 500}
OTHERS = (["merge", "-o", "O", "B", "C"], ["report", "-d", "v", "-m", "ltcfm", "B"], ["report", "-i", "-d", "d", "-o", "O", "B"],
          ["rank", "B", "C"], ["lcov", "-o", "O", "B"])


class Machine:
    """A folder in which a program runs under a limit of the stack."""

    def __init__(self, program, folder):
        self.program, self.folder = program, folder

    def lay(self, files):
        """Makes the folder hold these files alone."""
        for name in tree(self.folder):
            os.remove(os.path.join(self.folder, name))
        for name, text in files.items():
            with open(os.path.join(self.folder, name), "w", encoding="latin-1") as it:
                it.write(text)

    def run(self, words, size, files=None):
        """How a run with so many kB of stack ends: its status and outputs, and the file that it writes."""
        if files is not None:
            self.lay(files)
        limit = (size << 10, size << 10)
        try:
            done = subprocess.run([self.program, *words], cwd=self.folder, stdin=subprocess.DEVNULL, capture_output=True, env={},
                                  preexec_fn=lambda: resource.setrlimit(resource.RLIMIT_STACK, limit), timeout=300)
        except OSError:
            return None
        name = os.path.join(self.folder, words[words.index("-o") + 1]) if "-o" in words else None
        written = None
        if name and os.path.isfile(name):
            with open(name, "rb") as it:
                written = it.read()
        return done.returncode, done.stdout, done.stderr, written

    def least(self, words, step):
        """The least size in kB with which a call ends as with the whole stack, and how it ends."""
        good, size = self.run(words, WHOLE), WHOLE
        if good[0] < 0:
            return None, good
        while size > LEAST and self.run(words, size // 2) == good:
            size //= 2
        low = size // 2
        while size - low > step and size > LEAST:
            middle = (low + size) // 2
            low, size = (low, middle) if self.run(words, middle) == good else (middle, size)
        # a run that did not end may have left another output
        self.run(words, WHOLE)
        return size, good


def deepest(machine, shape):
    """The greatest depth that is accepted, and how one level more and the least depth end."""
    def ends(depth):
        files, words = shape.make(depth)
        return machine.run(words, WHOLE, files)

    low, high = 1, shape.most
    first, last = ends(low), ends(high)
    while high - low > 1:
        middle = (low + high) // 2
        end = ends(middle)
        low, high, last = (middle, high, last) if end[0] == 0 else (low, middle, end)
    return low, last, first


def one_point(text):
    """The address of the first point of a database."""
    found = POINT.search(text)
    return found[1].decode() if found else ""


def after(machine, written, step):
    """The least size for all calls over a database that was written."""
    text = written.decode()
    machine.lay({"B": text, "C": text})
    calls = [*OTHERS, ["exclude", "-o", "E", "-point", one_point(written), "B"], ["restore", "-o", "O", "-point", one_point(written), "E"]]
    sizes = []
    for words in calls:
        size, end = machine.least(words, step)
        if end[0] != 0:
            return None, f"{words[0]} ends with {end[0]}: {end[2][:80]!r}"
        sizes.append(size)
    return max(sizes), None


def measured(machine, shape, allowed):
    """The cells of a shape, its least sizes, and its faults."""
    faults = []
    depth, more, first = deepest(machine, shape)
    if first[0] != 0:
        return [0, "-", "-"], [], [f"depth 1 ends with {first[0]}: {first[2][:120]!r}"]
    if more[0] not in (2, 3) or f" {shape.refusal}".encode() not in more[2]:
        faults.append(f"depth {depth + 1} ends with {more[0]}: {more[2][:120]!r}")
    files, words = shape.make(depth)
    machine.lay(files)
    size, end = machine.least(words, STEP)
    if size is None:
        return [depth, size, "-"], [size], [*faults, f"depth {depth} ends with {end[0]}"]
    files, words = shape.make(depth + 1)
    if machine.run(words, allowed, files)[:3] != more[:3]:
        faults.append(f"depth {depth + 1} does not end with {allowed} kB as with {WHOLE}")
    other, fault = after(machine, end[3], STEP)
    return [depth, size, other], [size, other], faults + [fault] * (fault is not None)


def measured_long(machine, name):
    """The cells of an idea with very many parts, its least size, and its faults."""
    files, words = call((TEXT_IDEAS | DESIGN_IDEAS)[name][0](LONG[name]))
    machine.lay(files)
    size, end = machine.least(words, WHOLE)
    cells = [LONG[name], size, "-"]
    return cells, [size], [f"ends with {end[0]}: {end[2][:120]!r}"] * (size is None)


def rows(options, machine):
    """Of each shape its name, cells, sizes and faults."""
    if options.long:
        for name in LONG:
            if any(word in name for word in options.only):
                yield name, *measured_long(machine, name)
        return
    for name, shape in shapes().items():
        if any(word in name for word in options.only):
            yield name, *measured(machine, shape, options.allowed)


def main():
    parser = argparse.ArgumentParser(description=__doc__, formatter_class=argparse.RawDescriptionHelpFormatter)
    parser.add_argument("program", type=os.path.abspath)
    parser.add_argument("--only", default=[""], nargs="+", metavar="WORD", help="the shapes whose name has one of these words")
    parser.add_argument("--long", action="store_true", help="very many parts on one level")
    parser.add_argument("--allowed", type=int, default=4096, metavar="KB")
    options = parser.parse_args()
    resource.setrlimit(resource.RLIMIT_CORE, (0, 0))
    bad, most = 0, 0
    with tempfile.TemporaryDirectory(dir="/dev/shm" if os.path.isdir("/dev/shm") else None) as folder:
        print(f"| Shape | {'Parts' if options.long else 'Deepest'} | Score, kB | Other commands, kB |\n|---|---|---|---|")
        for name, cells, sizes, faults in rows(options, Machine(options.program, folder)):
            print(f"| {name} | {' | '.join(map(str, cells))} |", flush=True)
            faults += [f"more than {options.allowed} kB"] * any(it is None or it > options.allowed for it in sizes)
            print(*(f"fault: {name}: {it}" for it in faults), sep="\n", flush=True) if faults else None
            bad, most = bad + len(faults), max([most, *(it or 0 for it in sizes)])
    print(f"the most is {most} kB; {bad} faults")
    return 1 if bad else 0


if __name__ == "__main__":
    sys.exit(main())
