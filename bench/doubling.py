#!/usr/bin/env python3
"""Measures small inputs that might cost more than near their size.

    bench/doubling.py PROGRAM [--only WORD..] [--seconds N] [--scale S] [--faster R] [--jobs J] [--test]

Each idea of `hostile/text_ideas.py` and `hostile/design_ideas.py` makes an input of several sizes: macros that double and yield no
token, nested parts of each kind, long lists of each kind, texts without an end, chains of processes, open branches, and the like.
Printed are the processor seconds of each size above those of the least input of that command, the bytes of the input, and the power by which the
seconds grow from the last size but one to the last, over the size and over the bytes. An idea ends with the size that takes more than N
seconds. With `--faster R` the ideas alone are printed whose power over the bytes is above R. `--only` takes the ideas whose
name has one of the words. `--test` prints the ideas alone that took more than N seconds or did not end with a status that is documented,
then how many passed and failed, and ends with status 1 if one failed.
"""
import argparse
import math
import multiprocessing
import os
import shutil
import sys
import tempfile

from hostile.checks import LINES
from hostile.child import run
from hostile.design_ideas import IDEAS as DESIGN_IDEAS
from hostile.ideas import call
from hostile.text_ideas import IDEAS as TEXT_IDEAS

IDEAS = TEXT_IDEAS | DESIGN_IDEAS
LEAST = 0.02
MEASURE = []


def lay(folder, files):
    """Makes a folder with files, goes there, and gives their bytes."""
    os.chdir("/")
    shutil.rmtree(folder, ignore_errors=True)
    os.makedirs(folder)
    os.chdir(folder)
    for name, text in files.items():
        with open(name, "w", encoding="latin-1") as it:
            it.write(text)
    return sum(map(len, files.values()))


class Measure:
    """Runs of one program in a folder for temporary files."""

    def __init__(self, program, base, seconds, scale):
        self.program, self.base, self.seconds, self.scale = program, base, seconds, scale
        self.least = {}

    def spent(self, files, words):
        """A run, its processor seconds, and the bytes of its input."""
        size = lay(os.path.join(self.base, "work"), files) + sum(map(len, words))
        done = run(self.program, words, self.base, seconds=2 * self.seconds, megabytes=8000)
        return done, done.seconds, size

    def start(self, command):
        """What the least input of a command takes."""
        if command not in self.least:
            name = "open-comment" if command == "score" else "report-of-points"
            files, words = call(IDEAS[name][0](1))
            self.least[command] = min(self.spent(files, [command, *words[1:]])[1] for _ in range(3))
        return self.least[command]

    def rows(self, function, sizes):
        """For each size the seconds, the bytes, the memory and the end of the run."""
        for size in dict.fromkeys(max(1, round(it * self.scale)) for it in sizes):
            files, words = call(function(size))
            done, seconds, length = self.spent(files, words)
            yield size, max(seconds - self.start(words[0]), 0), length, done
            if seconds > self.seconds:
                break


def power(old, new):
    """The power by which the seconds grow over sizes, from one pair to another."""
    if old[0] < LEAST or new[0] < LEAST or new[1] <= old[1]:
        return None
    return math.log(new[0] / old[0]) / math.log(new[1] / old[1])


def shown(value):
    """A power in two digits, or a dash."""
    return "-" if value is None else f"{value:.1f}"


def line_of(name, rows):
    """One line of an idea, and its power over the bytes."""
    sizes = ", ".join(f"{size}: {seconds:.2f} s" for size, seconds, _, _ in rows)
    over_size = over_bytes = None
    if len(rows) > 1:
        old, new = rows[-2], rows[-1]
        over_size = power((old[1], old[0]), (new[1], new[0]))
        over_bytes = power((old[1], old[2]), (new[1], new[2]))
    last = rows[-1]
    end = last[3].shown().split(",", maxsplit=1)[0] + (f", stopped for its {last[3].stopped}" if last[3].stopped else "")
    message = last[3].err[:60].decode(errors="replace").strip().replace("\n", " ")
    cells = [name, sizes, shown(over_size), shown(over_bytes), f"{last[2]} bytes", f"{last[3].kilobytes} kB", f"{end} {message}"]
    return f"| {' | '.join(cells)} |", over_bytes


def is_right(done, seconds):
    """Whether a run ended by itself in that time, with a documented status and its line, and not for want of memory or a file."""
    if done.signal or done.seconds > seconds or done.status in (5, 6):
        return False
    return done.err == b"" if done.status == 0 else bool(LINES[done.status].match(done.err))


def begin(options, base):
    """Makes what a process of the pool measures with."""
    MEASURE.append(Measure(options.program, tempfile.mkdtemp(dir=base), options.seconds, options.scale))


def measured(name):
    """The line of an idea, its power over the bytes, and whether each of its runs was right."""
    function, sizes = IDEAS[name]
    rows = list(MEASURE[0].rows(function, sizes))
    return *line_of(name, rows), all(is_right(row[3], MEASURE[0].seconds) for row in rows)


def main():
    parser = argparse.ArgumentParser(description=__doc__, formatter_class=argparse.RawDescriptionHelpFormatter)
    parser.add_argument("program", type=os.path.abspath)
    parser.add_argument("--only", default=[""], nargs="+", metavar="WORD")
    parser.add_argument("--seconds", type=float, default=10)
    parser.add_argument("--scale", type=float, default=1, help="all sizes times this")
    parser.add_argument("--faster", type=float)
    parser.add_argument("--jobs", type=int, default=1)
    parser.add_argument("--test", action="store_true")
    options = parser.parse_args()
    shared = "/dev/shm" if os.path.isdir("/dev/shm") else None
    names = dict.fromkeys(name for word in options.only for name in IDEAS if word in name)
    with tempfile.TemporaryDirectory(dir=shared, prefix="doubling-") as base:
        if not options.test:
            print("| Idea | Seconds | Power over the size | over the bytes | Last input | Memory | End |\n|---|---|---|---|---|---|---|")
        with multiprocessing.Pool(options.jobs, begin, (options, base)) as pool:
            failed = 0
            for text, found, right in pool.imap(measured, names):
                failed += not right
                if not right if options.test else options.faster is None or found is not None and found > options.faster:
                    print(text, flush=True)
    if options.test:
        print(f"{len(names) - failed} passed, {failed} failed")
        return int(failed > 0)
    return 0


if __name__ == "__main__":
    sys.exit(main())
