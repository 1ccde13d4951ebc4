#!/usr/bin/env python3
"""Runs a program on damaged input, and checks what must hold of it on any input.

    bench/damage.py PROGRAM [--runs N] [--seed S] [--out FOLDER] [--jobs J] [--minutes M] [--checks] [--only WORD]

Each run takes the call of an example case, or one of every other command over a database that a case expects, and damages its
sources, dumps, databases or words: bytes flipped, lines dropped, doubled and exchanged, numbers made huge, files cut and joined,
parts nested, pieces of the languages put in, often several of these. Checked is:

- the status is from 0 to 7, and no signal ends the run;
- the processor time is at most two seconds, or five with `--checks`, for a build with checks at run time, and the resident memory
  at most 512 MB; the damaged files have at most a megabyte, or 30,000 bytes with `--checks`; a database word that is `/dev/full`
  gives bytes up to the limit of a database, so there it is five times as long and 3 GB;
- the warning output is empty with the status 0, and else the line of that status in its documented form, with a place that the
  named file has;
- the output file is as it was with another status than 0, except where the system refused to write it; no other file of the
  folder is changed, made or removed; and nothing is printed but a report;
- what was written with the status 0 is read again: one database in ten by a report, and a plain one by a tracefile.

Run N of seed S is run 1 of seed S + N - 1. Runs have folders in /dev/shm where there is one. A finding is kept in FOLDER with its
files, and its words and faults in `fault.txt`, for the first runs of each kind of fault and status. At the end the statuses are
counted, and the runs named that took most time and memory. `--only score` takes the calls of that command alone.
"""
import argparse
import collections
import multiprocessing
import os
import random
import resource
import shlex
import shutil
import sys
import tempfile
import time

from hostile.checks import databases, faults, output_of
from hostile.child import run
from hostile.examples import examples, kind, tree
from hostile.mutation import damaged, damaged_words, safe

BATCH = 50
KEPT = 5
SHARES = {"score": 14, "report": 2, "lcov": 2, "merge": 2, "rank": 1, "exclude": 1, "restore": 1, "selfrun": 1}
WRITERS = (b"score", b"merge", b"exclude", b"restore")
HERE = os.path.dirname(os.path.abspath(__file__))
Limits = collections.namedtuple("Limits", "seconds megabytes")


class Worker:
    """One process of the pool, with a folder of its own."""

    def __init__(self, options, base):
        self.options = options
        self.base = tempfile.mkdtemp(dir=base)
        self.folder = os.path.join(self.base, "work")
        self.examples, self.texts = collections.defaultdict(list), collections.defaultdict(list)
        for example in examples(os.path.join(HERE, "..", "cases")):
            self.examples[example.words[0], example.accepted].append(example)
            for text in example.files.values():
                self.texts[kind(text)].append(text)
        resource.setrlimit(resource.RLIMIT_CORE, (0, 0))

    def case(self, seed):
        """The words and the files of a run."""
        chance = random.Random(seed)
        command = self.options.only or chance.choices(list(SHARES), SHARES.values())[0]
        example = chance.choice(self.examples[command, chance.random() < 0.7] or self.examples[command, True])
        files, words = dict(example.files), [os.fsencode(it) for it in example.words]
        if chance.random() < 0.1 or not files:
            words = damaged_words(chance, words)
        names = sorted(files)
        for name in chance.sample(names, min(len(names), chance.choice((1, 1, 1, 2)))):
            texts = self.texts[kind(files[name]) if chance.random() < 0.9 else chance.choice(sorted(self.texts))]
            files[name] = damaged(chance, files[name], lambda them=texts: chance.choice(them), self.options.longest)
        return example.name, words, files

    def lay(self, files):
        """Makes the folder of a run with its files, and goes there."""
        shutil.rmtree(self.folder, ignore_errors=True)
        for name, text in files.items():
            path = os.path.join(self.folder, name)
            os.makedirs(os.path.dirname(path), exist_ok=True)
            with open(path, "wb") as it:
                it.write(text)
        os.makedirs(self.folder, exist_ok=True)
        os.chdir(self.folder)

    def limits(self, words):
        """The limits of a call."""
        # The device gives bytes without end. A database may have 2 GB, so the program reads so many, and keeps them, before it refuses the
        # file for its length: that is the limit which it promises, and no damaged file of a megabyte comes near it. So such a call may
        # cost what these bytes cost. Its status and its line are checked as those of every call.
        if b"/dev/full" in databases(words):
            return Limits(5 * self.options.seconds, 3 * 1024)
        return Limits(self.options.seconds, 512)

    def call(self, words, before):
        """A run in the present folder, with its faults."""
        limits = self.limits(words)
        done = run(self.options.program, words, self.base, seconds=4 * limits.seconds, megabytes=4 * limits.megabytes)
        return done, list(faults(done, words, before, tree("."), limits))

    def read_again(self, words):
        """The faults of a report of the database that was written, and of a tracefile where it is a plain one."""
        # a name that begins with a dash is no option
        name = os.path.join(b".", os.fsencode(output_of(words)))
        tracefile = [[b"lcov", b"-o", b"tracefile", name]] * (words[0] in (b"score", b"merge"))
        for more in ([b"report", b"-d", b"v", b"-m", b"ltcfm", name], *tracefile):
            done, found = self.call(more, tree("."))
            yield from [("again", done.shown())] if done.status else found

    def one(self, seed):
        """The run of a seed: its status, its time and memory, and its faults."""
        name, words, files = self.case(seed)
        if not all(map(safe, words)):
            return None
        self.lay(files)
        done, found = self.call(words, files)
        if seed % 10 == 0 and done.status == 0 and words[0] in WRITERS and os.path.isfile(output_of(words)):
            found += self.read_again(words)
        if found:
            self.keep(seed, name, words, files, done, found)
        return "signal" if done.signal else done.status, done.seconds, done.kilobytes, found

    def keep(self, seed, name, words, files, done, found):
        """Writes a finding to the folder of findings, unless there are enough of its kind."""
        for number in range(1, KEPT + 1):
            folder = os.path.join(self.options.out, f"{found[0][0]}-{done.signal or done.status}-{number}")
            if not os.path.exists(folder):
                break
        else:
            return
        os.makedirs(self.options.out, exist_ok=True)
        os.makedirs(folder, exist_ok=True)
        for it, text in files.items():
            path = os.path.join(folder, "files", it)
            os.makedirs(os.path.dirname(path), exist_ok=True)
            with open(path, "wb") as file:
                file.write(text)
        with open(os.path.join(folder, "fault.txt"), "wb") as file:
            line = " ".join(["covered", *(shlex.quote(os.fsdecode(it)) for it in words)])
            file.write(os.fsencode(f"seed {seed}, of {name}\n{line}\n{done.shown()}\n"))
            file.write(os.fsencode("".join(f"{it}: {text}\n" for it, text in found)) + done.err[:10000])


WORKER = []


def begin(options, base):
    """Makes the worker of a process."""
    WORKER.append(Worker(options, base))


def batch(seeds):
    """What the runs of some seeds gave."""
    return [(seed, WORKER[0].one(seed)) for seed in seeds]


def batches(options):
    """The seeds of all runs in batches."""
    last = options.seed + options.runs
    return [range(it, min(it + BATCH, last)) for it in range(options.seed, last, BATCH)]


def summary(options, counts, most, seconds):
    """The counts and the dearest runs."""
    runs = sum(counts["status"].values())
    lines = [f"{runs} runs from seed {options.seed} in {seconds:.0f} s, {runs / max(seconds, 0.001):.0f} a second;"
             f" {counts['other']['left out']} left out, with words that name what is outside of their folder"]
    lines += [f"status {status}: {count}" for status, count in sorted(counts["status"].items(), key=str)]
    lines += [f"most time: {', '.join(f'{it:.2f} s (seed {seed})' for it, seed in most['seconds'])}",
              f"most memory: {', '.join(f'{it} kB (seed {seed})' for it, seed in most['memory'])}"]
    lines += [f"fault {name}: {count} runs" for name, count in sorted(counts["fault"].items())] or ["no fault"]
    return "\n".join(lines)


def add(counts, most, seed, result):
    """Adds what the run of a seed gave to the sums."""
    if result is None:
        counts["other"]["left out"] += 1
        return
    status, seconds, kilobytes, found = result
    counts["status"][status] += 1
    for name in {name for name, _ in found}:
        counts["fault"][name] += 1
    for name, text in found[:1]:
        print(f"seed {seed}: {name}: {text}", flush=True)
    most["seconds"] = sorted([*most["seconds"], (seconds, seed)], reverse=True)[:5]
    most["memory"] = sorted([*most["memory"], (kilobytes, seed)], reverse=True)[:5]


def collect(results, until):
    """Sums up what the runs gave, as far as there is time for them."""
    counts, most = collections.defaultdict(collections.Counter), {"seconds": [], "memory": []}
    for some in results:
        for seed, result in some:
            add(counts, most, seed, result)
        if time.monotonic() > until:
            break
    return counts, most


def main():
    parser = argparse.ArgumentParser(description=__doc__, formatter_class=argparse.RawDescriptionHelpFormatter)
    parser.add_argument("program", type=os.path.abspath)
    parser.add_argument("--runs", type=int, default=10000)
    parser.add_argument("--seed", type=int, default=1)
    parser.add_argument("--out", type=os.path.abspath, default=os.path.join(tempfile.gettempdir(), "damage"))
    parser.add_argument("--jobs", type=int, default=1)
    parser.add_argument("--checks", action="store_true", help="the program is a build with checks at run time")
    parser.add_argument("--minutes", type=float, default=1e6, help="at most so long")
    parser.add_argument("--only", choices=SHARES)
    options = parser.parse_args()
    options.seconds = 5 if options.checks else 2
    options.longest = 30000 if options.checks else 1 << 20
    start = time.monotonic()
    shared = "/dev/shm" if os.path.isdir("/dev/shm") else None
    with tempfile.TemporaryDirectory(dir=shared, prefix="damage-") as base:
        with multiprocessing.Pool(options.jobs, begin, (options, base)) as pool:
            results = pool.imap_unordered(batch, batches(options))
            counts, most = collect(results, start + 60 * options.minutes)
        left = [it for it in os.listdir(base) if not os.path.isdir(os.path.join(base, it))]
    print(summary(options, counts, most, time.monotonic() - start))
    for it in left:
        print(f"fault files: {it} was made outside of the folders of the runs")
    return 1 if counts["fault"] or left else 0


if __name__ == "__main__":
    sys.exit(main())
