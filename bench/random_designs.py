#!/usr/bin/env python3
"""Scores random designs under random dumps of their simulation, and checks each database.

    bench/random_designs.py PROGRAM [--clocked] [--machines] [--drawn] [--memories] [--late] [--missing] [--runs N] [--seed S]
        [--dumps K] [--out FOLDER] [--verbose]

Each run makes a design of continuous assignments and combinational blocks and a bench that moves its inputs, simulates it by
Icarus Verilog (`iverilog` and `vvp`) with K choices of dumped names, and scores it under each of these dumps. At times a dump
gets more words that say the same, such as values that do not last. With `--clocked` the design has clocked blocks too: of one
and two clocks, with and without resets, by blocking and by nonblocking assignments, in chains, exchanges, dividers and machines;
its bench moves inputs between the edges and with them, before, after and among what the edge wakes. With `--memories` the design
has memories, whose words are in no dump: they are read by assignments, connections and blocks of each kind, and with `--clocked` too
they are written by clocked blocks, by blocking or by nonblocking assignments (combinational blocks write none in the language of
the program). Their indexes are constant, dumped, not decided, with x bits or outside of the range, which may begin above 0, be
given by a parameter and rise or fall.

With `--machines` modules have variables for states: registers that clocked blocks write at once or later, next states that
combinational blocks make, and decoded signals. The words `-states` name most of these and some other signals, such as inputs, nets
and ports below, with parameters of different values, of which a variable may also have none, or never that of a state. At times an
earlier machine of the same variable is named, which a later one replaces, whatever it says; and at times the last has a fault.

With `--drawn` there are cases from which the words `-F` draw state machines: over registers with a next state of their own or without,
over inputs, nets and ports, also where both signals are ports of a module below that are joined to names above it, or to one. Labels
and values are numbers of any width and sign, parameters, loop variables and operators on them, at times with x or z, too large, or no
constant; some cases are `casez` or over part of the signal, some targets are parts, and in an arm may be tests, loops and more cases,
also over the same signal. The words name most pairs of signals that are so written, in each module that has names for both, and some
other pairs, at times one twice; and at times one or two have a fault.

With `--late`, which implies `--clocked`, the bench keeps to the late habit, and so do the other runs: in a step with an edge that
wakes a block, an input that is no event signal moves after the last of these, once nothing more is to be done. Mostly it moves by a
nonblocking assignment. The dump is scored with `-late`, and those of every other design without it too, with three runs more of the
free habit: then what is decided without `-late` must be decided the same with it.

With `--missing` the dumps mostly lack some or all inputs of the top. Then three other runs are made for each of them, in which these
inputs have other values and move at other times, seldom, at times or mostly, also where the dump lists no time; those count that
show the dump. Such a dump at times lists more times, at which nothing of it changes.

Checked is:

- the status is 0, and the database lists the points of the design, with the states and arcs of each machine in each instance, which
  for a drawn one are taken from the trees that the design was written from; words that name no machine of the design are refused
  with the message of their first fault;
- a point that is marked hit is hit in the simulation, which probes in a copy of the design report (also of the words that are
  read and written), and one that is marked missed is not; the same in other simulations, with other orders and other values of
  what is not decided, where these show the same dump: one, or three of a design with clocked blocks. That a verdict holds in
  every other run is checked only as far as the next two points say it. A state is hit at each listed time of the window at which
  the variable has its value, also where nothing moves there, and an arc over a step from the one value to the other. What is marked
  hit is so in all of these runs at one listed time, and a reason has a listed time or the first between two of them;
- an undetermined point names a signal or memory that is in doubt at a time of the window, and the simulation does not hit it where
  nothing is in doubt for it. With all signals dumped nothing is in doubt, except for blocks that read a target before they
  write it, for clocked blocks that read what may change before they run, for those that may run any number of times, and for what
  reads words of memories of which no clean block has written the value since the start;
- a point that a block reaches whatever the dump leaves open is marked hit;
- a dump in which one bit of what its inputs decide is altered is refused as a contradiction at that time.

A design that Icarus Verilog evaluates otherwise than the definitions in `trials` is counted and says nothing, such as one with a
block that reads a net of what it has itself written before, where an activation runs whole by the definitions; so is one that is
simulated against a law of the definitions, such as that a clean block runs once. Of memories Icarus Verilog 11 is seen to differ in
two ways: a sum in an index is not cut to the width of its operands (it mostly stands between braces here), and bits of a word whose
index is constant with x bits are as many x as the word has. A fault of the kind `account` is one of `trials`, whose account of a dump
does not hold in each simulation that shows it. A case with a fault is made smaller and kept in FOLDER with its files and `fault.txt`.
Run N of seed S is run 1 of seed S + N - 1. At the end the counts are printed.
"""
import argparse
import collections
import os
import shutil
import sys
import tempfile

from trials.icarus import SimulationFault
from trials.shrink import shrink
from trials.trial import Trial, random_case


def one_outcome(program, folder, case):
    """The outcome of a case that has one choice of names."""
    trial = Trial(program, folder, case, [case.names])
    trial.build()
    return trial.outcome(0, case.altered), trial


def keep(program, case, fault, folder):
    """Writes a smaller case with a fault of the same kind to a folder, and gives its text."""
    with tempfile.TemporaryDirectory() as work:
        def has_fault(smaller):
            try:
                found = one_outcome(program, work, smaller)[0].fault
            except (KeyError, StopIteration, IndexError, SimulationFault):
                return False
            return found is not None and found.kind == fault.kind

        smaller = shrink(case, has_fault)
    shutil.rmtree(folder, ignore_errors=True)
    outcome, trial = one_outcome(program, folder, smaller)
    text = (outcome.fault or fault).text
    with open(os.path.join(folder, "fault.txt"), "w", encoding="ascii", errors="replace") as it:
        it.write(f"covered {' '.join(trial.words('altered.vcd' if smaller.altered else 'dump0.vcd'))}\n{text}\n")
    return text


def run(program, seed, options, counts, work):
    """Whether the design of a seed has no fault under any of its dumps."""
    is_clocked = options.clocked or options.late
    asked = is_clocked, options.memories, options.machines, options.drawn, options.late, options.missing
    case, choices, altered = random_case(seed, options.dumps, *asked)
    trial = Trial(program, work, case, [*choices, case.names])
    try:
        trial.build()
    except SimulationFault as fault:
        counts["not simulated"] += 1
        if options.verbose:
            print(f"seed {seed}: {fault}")
        return True
    for number, names in enumerate(trial.choices):
        numbers = altered if number == len(choices) else None
        outcome = trial.outcome(number, numbers)
        counts[outcome.word] += 1
        counts.update(outcome.counts)
        if outcome.detail and options.verbose:
            print(f"seed {seed}: {outcome.word}: {outcome.detail}")
        if outcome.fault:
            folder = os.path.join(options.out, f"seed-{seed}")
            text = keep(program, case.with_names(names, numbers), outcome.fault, folder)
            print(f"seed {seed}: {text}\n  kept in {folder}", flush=True)
            return False
        if outcome.detail:
            break
    return True


def summary(options, counts, faulty):
    """The counts of all runs: first those of the checks, then what nothing was said of."""
    scored, second, refused = (counts.pop(word, 0) for word in ("scored", "other runs", "contradicted"))
    lacking, hidden = (counts.pop(word, 0) for word in ("lacking inputs", "reasons at hidden times"))
    verdicts, words, drawn = (", ".join(f"{counts.pop(before + word, 0)} {word}" for word in ("hit", "missed", "undetermined"))
                              for before in ("", "words ", "drawn "))
    kind = ("clocked designs" if options.clocked or options.late else "designs") + (" with memories" if options.memories else "")
    lines = [f"{options.runs} {kind} from seed {options.seed}: {scored} dumps scored and {second} other runs that show them",
             f"points: {verdicts}" + (f"; of them words of memories: {words}" if options.memories else "")
             + (f"; of them drawn states and arcs: {drawn}" if options.drawn else ""),
             f"altered dumps: {refused} refused"]
    if options.missing:
        lines.append(f"{lacking} dumps lack inputs, and {hidden} reasons have a time that is not listed")
    lines += [", ".join(f"{n} {word}" for word, n in counts.items())] if counts else []
    return "\n".join([*lines, f"{faulty} designs with a fault"])


def main():
    parser = argparse.ArgumentParser(description=__doc__, formatter_class=argparse.RawDescriptionHelpFormatter)
    parser.add_argument("program")
    parser.add_argument("--clocked", action="store_true")
    parser.add_argument("--machines", action="store_true")
    parser.add_argument("--drawn", action="store_true")
    parser.add_argument("--late", action="store_true")
    parser.add_argument("--memories", action="store_true")
    parser.add_argument("--missing", action="store_true")
    parser.add_argument("--runs", type=int, default=100)
    parser.add_argument("--seed", type=int, default=1)
    parser.add_argument("--dumps", type=int, default=3)
    parser.add_argument("--out", default=os.path.join(tempfile.gettempdir(), "random_designs"))
    parser.add_argument("--verbose", action="store_true")
    options = parser.parse_args()
    if not (shutil.which("iverilog") and shutil.which("vvp")):
        sys.exit("Icarus Verilog is not installed")
    counts, faulty = collections.Counter(), 0
    with tempfile.TemporaryDirectory() as work:
        for seed in range(options.seed, options.seed + options.runs):
            faulty += not run(os.path.abspath(options.program), seed, options, counts, work)
    print(summary(options, counts, faulty))
    return 1 if faulty else 0


if __name__ == "__main__":
    sys.exit(main())
