"""What a simulation hits, and whether it is a run of the design by the definitions.

The simulation is a run where each continuous assignment has its value at each settled time, each combinational block
that had to be evaluated in a step was evaluated, with what it writes on settled values, and each clocked block left what its
evaluations write on the values that they began with. A difference here is one between Icarus Verilog and `vectors`, `terms` or
`statements`, and not one of the program.
"""
from bisect import bisect_right

from . import vectors
from .designs import Assignment, Combinational, Edged
from .machines import machine_hits
from .terms import Binary, cases_of, holds
from .things import Word
from .vectors import digits_of
from .words import read_key, write_key


class Outside(Exception):
    """A body reads a signal or word that is not known."""


class Execution:
    """One execution of a body: what it writes and visits, and what it reads before it has written it whole.

    With `known` it ends by `Outside` at the first read of another signal or word that it has not written whole, which is visited.
    """

    def __init__(self, values, known=None):
        self.before, self.known = values, known
        self.values, self.written, self.visits, self.unwritten = {}, {}, set(), set()
        self.queued = []

    def read(self, signal):
        if self.written.get(signal, 0) != vectors.mask(signal.width):
            self.unwritten.add(signal)
            if self.known is not None and signal not in self.known:
                raise Outside
        return self.values[signal] if signal in self.values else self.before[signal]

    def read_word(self, word):
        self.visits.add(read_key(word))
        return self.read(word)

    def write(self, signal, low, part):
        self.named(signal)
        old = self.values[signal] if signal in self.values else self.before[signal]
        self.values[signal] = vectors.place(old, low, part)
        self.written[signal] = self.written.get(signal, 0) | vectors.written_mask(signal.width, low, part.width)

    def named(self, thing):
        """Notes that a word is written."""
        if isinstance(thing, Word):
            self.visits.add(write_key(thing))

    def queue(self, signal, low, part):
        self.named(signal)
        self.queued.append((signal, low, part))

    def writes_whole(self, signal):
        """Whether it writes each bit of the signal, at once or later."""
        bits = self.written.get(signal, 0)
        for it, low, part in self.queued:
            bits |= vectors.written_mask(it.width, low, part.width) if it is signal else 0
        return bits == vectors.mask(signal.width)

    def left(self, signal, old):
        """What its writes in order leave of a signal that has the value `old` before them."""
        value = self.values.get(signal, old)
        for it, low, part in self.queued:
            value = vectors.place(value, low, part) if it is signal else value
        return value

    def reached(self, statement):
        self.visits.add(("l", statement.point))

    def evaluated(self, term, truths):
        cases = cases_of(term.word, 2 if isinstance(term, Binary) else 1)
        self.visits.update(("c", term.node, case) for case in cases if holds(case, truths))


def executed(process, values):
    """The execution of a process on these values. Equal values of what it uses give the same one."""
    key = tuple(values[it] for it in process.used())
    if key not in process.answers():
        process.answers()[key] = Execution(values)
        process.execute(process.answers()[key])
    return process.answers()[key]


def partly_executed(process, values, known):
    """The execution of a process up to its first read of what is not known, and whether there is such a read."""
    key = "partly", known_values(process, values, known)
    if key not in process.answers():
        execution, is_told = Execution(values, known), True
        try:
            process.execute(execution)
        except Outside:
            is_told = False
        process.answers()[key] = execution, is_told
    return process.answers()[key]


def visited(process, values, known):
    """What the execution of a process visits up to its first read of what is not known."""
    return partly_executed(process, values, known)[0].visits


def known_values(process, values, known):
    """The values of what a process uses and is known; None for others."""
    return tuple(values[it] if it in known else None for it in process.used())


def differ_in(old, new, masks):
    """Whether one of these bits of signals has changed."""
    return any(((old[it].ones ^ new[it].ones) | (old[it].strange ^ new[it].strange)) & bits for it, bits in masks.items())


def is_value_left(execution, values):
    """Whether the bits that an execution has written have the values that it left."""
    return all(not ((value.ones ^ values[it].ones) | (value.strange ^ values[it].strange)) & execution.written[it]
               for it, value in execution.values.items())


class Run:
    """A simulation under one dump: what is settled after each step of the bench from the first listed time on and before the last.

    The dump has the `bound` signals. Steps at times that are not listed count where it lacks an input: else nothing of the design
    moves there. At a listed time that is no step of the bench nothing but a state is hit.
    """

    def __init__(self, flat, copy, settled, dump, bound):
        self.flat, self.copy, self.dump = flat, copy, dump
        self.lacks_input = any(it.is_input and it not in bound for it in flat.signals)
        listed = set(dump.times)
        self.steps = [it for it in settled if dump.times and dump.times[0] <= it.time < dump.times[-1]
                      and (self.lacks_input or it.time in listed)]
        self.times = [it.time for it in self.steps]
        self.wakes = {process: process.wake_masks() for process in flat.processes}

    def shows_as(self, other, bound):
        """Whether another run begins at the same time, and has the same settled values of the bound signals from there on."""
        return self.times[:1] == other.times[:1] and all(
            self.last(time).values[it] == other.last(time).values[it] for time in {*self.times, *other.times} for it in bound)

    def last(self, time):
        """The last step at a time or before it."""
        return self.steps[bisect_right(self.times, time) - 1]

    def window(self):
        """Each step of the window with the one before it."""
        return list(zip(self.steps, self.steps[1:]))

    def listed(self):
        """The listed times of the window, each with its step and the one before; where there is no step, the last one for both."""
        steps = {new.time: (old, new) for old, new in self.window()}
        return {time: steps.get(time) or (self.last(time), self.last(time)) for time in self.dump.times[1:-1]}

    def probes(self, step):
        """The counted processes with what the simulation says of their last evaluation: its visits and its time.

        Of a clocked block it is what all evaluations at that time visit.
        """
        for (_, probes), digits, acted in zip(self.copy.probes, step.probes, step.acted):
            yield probes.process, probes.visits(digits), acted

    def hits(self):
        """The times at which each point is hit, by its process or signal and its key."""
        found = {}
        for old, new in self.window():
            for process, visits, acted in self.probes(new):
                if self.is_scored(process, acted, old, new):
                    for key in visits:
                        found.setdefault((process, key), []).append(new.time)
            for signal in self.flat.signals:
                for key in toggled(old.values[signal], new.values[signal]):
                    found.setdefault((signal, key), []).append(new.time)
        found.update(machine_hits(self))
        return found

    def is_scored(self, process, acted, old, new):
        """Whether what a process visits in a step counts."""
        if isinstance(process, Edged):
            return acted == str(new.time)
        return differ_in(old.values, new.values, self.wakes[process])

    def differences(self):
        """How the simulation is no run of the design, as texts."""
        found = []
        for step in self.steps:
            for process in self.flat.processes:
                if isinstance(process, Assignment):
                    found += assignment_differences(process, step)
        for old, new in self.window():
            for process, visits, acted in self.probes(new):
                if isinstance(process, Edged):
                    found += clocked_differences(process, visits if self.is_scored(process, acted, old, new) else set(), old, new)
                elif self.is_scored(process, acted, old, new):
                    found += evaluation_differences(process, visits, acted, new)
        return found


def toggled(old, new):
    """The bits that go from 0 to 1 or back, each with whether it rises."""
    rises, falls = vectors.zeros(old) & vectors.known_ones(new), vectors.known_ones(old) & vectors.zeros(new)
    return [(k, rise) for rise, bits in ((True, rises), (False, falls)) for k in range(old.width) if bits >> k & 1]


def assignment_differences(process, step):
    execution = executed(process, step.values)
    if is_value_left(execution, step.values):
        return []
    made = ", ".join(f"{it.full_name} {digits_of(value)} for {digits_of(step.values[it])}"
                     for it, value in execution.values.items())
    return [f"at {step.time} {process.target.text()} = {process.value.text()} makes {made}"]


def evaluation_differences(process, visits, acted, step):
    """How the last evaluation of a process whose wake bits have changed differs from the definitions."""
    if isinstance(process, Combinational) and acted != str(step.time):
        return [f"at {step.time} a block of {process.scope.path} that line {process.body.line} begins is not evaluated"]
    execution = executed(process, step.values)
    if execution.unwritten & set(process.targets()):
        return []
    name = f"the process at line {first_line(process)} of {process.scope.path}"
    found = []
    if visits != execution.visits:
        found.append(f"at {step.time} {name} visits {sorted(visits)}, and by the definitions {sorted(execution.visits)}")
    if not is_value_left(execution, step.values):
        found.append(f"at {step.time} {name} leaves other values")
    return found


def clocked_differences(process, visits, old, new):
    """How the evaluations of a clocked block in a step differ from the definitions, by the values that each began with."""
    executions = [executed(process, values) for values in new.entries.get(process, [])]
    name = f"the clocked block at line {first_line(process)} of {process.scope.path}"
    by_definition = set().union(*(it.visits for it in executions))
    found = []
    if visits != by_definition:
        found.append(f"at {new.time} {name} visits {sorted(visits)}, and by the definitions {sorted(by_definition)}")
    for signal in process.targets():
        value = old.values[signal]
        for execution in executions:
            value = execution.left(signal, value)
        if value != new.values[signal]:
            found.append(f"at {new.time} {name} leaves {signal.full_name} {digits_of(new.values[signal])} and not {digits_of(value)}")
    return found


def first_line(process):
    return process.value.line if isinstance(process, Assignment) else process.body.line
