"""What a dump decides of a design under a habit of its bench, and where it leaves a point open.

A signal is *clear* at a time where the dump decides its settled value: it is bound; or it is a net whose bits are all driven, by
assignments that read what is clear; or a combinational block writes it whole on each path, reads no target before it has written
it, and reads what is clear, one of which is bound and has changed in the window; or a clocked block writes it that cannot wake in
the step, and it was clear before; or one that is clean, reads what it knows, and writes it whole or finds it clear. Since each
expression evaluates all operands, only the set of the signals of the first three kinds is to be found: their values are those of
the simulation, which is a run that shows the dump. A clean block *knows* its trigger and what was clear before and is not early.
Words of memories are clear by the rules of clocked blocks, and what reads a memory is told by the words that it reads.

An input that the dump lacks is never clear, and may move in each step. Then a time between two listed ones counts too: it is *hidden*,
and the first between two of them stands for all, since the same may move at these and the same is clear. No block is clean there.
"""
from bisect import bisect_right
from dataclasses import replace

from . import vectors
from .designs import Assignment, BlockProcess, Combinational, Edged
from .runs import Execution, Outside, differ_in, known_values, partly_executed, visited
from .terms import Binary, alone, cases_of, holds
from .things import Word, memories_of, named
from .wakes import wakes_of
from .words import WordOf, read_key


class Knowledge:
    """What a clean block knows in a step: the values that it reads, of which those of `known` are decided."""

    def __init__(self, process, wakes, clear, old, new):
        self.process, trigger = process, wakes.trigger(process)
        self.early = wakes.early(process)
        self.known = (clear - self.early) | {trigger}
        self.values = {**old.values, trigger: new.values[trigger]}

    def execution(self):
        """The execution up to the first read of what is not known, and whether there is none."""
        return partly_executed(self.process, self.values, self.known)


class Clear:
    """The clear signals at each of `times`: those that are listed, without the last, and those that stand for the hidden ones."""

    def __init__(self, run, bound, is_late=False):
        self.run, self.flat, self.bound, self.is_late = run, run.flat, set(bound), is_late
        self.writers = run.flat.writers()
        self.changed, self.kept, self.at, self.wakes = {}, {}, {}, {}
        blocks = [process for process in run.flat.processes if isinstance(process, Combinational)]
        self.clocked = [process for process in run.flat.processes if isinstance(process, Edged)]
        self.whole = {process: process.writes_whole() for process in blocks}
        self.own_reads = {process: process.reads_first() for process in blocks}
        self.mentions = {process: process.mentions() for process in run.flat.processes}
        self.memories = {process: memories_of(mentioned) for process, mentioned in self.mentions.items()}
        self.watched = {process: process.watched() for process in run.flat.processes}
        self.targets = {process: process.targets() for process in run.flat.processes}
        self.times = self.all_times()
        settled = [replace(run.last(time), time=time) for time in self.times]
        self.steps = {new.time: (old, new) for old, new in zip(settled, settled[1:])}
        for it in settled[:1]:
            self.start(it)
        for old, new in self.steps.values():
            self.step(old, new)

    def all_times(self):
        """The times of which the definitions speak; with all inputs dumped nothing moves at those that are no step of the bench."""
        if not self.run.lacks_input:
            return self.run.times
        listed = self.run.dump.times
        return sorted(listed[:-1] + [time + 1 for time, later in zip(listed, listed[1:]) if time + 1 < later])

    def time(self, time):
        """The one of `times` that stands for a time of a run."""
        return self.times[bisect_right(self.times, time) - 1]

    def start(self, first):
        self.changed[first.time], self.kept[first.time] = set(), self.bound
        self.at[first.time] = self.grow(self.bound, set(), first.values)

    def step(self, old, new):
        """Finds what is clear after a step from what is clear before it."""
        self.wakes[new.time] = wakes_of(self.flat, old.values, new.values, self.bound, self.is_late)
        changed = self.changed[old.time] | {it for it in self.bound if old.values[it] != new.values[it]}
        kept = self.bound.union(*(self.register_values(process, old, new) for process in self.clocked))
        same = changed == self.changed[old.time] and kept == self.kept[old.time] and not self.flat.memories
        self.changed[new.time], self.kept[new.time] = changed, kept
        self.at[new.time] = self.at[old.time] if same else self.grow(kept, changed, new.values)

    def knowledge(self, process, old, new):
        """What a block knows in a step of a run, where it is clean."""
        time = self.time(new.time)
        wakes, before = self.wakes[time], self.at[self.steps[time][0].time]
        return Knowledge(process, wakes, before, old, new) if wakes.trigger(process) else None

    def register_values(self, process, old, new):
        """The targets and words of a clocked block that its rule gives a value after a step."""
        before, targets = self.at[old.time], set(self.targets[process])
        if not self.wakes[new.time].can_wake(process):
            return targets & before
        knowledge = self.knowledge(process, old, new)
        if not knowledge:
            return set()
        execution, is_told = knowledge.execution()
        return {it for it in targets if it in before or execution.writes_whole(it)} if is_told else set()

    def grow(self, clear, changed, values):
        """The least set by the rules on these settled values; of the bound signals these have changed in the window so far."""
        clear, more = set(clear), True
        while more:
            more = {it for it in self.flat.signals if it not in clear and self.has_value(it, clear, changed, values)}
            clear |= more
        return clear

    def has_value(self, signal, clear, changed, values):
        """Whether a rule of nets and combinational blocks gives an unbound signal its value from what is clear."""
        writers = self.writers[signal]
        if not writers or isinstance(writers[0], Edged):
            return False
        if isinstance(writers[0], Assignment):
            return self.is_driven(signal) and all(self.is_told(process, clear, values) for process in writers)
        return self.is_block_value(writers[0], signal, clear, changed) and self.is_told(writers[0], clear, values)

    def is_told(self, process, known, values):
        """Whether a process reads only what is known: it reads each signal that it mentions, and some words of memories."""
        if self.memories[process]:
            return partly_executed(process, values, known)[1]
        own = self.targets[process] if isinstance(process, Combinational) else ()
        return self.mentions[process].difference(own) <= known

    def is_driven(self, signal):
        driven = 0
        for process in self.writers[signal]:
            driven |= self.targets[process][signal]
        return driven == vectors.mask(signal.width)

    def is_block_value(self, process, signal, clear, changed):
        others = {it for it in self.watched[process] if it not in self.targets[process] and not isinstance(it, Word)}
        return (signal in self.whole[process] and not self.own_reads[process] and others <= clear
                and bool(self.mentions[process] & changed))

    def forced(self, signal, time):
        """Whether the rules give a bound signal its value at a listed time, from what else is bound and clear words alone."""
        if signal.is_input:
            return False
        writers = self.writers[signal]
        if time in self.steps and signal not in self.wakes[time].may_move:
            return True
        if writers and isinstance(writers[0], Edged):
            return time in self.steps and signal in self.register_values(writers[0], *self.steps[time])
        values = self.run.last(time).values
        known = self.bound.union(it for it in self.at[time] if isinstance(it, Word))
        if not all(signal not in self.mentions[process] and self.is_told(process, known, values) for process in writers):
            return False
        return self.has_value(signal, self.at[time], self.changed[time], values)


class View:
    """Which points are open for a process at the end of a step, and which surely, from what it knows there."""

    def __init__(self, process, known, values):
        self.process, self.known, self.values = process, known, values
        self.blocked = process.written_at_once() if isinstance(process, BlockProcess) else set()
        self.open, self.sure = set(), set()
        process.walk(self)

    def read(self, signal):
        return self.values[signal]

    def fixed_value(self, scope, term, width, signed):
        """The value of a fixed term, which reads only what is known and names nothing that is written at once, else None."""
        if term.mentions(scope) & self.blocked:
            return None
        try:
            return term.value(scope, Execution(self.values, self.known), width, signed)
        except Outside:
            return None

    def add(self, key, sure):
        self.open.add(key)
        if sure:
            self.sure.add(key)

    def reached(self, statement, sure):
        self.add(("l", statement.point), sure)

    def decided(self, scope, shaped, test):
        """What a test of fixed terms gives, else None."""
        values = [self.fixed_value(scope, *shape) for shape in shaped]
        return None if None in values else test(*values)

    def evaluated(self, scope, term, width, signed, sure):
        for inner, w, s in term.within(scope, width, signed):
            if isinstance(inner, WordOf):
                self.named_word(scope, inner, read_key, sure)
            if inner.node:
                operands = inner.operands(scope, w, s) if isinstance(inner, Binary) else [(inner, w, s)]
                self.add_cases(scope, inner, operands, sure)

    def named_word(self, scope, term, key, sure):
        """The words that a term may name, to read or to write them; a fixed index names one of them or none."""
        index = self.fixed_value(scope, *alone(term.index, scope))
        words = scope.find(term.name()).words if index is None else [term.named_word(scope, index)]
        for word in words:
            if word:
                self.add(key(word), sure and index is not None)

    def add_cases(self, scope, term, operands, sure):
        values = [self.fixed_value(scope, *operand) for operand in operands]
        for case in cases_of(term.word, len(operands)):
            asked = [(value, digit) for value, digit in zip(values, case) if digit != "-"]
            if all(value is None or holds(digit, [vectors.truth(value)]) for value, digit in asked):
                self.add(("c", term.node, case), sure and all(value is not None for value, _ in asked))


def view_of(process, known, values):
    """The view of a process. Equal values of what it uses and knows give the same one."""
    key = "view", known_values(process, values, known)
    if key not in process.answers():
        process.answers()[key] = View(process, known, values)
    return process.answers()[key]


class Doubts:
    """What is in doubt for a point at a step of the window, and which points are reached there."""

    def __init__(self, run, bound, is_late=False):
        self.run, self.clear = run, Clear(run, bound, is_late)
        self.bound = self.clear.bound
        self.steps, self.listed = self.clear.steps, set(run.dump.times)
        self.all_steps = {**run.listed(), **self.steps}
        self.views, self.visits, self.clocked = {}, {}, {}

    def view(self, process, time):
        if (process, time) not in self.views:
            known = self.clear.at[time] - set(self.clear.targets[process])
            self.views[process, time] = view_of(process, known, self.steps[time][1].values)
        return self.views[process, time]

    def times(self, point):
        """The times at which a point may be open: of a state also those without a step."""
        return self.all_steps if point.key[0] == "s" else self.steps

    def is_clear(self, signal, time):
        """Whether the signal is clear at the start and the end of the step; what is clear stays so at a time without one."""
        old, new = self.all_steps[time]
        return signal in self.clear.at[old.time] and signal in self.clear.at[new.time]

    def doubtful(self, point, time):
        """The signals and memories that are in doubt for the point at this time."""
        time = time if time in self.all_steps else self.clear.time(time)
        if point.signal:
            is_doubtful = not self.is_clear(point.signal, time) and self.may_count({point.signal}, time)
            return {point.signal} if is_doubtful else set()
        return set().union(*(self.block_doubts(process, point.key, time) for process in point.blocks))

    def may_count(self, things, time):
        """Whether a time is listed, or one of these may move at it."""
        return time in self.listed or bool(self.clear.wakes[time].may_move & set(things))

    def block_doubts(self, process, key, time):
        """What is in doubt for a point of a process at this time."""
        if isinstance(process, Edged):
            return self.clocked_doubts(process, time).of(key)
        if key not in self.view(process, time).open or not self.may_count(self.clear.watched[process], time):
            return set()
        found = {it for it in self.run.wakes[process] if not isinstance(it, Word) and not self.is_clear(it, time)}
        return found | self.clear.own_reads.get(process, set()) | self.doubtful_memories(process, time)

    def doubtful_memories(self, process, time):
        """The memories of which a word is not clear that a process other than a clocked block reads, or that may have moved."""
        memories = self.clear.memories[process]
        if not memories:
            return set()
        known = self.clear.at[time] - set(self.clear.targets[process])
        execution, is_told = partly_executed(process, self.steps[time][1].values, known)
        moving = self.clear.wakes[time].may_move
        read = {word for memory in memories for word in memory.words
                if not is_told or word in moving or word in execution.unwritten}
        return memories_of(word for word in read if not self.is_clear(word, time))

    def clocked_doubts(self, process, time):
        if (process, time) not in self.clocked:
            self.clocked[process, time] = ClockedDoubts(process, self.clear, time)
        return self.clocked[process, time]

    def first_reached(self, process):
        """The points that a process reaches at a step of the window, each with the first time."""
        if process not in self.visits:
            found = self.visits[process] = {}
            for time in self.steps:
                for key in self.reached(process, time):
                    found.setdefault(key, time)
        return self.visits[process]

    def reached_at(self, point):
        """The first time at which the block of a point reaches it, so that each run hits it there, or None."""
        times = [self.first_reached(process).get(point.key) for process in point.blocks]
        return min((time for time in times if time is not None), default=None)

    def reached(self, process, time):
        """The points that a process reaches whatever is not known: up to its first read of that, and those surely open."""
        if isinstance(process, Edged):
            return self.clocked_doubts(process, time).reached
        old, new = self.steps[time]
        masks = {signal: bits for signal, bits in self.run.wakes[process].items() if signal in self.bound}
        if not differ_in(old.values, new.values, masks):
            return set()
        known = self.clear.at[time] - set(self.clear.targets[process])
        return visited(process, new.values, known) | self.view(process, time).sure


class ClockedDoubts:
    """What is in doubt for a clocked block in a step, for which of its points, and which it reaches.

    `open` has the points for which something may be in doubt; it is None for all.
    """

    def __init__(self, process, clear, time):
        old, new = clear.steps[time]
        wakers, before = clear.wakes[time].can_wake(process), clear.at[old.time]
        knowledge = clear.knowledge(process, old, new)
        self.signals, self.open, self.reached = set(), None, set()
        if knowledge:
            view = view_of(process, knowledge.known, knowledge.values)
            execution, is_told = knowledge.execution()
            self.open, self.reached = view.open, execution.visits | view.sure
            if not is_told:
                self.signals = named(clear.mentions[process] - knowledge.known)
        elif wakers:
            is_told = partly_executed(process, old.values, set())[1]
            self.signals = set(wakers) | (set() if is_told else named(clear.mentions[process] - before))

    def of(self, key):
        """The signals that are in doubt for a point of the block."""
        return self.signals if self.open is None or key in self.open else set()
