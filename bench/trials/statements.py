"""Statements of blocks: their execution, what may be reached, and what is surely written (clause 9).

A target is a `Name`, a `Select`, a word of a memory or a `Concat` of targets. The copies of a statement are those of the loops around it.
"""
from functools import reduce
from operator import and_

from . import terms, vectors
from .terms import Concat, Constant, Name, Select
from .words import WordOf, write_key


def leaves(target):
    """The names and selects of a target, the highest first."""
    if isinstance(target, Concat):
        return [leaf for part in target.terms for leaf in leaves(part)]
    return [target]


def index_terms(target, scope):
    """The indexes in a target, each with the width and sign of its context."""
    return [terms.alone(part, scope) for leaf in leaves(target) if not isinstance(leaf, Name) for part in leaf.parts()]


def right_side(target, value, scope):
    """The value of an assignment with the width and sign of its context."""
    return value, max(terms.width_of(target, scope), terms.width_of(value, scope)), value.own_sign(scope)


def leaf_writes(leaf, scope, state):
    """The signal or word, the offset and the width that a leaf names in a state; None for a word that there is not."""
    if isinstance(leaf, WordOf):
        return leaf.found_word(scope, state), 0, terms.width_of(leaf, scope)
    signal = scope.find(leaf.name())
    return signal, 0 if isinstance(leaf, Name) else leaf.found_offset(scope, state), terms.width_of(leaf, scope)


def assign(target, value, scope, state, queued=False):
    """Evaluates the indexes and the value, and then writes, or queues the write."""
    places = [leaf_writes(leaf, scope, state) for leaf in leaves(target)]
    result = vectors.extend(value.value(scope, state, *right_side(target, value, scope)[1:]), terms.width_of(target, scope),
                            value.own_sign(scope))
    above, write = result.width, state.queue if queued else state.write
    for thing, low, width in places:
        above -= width
        if thing:
            write(thing, low, vectors.select(result, above, width))


def sure_masks(target, scope):
    """The bits of signals that a target surely writes."""
    found = {}
    for leaf in leaves(target):
        if isinstance(leaf, Name) or isinstance(leaf, Select) and leaf.is_constant(scope):
            signal, low, width = leaf_writes(leaf, scope, None)
            found[signal] = found.get(signal, 0) | vectors.written_mask(signal.width, low, width)
    return found


def possible_masks(target, scope):
    """The bits of signals that a target may write; of a memory it may write all words."""
    found = sure_masks(target, scope)
    for leaf in leaves(target):
        if isinstance(leaf, WordOf) or isinstance(leaf, Select) and not leaf.is_constant(scope):
            found.update((it, vectors.mask(it.width)) for it in scope.find(leaf.name()).things())
    return found


def united(masks, more):
    return {signal: masks.get(signal, 0) | more.get(signal, 0) for signal in {**masks, **more}}


def common(outcomes):
    """The bits that are written in each of these outcomes."""
    signals = set(outcomes[0]).intersection(*outcomes[1:])
    return {signal: reduce(and_, (it[signal] for it in outcomes)) for signal in signals}


class Statement:
    """A statement, with the number and the word of its line point if it has one."""
    point = None
    line = None
    word = None

    def inner(self):
        """The statements directly in it."""
        return []

    def texts(self):
        """The terms directly in it, in order of text."""
        return []

    def in_order(self):
        """The terms and statements directly in it, in order of text."""
        return self.texts() + self.inner()

    def copies(self, scope):
        """The statement and those in it, once for each turn of each loop."""
        yield self, scope
        for statement in self.inner():
            yield from statement.copies(scope)

    def evaluated(self, scope):
        """The terms directly in it, each with the width and sign of its context."""
        return [terms.alone(term, scope) for term in self.texts()]

    def most_named(self, scope, signal):
        """How often targets name a signal on the path on which they do most often."""
        return 0


class Block(Statement):
    """`begin .. end`."""

    def __init__(self, statements, name=None):
        self.statements, self.named = statements, name

    def inner(self):
        return self.statements

    def most_named(self, scope, signal):
        return sum(statement.most_named(scope, signal) for statement in self.statements)

    def execute(self, scope, state):
        for statement in self.statements:
            statement.execute(scope, state)

    def flow(self, scope, written, note):
        for statement in self.statements:
            written = statement.flow(scope, written, note)
        return written

    def walk(self, scope, view, sure):
        for statement in self.statements:
            statement.walk(scope, view, sure)


class Empty(Statement):
    """A semicolon alone."""

    def execute(self, scope, state):
        pass

    def flow(self, scope, written, note):
        return written

    def walk(self, scope, view, sure):
        pass


class Task(Empty):
    """A system task, which is no point and reads nothing."""

    def __init__(self, text):
        self.written = text


class If(Statement):
    """`if` with an `else` or without."""
    word = "if"

    def __init__(self, test, yes, no=None):
        self.test, self.yes, self.no = test, yes, no

    def inner(self):
        return [self.yes] + ([self.no] if self.no else [])

    def most_named(self, scope, signal):
        return max(statement.most_named(scope, signal) for statement in self.inner())

    def texts(self):
        return [self.test]

    def execute(self, scope, state):
        state.reached(self)
        if vectors.truth(self.test.value(scope, state)) is True:
            self.yes.execute(scope, state)
        elif self.no:
            self.no.execute(scope, state)

    def flow(self, scope, written, note):
        note(self.test.mentions(scope), written)
        return common([self.yes.flow(scope, written, note), self.no.flow(scope, written, note) if self.no else written])

    def walk(self, scope, view, sure):
        view.reached(self, sure)
        view.evaluated(scope, *terms.alone(self.test, scope), sure)
        decided = view.decided(scope, [terms.alone(self.test, scope)], lambda value: vectors.truth(value) is True)
        if decided is not False:
            self.yes.walk(scope, view, sure and decided is True)
        if decided is not True and self.no:
            self.no.walk(scope, view, sure and decided is False)


class Arm:
    """An arm of a case; without labels it is the default."""

    def __init__(self, labels, body):
        self.labels, self.body = labels, body


class Case(Statement):
    """`case`, `casez` or `casex`."""
    word = "case"

    def __init__(self, kind, selector, arms):
        self.kind, self.selector, self.arms = kind, selector, arms

    def inner(self):
        return [arm.body for arm in self.arms]

    def most_named(self, scope, signal):
        return max((arm.body.most_named(scope, signal) for arm in self.arms), default=0)

    def texts(self):
        return [self.selector] + [label for arm in self.arms for label in arm.labels]

    def in_order(self):
        return [self.selector] + [part for arm in self.arms for part in (*arm.labels, arm.body)]

    def evaluated(self, scope):
        width = max(term.own_width(scope) for term in self.texts())
        signed = all(term.own_sign(scope) for term in self.texts())
        return [(term, width, signed) for term in self.texts()]

    def default(self):
        return next((arm for arm in self.arms if not arm.labels), None)

    def labels(self):
        """Each label with its arm, in order."""
        return [(label, arm) for arm in self.arms for label in arm.labels]

    def execute(self, scope, state):
        state.reached(self)
        _, width, signed = self.evaluated(scope)[0]
        selector = self.selector.value(scope, state, width, signed)
        chosen = self.default()
        for label, arm in self.labels():
            if vectors.matches(self.kind, selector, label.value(scope, state, width, signed)):
                chosen = arm
                break
        if chosen:
            chosen.body.execute(scope, state)

    def flow(self, scope, written, note):
        note(self.selector.mentions(scope), written)
        for label, _ in self.labels():
            note(label.mentions(scope), written)
        outcomes = [arm.body.flow(scope, written, note) for arm in self.arms]
        return common(outcomes if self.default() else outcomes + [written])

    def walk(self, scope, view, sure):
        view.reached(self, sure)
        shaped = self.evaluated(scope)
        view.evaluated(scope, *shaped[0], sure)
        possible, open_from_here, labels_sure = [], True, sure
        for (label, arm), shape in zip(self.labels(), shaped[1:]):
            view.evaluated(scope, *shape, labels_sure)
            decided = view.decided(scope, [shaped[0], shape], lambda a, b: vectors.matches(self.kind, a, b))
            if decided is not False:
                possible.append(arm)
                labels_sure = False
            if decided is True:
                open_from_here = False
                break
        if open_from_here:
            possible.append(self.default())
        chosen = list(dict.fromkeys(possible))
        for arm in chosen:
            if arm:
                arm.body.walk(scope, view, sure and len(chosen) == 1)


class For(Statement):
    """A loop whose header is constant: from `first` by `step` while below `end`, or above it for a negative step."""
    word = "for"

    def __init__(self, variable, first, end, step, body):
        self.variable, self.first, self.end, self.step, self.body = variable, first, end, step, body

    def inner(self):
        return [self.body]

    def turns(self, scope):
        """The scope of each turn, which is made once for each scope around it."""
        if self not in scope.answers:
            scope.answers[self] = [scope.with_constant(self.variable, Constant(vectors.of_number(32, turn), True))
                                   for turn in range(self.first, self.end, self.step)]
        return scope.answers[self]

    def most_named(self, scope, signal):
        return sum(self.body.most_named(turn, signal) for turn in self.turns(scope))

    def copies(self, scope):
        yield self, scope
        for turn in self.turns(scope):
            yield from self.body.copies(turn)

    def execute(self, scope, state):
        state.reached(self)
        for turn in self.turns(scope):
            self.body.execute(turn, state)

    def flow(self, scope, written, note):
        for turn in self.turns(scope):
            written = self.body.flow(turn, written, note)
        return written

    def walk(self, scope, view, sure):
        view.reached(self, sure)
        for turn in self.turns(scope):
            self.body.walk(turn, view, sure)


class Set(Statement):
    """A blocking assignment, or a nonblocking one where it is queued."""
    word = "assign"

    def __init__(self, target, value, queued=False):
        self.target, self.value, self.queued = target, value, queued

    def texts(self):
        return [self.target, self.value]

    def evaluated(self, scope):
        return [*index_terms(self.target, scope), right_side(self.target, self.value, scope)]

    def most_named(self, scope, signal):
        return sum(scope.find(leaf.name()) is signal for leaf in leaves(self.target))

    def execute(self, scope, state):
        state.reached(self)
        assign(self.target, self.value, scope, state, self.queued)

    def flow(self, scope, written, note):
        for term, _, _ in self.evaluated(scope):
            note(term.mentions(scope), written)
        return written if self.queued else united(written, sure_masks(self.target, scope))

    def walk(self, scope, view, sure):
        view.reached(self, sure)
        for term, width, signed in self.evaluated(scope):
            view.evaluated(scope, term, width, signed, sure)
        for leaf in leaves(self.target):
            if isinstance(leaf, WordOf):
                view.named_word(scope, leaf, write_key, sure)


def statements_in(body):
    """A statement and all statements in it."""
    todo = [body]
    while todo:
        statement = todo.pop()
        yield statement
        todo.extend(statement.inner())


def read_names(body):
    """The names that the text of a statement reads, in loops without turns too."""
    found, todo = [], [body]
    while todo:
        statement = todo.pop(0)
        for term in statement.texts():
            found += index_names(term) if isinstance(statement, Set) and term is statement.target else names_in(term)
        todo += statement.inner()
    return found


def names_in(term):
    return [it.name() for it in term.everything() if it.name()]


def index_names(target):
    """The names in the indexes of a target."""
    return [name for leaf in leaves(target) for part in leaf.parts() for name in names_in(part)]
