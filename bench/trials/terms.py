"""Expressions: their text, their widths and signs, and their values in a state (IEEE 1364-2001, clause 4).

A term has names, not signals: a scope says what each name is in one instance. `width` and `signed` are what the context gives
a term. A state reads signals and is told of each counted node that is evaluated.
"""
from typing import NamedTuple

from . import vectors
from .vectors import Vector

AND, OR = ("&", "&&"), ("|", "||")
WIDE = (*vectors.ARITHMETIC, *vectors.BITWISE)
LEVELS = {"*": 2, "/": 2, "%": 2, "+": 3, "-": 3, "<<": 4, ">>": 4, "<<<": 4, ">>>": 4, "<": 5, "<=": 5, ">": 5, ">=": 5,
          "==": 6, "!=": 6, "===": 6, "!==": 6, "&": 7, "^": 8, "~^": 8, "^~": 8, "|": 9, "&&": 10, "||": 11}


class Constant(NamedTuple):
    """What the name of a parameter or of a loop's variable means."""
    vector: Vector
    signed: bool

    @property
    def width(self):
        return self.vector.width


def cases_of(operator, operands):
    """The cases that a node can have: `operands` is their number."""
    if operands < 2:
        return ["0", "1"]
    return ["0-", "-0", "11"] if operator in AND else ["1-", "-1", "00"] if operator in OR else ["00", "01", "10", "11"]


def holds(case, truths):
    """Whether a node with operands of these truths, or of its own truth, has the case."""
    return all(digit == "-" or truth is (digit == "1") for digit, truth in zip(case, truths))


class Term:
    """An expression, and its number among the counted nodes of its module if it is one."""
    node = None
    line = None
    level = 0
    word = "value"

    def parts(self):
        """The terms directly in it, in order of text and of evaluation."""
        return []

    def name(self):
        """The signal or constant that it names itself."""
        return None

    def own_sign(self, scope):
        return False

    def operands(self, scope, width, signed):
        """The terms directly in it, each with the width and sign of its context."""
        return [alone(part, scope) for part in self.parts()]

    def shaped(self, scope, width, signed):
        """The operands, which are found once for each scope and context."""
        key = self, width, signed
        if key not in scope.answers:
            scope.answers[key] = self.operands(scope, width, signed)
        return scope.answers[key]

    def truths(self, values, result):
        """The truths by which its cases go."""
        return [vectors.truth(result)]

    def value(self, scope, state, width=None, signed=None):
        """The value in a context of this width and sign, or in one of its own."""
        if width is None:
            _, width, signed = alone(self, scope)
        values = [term.value(scope, state, w, s) for term, w, s in self.shaped(scope, width, signed)]
        result = vectors.extend(self.made(scope, state, values, signed), width, signed)
        if self.node:
            state.evaluated(self, self.truths(values, result))
        return result

    def inside(self, level):
        """The text as an operand, in parentheses where it needs them."""
        return self.text() if self.level <= level else f"({self.text()})"

    def everything(self):
        """The term and all terms in it, an outer one first."""
        yield self
        for part in self.parts():
            yield from part.everything()

    def within(self, scope, width, signed):
        """The same, each with the width and sign of its context."""
        yield self, width, signed
        for term, w, s in self.shaped(scope, width, signed):
            yield from term.within(scope, w, s)

    def mentions(self, scope):
        """The signals that it names, and all words of the memories that it names."""
        named = (scope.find(term.name()) for term in self.everything() if term.name())
        return {thing for it in named if not isinstance(it, Constant) for thing in it.things()}


def alone(term, scope):
    """The term with the width and sign that it has by itself, which are found once for each scope."""
    if term not in scope.answers:
        scope.answers[term] = term, term.own_width(scope), term.own_sign(scope)
    return scope.answers[term]


def width_of(term, scope):
    return alone(term, scope)[1]


class Number(Term):
    """A literal, or a number as such."""

    def __init__(self, text, vector, signed):
        self.written, self.vector, self.signed = text, vector, signed

    def own_width(self, scope):
        return self.vector.width

    def own_sign(self, scope):
        return self.signed

    def made(self, scope, state, values, signed):
        return self.vector

    def text(self):
        return self.written


def decimal(number):
    return Number(str(number), vectors.of_number(32, number), True)


class Name(Term):
    """A signal, a parameter or a loop's variable."""

    def __init__(self, name):
        self.named = name

    def name(self):
        return self.named

    def own_width(self, scope):
        return scope.find(self.named).width

    def own_sign(self, scope):
        return scope.find(self.named).signed

    def made(self, scope, state, values, signed):
        found = scope.find(self.named)
        return found.vector if isinstance(found, Constant) else state.read(found)

    def text(self):
        return self.named


class Select(Term):
    """Some bits of a signal."""

    def __init__(self, name):
        self.named = name

    def name(self):
        return self.named

    def offset(self, scope, values):
        """How far the lowest bit is above that of the signal, or None for an index with x or z."""
        raise NotImplementedError

    def made(self, scope, state, values, signed):
        return vectors.select(state.read(scope.find(self.named)), self.offset(scope, values), width_of(self, scope))

    def found_offset(self, scope, state):
        return self.offset(scope, [part.value(scope, state) for part in self.parts()])

    def is_constant(self, scope):
        return not any(part.mentions(scope) for part in self.parts())


class Bit(Select):
    """One bit by an index."""

    def __init__(self, name, index):
        super().__init__(name)
        self.index = index

    def parts(self):
        return [self.index]

    def own_width(self, scope):
        return 1

    def offset(self, scope, values):
        at = vectors.index(values[0], self.index.own_sign(scope))
        return None if at is None else scope.find(self.named).offset(at)

    def text(self):
        return f"{self.named}[{self.index.text()}]"


class Part(Select):
    """A part between two constant bounds."""

    def __init__(self, name, high, low):
        super().__init__(name)
        self.high, self.low = high, low

    def parts(self):
        return [self.high, self.low]

    def own_width(self, scope):
        high, low = (bound.value(scope, None).ones for bound in self.parts())
        return abs(high - low) + 1

    def offset(self, scope, values):
        return scope.find(self.named).offset(values[1].ones)

    def text(self):
        return f"{self.named}[{self.high.text()}:{self.low.text()}]"


class Slide(Select):
    """A part of constant width from a base, upwards or downwards."""

    def __init__(self, name, base, size, up):
        super().__init__(name)
        self.base, self.size, self.up = base, size, up

    def parts(self):
        return [self.base, self.size]

    def own_width(self, scope):
        return self.size.value(scope, None).ones

    def offset(self, scope, values):
        base, signal, width = vectors.index(values[0], self.base.own_sign(scope)), scope.find(self.named), values[1].ones
        if base is None:
            return None
        least = base if self.up else base - (width - 1)
        return signal.offset(least if signal.high >= signal.low else least + width - 1)

    def text(self):
        return f"{self.named}[{self.base.text()} {'+' if self.up else '-'}: {self.size.text()}]"


class Unary(Term):
    """An operator before one operand."""
    level = 1

    def __init__(self, operator, operand):
        self.word, self.operand = operator, operand

    def parts(self):
        return [self.operand]

    def is_wide(self):
        return self.word in ("+", "-", "~")

    def own_width(self, scope):
        return self.operand.own_width(scope) if self.is_wide() else 1

    def own_sign(self, scope):
        return self.is_wide() and self.operand.own_sign(scope)

    def operands(self, scope, width, signed):
        return [(self.operand, width, signed) if self.is_wide() else alone(self.operand, scope)]

    def made(self, scope, state, values, signed):
        return vectors.UNARY[self.word](values[0])

    def text(self):
        return self.word + self.operand.inside(0)


class Binary(Term):
    """An operator between two operands."""

    def __init__(self, operator, left, right):
        self.word, self.left, self.right = operator, left, right
        self.level = LEVELS[operator]

    def parts(self):
        return [self.left, self.right]

    def own_width(self, scope):
        widths = [part.own_width(scope) for part in self.parts()]
        return max(widths) if self.word in WIDE else widths[0] if self.word in vectors.SHIFTS else 1

    def own_sign(self, scope):
        if self.word in WIDE:
            return self.left.own_sign(scope) and self.right.own_sign(scope)
        return self.word in vectors.SHIFTS and self.left.own_sign(scope)

    def operands(self, scope, width, signed):
        left, right = alone(self.left, scope), alone(self.right, scope)
        if self.word in WIDE:
            return [(self.left, width, signed), (self.right, width, signed)]
        if self.word in vectors.SHIFTS:
            return [(self.left, width, signed), right]
        if self.word in vectors.LOGIC:
            return [left, right]
        common = max(left[1], right[1]), left[2] and right[2]
        return [(self.left, *common), (self.right, *common)]

    def truths(self, values, result):
        return [vectors.truth(value) for value in values]

    def made(self, scope, state, values, signed):
        if self.word not in (*WIDE, *vectors.SHIFTS):
            signed = self.left.own_sign(scope) and self.right.own_sign(scope)
        return vectors.binary(self.word, signed, *values)

    def text(self):
        return f"{self.left.inside(self.level)} {self.word} {self.right.inside(self.level - 1)}"


class Choice(Term):
    """`test ? yes : no`."""
    level = 12

    def __init__(self, test, yes, no):
        self.test, self.yes, self.no = test, yes, no

    def parts(self):
        return [self.test, self.yes, self.no]

    def own_width(self, scope):
        return max(self.yes.own_width(scope), self.no.own_width(scope))

    def own_sign(self, scope):
        return self.yes.own_sign(scope) and self.no.own_sign(scope)

    def operands(self, scope, width, signed):
        return [alone(self.test, scope), (self.yes, width, signed), (self.no, width, signed)]

    def made(self, scope, state, values, signed):
        return vectors.choose(vectors.truth(values[0]), values[1], values[2])

    def text(self):
        return f"{self.test.inside(11)} ? {self.yes.inside(12)} : {self.no.inside(12)}"


class Concat(Term):
    """Terms side by side, `count` times where there is a count."""

    def __init__(self, terms, count=None):
        self.terms, self.count = terms, count

    def parts(self):
        return ([self.count] if self.count else []) + self.terms

    def times(self, scope):
        return self.count.value(scope, None).ones if self.count else 1

    def own_width(self, scope):
        return self.times(scope) * sum(term.own_width(scope) for term in self.terms)

    def made(self, scope, state, values, signed):
        return vectors.joined((values[1:] if self.count else values) * self.times(scope))

    def text(self):
        inner = "{" + ", ".join(term.text() for term in self.terms) + "}"
        return "{" + self.count.inside(0) + inner + "}" if self.count else inner


class Sign(Term):
    """`$signed(..)` or `$unsigned(..)`."""

    def __init__(self, signed, operand):
        self.signed, self.operand = signed, operand

    def parts(self):
        return [self.operand]

    def own_width(self, scope):
        return self.operand.own_width(scope)

    def own_sign(self, scope):
        return self.signed

    def made(self, scope, state, values, signed):
        return values[0]

    def text(self):
        return f"{'$signed' if self.signed else '$unsigned'}({self.operand.text()})"


class Paren(Term):
    """Parentheses that the text has though it needs none."""

    def __init__(self, operand):
        self.operand = operand

    def parts(self):
        return [self.operand]

    def own_width(self, scope):
        return self.operand.own_width(scope)

    def own_sign(self, scope):
        return self.operand.own_sign(scope)

    def operands(self, scope, width, signed):
        return [(self.operand, width, signed)]

    def made(self, scope, state, values, signed):
        return values[0]

    def text(self):
        return f"({self.operand.text()})"


def bare(term):
    """The term without the parentheses around it."""
    while isinstance(term, Paren):
        term = term.operand
    return term
