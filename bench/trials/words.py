"""Words of memories in expressions and as targets, and which of them a term reads and a target writes."""
from . import vectors
from .terms import Term, alone, width_of


class WordOf(Term):
    """A word of a memory by an index: an operand or a target."""

    def __init__(self, name, index):
        self.named, self.index = name, index

    def name(self):
        return self.named

    def parts(self):
        return [self.index]

    def own_width(self, scope):
        return scope.find(self.named).width

    def own_sign(self, scope):
        return scope.find(self.named).signed

    def named_word(self, scope, index):
        """The word that a value of the index names, or None."""
        return scope.find(self.named).word(vectors.index(index, self.index.own_sign(scope)))

    def found_word(self, scope, state):
        return self.named_word(scope, self.index.value(scope, state))

    def made(self, scope, state, values, signed):
        word = self.named_word(scope, values[0])
        return vectors.fill(width_of(self, scope), "x") if word is None else state.read_word(word)

    def text(self):
        return f"{self.named}[{self.index.text()}]"


class SelectOfWord(Term):
    """Some bits of a word: `select` has the memory's name. Its indexes are evaluated before the word and its index."""

    def __init__(self, word, select):
        self.of_word, self.select = word, select

    def parts(self):
        return [self.of_word, *self.select.parts()]

    def own_width(self, scope):
        return self.select.own_width(scope)

    def operands(self, scope, width, signed):
        return [alone(part, scope) for part in (*self.select.parts(), self.of_word)]

    def made(self, scope, state, values, signed):
        return vectors.select(values[-1], self.select.offset(scope, values[:-1]), width_of(self, scope))

    def text(self):
        return self.of_word.text() + self.select.text()[len(self.select.name()):]


def read_key(word):
    """The key of the point that a word is read."""
    return "r", word.full_name


def write_key(word):
    return "w", word.full_name
