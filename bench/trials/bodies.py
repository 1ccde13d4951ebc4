"""Random bodies of blocks."""
from . import vectors
from .expressions import random_number
from .statements import Arm, Block, Case, Empty, For, If, Set, Task, leaves, read_names, statements_in
from .terms import Binary, Bit, Constant, Name, decimal
from .words import WordOf


class Bodies:
    """Makes the body of one block, which writes the targets. `loops` gets the variables of its loops."""

    def __init__(self, expressions, targets, new_loop):
        self.make, self.chance, self.targets = expressions, expressions.chance, targets
        self.new_loop, self.loops, self.reads_own, self.blocks = new_loop, [], 0.0, 0
        self.memories = []

    def term(self, depth=2):
        """An expression that may read the targets too."""
        if self.chance.random() >= self.reads_own:
            return self.make.term(depth)
        kept = list(self.make.readable)
        self.make.readable += self.targets * 2
        made = self.make.term(depth)
        self.make.readable[:] = kept
        return made

    def defaults(self):
        """An assignment to each target whole."""
        return [self.set(Name(name), self.term()) for name in self.targets]

    def set(self, target, value):
        return Set(target, value)

    def together(self):
        """Targets that one assignment may write."""
        return self.targets

    def word(self):
        """An assignment to a word of a memory that the block writes."""
        name = self.chance.choice(self.memories)
        return self.set(WordOf(name, self.make.word_index(name)), self.term(self.chance.choice([0, 0, 1, 2])))

    def assignment(self):
        if self.memories and (not self.targets or self.chance.random() < 0.5):
            return self.word()
        return self.set(self.make.target(self.together()), self.term(self.chance.choice([0, 1, 2, 3])))

    def statement(self, depth):
        if depth <= 0 or self.chance.random() < 0.3:
            return Empty() if self.chance.random() < 0.04 else self.assignment()
        forms = [self.block, self.branch, self.case, self.loop]
        return self.chance.choices(forms, [25, 38, 27, 10])[0](depth - 1)

    def block(self, depth):
        name = None
        if self.chance.random() < 0.1:
            self.blocks += 1
            name = f"block_{(self.targets + self.memories)[0]}_{self.blocks}"
        return Block([self.statement(depth) for _ in range(self.chance.choice([0, 1, 2, 2, 3]))], name)

    def branch(self, depth):
        other = self.statement(depth) if self.chance.random() < 0.6 else None
        return If(self.term(), self.statement(depth), other)

    def case(self, depth):
        chance = self.chance
        kind, selector = chance.choice(["case", "case", "casez", "casex"]), self.term(1)
        width = min(max(self.make.width(selector), 1), 12)
        arms = [Arm([self.label(kind, width) for _ in range(chance.choice([1, 1, 1, 2, 3]))], self.statement(depth))
                for _ in range(chance.randint(1, 4))]
        if chance.random() < 0.6:
            arms.insert(chance.choice([len(arms), len(arms), chance.randint(0, len(arms))]), Arm([], self.statement(depth)))
        return Case(kind, selector, arms)

    def label(self, kind, width):
        """A label: mostly a number, at times with digits that match any."""
        chance = self.chance
        if chance.random() < 0.12:
            return self.term(1)
        if kind == "case" or chance.random() < 0.4:
            return random_number(chance, width)
        return random_number(chance, width, unknown=0.1 if kind == "casex" else 0.02, ignored=0.3)

    def loop(self, depth):
        """A loop of some turns, in which a bit by its variable is assigned."""
        chance = self.chance
        variable = self.new_loop()
        self.loops.append(variable)
        first, end, step = chance.choice([(0, 4, 1), (0, 2, 1), (3, -1, -1), (1, 8, 3), (2, 2, 1), (0, 6, 2)])
        turn = Constant(vectors.of_number(32, first), True)
        scopes, constants = self.make.scopes, self.make.constants
        self.make.scopes = [scope.with_constant(variable, turn) for scope in scopes]
        self.make.constants = [*constants, variable, variable]
        highest = max(range(first, end, step), default=0)
        inner = [self.indexed(variable, highest)] + [self.statement(min(depth, 1)) for _ in range(chance.choice([0, 0, 1]))]
        self.make.scopes, self.make.constants = scopes, constants
        return For(variable, first, end, step, inner[0] if len(inner) == 1 else Block(inner))

    def indexed(self, variable, highest):
        """An assignment to a bit that the loop's variable names, which is at most `highest`."""
        chance = self.chance
        ranged = [name for name in self.targets if self.in_range(name, 0, highest + 2)]
        if not ranged:
            return self.assignment()
        index = Name(variable) if chance.random() < 0.7 else Binary("+", Name(variable), decimal(chance.randint(0, 2)))
        read = [name for name in self.make.readable if self.in_range(name, 0, highest)]
        value = Bit(chance.choice(read), Name(variable)) if read and chance.random() < 0.6 else self.term(1)
        return self.set(Bit(chance.choice(ranged), index), value)

    def in_range(self, name, low, high):
        """Whether all these indexes are of the signal: a constant select may not be out of range."""
        bounds = self.make.bounds(name)
        return bounds is not None and bounds[0] <= low and high <= bounds[1]


class ClockedBodies(Bodies):
    """The body of a clocked block, of whose targets those in `later` are written by nonblocking assignments."""

    def __init__(self, expressions, targets, new_loop, later):
        super().__init__(expressions, targets, new_loop)
        self.later = set(later)

    def set(self, target, value):
        return Set(target, value, leaves(target)[0].name() in self.later)

    def together(self):
        is_later = self.chance.choice(self.targets) in self.later
        return [name for name in self.targets if (name in self.later) == is_later]

    def statement(self, depth):
        return Task('$display("%b", 1)') if self.chance.random() < 0.02 else super().statement(depth)


def listed_names(body, constants):
    """The signals that a block reads and does not assign, in order of text."""
    targets = {leaf.name() for statement in statements_in(body) if isinstance(statement, Set) for leaf in leaves(statement.target)}
    return [name for name in dict.fromkeys(read_names(body)) if name not in targets and name not in constants]
