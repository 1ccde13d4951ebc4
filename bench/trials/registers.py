"""Kinds of items with clocked blocks: registers, with and without a reset, chains, exchanges, dividers, and machines of states.

The event signals of a block are chosen before what it writes is declared, so that no block wakes itself and a step ends. What it
reads may be made later.
"""
from .bodies import ClockedBodies
from .designs import Clocked
from .kinds import CompleteBlock, InnerReads, Kind, Latch, Net
from .statements import Block, If, Set
from .terms import Binary, Name, Unary


def one_bit_names(builder):
    """The readable names of one bit that are no ports for clocks."""
    return [name for name in builder.make.readable if name not in builder.module.clocks
            and all(scope.find(name).width == 1 for scope in builder.make.scopes)]


def random_events(builder):
    """The events of a block: mostly an edge of a clock, at times with that of a reset or of another clock."""
    chance, inputs = builder.chance, builder.module.clocks
    clocks = [name for name in inputs if name.startswith("clk")]
    resets = [name for name in inputs if name.startswith("rst")]
    derived = one_bit_names(builder)
    if derived and chance.random() < chance.choice([0.05, 0.12, 0.5]):
        clocks = derived
    events = [(chance.choice(["posedge", "posedge", "negedge"]), chance.choice(clocks))]
    if resets and chance.random() < 0.35:
        events.append((chance.choice(["posedge", "negedge"]), chance.choice(resets)))
    elif chance.random() < 0.1:
        more = chance.choice([*clocks, *derived])
        events.append((chance.choice(["posedge", "negedge"]), more))
    if len(events) > 1 and events[0] == events[1]:
        events.pop()
    if chance.random() < 0.3:
        events.reverse()
    return events


class ClockedKind(Kind):
    """A kind of clocked blocks."""

    @staticmethod
    def later(builder, names):
        """The targets that nonblocking assignments write: mostly all, at times some or none."""
        form = builder.chance.random()
        if form < 0.7:
            return set(names)
        return set() if form < 0.85 else {name for name in names if builder.chance.random() < 0.5}

    @staticmethod
    def put(builder, events, body, loops=()):
        separator = builder.chance.choice([" or ", " or ", ", "])
        builder.module.items.append(Clocked(body, events, loops=list(loops), separator=separator))

    @staticmethod
    def declared(builder, count, narrow=False):
        return [builder.new_target("reg", narrow=narrow) for _ in range(count)]

    @staticmethod
    def readable(builder, targets):
        for target in targets:
            builder.made_readable(target)


class Registers(ClockedKind):
    """A block with a random body, which a reset may be before."""
    weight = 60

    def add(self, builder):
        events = random_events(builder)
        targets = self.declared(builder, builder.chance.choice([1, 1, 1, 2, 3]))
        self.add_block(builder, events, [target.name for target in targets])
        self.readable(builder, targets)

    def add_block(self, builder, events, names):
        chance = builder.chance
        bodies = ClockedBodies(builder.make, names, builder.new_loop, self.later(builder, names))
        bodies.reads_own = chance.choice([0.0, 0.3, 0.3, 0.6])
        statements = bodies.defaults() if chance.random() < 0.35 else []
        statements += [bodies.statement(chance.choice([1, 2, 3])) for _ in range(chance.choice([0, 1, 1, 2]) if statements else 1)]
        body = statements[0] if len(statements) == 1 else Block(statements)
        resets = [(edge, name) for edge, name in events if name.startswith("rst")]
        if resets and chance.random() < 0.8:
            body = self.with_reset(bodies, *resets[0], body)
        self.put(builder, events, body, bodies.loops)

    @staticmethod
    def with_reset(bodies, edge, name, body):
        """The body below a test of the reset, which writes the targets from constants or from what is readable."""
        chance = bodies.chance
        test = Name(name) if edge == "posedge" else Unary(chance.choice("!~"), Name(name))
        names = [it for it in bodies.targets if chance.random() < 0.9] or bodies.targets[:1]
        sets = [bodies.set(Name(it), bodies.make.term(chance.choice([0, 0, 1]))) for it in names]
        return If(test, sets[0] if len(sets) == 1 else Block(sets), body)


class Pipeline(ClockedKind):
    """A chain of registers, each in a block of its own or all in one."""
    weight = 18

    def add(self, builder):
        chance, events = builder.chance, random_events(builder)
        targets = self.declared(builder, chance.randint(2, 5), narrow=True)
        later, value, sets = self.later(builder, [target.name for target in targets]), builder.make.term(1), []
        for target in targets:
            sets.append(Set(Name(target.name), value, target.name in later))
            value = Name(target.name)
            if chance.random() < 0.3:
                value = Binary(chance.choice("^&|+"), value, builder.make.leaf())
        chance.shuffle(sets)
        if chance.random() < 0.5:
            self.put(builder, events, Block(sets))
        else:
            for it in sets:
                self.put(builder, events if chance.random() < 0.9 else random_events(builder), it)
        self.readable(builder, targets)


class Exchange(ClockedKind):
    """Two registers of which each reads the other, in one block or in two."""
    weight = 8

    def add(self, builder):
        chance, events = builder.chance, random_events(builder)
        targets = self.declared(builder, 2, narrow=True)
        first, second = (target.name for target in targets)
        later = self.later(builder, [first, second])
        sets = [Set(Name(to), self.value(builder, of), to in later) for to, of in ((first, second), (second, first))]
        if chance.random() < 0.3:
            self.put(builder, events, Block(sets))
        else:
            for it in sets:
                self.put(builder, events, it)
        self.readable(builder, targets)

    @staticmethod
    def value(builder, name):
        if builder.chance.random() < 0.6:
            return Name(name)
        return Binary(builder.chance.choice("^&|+-"), Name(name), builder.make.term(1))


class Divider(ClockedKind):
    """A register of one bit that changes at each edge, or where another bit says so: a clock for later blocks."""
    weight = 8

    def add(self, builder):
        chance, events = builder.chance, random_events(builder)
        target = builder.new_declared("reg", narrow=True)
        enables = one_bit_names(builder)
        value = Unary("~", Name(target.name))
        if enables and chance.random() < 0.4:
            value = Binary("^", Name(target.name), Name(chance.choice(enables)))
        body = Set(Name(target.name), value, chance.random() < 0.8)
        self.put(builder, events, body)
        self.readable(builder, [target])


class Machine(Registers):
    """Registers, what is made of them, and the block that writes them, which reads it."""
    weight = 18
    between = [Net(), Net(), CompleteBlock(), InnerReads(), Latch()]

    def add(self, builder):
        events = random_events(builder)
        targets = self.declared(builder, builder.chance.choice([1, 1, 2]))
        self.readable(builder, targets)
        for _ in range(builder.chance.choice([1, 1, 2])):
            builder.chance.choice(self.between).add(builder)
        self.add_block(builder, events, [target.name for target in targets])


CLOCKED_KINDS = [Registers(), Pipeline(), Exchange(), Divider(), Machine()]
