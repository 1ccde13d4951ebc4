"""Kinds of items with memories: clocked blocks that write words, and memories that nothing writes."""
from .bodies import ClockedBodies
from .designs import Assign, Declared, Plain
from .expressions import random_number, random_width
from .kinds import Kind
from .registers import ClockedKind, Registers, random_events
from .statements import Block, For, If, Set
from .terms import Binary, Name, Unary, decimal
from .words import WordOf


def new_memory(builder):
    """A memory of one to sixteen words, in either direction, which a parameter may give; at times some words have a value at first."""
    chance = builder.chance
    made = Declared(builder.new_name("m"), "reg", None, chance.random() < 0.2, words=word_bounds(builder))
    width = min(random_width(chance), 42)
    if builder.widths and chance.random() < 0.2:
        made.high, made.low = builder.parametric()
    elif width > 1 or chance.random() < 0.2:
        low = chance.choice([0, 0, 0, chance.randrange(1, 9)])
        ends = (width - 1 + low, low) if chance.random() < 0.8 else (low, width - 1 + low)
        made.high, made.low = map(decimal, ends)
    builder.module.declared.append(made)
    builder.declare(made)
    builder.memories.add(made.name)
    if chance.random() < 0.4:
        low, high = builder.make.word_bounds(made.name)
        sets = " ".join(f"{made.name}[{at}] = {random_number(chance).text()};" for at in range(low, high + 1) if chance.random() < 0.7)
        builder.module.items.append(Plain(f"initial begin {sets} end"))
    return made.name


def word_bounds(builder):
    """The two bounds of the indexes."""
    chance = builder.chance
    if builder.widths and chance.random() < 0.25:
        name = Name(chance.choice(builder.widths))
        return chance.choice([(decimal(0), Binary("-", name, decimal(1))), (Binary("-", name, decimal(1)), decimal(0)),
                              (decimal(0), name), (name, decimal(0))])
    low, count = chance.choice([0, 0, 0, 0, 1, chance.randrange(2, 9)]), chance.choice([1, 2, 2, 3, 4, 4, 4, 5, 6, 8, 8, 16])
    ends = decimal(low), decimal(low + count - 1)
    return ends if chance.random() < 0.7 else ends[::-1]


def readable(builder, name):
    builder.make.memories.append(name)


def read_by_net(builder, name):
    """A net that is a word of the memory."""
    net = builder.new_target("wire")
    builder.module.items.append(Assign([(Name(net.name), WordOf(name, builder.make.word_index(name)))]))
    builder.made_readable(net)


class Rom(Kind):
    """A memory that nothing writes, and mostly a net that reads it."""
    weight = 6

    def add(self, builder):
        name = new_memory(builder)
        readable(builder, name)
        if builder.chance.random() < 0.7:
            read_by_net(builder, name)


class Ram(ClockedKind):
    """A memory that is written where a bit says so, and read by a net, by the block itself, or by another block."""
    weight = 40

    def add(self, builder):
        chance, events = builder.chance, random_events(builder)
        name = new_memory(builder)
        target = self.declared(builder, 1)[0]
        later, make = self.later(builder, [name, target.name]), builder.make
        write = Set(WordOf(name, make.word_index(name)), make.term(chance.choice([0, 0, 1])), name in later)
        if chance.random() < 0.6:
            write = If(make.term(chance.choice([0, 0, 1])), write)
        read = Set(Name(target.name), WordOf(name, make.word_index(name)), target.name in later)
        resets = [(edge, it) for edge, it in events if it.startswith("rst")]
        loops = []
        if chance.random() < 0.35:
            write, loops = self.with_clearing(builder, name, resets, write, name in later)
        if chance.random() < 0.5:
            self.put(builder, events, Block(chance.choice([[write, read], [read, write]])), loops)
        else:
            self.put(builder, events, write, loops)
            self.put(builder, events if chance.random() < 0.7 else random_events(builder), read)
        self.readable(builder, [target])
        readable(builder, name)
        if chance.random() < 0.6:
            read_by_net(builder, name)

    @staticmethod
    def with_clearing(builder, name, resets, write, is_later):
        """The write below a test of a reset or of another bit, which sets all words in a loop; and the loop's variable."""
        chance, (low, high), variable = builder.chance, builder.make.word_bounds(name), builder.new_loop()
        value = Name(variable) if chance.random() < 0.3 else builder.make.term(chance.choice([0, 0, 1]))
        loop = For(variable, low, high + 1, 1, Set(WordOf(name, Name(variable)), value, is_later))
        test = Name(resets[0][1]) if resets else builder.make.leaf()
        if resets and resets[0][0] == "negedge":
            test = Unary("!", test)
        return If(test, loop, write), [variable]


class Words(Registers):
    """A block with a random body that writes memories, and at times registers too."""
    weight = 40

    def add(self, builder):
        chance, events = builder.chance, random_events(builder)
        memories = [new_memory(builder) for _ in range(chance.choice([1, 1, 1, 2]))]
        targets = self.declared(builder, chance.choice([0, 0, 1, 1, 2]))
        reads_own = chance.random() < 0.5
        if reads_own:
            builder.make.memories += memories
        self.add_block(builder, events, [target.name for target in targets], memories)
        self.readable(builder, targets)
        if not reads_own:
            builder.make.memories += memories
        if chance.random() < 0.6:
            read_by_net(builder, chance.choice(memories))

    def add_block(self, builder, events, names, memories=()):
        chance = builder.chance
        bodies = ClockedBodies(builder.make, names, builder.new_loop, self.later(builder, [*names, *memories]))
        bodies.memories = list(memories)
        bodies.reads_own = chance.choice([0.0, 0.3, 0.6]) if names else 0.0
        statements = bodies.defaults() if names and chance.random() < 0.2 else []
        statements += [bodies.word()] if chance.random() < 0.5 else []
        statements += [bodies.statement(chance.choice([1, 2, 3])) for _ in range(chance.choice([1, 1, 2]))]
        self.put(builder, events, statements[0] if len(statements) == 1 else Block(statements), bodies.loops)


class Loop(ClockedKind):
    """A memory whose words a loop moves on by one."""
    weight = 10

    def add(self, builder):
        chance, events, variable = builder.chance, random_events(builder), builder.new_loop()
        name = new_memory(builder)
        low, high = builder.make.word_bounds(name)
        is_later = name in self.later(builder, [name])
        moved = Set(WordOf(name, Binary("+", Name(variable), decimal(1))), WordOf(name, Name(variable)), is_later)
        first = Set(WordOf(name, decimal(low)), builder.make.term(1), is_later)
        loop = For(variable, low, high, 1, moved)
        self.put(builder, events, Block(chance.choice([[loop, first], [first, loop]])), [variable])
        readable(builder, name)
        if chance.random() < 0.8:
            read_by_net(builder, name)


MEMORY_KINDS = [Rom()]
CLOCKED_MEMORY_KINDS = [Ram(), Words(), Loop()]
