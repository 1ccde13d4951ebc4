"""What a module is made of, by kind. Each kind adds declarations and items to a module under construction.

The kinds of clocked blocks are in `registers`. A kind declares what it writes and makes it readable. All that is made here reads what was made before it, so a design settles; `Cycle` alone reads what comes later, by operators
with which it settles too.
"""
from .bodies import Bodies, listed_names
from .designs import Assign, Comb, Instance, Plain
from .expressions import WIDEST, random_number, random_width
from .statements import Block, Set
from .terms import Binary, Choice, Concat, Name, Part, Slide, Unary, decimal


class Kind:
    """A kind of item, and how likely it is."""
    weight = 1

    def add(self, builder):
        raise NotImplementedError


class Net(Kind):
    """A net with one continuous assignment, by `assign` or with its declaration."""
    weight = 30

    def add(self, builder):
        value = builder.make.term(builder.depth())
        if builder.chance.random() < 0.3:
            net = builder.new_declared("wire", declare=False)
            builder.module.items.append(Assign([(Name(net.name), value)], net))
        else:
            net = builder.new_target("wire")
            builder.module.items.append(Assign([(Name(net.name), value)]))
        builder.made_readable(net)


class JoinedNets(Kind):
    """Nets that one continuous assignment drives together."""
    weight = 5

    def add(self, builder):
        nets = [builder.new_target("wire", narrow=True) for _ in range(builder.chance.randint(2, 3))]
        target = Concat([Name(net.name) for net in nets])
        builder.module.items.append(Assign([(target, builder.make.term(builder.depth()))]))
        for net in nets:
            builder.made_readable(net)


class SplitNet(Kind):
    """A net whose parts have an assignment each; at times a later one reads an earlier part, or some bits have none."""
    weight = 8

    def add(self, builder):
        chance = builder.chance
        net = builder.new_target("wire", ranged=True)
        bounds = builder.make.bounds(net.name)
        if not bounds or bounds[0] == bounds[1]:
            builder.module.items.append(Assign([(Name(net.name), builder.make.term(2))]))
            builder.made_readable(net)
            return
        cut = chance.randrange(bounds[0], bounds[1])
        lower, upper = self.part(builder, net, bounds[0], cut), self.part(builder, net, cut + 1, bounds[1])
        sets = [(lower, builder.make.term(2))]
        if chance.random() < 0.85:
            value = builder.make.term(2)
            if chance.random() < 0.3:
                value = Binary(chance.choice("^&|+"), value, self.part(builder, net, bounds[0], cut))
            sets.append((upper, value))
        if chance.random() < 0.5:
            builder.module.items.append(Assign(sets))
        else:
            builder.module.items += [Assign([pair]) for pair in sets]
        builder.made_readable(net)

    @staticmethod
    def part(builder, net, low, high):
        """The bits with these indexes, by bounds or by a base and a width."""
        form = builder.chance.choice(["bounds", "bounds", "up", "down"])
        if form != "bounds":
            return Slide(net.name, decimal(low if form == "up" else high), decimal(high - low + 1), form == "up")
        ends = (high, low) if builder.make.falls(net.name) else (low, high)
        return Part(net.name, *map(decimal, ends))


class AnyBlock(Kind):
    """A combinational block. Those below say whether it writes its targets on each path, and reads them."""
    complete, reads_own = True, 0.0

    def add(self, builder):
        chance = builder.chance
        targets = [builder.new_target("reg") for _ in range(chance.choice([1, 1, 1, 2, 3]))]
        names = [target.name for target in targets]
        bodies = Bodies(builder.make, names, builder.new_loop)
        first = bodies.defaults() if self.complete else []
        bodies.reads_own = self.reads_own
        body = self.body(bodies, first, chance)
        listed = listed_names(body, {*builder.module.constant_names(), *bodies.loops})
        builder.module.items.append(self.comb(builder, body, listed, names, bodies.loops))
        for target in targets:
            builder.made_readable(target)

    @staticmethod
    def body(bodies, first, chance):
        rest = [bodies.statement(chance.choice([1, 2, 3])) for _ in range(chance.choice([0, 1, 1, 2]) if first else 1)]
        statements = first + rest
        return statements[0] if len(statements) == 1 else Block(statements)

    @staticmethod
    def comb(builder, body, listed, targets, loops):
        """The block with `*`, or with a list of what it reads and some more names; a block that reads a memory has no list."""
        chance = builder.chance
        if not listed or chance.random() < 0.6 or not builder.memories.isdisjoint(listed):
            return Comb(body, loops=loops, star=chance.choice(["*", "*", "(*)"]))
        more = [name for name in builder.make.readable + targets if chance.random() < 0.05]
        listed = list(dict.fromkeys(listed + more))
        chance.shuffle(listed)
        return Comb(body, listed, loops=loops, separator=chance.choice([" or ", ", "]))


class CompleteBlock(AnyBlock):
    """A block that first writes each of its targets whole."""
    weight = 30


class InnerReads(AnyBlock):
    """The same, and then it reads what it has written."""
    weight, reads_own = 10, 0.3


class Latch(AnyBlock):
    """A block that does not write its targets on each path."""
    weight, complete = 14, False


class OwnReads(AnyBlock):
    """A block that may read its targets before it has written them."""
    weight, complete, reads_own = 6, False, 0.4


class Chain(Kind):
    """Several nets and blocks of which each reads the one before it."""
    weight = 4

    def add(self, builder):
        for _ in range(builder.chance.randint(3, 6)):
            last = builder.make.readable[-1] if builder.make.readable else None
            value = Unary("~", Name(last)) if last and builder.chance.random() < 0.5 else builder.make.term(1)
            if last:
                value = Binary(builder.chance.choice("^|+-"), value, Name(last))
            made = builder.new_target(builder.chance.choice(["wire", "wire", "reg"]))
            is_net = made.kind == "wire"
            builder.module.items.append(Assign([(Name(made.name), value)]) if is_net else Comb(Set(Name(made.name), value)))
            builder.made_readable(made)


class Cycle(Kind):
    """Two nets that read each other by operators with which they settle: a latch of nets, or an `and` and an `or`."""
    weight = 4

    def add(self, builder):
        chance = builder.chance
        first = builder.new_target("wire")
        second = builder.new_target("wire")
        if chance.random() < 0.5:
            value = Choice(builder.make.term(1), builder.make.term(1), Name(second.name))
        else:
            value = Binary("|", Binary("&", builder.make.term(1), Name(second.name)), builder.make.term(1))
        back = Name(first.name)
        if chance.random() < 0.4:
            back = Binary("&", back, builder.make.term(1))
        items = [Assign([(Name(first.name), value)]), Assign([(Name(second.name), back)])]
        chance.shuffle(items)
        builder.module.items += items
        builder.made_readable(first)
        builder.made_readable(second)


class Undriven(Kind):
    """A net that nothing drives, a variable that nothing writes, or an `initial` block, which the design leaves out."""
    weight = 4

    def add(self, builder):
        kind = builder.chance.choice(["wire", "reg"])
        it = builder.new_declared(kind)
        if kind == "reg" and builder.chance.random() < 0.6:
            builder.module.items.append(Plain(f"initial {it.name} = {random_number(builder.chance).text()};"))
        builder.made_readable(it)


class Below(Kind):
    """An instance of a module that was made before."""
    weight = 14

    def add(self, builder):
        if builder.modules:
            module, variants = builder.chance.choice(builder.modules)
            self.put(builder, module, builder.chance.choice(variants), {})

    def put(self, builder, module, variant, joined):
        """An instance of the module in this variant; `joined` has the names to which some ports are joined."""
        chance = builder.chance
        item = Instance(module, builder.new_name("u"), {}, dict(variant), chance.random() < 0.7, chance.random() < 0.7)
        made = []
        for port in module.ports:
            if port.name in joined:
                item.connections[port.name] = Name(joined[port.name])
            elif port.direction == "input":
                clock = self.clock(builder) if port.name in module.clocks else None
                item.connections[port.name] = clock or self.input(builder, port, variant)
            else:
                item.connections[port.name] = self.output(builder, port, variant, made)
        if item.by_name:
            names = list(item.connections)
            chance.shuffle(names)
            item.connections = {name: item.connections[name] for name in names if item.connections[name] or chance.random() < 0.5}
        builder.module.items.append(item)
        for net in made:
            builder.made_readable(net)

    @staticmethod
    def clock(builder):
        """What a port for a clock or reset is mostly joined to, if there is one."""
        chance = builder.chance
        return Name(chance.choice(builder.module.clocks)) if builder.module.clocks and chance.random() < 0.85 else None

    def input(self, builder, port, variant):
        """What an input is joined to: a name of equal range, another expression, or nothing.

        Icarus Verilog evaluates an expression in its own width and then extends it to that of the port, so a narrower one is
        put between braces, where that is its value by the standard too.
        """
        chance, constants = builder.chance, builder.constants_of(port, variant)
        if chance.random() < 0.06:
            return None
        same = [name for name in builder.make.readable if builder.is_same(name, port, variant)]
        if same and chance.random() < 0.7:
            return Name(chance.choice(same))
        term = builder.make.term(chance.choice([0, 1, 2]))
        if isinstance(term, (Name, Concat)) or builder.least_width(term) >= port.signal("", constants, False).width:
            return term
        return Concat([term]) if builder.make.has_size(term) else random_number(chance)

    def output(self, builder, port, variant, made):
        """A net of equal range, one of another width, some bits of one, two nets side by side, or nothing."""
        chance = builder.chance
        if chance.random() < 0.08:
            return None
        form = chance.choice(["same", "same", "same", "other", "several", "part"])
        if form == "several":
            nets = [builder.new_declared("wire", narrow=True) for _ in range(2)]
            made += nets
            return Concat([Name(net.name) for net in nets])
        net = builder.new_like(port, variant) if form == "same" else builder.new_declared("wire", ranged=form == "part")
        made.append(net)
        return builder.make.select(net.name, constant=True) if form == "part" else Name(net.name)


KINDS = [Net(), JoinedNets(), SplitNet(), CompleteBlock(), InnerReads(), Latch(), OwnReads(), Chain(), Cycle(), Undriven(), Below()]


def random_range(chance, ranged=False, narrow=False):
    """Bounds of a range as two numbers, or None for one bit without a range."""
    width = random_width(chance)
    if narrow:
        width = min(width, WIDEST // 3)
    if ranged and width == 1:
        width = chance.randrange(2, 10)
    if width == 1 and chance.random() < 0.8:
        return None
    low = chance.choice([0, 0, 0, 0, chance.randrange(1, 9)])
    return (width - 1 + low, low) if chance.random() < 0.8 else (low, width - 1 + low)


def declared_bounds(bounds):
    return {} if bounds is None else {"high": decimal(bounds[0]), "low": decimal(bounds[1])}

