"""Kinds of items whose signals are the variables of state machines, and the words that name them and others.

The variables are registers that clocked blocks write at once or later, what a combinational block makes of one for the next
clock, and what one makes of other signals. Besides them any signal of a module may be named: an input, a net, a port below.
"""
from . import vectors
from .bodies import Bodies, ClockedBodies, listed_names
from .designs import Declared, NoSignals, Param, evaluated
from .expressions import random_number
from .kinds import AnyBlock, Kind, declared_bounds
from .machines import state_value
from .registers import ClockedKind, random_events
from .statements import Arm, Block, Case, If, Set
from .terms import Binary, Choice, Constant, Name, Number, Unary, decimal


# ---------------------------------------------------------------- states

def random_values(chance, width):
    """Numbers for states: counted, with one bit of 1 each, or any."""
    form, top = chance.choice(["count", "one hot", "any", "any"]), 1 << width
    if form == "count":
        return list(range(min(top, 8)))
    if form == "one hot":
        return [0] * (chance.random() < 0.5) + [1 << k for k in range(min(width, 8))]
    return [chance.randrange(top) for _ in range(chance.choice([3, 4, 8]))]


def state_term(builder, value, width):
    """The text of a state's value: of the width, wider, or a plain number; at times with an x, or by a parameter of the module."""
    chance = builder.chance
    form = chance.choices(["sized", "wider", "plain", "negative", "unknown", "parametric"], [50, 10, 25, 5, 5, 5])[0]
    if form == "unknown":
        return random_number(chance, width, unknown=0.5)
    if form == "parametric" and builder.widths:
        return Binary("+", Name(builder.widths[0]), decimal(value % 16))
    if form == "negative":
        return Unary("-", decimal(value % 16 + 1))
    if form == "plain" and value < 1 << 31:
        return decimal(value)
    wide = width + (chance.randrange(1, 4) if form == "wider" and width < 120 else 0)
    signed = chance.random() < 0.3
    return Number(f"{wide}'{'s' if signed else ''}h{value:x}", vectors.of_number(wide, value), signed)


class States:
    """Makes parameters of a module with different values of one of its signals, in each variant of the module."""

    def __init__(self, builder, variable):
        self.builder, self.names = builder, []
        self.widths = [scope.find(variable).width for scope in builder.make.scopes]
        self.values = [set() for _ in self.widths]

    def add(self, param):
        """Declares a parameter, if its value is another than those before it."""
        builder = self.builder
        constants = [param.constant(evaluated(param.value, NoSignals(self.constants(scope)))) for scope in builder.make.scopes]
        values = [state_value(constant, width) for constant, width in zip(constants, self.widths)]
        if any(value in known for value, known in zip(values, self.values)):
            return
        for known, value in zip(self.values, values):
            known.add(value)
        for scope, constant in zip(builder.make.scopes, constants):
            scope.names[param.name] = constant
        builder.module.params.append(param)
        builder.make.constants.append(param.name)
        self.names.append(param.name)

    @staticmethod
    def constants(scope):
        return {name: it for name, it in scope.names.items() if isinstance(it, Constant)}

    def make(self, count):
        """So many states, or fewer where values are equal."""
        builder, chance, width = self.builder, self.builder.chance, min(self.widths)
        for value in random_values(chance, width)[:count]:
            term = state_term(builder, value, width)
            name = builder.new_name(chance.choice(["S", "ST_", "st$"]))
            if chance.random() < 0.2:
                size = chance.choice([width, width, 6])
                self.add(Param(name, term, chance.random() < 0.6, range_text=f"[{size - 1}:0] ", width=size, signed=False))
            else:
                self.add(Param(name, term, chance.random() < 0.6))
        for value in range(4):
            if len(self.names) < 2:
                self.add(Param(builder.new_name("S"), decimal(value)))
        return self.names


def add_states(builder, variable):
    chance = builder.chance
    count = chance.choice([2, 2, 3, 3, 4, 4, 5, 6]) if chance.random() < 0.99 else 20
    return States(builder, variable).make(count)


# ---------------------------------------------------------------- bodies

class Transitions:
    """Statements that make the next state of the present one."""

    def __init__(self, bodies, present, target, states):
        self.bodies, self.chance, self.present, self.target, self.states = bodies, bodies.chance, present, target, states

    def next_value(self):
        """Mostly a state; at times any number, the one after this, this one, or one of two by a test."""
        form = self.chance.choices(["state", "any", "after", "same", "choice"], [70, 5, 8, 5, 12])[0]
        if form == "any":
            return self.bodies.make.term(0)
        if form == "after":
            return Binary("+", Name(self.present), decimal(1))
        if form == "same":
            return Name(self.present)
        if form == "choice":
            return Choice(self.bodies.make.term(1), *(Name(self.chance.choice(self.states)) for _ in range(2)))
        return Name(self.chance.choice(self.states))

    def move(self):
        return self.bodies.set(Name(self.target), self.next_value())

    def arm(self):
        form = self.chance.choices(["move", "if", "else", "two", "any"], [30, 30, 25, 8, 7])[0]
        if form == "if":
            return If(self.bodies.make.term(1), self.move())
        if form == "else":
            return If(self.bodies.make.term(1), self.move(), self.move())
        if form == "two":
            return Block([self.move(), If(self.bodies.make.term(1), self.move())])
        return self.bodies.statement(1) if form == "any" else self.move()

    def body(self):
        """A case with an arm for most states, or tests one after the other."""
        chance = self.chance
        named = [name for name in self.states if chance.random() < 0.9] or self.states[:1]
        if chance.random() < 0.2:
            made = self.arm() if chance.random() < 0.7 else None
            for name in reversed(named):
                made = If(Binary(chance.choice(["==", "==", "==="]), Name(self.present), Name(name)), self.arm(), made)
            return made
        arms = [Arm([Name(name)], self.arm()) for name in named]
        if chance.random() < 0.7:
            arms.insert(chance.choice([len(arms), len(arms), 0]), Arm([], self.arm()))
        return Case(chance.choice(["case", "case", "case", "casez", "casex"]), Name(self.present), arms)


def new_variable(builder):
    """A variable for states, mostly a narrow one."""
    chance = builder.chance
    if chance.random() < 0.25:
        return builder.new_target("reg", narrow=chance.random() < 0.8).name
    width, low = chance.choice([1, 2, 2, 3, 3, 4, 5]), chance.choice([0, 0, 0, 1, 5])
    bounds = (low + width - 1, low) if chance.random() < 0.8 else (low, low + width - 1)
    bounds = declared_bounds(None if width == 1 and chance.random() < 0.7 else bounds)
    made = Declared(builder.new_name("st"), "reg", None, chance.random() < 0.2, **bounds)
    builder.module.declared.append(made)
    builder.declare(made)
    return made.name


class StateRegister(ClockedKind):
    """A clocked block with the states and their transitions, which a reset may be before."""
    weight = 60

    def add(self, builder):
        events = random_events(builder)
        name = new_variable(builder)
        states = add_states(builder, name)
        later = {name} if builder.chance.random() < 0.7 else set()
        bodies = ClockedBodies(builder.make, [name], builder.new_loop, later)
        bodies.reads_own = 0.2
        body = with_reset(bodies, events, Transitions(bodies, name, name, states).body(), name, states)
        self.put(builder, events, body, bodies.loops)
        builder.make.readable.append(name)
        builder.state_variables.append((name, states))


def with_reset(bodies, events, body, name, states):
    """The body below a test of a reset, if there is one among the events."""
    resets = [(edge, it) for edge, it in events if it.startswith("rst")]
    if not resets or bodies.chance.random() < 0.15:
        return body
    edge, reset = resets[0]
    test = Name(reset) if edge == "posedge" else Unary(bodies.chance.choice("!~"), Name(reset))
    return If(test, bodies.set(Name(name), Name(bodies.chance.choice(states))), body)


class NextState(ClockedKind):
    """A register, and a combinational block that makes its next state."""
    weight = 30

    def add(self, builder):
        chance, events = builder.chance, random_events(builder)
        present = new_variable(builder)
        following = same_variable(builder, present)
        states = add_states(builder, present)
        builder.make.readable.append(present)
        add_block(builder, present, following, states)
        later = {present} if chance.random() < 0.7 else set()
        bodies = ClockedBodies(builder.make, [present], builder.new_loop, later)
        self.put(builder, events, with_reset(bodies, events, bodies.set(Name(present), Name(following)), present, states))
        builder.make.readable.append(following)
        builder.state_variables += [(present, states), (following, states)]


def same_variable(builder, name):
    """A variable of the same width as this one."""
    declared = next(it for it in builder.module.ports + builder.module.declared if it.name == name)
    made = Declared(builder.new_name("next"), declared.kind, None, declared.signed, declared.high, declared.low)
    builder.module.declared.append(made)
    builder.declare(made)
    return made.name


def add_block(builder, present, target, states):
    """A combinational block with the transitions, mostly with the present state for a beginning."""
    chance = builder.chance
    bodies = Bodies(builder.make, [target], builder.new_loop)
    first = [Set(Name(target), Name(present))] if chance.random() < 0.75 else []
    statements = [*first, Transitions(bodies, present, target, states).body()]
    body = Block(statements) if len(statements) > 1 else statements[0]
    listed = listed_names(body, {*builder.module.constant_names(), *bodies.loops})
    builder.module.items.append(AnyBlock.comb(builder, body, listed, [target], bodies.loops))


class Decoder(Kind):
    """A combinational block that makes a state of another signal."""
    weight = 12

    def add(self, builder):
        if not builder.make.readable:
            return
        target = new_variable(builder)
        states = add_states(builder, target)
        readable = [name for name in builder.make.readable if name != target]
        if not readable:
            return
        add_block(builder, builder.chance.choice(readable), target, states)
        builder.make.readable.append(target)
        builder.state_variables.append((target, states))


def machine_kinds(module):
    """The kinds for a module, by whether it has clocks."""
    return [StateRegister(), NextState(), Decoder()] if module.clocks else [Decoder()]


# ---------------------------------------------------------------- words

def module_words(builder):
    """Words for the state variables of a module, and for some of its other signals."""
    chance, module = builder.chance, builder.module
    found = [(module.name, name, some(chance, states)) for name, states in builder.state_variables if chance.random() < 0.9]
    names = {name for _, name, _ in found}
    others = [it.name for it in module.signals() if it.name not in names and not it.words]
    for name in chance.sample(others, min(len(others), chance.choice([0, 1, 2] if found else [1, 2]))):
        found.append((module.name, name, some(chance, add_states(builder, name))))
    return [it for it in found if len(it[2]) > 1]


def some(chance, states):
    """Most of the states, two of them at least, in any order."""
    kept = [name for name in states if chance.random() < 0.9]
    kept = kept if len(kept) > 1 else list(states)
    chance.shuffle(kept)
    return kept


def random_words(chance, flat, words):
    """The words for the modules that have an instance: at times an earlier one of the same variable, or a fault in one."""
    modules = {made.module.name for made in flat.instances}
    found = [it for it in words if it[0] in modules]
    chance.shuffle(found)
    if found and chance.random() < 0.3:
        module, variable, names = chance.choice(found)
        earlier = chance.choice([[names[-1], names[0]], ["NOWHERE", *names], [names[0], names[0]], [*reversed(names)]])
        found.insert(chance.randint(0, found.index((module, variable, names))), (module, variable, earlier))
    if found and chance.random() < 0.04:
        at = chance.randrange(len(found))
        found[at] = faulty(chance, *found[at])
    return found


def faulty(chance, module, variable, names):
    """A machine of which a name is unknown, or one is there twice."""
    wrong = [name if chance.random() < 0.5 else variable for name in names]
    return chance.choice([("nowhere", variable, names), (module, "nowhere", names), (module, names[0], names),
                          (module, variable, wrong), (module, variable, [*names, names[0]])])
