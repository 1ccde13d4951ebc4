"""Kinds of items from whose case statements words draw state machines, and these words.

The state is in a register that one clocked block writes, or for which a combinational block or another register has the next state;
or it is any signal of which a block makes another one, in the module or in one below it. Labels and values are constants of any
form and at times none; inside an arm may be any statement, also another case over the state.
"""
from . import vectors
from .bodies import Bodies, ClockedBodies, listed_names
from .designs import Assign, Clocked, Declared
from .drawings import assigned, cases, fault_of, selected
from .expressions import random_number
from .kinds import AnyBlock, Below, Kind, declared_bounds
from .machine_kinds import add_states, new_variable, random_values
from .registers import ClockedKind, random_events
from .statements import Arm, Block, Case, Empty, For, If
from .terms import Binary, Choice, Concat, Constant, Name, Number, Paren, Sign, Unary, decimal
from .things import Memory, Signal


# ---------------------------------------------------------------- constants

class Constants:
    """Makes constant terms, mostly with a value of some width: numbers, parameters and loop variables, and operators on them."""

    def __init__(self, chance, width, names):
        self.chance, self.width, self.names = chance, width, names
        self.values = random_values(chance, width)

    def number(self, value, added=0, signed=None):
        """A number with so many more bits than the width, or fewer."""
        chance, width = self.chance, min(max(self.width + added, 1), 128)
        value, signed = value & vectors.mask(width), chance.random() < 0.25 if signed is None else signed
        base = chance.choice("bhd")
        digits = {"b": f"{value:0{width}b}", "h": f"{value:x}", "d": str(value)}[base]
        return Number(f"{width}'{'s' if signed else ''}{base}{digits}", vectors.of_number(width, value), signed)

    def strange(self, value):
        """A number with x or z: within the width, or above it alone."""
        if self.chance.random() < 0.5 or self.width > 126:
            return random_number(self.chance, self.width, unknown=0.4)
        digits = self.chance.choice(["x", "z", "0x", "x1"]) + f"{value:0{self.width}b}"
        return Number(f"{len(digits)}'b{digits}", vectors.of_digits(digits), False)

    def plain(self, value):
        """A decimal number without a size, where it has 31 bits, and at times below 0 with the same bits."""
        if value >= 1 << 31:
            return self.number(value)
        if self.chance.random() < 0.2 and self.width < 31:
            return Unary("-", decimal((1 << self.width) - value))
        return decimal(value)

    def term(self, value, depth=2):
        """A constant, at most so deep."""
        chance = self.chance
        form = chance.choices(["number", "plain", "name", "wider", "narrower", "beyond", "strange", "operator"],
                              [30, 25, 25, 6, 3, 3, 5, 12 if depth else 0])[0]
        if form == "name" and self.names:
            return Name(chance.choice(self.names))
        if form == "plain":
            return self.plain(value)
        if form == "beyond":
            return self.number(value | 1 << self.width, 2)
        if form in ("strange", "operator"):
            return self.strange(value) if form == "strange" else self.operator(value, depth - 1)
        return self.number(value, {"wider": chance.randrange(1, 4), "narrower": -1}.get(form, 0))

    def operator(self, value, depth):
        chance = self.chance
        form = chance.choice(["binary", "binary", "shift", "unary", "concat", "choice", "sign", "paren", "test"])
        if form == "binary":
            return Binary(chance.choice("+-^|&*/%"), self.term(value, depth), self.term(chance.choice(self.values), depth))
        if form == "shift":
            return Binary(chance.choice(["<<", ">>", ">>>"]), self.term(value, depth), decimal(chance.randrange(3)))
        if form == "unary":
            return Unary(chance.choice("~~-!&|^"), self.term(value, depth))
        if form == "concat" and self.width > 1:
            low = chance.randrange(1, self.width)
            parts = (self.width - low, value >> low), (low, value & vectors.mask(low))
            return Concat([Number(f"{width}'d{part}", vectors.of_number(width, part), False) for width, part in parts])
        if form == "choice":
            test = Binary(chance.choice(["<", "=="]), self.term(value, 0), self.term(value, 0))
            return Choice(test, self.term(value, depth), self.term(chance.choice(self.values), depth))
        if form == "test":
            return Binary(chance.choice(["==", "!=", "<", "&&"]), self.term(value, depth), self.term(value, depth))
        return Sign(chance.random() < 0.5, self.term(value, depth)) if form == "sign" else Paren(self.term(value, depth))


# ---------------------------------------------------------------- bodies

class Cases:
    """Statements with a case over a signal, in whose arms a target and others are assigned."""

    def __init__(self, bodies, present, target, names):
        self.bodies, self.make, self.chance, self.present, self.target = bodies, bodies.make, bodies.chance, present, target
        width = min(scope.find(present).width for scope in bodies.make.scopes)
        self.constants = Constants(bodies.chance, width, list(names))

    def constant(self):
        return self.constants.term(self.chance.choice(self.constants.values))

    # ---------------------------------------------------------------- assignments

    def value(self):
        """Mostly a constant; at times the present state, the one after it, one of two by a test, or any term."""
        form = self.chance.choices(["constant", "same", "after", "choice", "any"], [78, 5, 5, 6, 6])[0]
        if form == "same":
            return Name(self.present)
        if form == "after":
            return Binary(self.chance.choice("+-^&"), Name(self.present), self.constant())
        if form == "choice":
            return Choice(self.make.term(1), self.constant(), self.constant())
        return self.constant() if form == "constant" else self.make.term(1)

    def target_term(self):
        """Mostly the whole target; at times a part, it between braces, it beside another one, or another one."""
        chance, others = self.chance, [name for name in self.bodies.together() if name != self.target]
        form = chance.choices(["whole", "part", "braces", "beside", "other"], [80, 8, 2, 4, 6])[0]
        if form == "part":
            return self.make.select(self.target, constant=True)
        if form == "braces":
            return Concat([Name(self.target)])
        beside = [name for name in others if self.is_queued(name) == self.is_queued(self.target)]
        if form == "beside" and beside:
            made = Concat([Name(chance.choice(beside)), Name(self.target)])
            return made if self.make.width(made) <= 128 else Name(self.target)
        return Name(chance.choice(others)) if form == "other" and others else Name(self.target)

    def is_queued(self, name):
        return self.bodies.set(Name(name), decimal(0)).queued

    def move(self):
        return self.bodies.set(self.target_term(), self.value())

    # ---------------------------------------------------------------- statements

    def statement(self, depth):
        """What is in an arm: an assignment, or others that have some in them."""
        forms = {self.move: 40, self.branch: 22, self.block: 12, self.case: 8, self.other_case: 8, self.loop: 5, self.any: 5}
        made = self.chance.choices(list(forms), list(forms.values()))[0] if depth > 0 else self.move
        return made() if made == self.move else made(depth - 1)

    def any(self, depth):
        return self.bodies.statement(min(depth, 1)) if self.chance.random() < 0.7 else Empty()

    def branch(self, depth):
        other = self.statement(depth) if self.chance.random() < 0.5 else None
        return If(self.make.term(1), self.statement(depth), other)

    def block(self, depth):
        return Block([self.statement(depth) for _ in range(self.chance.choice([1, 2, 2, 3]))])

    def case(self, depth):
        """A case over the state: mostly `case`, mostly with the signal alone for its selector."""
        chance = self.chance
        kind = chance.choices(["case", "casez", "casex"], [84, 9, 7])[0]
        arms = [Arm([self.label(kind) for _ in range(chance.choice([1, 1, 1, 2, 3]))], self.statement(depth))
                for _ in range(chance.choice([1, 2, 2, 3, 4]))]
        if chance.random() < 0.6:
            arms.insert(chance.choice([len(arms), len(arms), chance.randint(0, len(arms))]), Arm([], self.statement(depth)))
        return Case(kind, self.selector(), arms)

    def selector(self):
        chance, name = self.chance, Name(self.present)
        form = chance.choices(["name", "parens", "part", "braces", "sign", "operator"], [88, 5, 2, 1, 2, 2])[0]
        if form == "part":
            return self.make.select(self.present, constant=True)
        if form == "operator":
            return Binary(chance.choice("^|"), name, self.constant())
        return {"parens": Paren(name), "braces": Concat([name]), "sign": Sign(chance.random() < 0.5, name)}.get(form, name)

    def label(self, kind):
        """A label: mostly constant."""
        chance = self.chance
        if chance.random() < 0.06:
            return chance.choice([self.make.term(1), Binary("&", Name(self.present), self.constant())])
        if kind != "case" and chance.random() < 0.4:
            return self.bodies.label(kind, min(self.constants.width, 12))
        return self.constant()

    def other_case(self, depth):
        """A case over another term, in whose arms are the same statements."""
        chance = self.chance
        made = self.bodies.case(0)
        for arm in made.arms:
            if chance.random() < 0.8:
                arm.body = self.statement(depth)
        return made

    def loop(self, depth):
        """A loop of some turns with a statement in it, whose constants may be its variable."""
        chance, variable = self.chance, self.bodies.new_loop()
        self.bodies.loops.append(variable)
        first, end, step = chance.choice([(0, 4, 1), (0, 2, 1), (3, -1, -1), (1, 8, 3), (2, 2, 1)])
        turn = Constant(vectors.of_number(32, first), True)
        scopes, constants, names = self.make.scopes, self.make.constants, self.constants.names
        self.make.scopes = [scope.with_constant(variable, turn) for scope in scopes]
        self.make.constants = [*constants, variable]
        self.constants.names = [*names, variable, variable]
        body = self.case(depth) if chance.random() < 0.6 else self.statement(depth)
        self.make.scopes, self.make.constants, self.constants.names = scopes, constants, names
        return For(variable, first, end, step, body)

    def body(self):
        """The statement of a block: mostly a case, at times one below a test, in a loop, beside another one, or none."""
        form = self.chance.choices(["case", "branch", "loop", "two", "any"], [68, 12, 8, 8, 4])[0]
        if form == "branch":
            return If(self.make.term(1), self.case(2), self.case(1) if self.chance.random() < 0.5 else None)
        if form == "two":
            return Block([self.case(2), self.case(1)])
        return self.loop(2) if form == "loop" else self.case(2) if form == "case" else self.statement(2)


def state_names(builder, variable):
    """Parameters for states of a variable, at times, and at times other constants of the module."""
    names = add_states(builder, variable) if builder.chance.random() < 0.55 else []
    return names + [name for name in builder.make.constants if name not in names and builder.chance.random() < 0.3]


def more_targets(builder):
    """At times one target more."""
    return [builder.new_target("reg").name] if builder.chance.random() < 0.35 else []


def variable_like(builder, name):
    """A variable with the range and sign of what this name is."""
    declared = next(it for it in builder.module.everything_declared() if it.name == name)
    if declared.kind == "integer":
        made = Declared(builder.new_name("next"), "integer")
    else:
        made = Declared(builder.new_name("next"), "reg", None, declared.signed, declared.high, declared.low)
    builder.module.declared.append(made)
    builder.declare(made)
    return made.name


# ---------------------------------------------------------------- kinds

def put_comb(builder, present, target, beginning):
    """A combinational block with a case over one signal that assigns another one or the same; `beginning` is how it begins."""
    chance, names = builder.chance, [target, *more_targets(builder)]
    states = state_names(builder, present)
    bodies = Bodies(builder.make, names, builder.new_loop)
    first = [bodies.set(Name(target), beginning)] if beginning else []
    first += [bodies.set(Name(name), bodies.term(1)) for name in names[1:] if chance.random() < 0.8]
    statements = [*first, Cases(bodies, present, target, states).body()]
    body = Block(statements) if len(statements) > 1 else statements[0]
    listed = listed_names(body, {*builder.module.constant_names(), *bodies.loops})
    builder.module.items.append(AnyBlock.comb(builder, body, listed, names, bodies.loops))
    builder.make.readable += [name for name in names if name not in builder.make.readable]


def put_clocked(builder, events, present, target, is_later=None):
    """A clocked block with a case over one signal that assigns another one or the same, which a reset may be before."""
    chance, names = builder.chance, [target, *more_targets(builder)]
    states = state_names(builder, present)
    later = {target} if is_later else ClockedKind.later(builder, names)
    bodies = ClockedBodies(builder.make, names, builder.new_loop, later)
    bodies.reads_own = 0.0 if is_later else 0.15
    made = Cases(bodies, present, target, states)
    body = with_reset(bodies, events, made.body(), target, made)
    ClockedKind.put(builder, events, body, bodies.loops)
    builder.make.readable += [name for name in names if name not in builder.make.readable]


def with_reset(bodies, events, body, name, made):
    """The body below a test of a reset, if there is one among the events."""
    resets = [(edge, it) for edge, it in events if it.startswith("rst")]
    if not resets or bodies.chance.random() < 0.2:
        return body
    edge, reset = resets[0]
    test = Name(reset) if edge == "posedge" else Unary(bodies.chance.choice("!~"), Name(reset))
    return If(test, bodies.set(Name(name), made.constant()), body)


def beginning(builder, present):
    """What a combinational block first assigns: mostly the present state; None for nothing."""
    form = builder.chance.choices(["present", "term", None], [60, 15, 25])[0]
    return Name(present) if form == "present" else form and builder.make.term(1)


class OneProcess(ClockedKind):
    """A register that one block writes, with a case over it."""
    weight = 50

    def add(self, builder):
        events, name = random_events(builder), new_variable(builder)
        put_clocked(builder, events, name, name)


class TwoProcesses(ClockedKind):
    """A register, and a combinational block that makes its next state."""
    weight = 40

    def add(self, builder):
        events, present = random_events(builder), new_variable(builder)
        following = variable_like(builder, present)
        builder.make.readable.append(present)
        put_comb(builder, present, following, beginning(builder, present))
        put_register(builder, events, present, following)


class TwoRegisters(ClockedKind):
    """A register, and another one with its next state, of the same clock or of another one."""
    weight = 20

    def add(self, builder):
        events, present = random_events(builder), new_variable(builder)
        following = variable_like(builder, present)
        builder.make.readable.append(present)
        put_clocked(builder, events if builder.chance.random() < 0.8 else random_events(builder), present, following)
        put_register(builder, events, present, following)


def put_register(builder, events, name, following):
    """A register that takes its next state."""
    later = {name} if builder.chance.random() < 0.75 else set()
    bodies = ClockedBodies(builder.make, [name], builder.new_loop, later)
    made = Cases(bodies, name, name, [])
    ClockedKind.put(builder, events, with_reset(bodies, events, bodies.set(Name(name), Name(following)), name, made))


class OfOther(Kind):
    """A combinational block that makes a signal of another one, which has the same width."""
    weight = 20

    def add(self, builder):
        names = [name for name in builder.make.readable if name not in builder.memories]
        if names:
            present = builder.chance.choice(names)
            put_comb(builder, present, variable_like(builder, present), beginning(builder, present))


class OfItself(Kind):
    """A combinational block that first writes a signal, and then has a case over it that writes it again."""
    weight = 8

    def add(self, builder):
        if builder.make.readable:
            name, value = new_variable(builder), builder.make.term(1)
            put_comb(builder, name, name, value)


class StatesBelow(Below):
    """An instance of a module with ports for a state and the next one, which are joined to names of the same range."""
    weight = 24

    def add(self, builder):
        found = [(module, variant) for module, variants in builder.modules for variant in variants if module.states]
        if not found:
            return
        module, variant = builder.chance.choice(found)
        present, following = (next(it for it in module.ports if it.name == name) for name in module.states)
        if builder.module.clocks and builder.chance.random() < 0.5:
            self.put_with_register(builder, module, variant, present, following)
        else:
            same = [name for name in builder.make.readable if builder.is_same(name, present, variant)]
            name = builder.chance.choice(same) if same and builder.chance.random() < 0.5 else self.new_net(builder, present, variant)
            self.put_joined(builder, module, variant, {present.name: name, following.name: builder.new_like(following, variant).name})

    def put_joined(self, builder, module, variant, joined):
        self.put(builder, module, variant, joined)
        builder.make.readable += [name for name in joined.values() if name not in builder.make.readable]

    @staticmethod
    def new_net(builder, port, variant):
        net = builder.new_like(port, variant)
        builder.module.items.append(Assign([(Name(net.name), builder.make.term(2))]))
        return net.name

    def put_with_register(self, builder, module, variant, present, following):
        """A register has the state, which takes the next one that the module makes; at times it has a case of its own too."""
        events = random_events(builder)
        like = builder.new_like(present, variant)
        like.kind = "reg"
        builder.declare(like)
        builder.make.readable.append(like.name)
        made = builder.new_like(following, variant).name
        self.put_joined(builder, module, variant, {present.name: like.name, following.name: made})
        if builder.chance.random() < 0.6:
            put_register(builder, events, like.name, made)
        else:
            put_clocked(builder, events, like.name, like.name)


class OneBelow(StatesBelow):
    """An instance of a module that is clocked, with both ports joined to one name: a register that is written below."""
    weight = 10

    def add(self, builder):
        found = [(module, variant) for module, variants in builder.modules for variant in variants
                 if module.states and isinstance(module.items[0], Clocked)]
        if found:
            module, variant = builder.chance.choice(found)
            following = next(it for it in module.ports if it.name == module.states[1])
            name = builder.new_like(following, variant).name
            self.put_joined(builder, module, variant, {module.states[0]: name, module.states[1]: name})


def drawing_kinds(module):
    """The kinds for a module, by whether it has clocks."""
    kinds = [OfOther(), OfItself(), StatesBelow()]
    return [*kinds, OneProcess(), TwoProcesses(), TwoRegisters(), OneBelow()] if module.clocks else kinds


# ---------------------------------------------------------------- ports

def add_state_ports(builder):
    """An input for a state, and an output of the same range for the next one."""
    chance, width, low = builder.chance, builder.chance.choice([1, 2, 2, 2, 3, 3, 4]), builder.chance.choice([0, 0, 0, 0, 1])
    bounds = None if width == 1 else (low + width - 1, low) if chance.random() < 0.85 else (low, low + width - 1)
    given = declared_bounds(bounds)
    if builder.widths and chance.random() < 0.3:
        given = dict(zip(("high", "low"), builder.parametric()))
    signed = chance.random() < 0.15
    for prefix, kind, direction in (("st", "wire", "input"), ("next", "reg", "output")):
        port = Declared(builder.new_name(prefix), kind, direction, signed, twice=chance.random() < 0.3, **given)
        builder.declare(port)
        builder.module.ports.append(port)
        builder.module.states.append(port.name)
    builder.make.readable.append(builder.module.states[0])


def put_state_block(builder):
    """The block, the first item of a module, that makes the next state of the state at its ports."""
    present, following = builder.module.states
    if builder.module.clocks and builder.chance.random() < 0.5:
        put_clocked(builder, random_events(builder), present, following, is_later=True)
    else:
        put_comb(builder, present, following, beginning(builder, present))


# ---------------------------------------------------------------- words

def drawn_pairs(flat):
    """The pairs of signals of equal width of which a case is over the first and has in it an assignment to the second."""
    found = {}
    for statement, scope in cases(flat):
        current = selected(statement, scope)
        for inner, its in statement.copies(scope) if current else ():
            following = assigned(inner, its)
            if following and following.width == current.width:
                found[current, following] = None
    return found


def names_of(flat, pair):
    """The words for a pair of signals in each module whose instances have names of both."""
    found = {}
    for made in flat.instances:
        first, second = ([name for name, it in made.scope.names.items() if it is signal] for signal in pair)
        found.update(((made.module.name, current, following), None) for current in first for following in second)
    return list(found)


def any_words(chance, flat):
    """The words for two signals of an instance, or one twice, of which mostly nothing is drawn but states; None for other widths."""
    made = chance.choice(flat.instances)
    names = [name for name, it in made.scope.names.items() if is_signal(it)]
    first, second = chance.choice(names), chance.choice(names)
    word = made.module.name, first, second
    return word if fault_of(flat, *word) is None else (made.module.name, first, first)


def is_signal(found):
    return isinstance(found, Signal) and not isinstance(found, Memory)


def random_drawings(chance, flat):
    """Words that draw machines: at times one of them twice, or with a fault in one or two."""
    known = list(dict.fromkeys(word for pair in drawn_pairs(flat) for word in names_of(flat, pair)))
    found = [word for word in known if chance.random() < 0.9 and (fault_of(flat, *word) is None or chance.random() < 0.02)]
    chance.shuffle(found)
    found = found[:8] + [any_words(chance, flat) for _ in range(chance.choice([0, 0, 1, 2] if found else [1, 2]))]
    if chance.random() < 0.15:
        found.append(chance.choice(found))
    chance.shuffle(found)
    drawn = [word for word in found if fault_of(flat, *word) is None]
    for _ in range(chance.choice([1, 1, 2]) if drawn and chance.random() < 0.05 else 0):
        found.insert(chance.randint(0, len(found)), faulty(chance, flat, *chance.choice(drawn)))
    return found


def faulty(chance, flat, module, current, following):
    """A drawing of which a name is unknown or no signal, or in which the second signal has another width."""
    known = chance.choice([made for made in flat.instances if made.module.name == module]).scope.names
    width = known[current].width
    wrong = [name for name, it in known.items() if not is_signal(it)] + ["nowhere", "u"]
    other = [name for name, it in known.items() if is_signal(it) and it.width != width] or wrong
    no = chance.choice(wrong)
    return chance.choice([("nowhere", current, following), (current, current, following), ("nowhere", no, no),
                          (module, no, following), (module, no, chance.choice(wrong)), (module, current, no),
                          (module, current, chance.choice(other)), (module, chance.choice(other), current)])
