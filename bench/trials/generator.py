"""Random designs: modules from the lowest up, the top last."""
from .designs import Assign, Clocked, Declared, Instance, Module, NoSignals, Param, Scope, evaluated
from .drawing_kinds import add_state_ports, drawing_kinds, put_state_block
from .expressions import Expressions, random_number
from .kinds import KINDS, declared_bounds, random_range
from .machine_kinds import machine_kinds, module_words
from .rams import CLOCKED_MEMORY_KINDS, MEMORY_KINDS
from .registers import CLOCKED_KINDS, Registers
from .terms import Binary, Name, decimal


class Builder:
    """A module under construction: its names, what it can read, and the modules of which it may have instances."""

    def __init__(self, chance, name, modules, with_memories=False):
        self.chance, self.modules, self.with_memories = chance, modules, with_memories
        self.module, self.taken, self.loop_count = Module(name, ansi=chance.random() < 0.6), set(), 0
        self.make = Expressions(chance, [Scope(name)])
        self.outputs, self.ports_made, self.widths, self.memories = [], False, None, set()
        self.state_variables, self.more_kinds = [], []

    def depth(self):
        return self.chance.choice([0, 1, 2, 2, 3, 4])

    # ---------------------------------------------------------------- names and declarations

    def new_name(self, prefix=None):
        """A name that the module does not have yet.

        Icarus Verilog escapes one with `$` in a dump, where it is then not bound, so no port has such a name.
        """
        with_dollar = not prefix and self.ports_made and self.chance.random() < 0.02
        prefix = prefix or ("s$" if with_dollar else self.chance.choice(["n", "n", "data", "_t", "A"]))
        name = f"{prefix}{len(self.taken)}"
        self.taken.add(name)
        return name

    def new_loop(self):
        self.loop_count += 1
        return f"i{self.loop_count}"

    def declare(self, declared):
        """Makes the name known in each variant of the module."""
        for scope in self.make.scopes:
            constants = {name: it for name, it in scope.names.items() if name in self.make.constants}
            scope.names[declared.name] = declared.signal(scope.path, constants, False)

    def new_declared(self, kind, declare=True, ranged=False, narrow=False):
        """A declaration of a net or variable with a random range."""
        chance = self.chance
        if kind == "reg" and not narrow and chance.random() < 0.05:
            made = Declared(self.new_name(), "integer")
        elif self.widths and chance.random() < 0.3:
            made = Declared(self.new_name(), kind, None, chance.random() < 0.2, *self.parametric())
        else:
            bounds = declared_bounds(random_range(chance, ranged, narrow))
            made = Declared(self.new_name(), kind, None, chance.random() < 0.2, **bounds)
        if declare:
            self.module.declared.append(made)
            if kind == "reg" and chance.random() < 0.08:
                made.initial = random_number(chance).text()
        self.declare(made)
        return made

    def parametric(self):
        """Bounds of a range that a parameter gives."""
        return Binary("-", Name(self.chance.choice(self.widths)), decimal(1)), decimal(0)

    def new_target(self, kind, ranged=False, narrow=False):
        """What a process may write: an output that waits for it, or a new declaration."""
        for output in self.outputs:
            if output.kind == kind and not ranged and not narrow and self.chance.random() < 0.4:
                self.outputs.remove(output)
                return output
        return self.new_declared(kind, True, ranged, narrow)

    def new_like(self, port, variant):
        """A net with the range and the sign that a port has in this variant."""
        constants = self.constants_of(port, variant)
        bounds = {} if port.high is None else {
            "high": decimal(port.high.value(NoSignals(constants), None).ones),
            "low": decimal(port.low.value(NoSignals(constants), None).ones)}
        made = Declared(self.new_name(), "wire", None, port.signed, **bounds)
        self.module.declared.append(made)
        self.declare(made)
        return made

    def is_same(self, name, port, variant):
        """Whether a name has the range and sign of a port in this variant, in all variants of this module."""
        inner = port.signal("", self.constants_of(port, variant), False)
        signals = [scope.find(name) for scope in self.make.scopes]
        return all((it.high, it.low, it.ranged, it.signed) == (inner.high, inner.low, inner.ranged, inner.signed) for it in signals)

    def least_width(self, term):
        return min(term.own_width(scope) for scope in self.make.scopes)

    def constants_of(self, port, variant):
        """The constants of the module that has the port, in this variant."""
        return variant_constants(next(module for module, _ in self.modules if port in module.ports), variant)

    def made_readable(self, declared):
        self.make.readable.append(declared.name)

    # ---------------------------------------------------------------- parameters and ports

    def add_params(self):
        """Parameters; a width that instances may override makes variants of the module."""
        chance, module = self.chance, self.module
        header = chance.random() < 0.5
        variants = [{}]
        if chance.random() < 0.4:
            name = self.new_name("W")
            module.params.append(Param(name, decimal(chance.choice([2, 4, 7])), header=header))
            self.widths = [name]
            variants += [{name: decimal(width)} for width in chance.sample([1, 3, 5, 8, 16], 2)]
        if chance.random() < 0.4:
            value = random_number(chance, chance.randrange(1, 9), unknown=0.02)
            module.params.append(Param(self.new_name("P"), value, header=header))
        if chance.random() < 0.3:
            module.params.append(self.local_param())
        self.make.constants = [param.name for param in module.params]
        self.make.scopes = [Scope(module.name, variant_constants(module, variant)) for variant in variants]
        return variants

    def local_param(self):
        """A parameter that no instance overrides, at times with a range or a type of its own."""
        value, name = random_number(self.chance, self.chance.randrange(1, 12), unknown=0.0), self.new_name("L")
        if self.chance.random() < 0.3:
            return Param(name, value, True, range_text="[5:0] ", width=6, signed=False)
        if self.chance.random() < 0.3:
            return Param(name, value, True, range_text="integer ", width=32, signed=True)
        return Param(name, value, True)

    def add_clocks(self):
        """One or two inputs for clocks, and at times one for a reset."""
        for prefix in ["clk"] * self.chance.choice([1, 1, 2]) + ["rst"] * self.chance.choice([0, 1, 1]):
            port = Declared(self.new_name(prefix), "wire", "input")
            self.declare(port)
            self.module.ports.append(port)
            self.module.clocks.append(port.name)
            self.made_readable(port)

    def add_ports(self, inputs, outputs):
        for direction in ["input"] * inputs + ["output"] * outputs:
            kind = self.chance.choice(["wire", "reg"]) if direction == "output" else "wire"
            port = self.new_declared(kind, declare=False)
            if port.kind == "integer":
                port = Declared(port.name, kind)
                self.declare(port)
            port.direction, port.twice = direction, self.chance.random() < 0.3
            self.module.ports.append(port)
            if direction == "input":
                self.made_readable(port)
            else:
                self.outputs.append(port)
        self.chance.shuffle(self.module.ports)
        self.ports_made = True

    def add_items(self, count):
        kinds = [*KINDS, *CLOCKED_KINDS, *self.more_kinds] if self.module.clocks else [*KINDS, *self.more_kinds]
        if self.with_memories:
            kinds = [*kinds, *MEMORY_KINDS, *(CLOCKED_MEMORY_KINDS if self.module.clocks else [])]
        weights = [kind.weight for kind in kinds]
        for kind in self.chance.choices(kinds, weights, k=count):
            kind.add(self)
        for output in list(self.outputs):
            if self.chance.random() < 0.8:
                self.drive(output)

    def drive(self, output):
        """Drives an output that no item has taken."""
        if output.kind == "wire":
            self.module.items.append(Assign([(Name(output.name), self.make.term(2))]))
            self.outputs.remove(output)


def variant_constants(module, variant):
    """The constants of a module with these overrides."""
    constants = {}
    for param in module.params:
        value = variant.get(param.name, param.value)
        constants[param.name] = param.constant(evaluated(value, NoSignals(constants)))
    return constants


def add_items(builder, count, machines, drawn):
    """Adds items to a module, with state machines and their words, and with cases that draw machines, where these are wanted."""
    if machines is not None:
        builder.more_kinds += machine_kinds(builder.module)
    if drawn:
        builder.more_kinds += drawing_kinds(builder.module)
    if builder.module.states:
        put_state_block(builder)
    builder.add_items(count)
    if machines is not None:
        machines += module_words(builder)


def has_clocked(module):
    """Whether the module or one below it has a clocked block."""
    return any(isinstance(item, Clocked) or isinstance(item, Instance) and has_clocked(item.module) for item in module.items)


def random_design(chance, clocked=False, memories=False, machines=None, drawn=False):
    """A list of modules, the top last; `clocked` ones have clocked blocks, and those with `memories` at least one memory.

    `machines`, if there is a list, gets words for state machines. With `drawn` there are cases that draw machines.
    """
    modules = []
    for number in range(chance.choice([0, 0, 0, 1, 1, 2, 3])):
        builder = Builder(chance, f"part{number}", modules, memories)
        variants = builder.add_params()
        if clocked and chance.random() < 0.8:
            builder.add_clocks()
        if drawn and chance.random() < 0.6:
            add_state_ports(builder)
        builder.add_ports(chance.randrange(1, 5), chance.randrange(1, 4))
        add_items(builder, chance.randrange(1, 5), machines, drawn)
        modules = [*modules, (builder.module, variants)]
    builder = Builder(chance, chance.choice(["top", "chip", "m"]), modules, memories)
    builder.add_params()
    builder.make.scopes = builder.make.scopes[:1]
    if clocked:
        builder.add_clocks()
    builder.add_ports(chance.randrange(1, 6), chance.randrange(1, 5))
    if memories:
        (chance.choice(CLOCKED_MEMORY_KINDS[:2]) if clocked else MEMORY_KINDS[0]).add(builder)
    if drawn:
        chance.choice(drawing_kinds(builder.module)).add(builder)
    add_items(builder, chance.choice([1, 2, 3, 4, 6, 9, 12, 20]), machines, drawn)
    if clocked and not has_clocked(builder.module):
        Registers().add(builder)
    design = [module for module, _ in modules] + [builder.module]
    for module in design:
        module.source = chance.choice([1, 1, 2]) if len(design) > 1 else 1
    design[-1].source = 1
    return design
