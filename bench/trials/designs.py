"""Modules, and the flat design that they make: its signals, its processes and its points.

A module is a list of declarations and a list of items. The design has one instance of its top, and below it those of its items.
"""
from dataclasses import dataclass, field
from functools import wraps

from . import terms, vectors
from .statements import Set, assign, possible_masks, read_names, statements_in, united
from .terms import Constant, Name
from .things import Memory, Signal


class Scope:
    """What the names of a module mean in one instance; `answers` has what was found of its terms."""

    def __init__(self, path, names=()):
        self.path, self.names, self.answers = path, dict(names), {}

    def find(self, name):
        return self.names[name]

    def with_constant(self, name, constant):
        return Scope(self.path, {**self.names, name: constant})


class NoSignals:
    """The scope of a constant expression."""

    def __init__(self, constants):
        self.constants, self.answers = constants, {}

    def find(self, name):
        return self.constants[name]


@dataclass
class Param:
    """A parameter; `header` says whether the module's head declares it, `local` whether it takes no other value."""
    name: str
    value: terms.Term
    local: bool = False
    header: bool = False
    range_text: str = ""
    width: int = None
    signed: bool = None

    def constant(self, given):
        """Its value from what is given, extended or cut to its range."""
        if self.width is None:
            return given
        return Constant(vectors.extend(given.vector, self.width, given.signed), self.signed)


@dataclass
class Declared:
    """A declaration of one name: `direction` is `input`, `output` or None, `kind` is `wire`, `reg` or `integer`.

    A port that is declared `twice` has its kind in a declaration of its own, where the head does not declare it. A memory has
    in `words` the two bounds of its indexes.
    """
    name: str
    kind: str
    direction: str = None
    signed: bool = False
    high: terms.Term = None
    low: terms.Term = None
    initial: str = None
    twice: bool = False
    words: tuple = None

    def signal(self, path, constants, is_input):
        if self.kind == "integer":
            return Signal(path, self.name, 31, 0, True, True, is_input, self.kind)
        high, low = (bound.value(NoSignals(constants), None).ones if bound else 0 for bound in (self.high, self.low))
        shape = path, self.name, high, low, self.high is not None, self.signed, is_input, self.kind
        if self.words:
            return Memory(*shape, *(bound.value(NoSignals(constants), None).ones for bound in self.words))
        return Signal(*shape)


@dataclass
class Assign:
    """Continuous assignments of one `assign`; or, with `declared`, a net that is declared with its value."""
    sets: list
    declared: Declared = None


@dataclass
class Always:
    """An `always` block; `loops` has the variables of its loops."""
    body: object
    loops: list = field(default_factory=list, kw_only=True)
    separator: str = field(default=" or ", kw_only=True)


@dataclass
class Comb(Always):
    """A combinational block; `listed` has the names of its list, or is None for `*`."""
    listed: list = None
    star: str = "*"


@dataclass
class Clocked(Always):
    """A clocked block: `events` has pairs of `posedge` or `negedge` and a name."""
    events: list


@dataclass
class Instance:
    """An instance of a module: `connections` has for each port an expression, None for an empty one, or no entry."""
    module: object
    name: str
    connections: dict
    overrides: dict = field(default_factory=dict)
    by_name: bool = True
    overrides_by_name: bool = True


@dataclass
class Plain:
    """An item of which the design has nothing, such as an `initial` block."""
    text: str


@dataclass
class Module:
    """A module. `ansi` says whether its head declares the ports, and `clocks` which of them are there for clocks and resets.

    `states` has two ports, an input for a state and the output for the next one, if the module is there for these.
    """
    name: str
    params: list = field(default_factory=list)
    ports: list = field(default_factory=list)
    declared: list = field(default_factory=list)
    items: list = field(default_factory=list)
    ansi: bool = True
    source: int = 1
    clocks: list = field(default_factory=list)
    states: list = field(default_factory=list)

    def everything_declared(self):
        return self.ports + self.declared + [item.declared for item in self.items if isinstance(item, Assign) and item.declared]

    def used_names(self):
        """The names in processes and connections."""
        found = set()
        for item in self.items:
            if isinstance(item, Comb):
                found.update(item.listed or [])
            if isinstance(item, Clocked):
                found.update(name for _, name in item.events)
            roots = [term for pair in item.sets for term in pair] if isinstance(item, Assign) else []
            roots += [term for it in statements_in(item.body) for term in it.texts()] if isinstance(item, Always) else []
            roots += [term for term in item.connections.values() if term] if isinstance(item, Instance) else []
            found.update(it.name() for root in roots for it in root.everything() if it.name())
        return found

    def signals(self):
        """The declarations of signals: an integer is one where a process or a connection names it."""
        used = self.used_names()
        return [it for it in self.everything_declared() if it.kind != "integer" or it.name in used]

    def constant_names(self):
        loops = {name for item in self.items if isinstance(item, Always) for name in item.loops}
        return {param.name for param in self.params} | loops

    def number(self):
        """Numbers its line points and counted nodes, each from 1 in order of text."""
        count = Counter(self.constant_names())
        for item in self.items:
            if isinstance(item, Assign):
                for target, value in item.sets:
                    count.term(target)
                    count.term(value)
            if isinstance(item, Always):
                count.statement(item.body)


class Counter:
    """The numbers of line points and counted nodes given so far in a module."""

    def __init__(self, constants):
        self.constants, self.points, self.nodes = constants, 0, 0

    def names_signal(self, term):
        return any(it.name() and it.name() not in self.constants for it in term.everything())

    def term(self, term, condition=False):
        is_operator = isinstance(term, (terms.Unary, terms.Binary))
        counted = is_operator or condition and not isinstance(term, terms.Paren)
        term.node = self.next_node() if counted and self.names_signal(term) else None
        for part in term.parts():
            inherited = condition and isinstance(term, terms.Paren)
            self.term(part, inherited or isinstance(term, terms.Choice) and part is term.test)

    def next_node(self):
        self.nodes += 1
        return self.nodes

    def statement(self, statement):
        if statement.word:
            self.points += 1
            statement.point = self.points
        for part in statement.in_order():
            if isinstance(part, terms.Term):
                self.term(part, condition=statement.word == "if")
            else:
                self.statement(part)


def kept(method):
    """A method without arguments that is called once for each object."""
    name = f"kept_{method.__name__}"

    @wraps(method)
    def answer(self):
        if name not in self.__dict__:
            self.__dict__[name] = method(self)
        return self.__dict__[name]

    return answer


class Process:
    """A process of the flat design; the kinds are below."""
    counted = True

    @kept
    def mentions(self):
        """The signals that its text reads, and all words of the memories that it reads."""
        found = set()
        for term, scope in self.read_terms():
            found |= term.mentions(scope)
        return found

    def watched(self):
        """The signals to which it is sensitive."""
        return self.mentions()

    @kept
    def used(self):
        """The signals of which its execution may read the values, in the order of their names."""
        return tuple(sorted(self.mentions() | set(self.targets()), key=lambda signal: signal.full_name))

    @kept
    def answers(self):
        """What its executions and views gave, by what they know of `used`."""
        return {}

    @kept
    def wake_masks(self):
        """The bits that wake it, by signal: those of what it watches that it does not itself assign."""
        targets = self.targets()
        return {signal: bits for signal in self.watched() if (bits := vectors.mask(signal.width) & ~targets.get(signal, 0))}


class Assignment(Process):
    """A continuous assignment. That of a port has no module, is not counted, and has its target in another scope."""

    def __init__(self, target, value, scope, module, target_scope=None):
        self.target, self.value, self.scope, self.module = target, value, scope, module
        self.target_scope, self.counted = target_scope or scope, module is not None

    def read_terms(self):
        return [(self.value, self.scope)]

    @kept
    def targets(self):
        return possible_masks(self.target, self.target_scope)

    def shaped_terms(self):
        """The terms that it evaluates, each with its scope and the width and sign of its context."""
        width = max(self.target.own_width(self.target_scope), self.value.own_width(self.scope))
        return [(self.scope, self.value, width, self.value.own_sign(self.scope))]

    def execute(self, state):
        if self.target_scope is self.scope:
            assign(self.target, self.value, self.scope, state)
        else:
            joined_assign(self, state)

    def walk(self, view):
        for scope, term, width, signed in self.shaped_terms():
            view.evaluated(scope, term, width, signed, True)


def joined_assign(process, state):
    """Executes the assignment of a port, whose two sides are in different instances."""
    scope, value, width, signed = process.shaped_terms()[0]
    result = value.value(scope, state, width, signed)
    assign(process.target, terms.Number("", result, signed), process.target_scope, state)


class BlockProcess(Process):
    """An `always` block in one instance."""

    def __init__(self, item, scope, module):
        self.item, self.scope, self.module, self.body = item, scope, module, item.body

    def read_terms(self):
        return [(term, scope) for statement, scope in self.body.copies(self.scope) for term, _, _ in statement.evaluated(scope)]

    def masks(self, queued):
        """The bits of signals that it may write by blocking or by nonblocking assignments."""
        found = {}
        for statement, scope in self.body.copies(self.scope):
            if isinstance(statement, Set) and statement.queued == queued:
                found = united(found, possible_masks(statement.target, scope))
        return found

    @kept
    def written_at_once(self):
        """The signals that it writes by blocking assignments."""
        return set(self.masks(False))

    @kept
    def targets(self):
        return united(self.masks(False), self.masks(True))

    def most_named(self, signal):
        """How often targets name a signal on the path on which they do most often."""
        return self.body.most_named(self.scope, signal)

    def execute(self, state):
        self.body.execute(self.scope, state)

    def walk(self, view):
        self.body.walk(self.scope, view, True)


class Combinational(BlockProcess):
    """A combinational block in one instance."""

    @kept
    def watched(self):
        names = read_names(self.body) if self.item.listed is None else self.item.listed
        named = {self.scope.find(name) for name in set(names) - self.module.constant_names()}
        return self.mentions() | {it for it in named if not isinstance(it, Memory)}

    @kept
    def reads_first(self):
        """The targets that it reads on some path before it has written them whole."""
        found, targets = set(), self.targets()

        def note(signals, written):
            found.update(it for it in signals if it in targets and written.get(it, 0) != vectors.mask(it.width))

        self.body.flow(self.scope, {}, note)
        return found

    @kept
    def writes_whole(self):
        """The signals that it writes whole on each path."""
        written = self.body.flow(self.scope, {}, lambda signals, masks: None)
        return {signal for signal, masks in written.items() if masks == vectors.mask(signal.width)}


class Edged(BlockProcess):
    """A clocked block in one instance, which is sensitive to its edges alone."""

    def watched(self):
        return set()

    @kept
    def edges(self):
        """The edges that wake it, by event signal in the order of its list."""
        found = {}
        for edge, name in self.item.events:
            found.setdefault(self.scope.find(name), set()).add(edge)
        return found

    @kept
    def written_later(self):
        """The signals that it writes by nonblocking assignments."""
        return set(self.masks(True))


@dataclass
class InstanceOf:
    """An instance of the flat design."""
    path: str
    module: Module
    scope: Scope
    below: dict = field(default_factory=dict)


class Flat:
    """The flat design: its instances, signals, memories, other names of signals, and processes."""

    def __init__(self, top):
        self.instances, self.signals, self.memories, self.aliases, self.processes, self.machines = [], [], [], [], [], []
        self.top = self.add(top, top.name, {}, {})

    def add(self, module, path, joined, given):
        constants = {}
        for param in module.params:
            value = given.get(param.name) or evaluated(param.value, NoSignals(constants))
            constants[param.name] = param.constant(value)
        scope = Scope(path, constants)
        for declared in module.signals():
            self.declare(declared, scope, constants, joined, path == module.name)
        made = InstanceOf(path, module, scope)
        self.instances.append(made)
        for item in module.items:
            self.add_item(item, made)
        return made

    def declare(self, declared, scope, constants, joined, is_top):
        signal = declared.signal(scope.path, constants, declared.direction == "input" and is_top)
        outer = joined.get(declared.name)
        if outer and is_same_signal(declared, signal, outer):
            self.aliases.append((signal.full_name, outer))
            signal = outer
        else:
            (self.memories if declared.words else self.signals).append(signal)
        scope.names[declared.name] = signal

    def add_item(self, item, made):
        scope = made.scope
        if isinstance(item, Assign):
            self.processes.extend(Assignment(target, value, scope, made.module) for target, value in item.sets)
        if isinstance(item, Comb):
            self.processes.append(Combinational(item, scope, made.module))
        if isinstance(item, Clocked):
            self.processes.append(Edged(item, scope, made.module))
        if isinstance(item, Instance):
            self.add_instance(item, made)

    def add_instance(self, item, made):
        joined = {name: made.scope.find(term.name()) for name, term in item.connections.items()
                  if isinstance(term, Name) and not isinstance(made.scope.find(term.name()), Constant)}
        given = {name: evaluated(term, made.scope) for name, term in item.overrides.items()}
        inner = self.add(item.module, f"{made.path}.{item.name}", joined, given)
        made.below[item.name] = inner
        for port in item.module.ports:
            term = item.connections.get(port.name)
            if term and inner.scope.find(port.name).path == inner.path:
                self.join(port, term, made.scope, inner.scope)

    def join(self, port, term, outer, inner):
        if port.direction == "input":
            self.processes.append(Assignment(Name(port.name), term, outer, None, inner))
        else:
            self.processes.append(Assignment(term, Name(port.name), inner, None, outer))

    @kept
    def things(self):
        """The signals, and the words of the memories."""
        return self.signals + [word for memory in self.memories for word in memory.words]

    @kept
    def writers(self):
        """The processes that write each signal or word."""
        found = {thing: [] for thing in self.things()}
        for process in self.processes:
            for signal in process.targets():
                found[signal].append(process)
        return found

    @kept
    def known_wakes(self):
        """What was found of steps, by the inputs that change."""
        return {}


def evaluated(term, scope):
    return Constant(term.value(scope, None), term.own_sign(scope))


def is_same_signal(declared, signal, outer):
    """Whether a port that is joined to the plain name of `outer` is one signal with it."""
    return (signal.high, signal.low, signal.ranged, signal.signed) == (outer.high, outer.low, outer.ranged, outer.signed)
