"""A copy of a design with probes, and the bench that simulates it and prints what is settled.

Each instance of the copy is a module of its own. Each of its processes has a vector of probes with one bit for each statement,
each case of a counted node, and each word of a memory that it reads or writes: a block sets it to what its last evaluation
visited, and the bench has those of continuous assignments set at settled times. Nothing of the design reads a probe. A block under
`*` also reads whole what its text reads, and each word of a memory, since Icarus Verilog wakes such a block only by the bits and
words that it reads, where the standard says that a name stands for the signal (IEEE 1364-2001, 9.7.5).

A clocked block is evaluated any number of times in a step. Its probes have what all of these visit, and each prints the values with
which it begins.
"""
from . import vectors
from .designs import Clocked
from .statements import Block, Case, Empty, Set, Task, leaves
from .terms import Binary, Constant, alone, cases_of
from .texts import ModuleText
from .things import Word, memories_of
from .words import WordOf, read_key, write_key

ANY_TURN = Constant(vectors.of_number(32, 0), True)


class Probes:
    """The probes of one process: the key of each bit of its vector, and the names of its scratch variables."""

    def __init__(self, number, process):
        self.number, self.process, self.keys, self.scratch, self.known_visits = number, process, {}, [], {}

    def bit(self, key):
        return f"probe_{self.number}[{self.keys.setdefault(key, len(self.keys))}]"

    def visits(self, digits):
        """The keys of the bits that are 1."""
        if digits not in self.known_visits:
            self.known_visits[digits] = {key for key, place in self.keys.items() if digits[place] == "1"}
        return self.known_visits[digits]

    def variable(self, width, signed):
        name = f"value_{self.number}_{len(self.scratch)}"
        self.scratch.append(f"reg {'signed ' if signed else ''}[{width - 1}:0] {name};")
        return name

    def declarations(self):
        number = self.number
        return [f"reg [{max(len(self.keys), 1) - 1}:0] probe_{number};", f"reg [63:0] acted_{number};",
                f"reg read_{number};", f"integer label_{number};", *self.scratch]

    def truths(self, scope, term, width, signed):
        """Statements that evaluate a node's operands in their contexts, and the names of their values."""
        operands = term.operands(scope, width, signed) if isinstance(term, Binary) else [(term, width, signed)]
        lines, names = [], []
        for operand, w, s in operands:
            name = self.variable(w, s)
            text = operand.text() if s or not operand.own_sign(scope) else f"({operand.text()}) | {w}'b0"
            lines.append(f"{name} = {text};")
            names.append(name)
        return lines, names

    def words(self, term, scope, key):
        """Statements that set the probe of the word that a term names."""
        _, width, signed = alone(term.index, scope)
        name = self.variable(width, signed)
        words = scope.find(term.name()).words
        return [f"{name} = {term.index.text()};", *(f"if ({name} == {it.at}) {self.bit(key(it))} = 1'b1;" for it in words)]

    def of_target(self, target, scope):
        """Statements that set the probes of the words that an assignment writes."""
        return [line for leaf in leaves(target) if isinstance(leaf, WordOf) for line in self.words(leaf, scope, write_key)]

    def of_term(self, term, width, signed, scope):
        """Statements that set the probes of the counted nodes and of the words in a term."""
        lines = []
        for inner, w, s in term.within(scope, width, signed):
            if isinstance(inner, WordOf):
                lines += self.words(inner, scope, read_key)
            if not inner.node:
                continue
            more, names = self.truths(scope, inner, w, s)
            lines += more
            for case in cases_of(inner.word, len(names)):
                test = " && ".join(f"(|{name}) === 1'b{digit}" for name, digit in zip(names, case) if digit != "-")
                lines.append(f"if ({test}) {self.bit(('c', inner.node, case))} = 1'b1;")
        return lines


class CopyText(ModuleText):
    """Writes the copy of one instance."""

    def __init__(self, made, processes, joined):
        super().__init__(made.module, copy_name(made))
        self.made, self.waiting, self.probes, self.scopes = made, [*processes, *joined], [], [made.scope]
        self.joined = joined

    def write(self):
        lines = super().write()
        end = lines.pop()
        for _ in self.joined:
            self.continuous(self.next_probes())
        lines.append(end)
        declared = ["  " + line for probes in self.probes for line in probes.declarations()]
        return [lines[0], *declared, *lines[1:]]

    def mark(self, *terms):
        pass

    def mark_statement(self, statement):
        pass

    def next_probes(self):
        self.probes.append(Probes(len(self.probes), self.waiting.pop(0)))
        return self.probes[-1]

    def assign(self, item):
        super().assign(item)
        for _ in item.sets:
            self.continuous(self.next_probes())

    def continuous(self, probes):
        """Sets the probes of a continuous assignment, where the bench says that all is settled."""
        self.put(f"always @(tb.tick) begin probe_{probes.number} = 0;")
        for scope, term, width, signed in probes.process.shaped_terms():
            self.put_all(probes.of_term(term, width, signed, scope))
        self.put("end")

    def put_all(self, lines):
        for line in lines:
            self.put("  " + line)

    def instance(self, item, module_name):
        return super().instance(item, copy_name(self.made.below[item.name]))

    def always(self, item):
        if isinstance(item, Clocked):
            self.clocked(item)
        else:
            self.comb(item)

    def clocked(self, item):
        probes = self.next_probes()
        number, used = probes.number, probes.process.used()
        self.put(f"always @{self.event_text(item)} begin")
        names = "".join(f", {self.local_name(signal)}" for signal in used)
        self.put(f'  $display("A {self.made.path} {number} %0d{" %b" * len(used)}", $time{names});')
        self.put(f"  if (acted_{number} !== $time) probe_{number} = 0;")
        self.put(f"  acted_{number} = $time;")
        self.below(item.body)
        self.put("end")

    def comb(self, item):
        probes = self.next_probes()
        self.put(f"always @{self.event_text(item)} begin")
        names = sorted({self.local_name(it) for it in probes.process.watched() - set(probes.process.targets())})
        if item.listed is None and names:
            self.put(f"  read_{probes.number} = ^{{{', '.join(names)}}};")
        self.put(f"  acted_{probes.number} = $time;")
        self.put(f"  probe_{probes.number} = 0;")
        self.below(item.body)
        self.put("end")

    def local_name(self, signal):
        if isinstance(signal, Word):
            return signal.name
        return next(name for name, it in self.made.scope.names.items() if it is signal)

    def statement(self, statement):
        if isinstance(statement, Task):
            statement = Empty()
        if isinstance(statement, (Block, Empty)):
            super().statement(statement)
            return
        self.put("begin")
        self.depth += 1
        self.probe(statement)
        super().statement(statement)
        self.depth -= 1
        self.put("end")

    def probe(self, statement):
        probes, scope = self.probes[-1], self.scopes[-1]
        self.put(f"{probes.bit(('l', statement.point))} = 1'b1;")
        shaped = statement.evaluated(scope)
        if isinstance(statement, Case):
            self.put_all(probes.of_term(*shaped[0], scope))
            self.probe_labels(statement, shaped[1:])
        else:
            for term, width, signed in shaped:
                self.put_all(probes.of_term(term, width, signed, scope))
        if isinstance(statement, Set):
            self.put_all(probes.of_target(statement.target, scope))

    def probe_labels(self, statement, shaped):
        """The label that matches first, and then the nodes of the labels up to it."""
        probes, scope = self.probes[-1], self.scopes[-1]
        number = f"label_{probes.number}"
        lines = [(k, line) for k, shape in enumerate(shaped) for line in probes.of_term(*shape, scope)]
        if not lines:
            return
        self.put(f"{statement.kind} ({statement.selector.text()})")
        for k, (label, _) in enumerate(statement.labels()):
            self.put(f"  {label.text()}: {number} = {k};")
        self.put(f"  default: {number} = {len(shaped)};")
        self.put("endcase")
        for k, line in lines:
            self.put(f"if ({number} >= {k}) begin {line} end")

    def loop(self, statement):
        self.scopes.append(self.scopes[-1].with_constant(statement.variable, ANY_TURN))
        super().loop(statement)
        self.scopes.pop()


def copy_name(made):
    return "copy_" + made.path.replace(".", "__")


class Copy:
    """The copy of a flat design: its text, and the places of its probes."""

    def __init__(self, flat):
        self.flat, self.probes, lines = flat, [], []
        for made in flat.instances:
            own = [process for process in flat.processes if process.counted and process.scope is made.scope]
            joined = [process for process in flat.processes
                      if not process.counted and process.scope is made.scope and memories_of(process.mentions())]
            text = CopyText(made, own, joined)
            lines += text.write()
            self.probes += [(made.path, probes) for probes in text.probes]
        self.text = "\n".join(lines) + "\n"
        self.numbered = {(path, probes.number): probes.process for path, probes in self.probes}

    def process(self, path, number):
        """The process of an instance with these probes."""
        return self.numbered[path, number]


def in_bench(path):
    """A path of the design as the bench names it: its top is the instance `tb.dut`."""
    return "tb.dut" + path[len(path.split(".")[0]):]
