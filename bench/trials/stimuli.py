"""What the bench does with the inputs, and its text."""
from dataclasses import dataclass, field, replace

from .copies import copy_name, in_bench
from .vectors import digits_of, fill, of_digits

LATER = {"at once": "{name} = {value};", "after the others": "#0 {name} = {value};", "at the end": "{name} <= {value};",
         "after the updates": "go <= ~go; @(go) {name} = {value};"}


@dataclass
class Move:
    """An input, or the bits of it from `high` down to `low` by offset, gets these digits."""
    signal: object
    digits: str
    how: str = "at once"
    low: int = None

    def text(self):
        name = self.signal.name
        if self.low is not None:
            first, last = self.low + len(self.digits) - 1, self.low
            name += f"[{self.signal.index(first)}:{self.signal.index(last)}]"
        return LATER[self.how].format(name=name, value=f"{len(self.digits)}'b{self.digits}")


@dataclass
class Step:
    """Moves, some time after the step before."""
    gap: int
    moves: list


@dataclass
class Stimuli:
    """The steps of a bench; the dump begins in the step with this number, and ends after the last one or in it.

    When it begins, variables of the design get the digits of `starts`, by full name: what they are then is not decided.
    """
    steps: list = field(default_factory=list)
    dump_from: int = 0
    ends_at_once: bool = False
    starts: dict = field(default_factory=dict)

    def otherwise(self, chance, flat, hows=2, share=0.7):
        """The same moves in another order within each step, from other values of a share of what the design does not decide.

        Each move is made in one of the first `hows` ways.
        """
        steps = []
        for step in self.steps:
            moves = [replace(move, how=chance.choice(list(LATER)[:hows])) for move in step.moves]
            chance.shuffle(moves)
            steps.append(Step(step.gap, moves))
        variables = [signal for signal in flat.things() if signal.kind != "wire" and not signal.is_input]
        starts = {it.full_name: random_digits(chance, it.width, False) for it in variables if chance.random() < share}
        return Stimuli(steps, self.dump_from, self.ends_at_once, starts)


def input_range(signal):
    return f"[{signal.high}:{signal.low}] " if signal.ranged else ""


def show_task(copy):
    """The task that prints the settled values of all signals and words, and all probes."""
    lines = ["task show;", "begin", '  $display("T %0d", $time - 2);']
    lines += [f'  $display("%b", {in_bench(signal.path)}.{signal.name});' for signal in copy.flat.things()]
    for path, probes in copy.probes:
        scope, n = in_bench(path), probes.number
        lines.append(f'  $display("%b %0d", {scope}.probe_{n}, {scope}.acted_{n});')
    return [*lines, "end", "endtask"]


def step_text(step):
    lines = [f"  #{step.gap};"] if step.gap else []
    lines += ["  " + move.text() for move in step.moves]
    return [*lines, "  #1 tick = ~tick;", "  #1 show;"]


def steps_text(stimuli):
    """The steps, with the beginning of the dump."""
    lines = []
    for number, step in enumerate(stimuli.steps):
        text = step_text(step)
        if number == stimuli.dump_from:
            starts = [f"  {in_bench(name)} = {len(digits)}'b{digits};" for name, digits in stimuli.starts.items()]
            text[1 if step.gap else 0:0] = [*starts, "  dump;"]
        if number == len(stimuli.steps) - 1 and stimuli.ends_at_once:
            text = text[:-2]
        lines += text
    return lines


def dump_task(choices):
    """The task that begins the dump: `choices` has for each number of `+vars` what is dumped, by the levels below it."""
    lines = ["task dump;", "begin", '  if ($value$plusargs("dump=%s", name)) $dumpfile(name);']
    for number, choice in enumerate(choices):
        calls = " ".join(f"$dumpvars({levels}, {', '.join(names)});" for levels, names in choice.items() if names)
        lines.append(f'  if ($test$plusargs("vars{number}.")) begin {calls} end')
    return [*lines, "end", "endtask"]


def all_steps_text(stimuli, others):
    """The steps of the bench: with `+other0.` those of the first of `others`, and so on."""
    lines = []
    for number, other in enumerate(others):
        lines += [f'  if ($test$plusargs("other{number}.")) begin', *steps_text(other), "  end else"]
    return [*lines, "  begin", *steps_text(stimuli), "  end"]


def bench_text(copy, stimuli, others, choices):
    """The bench, whose steps are those of one of the others where a word of the simulation says so."""
    inputs = [signal for signal in copy.flat.signals if signal.is_input]
    ports = copy.flat.top.module.ports
    outputs = [copy.flat.top.scope.find(port.name) for port in ports if port.direction == "output"]
    lines = ["module tb;", "reg tick, go;", "reg [8*64:1] name;"]
    lines += [f"reg {input_range(it)}{it.name};" for it in inputs] + [f"wire {input_range(it)}{it.name};" for it in outputs]
    lines.append(f"{copy_name(copy.flat.top)} dut({', '.join(f'.{it.name}({it.name})' for it in inputs + outputs)});")
    lines += [*show_task(copy), *dump_task(choices), "initial begin", "  tick = 0;", "  go = 0;"]
    lines += [*all_steps_text(stimuli, others), "  $finish;", "end", "endmodule"]
    return "\n".join(lines) + "\n"


# ---------------------------------------------------------------- random steps

def random_digits(chance, width, unknown):
    """Random digits, some of them x or z where `unknown` says so."""
    return "".join(chance.choice("xz") if unknown and chance.random() < 0.2 else chance.choice("01") for _ in range(width))


def changed_digits(chance, digits):
    """The digits with one or two of them changed."""
    found = list(digits)
    for _ in range(chance.choice([1, 1, 2])):
        at = chance.randrange(len(found))
        found[at] = chance.choice("01" if chance.random() < 0.9 else "xz")
    return "".join(found)


def random_move(chance, signal, held):
    """Moves of one input; `held` has its digits before, and is changed."""
    old = held[signal]
    if chance.random() < 0.4:
        new = changed_digits(chance, old)
    else:
        new = random_digits(chance, signal.width, chance.random() < 0.12)
    held[signal] = new
    how = chance.choices(list(LATER)[:3], [8, 2, 1])[0]
    if signal.width < 2 or chance.random() < 0.8:
        return [Move(signal, new, how)]
    cut = chance.randrange(1, signal.width)
    return [Move(signal, new[:cut], how, signal.width - cut), Move(signal, new[cut:], "after the others", 0)]


def random_stimuli(chance, flat):
    inputs = [signal for signal in flat.signals if signal.is_input]
    held = {signal: digits_of(fill(signal.width, "x")) for signal in inputs}
    made = Stimuli(ends_at_once=chance.random() < 0.2)
    activity = chance.choice([0.2, 0.5, 0.9])
    for number in range(chance.randrange(4, 40)):
        moved = [it for it in inputs if chance.random() < (0.9 if number == 0 else activity)]
        chance.shuffle(moved)
        gap = 0 if number == 0 else chance.randrange(1, 20)
        made.steps.append(Step(gap, [move for it in moved for move in random_move(chance, it, held)]))
    made.dump_from = chance.choice([0, 0, 1, 2])
    return made


def settled_digits(text):
    """A vector from what `%b` prints."""
    return of_digits(text.lower())
