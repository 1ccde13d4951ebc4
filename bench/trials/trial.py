"""One design with its bench: it is simulated under several dumps, each is scored, and each database is compared."""
import os
import random
import subprocess
from collections import Counter
from dataclasses import dataclass, field, replace

from . import drawings, habits, icarus, laws, missing
from .clocks import clocked_stimuli
from .copies import Copy, in_bench
from .designs import Flat
from .doubts import Doubts
from .drawing_kinds import random_drawings
from .generator import random_design
from .habits import FREE, LATE
from .machine_kinds import random_words
from .machines import command_words, machine_fault, machines_of
from .noise import add_noise, add_times
from .points import points_of
from .runs import Run
from .stimuli import bench_text, random_stimuli
from .texts import source_texts
from .vectors import digits_of
from .verdicts import Comparison

TOP_SCOPE, ALL_SCOPES = "all of the top", "all"


@dataclass
class Fault:
    """What is wrong: its kind, by which a smaller design has the same fault, and the text."""
    kind: str
    text: str


@dataclass
class Case:
    """A design, its bench, and the names that the dump has: those of signals and of ports that are joined to them.

    `seed` gives other runs, and the noise of the dump with `noisy`. With `altered`, two numbers, a bit of the dump is not
    that of the simulation; the numbers choose which. A `clocked` design has three other runs. `machines` are the words that name
    state machines, and `drawings` those that draw them. The bench keeps to the first of the `habits`, and each dump is scored under
    all of them.
    """
    design: list
    stimuli: object
    seed: int
    names: list
    noisy: bool = False
    altered: tuple = None
    clocked: bool = False
    machines: list = field(default_factory=list)
    drawings: list = field(default_factory=list)
    habits: tuple = (FREE,)

    def others(self, flat, lacking):
        """The steps of the other runs: the inputs move otherwise, and variables begin otherwise, or one of both.

        Those inputs that the dump is `lacking` also have other values, and move at other times.
        """
        chance = random.Random(self.seed)
        if lacking:
            return missing.other_stimuli(self, flat, lacking, chance)
        if LATE in self.habits:
            return habits.other_stimuli(self, flat, chance)
        if not self.clocked:
            return [self.stimuli.otherwise(chance, flat)]
        return [self.stimuli.otherwise(chance, flat, 4, share) for share in (0.0, 0.3, 0.7)]

    def with_names(self, names, altered=None):
        return replace(self, names=names, altered=altered)


class Outcome:
    """What a dump comes to: `word` is `scored`, `contradicted` where it is altered, or why nothing is compared.

    `verdicts` has what the database says of each point.
    """

    def __init__(self, word, fault=None, detail="", counts=None, verdicts=()):
        self.word, self.fault, self.detail, self.counts, self.verdicts = word, fault, detail, counts or {}, verdicts


def all_names(flat):
    return [signal.full_name for signal in flat.signals] + [name for name, _ in flat.aliases]


def random_names(chance, flat):
    """Names to dump: all, all in the scope of the top or also below it, or some; of each input of the top at least one."""
    form = chance.random()
    if form < 0.3:
        return all_names(flat) if form < 0.2 else [TOP_SCOPE] if form < 0.25 else [ALL_SCOPES]
    share = chance.choice([0.0, 0.2, 0.5, 0.8, 0.95])
    names = [name for name in all_names(flat) if chance.random() < share]
    for signal in flat.signals:
        known = [signal.full_name, *(name for name, it in flat.aliases if it is signal)]
        if signal.is_input and not set(known) & set(names):
            names.append(signal.full_name if chance.random() < 0.8 else chance.choice(known))
    chance.shuffle(names)
    return names


def expanded(flat, names):
    """The names that stand for all, or for all in the scope of the top, where they are such."""
    return all_names(flat) if names in ([TOP_SCOPE], [ALL_SCOPES]) else names


def names_without(chance, flat, names):
    """The names without those of some inputs, or of all; one name at least."""
    share = chance.choice([0.3, 0.6, 1.0])
    left = {name for it in flat.signals if it.is_input and chance.random() < share for name in missing.names_of(flat, it)}
    return [name for name in names if name not in left] or [chance.choice(all_names(flat))]


def dumped(names, known):
    """The arguments of `$dumpvars`, by the levels below them that are dumped."""
    if names in ([TOP_SCOPE], [ALL_SCOPES]):
        return {1 if names == [TOP_SCOPE] else 0: ["tb.dut"]}
    return {0: [in_bench(name) for name in names if name in known]}


class Trial:
    """The files of a design in a folder, with a bench that can dump each of these choices of names."""

    def __init__(self, program, folder, case, choices):
        self.program, self.folder, self.case, self.choices = program, folder, case, choices
        for module in case.design:
            module.number()
        self.sources = {f"part{number}.v": text for number, text in source_texts(case.design).items()}
        self.flat = Flat(case.design[-1])
        self.refusal = drawings.drawing_fault(self.flat, case.drawings) or machine_fault(self.flat, case.machines)
        if not self.refusal:
            self.flat.machines = machines_of(self.flat, case.machines) + drawings.drawn_machines(self.flat, case.drawings)
        self.copy, self.other_stimuli, self.numbers, self.settled = Copy(self.flat), [], {}, {}
        self.others = [self.other_numbers(names) for names in choices]

    def other_numbers(self, names):
        """The numbers of the other runs for a dump of these names; where it lacks inputs these have runs of their own."""
        is_whole = names in ([TOP_SCOPE], [ALL_SCOPES])
        lacking = () if is_whole else missing.missing_inputs(self.flat, names)
        if lacking not in self.numbers:
            before = len(self.other_stimuli)
            self.other_stimuli += self.case.others(self.flat, lacking)
            self.numbers[lacking] = range(before, len(self.other_stimuli))
        return self.numbers[lacking]

    def path(self, name):
        return os.path.join(self.folder, name)

    def build(self):
        """Writes the files and compiles the bench."""
        os.makedirs(self.folder, exist_ok=True)
        known = set(all_names(self.flat))
        choices = [dumped(names, known) for names in self.choices]
        bench = self.copy.text + bench_text(self.copy, habits.bench_stimuli(self.case, self.flat), self.other_stimuli, choices)
        for name, text in {**self.sources, "bench.v": bench}.items():
            with open(self.path(name), "w", encoding="ascii") as it:
                it.write(text)
        icarus.build(self.folder)

    def words(self, dump, habit=None):
        """The words of `covered score` for a dump, under a habit or the first one of the case."""
        sources = [word for name in self.sources for word in ("-v", name)]
        named, drawn = command_words(self.case.machines), drawings.command_words(self.case.drawings)
        more = [*(named + drawn if self.case.seed % 3 else drawn + named)]
        more += ["-late"] if (habit or self.case.habits[0]) == LATE else []
        words = ["-t", self.flat.top.module.name, "-i", "tb.dut", *sources, "-vcd", dump, "-o", "out.db"]
        return ["score", *more, *words] if self.case.seed % 2 else ["score", *words, *more]

    def outcome(self, number, altered=None):
        """Simulates the bench with the choice of this number, and scores the dump."""
        if self.refusal:
            return self.refused(self.score("none.vcd", self.case.habits[0]))
        try:
            settled = icarus.simulate(self.folder, self.copy, [f"+dump=dump{number}.vcd", f"+vars{number}."])
        except icarus.SimulationFault as fault:
            return Outcome("not simulated", detail=str(fault))
        dump, bound = self.read_dump(self.path(f"dump{number}.vcd"))
        run = Run(self.flat, self.copy, settled, dump, bound)
        differences = run.differences()
        if differences:
            return Outcome("simulated otherwise", detail=differences[0])
        outcomes = []
        for habit in self.case.habits[:1 if altered else None]:
            doubts = Doubts(run, bound, habit == LATE)
            runs = [run] if altered else [run, *self.other_runs(run, bound, habit, self.others[number])]
            outcomes.append(self.outcome_under(habit, number, runs, doubts, altered))
        found = outcomes[0] if len(outcomes) == 1 else self.joined(*outcomes)
        found.counts = {**found.counts, "lacking inputs": int(run.lacks_input and found.word == "scored")}
        return found

    def read_dump(self, file):
        """A dump that the simulation wrote, after noise was added, and the signals that it has."""
        if self.case.noisy:
            add_noise(file, random.Random(self.case.seed))
        dump = icarus.read_dump(file)
        bound = set(icarus.bind(self.flat, dump))
        if all(it in bound for it in self.flat.signals if it.is_input):
            return dump, bound
        add_times(file, random.Random(self.case.seed))
        return icarus.read_dump(file), bound

    def outcome_under(self, habit, number, runs, doubts, altered):
        """What the dump of a simulation comes to under a habit; all of `runs` show it."""
        differences = [text for it in runs for text in laws.run_differences(it, doubts.clear)]
        if differences:
            return Outcome("simulated against a law", detail=differences[0])
        if altered:
            return self.altered_outcome(runs[0], doubts, altered)
        differences = laws.account_differences(runs, doubts)
        if differences:
            return Outcome("scored", Fault("account", "\n".join(differences[:5])))
        return self.compared(self.score(f"dump{number}.vcd", habit), runs, doubts)

    def joined(self, late, free):
        """What a dump comes to that is scored under both habits."""
        if free.fault:
            free.fault.text = f"without -late: {free.fault.text}"
        for outcome in (late, free):
            if outcome.fault or outcome.word != "scored":
                return outcome
        addresses = [point.address for point in points_of(self.flat)]
        differences = habits.decided_otherwise(addresses, late.verdicts, free.verdicts)
        fault = Fault("habits", "\n".join(differences[:5])) if differences else None
        counts = Counter(late.counts) + Counter(free.counts) + Counter({"scored under both habits": 1})
        return Outcome("scored", fault, counts=counts)

    def other_runs(self, run, bound, habit, numbers):
        """The other runs of a habit that show the same dump; those of the late habit are runs of the free one too."""
        others = [self.other_settled(number) for number in (numbers[:habits.OTHERS] if habit == LATE else numbers)]
        runs = [Run(self.flat, self.copy, settled, run.dump, bound) for settled in others]
        return [it for it in runs if run.shows_as(it, bound) and not it.differences()]

    def other_settled(self, number):
        """What is settled in the other run of this number, or nothing where it does not end."""
        if number not in self.settled:
            try:
                self.settled[number] = icarus.simulate(self.folder, self.copy, [f"+other{number}."])
            except icarus.SimulationFault:
                self.settled[number] = []
        return self.settled[number]

    def score(self, dump, habit):
        """Runs `covered score`: the status and what it says, or None where it does not end."""
        if os.path.exists(self.path("out.db")):
            os.remove(self.path("out.db"))
        try:
            done = subprocess.run([self.program, *self.words(dump, habit)], cwd=self.folder, capture_output=True, timeout=600)
        except subprocess.TimeoutExpired:
            return None
        return done.returncode, (done.stdout + done.stderr).decode(errors="replace")

    def refused(self, done):
        """What words come to that name no state machine of the design."""
        if done is None:
            return Outcome("refused words", Fault("time", "covered does not end"))
        if done == (2, self.refusal):
            return Outcome("refused words")
        return Outcome("refused words", Fault("refusal", f"status {done[0]}: {done[1]}instead of {self.refusal}"))

    def compared(self, done, runs, doubts):
        """What the database of this dump comes to."""
        if done is None:
            return Outcome("scored", Fault("time", "covered does not end"))
        status, said = done
        if status or said:
            return Outcome("scored", Fault(" ".join(said.split()[:5]), f"status {status}: {said}"))
        comparison = Comparison(self.flat, list(self.sources), runs, doubts)
        with open(self.path("out.db"), encoding="ascii", errors="replace") as it:
            faults = comparison.faults(it.read())
        fault = Fault(f"verdict {fault_word(faults[0])}", "\n".join(faults)) if faults else None
        counts = {**comparison.counts, "other runs": len(runs) - 1}
        return Outcome("scored", fault, counts=counts, verdicts=comparison.verdicts)

    def altered_outcome(self, run, doubts, altered):
        """What a dump comes to of which one bit is not that of any run."""
        times = [time for time in doubts.clear.times if time in doubts.listed]
        forced = [(signal, number) for number, time in enumerate(times) for signal in self.flat.signals
                  if signal in doubts.bound and doubts.clear.forced(signal, time)]
        if not forced:
            return Outcome("not altered")
        signal, number = forced[altered[0] % len(forced)]
        self.write_altered(run, doubts, signal, times, number, altered[1])
        done = self.score("altered.vcd", self.case.habits[0])
        if done is None:
            return Outcome("altered and not refused", Fault("time", "covered does not end"))
        status, said = done
        time = times[number]
        if status == 4 and said.startswith("covered: contradiction: ") and f" at {time}: " in said:
            return Outcome("contradicted")
        text = f"{signal.full_name} is altered at {time}; status {status}: {said}"
        return Outcome("altered and not refused", Fault(f"altered {status}", text))

    def write_altered(self, run, doubts, signal, times, number, bit):
        """Writes the dump of a simulation with a bit of a signal changed at one of these times."""
        bound = [it for it in self.flat.signals if it in doubts.bound]
        values = [{it: digits_of(run.last(time).values[it]) for it in bound} for time in times]
        digits = values[number][signal]
        at = bit % len(digits)
        values[number][signal] = digits[:at] + ("0" if digits[at] == "1" else "1") + digits[at + 1:]
        icarus.write_dump(self.path("altered.vcd"), icarus.Dump({}, [*times, run.dump.times[-1]], [*values, {}]), bound)


def fault_word(text):
    """The verdict in a fault, by which faults are of one kind."""
    for word in ("= hit", "= missed", "= ?", "instead of"):
        if word in text:
            return word.lstrip("= ")
    return "?"


def random_case(seed, dumps, clocked=False, memories=False, with_machines=False, drawn=False, late=False, lacking=False):
    """A random design with its bench, so many choices of names to dump, and the numbers that choose what is altered.

    With `lacking` most of the dumps lack inputs.
    """
    chance, words = random.Random(seed), [] if with_machines else None
    design = random_design(chance, clocked, memories, words, drawn)
    for module in design:
        module.number()
    flat = Flat(design[-1])
    stimuli = clocked_stimuli(chance, flat) if clocked else random_stimuli(chance, flat)
    case = Case(design, stimuli, seed, all_names(flat), chance.random() < 0.4, clocked=clocked)
    if with_machines:
        case.machines = random_words(chance, flat, words)
    if drawn:
        case.drawings = random_drawings(chance, flat)
    if late:
        case.stimuli = habits.late(stimuli, flat, chance)
        case.habits = chance.choice([(LATE,), (LATE, FREE)])
    choices, altered = [random_names(chance, flat) for _ in range(dumps)], (chance.randrange(10_000), chance.randrange(128))
    if lacking:
        choices = [names_without(chance, flat, expanded(flat, names)) for names in choices]
        case.names = names_without(chance, flat, case.names)
    return case, choices, altered
