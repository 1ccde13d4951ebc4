"""The late habit of a bench: an input that no clocked block has in its list moves, in a step with a waking move, only after a quiet
moment that follows the last of these. A waking move changes an input by an edge for which it stands in such a list; at a quiet
moment no process is woken and no update is being made.

Icarus Verilog has a quiet moment where it comes to a `#0` of the bench, and where it begins to make nonblocking assignments.
"""
from dataclasses import replace
from random import Random

from .designs import Edged
from .stimuli import LATER, Step
from .wakes import edge

FREE, LATE = "free", "late"
OTHERS = 3


def phases(moves):
    """How many quiet moments of the step come before each move at the latest: the moves of one phase may have none between them."""
    found, now, waiting = [0] * len(moves), 0, []
    for k, move in enumerate(moves):
        if move.how == "at the end":
            waiting.append(k)
            continue
        if move.how != "at once":
            now += 1
        found[k] = now
        if move.how == "after the updates":
            found = [now if j in waiting else it for j, it in enumerate(found)]
            waiting = []
    return [now + 1 if j in waiting else it for j, it in enumerate(found)]


class LateSteps:
    """Arranges the moves of the steps of a bench by the late habit: `edges` has those that wake a block, by the name of the signal."""

    def __init__(self, flat, chance):
        self.chance, self.edges = chance, {}
        for process in flat.processes:
            for signal, edges in process.edges().items() if isinstance(process, Edged) else ():
                self.edges.setdefault(signal.full_name, set()).update(edges)
        self.held = {name: "x" for name in self.edges}

    def is_event(self, move):
        return move.signal.full_name in self.edges

    def is_waking(self, move):
        name = move.signal.full_name
        return self.is_event(move) and edge(self.held[name], move.digits) in self.edges[name]

    def is_late(self, moves):
        """Whether the moves of a step keep to the habit."""
        found = list(zip(moves, phases(moves)))
        last = max((phase for move, phase in found if self.is_waking(move)), default=-1)
        return all(phase > last for move, phase in found if not self.is_event(move))

    def usual(self, moves):
        """The moves as a bench of this habit mostly makes them: event signals at once, and the others by nonblocking assignments."""
        made = [replace(move, how="at once" if self.is_event(move) else "at the end") for move in moves]
        self.chance.shuffle(made)
        return made

    def arranged(self, moves):
        """The moves in another order and made in other ways, which keep to the habit."""
        if self.chance.random() < 0.4:
            return self.usual(moves)
        for _ in range(20):
            made = [replace(move, how=self.chance.choice(list(LATER))) for move in moves]
            self.chance.shuffle(made)
            if self.chance.random() < 0.7:
                made.sort(key=lambda move: not self.is_event(move))
            if self.is_late(made):
                return made
        return self.usual(moves)

    def steps(self, steps, keep):
        """The steps, arranged where they do not keep to the habit; all are arranged without `keep`."""
        found = []
        for step in steps:
            is_kept = keep and self.is_late(step.moves)
            found.append(Step(step.gap, step.moves if is_kept else self.arranged(step.moves)))
            self.held.update({move.signal.full_name: move.digits for move in step.moves if self.is_event(move)})
        return found


def late(stimuli, flat, chance, keep=False):
    """Stimuli that keep to the late habit; with `keep` each step that already does is left as it is."""
    return replace(stimuli, steps=LateSteps(flat, chance).steps(stimuli.steps, keep))


def bench_stimuli(case, flat):
    """The stimuli of a case, which keep to its first habit also where a case was made smaller."""
    return late(case.stimuli, flat, Random(case.seed), keep=True) if LATE in case.habits else case.stimuli


def other_stimuli(case, flat, chance):
    """Other runs of a case with the late habit: three of this habit, and three more of the free one where it is scored so too."""
    shares = (0.0, 0.3, 0.7)
    found = [late(case.stimuli.otherwise(chance, flat, 4, share), flat, chance) for share in shares]
    if FREE in case.habits:
        found += [case.stimuli.otherwise(chance, flat, 4, share) for share in shares]
    return found


def decided_otherwise(addresses, late_verdicts, free_verdicts):
    """What is decided under the free habit and not the same under the late one, as texts."""
    return [f"{address} = {verdict}: under the free habit {free}" for address, verdict, free
            in zip(addresses, late_verdicts, free_verdicts) if free in ("hit", "missed") and verdict != free]
