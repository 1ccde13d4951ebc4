"""Inputs that a dump lacks: other runs, in which these inputs have other values and move at other times, also between the steps of the bench."""
from .habits import FREE, LATE, bench_stimuli, late
from .stimuli import LATER, Move, Step, Stimuli, changed_digits, random_digits

SHARES = {0.05: None, 0.3: 0.2, 0.8: 0.7}


def names_of(flat, signal):
    """The names of a signal: its own and those of ports that are joined to it."""
    return {signal.full_name, *(name for name, it in flat.aliases if it is signal)}


def missing_inputs(flat, names):
    """The inputs that a dump of these names lacks."""
    return tuple(it for it in flat.signals if it.is_input and not names_of(flat, it) & set(names))


def placed(digits, move):
    """The digits of an input after a move."""
    end = len(digits) - (move.low or 0)
    return digits[:end - len(move.digits)] + move.digits + digits[end:]


class Unseen:
    """Moves these inputs otherwise: `usual` has their digits in the bench, and `held` those that they have in its place."""

    def __init__(self, inputs, chance, share, ways):
        self.chance, self.share, self.ways = chance, share, ways
        self.usual, self.held = ({it: "x" * it.width for it in inputs} for _ in range(2))

    def is_other(self):
        return self.chance.random() < self.share

    def move(self, moves, signal, digits):
        """Puts a move to these digits somewhere among the moves of a step."""
        if digits != self.held[signal]:
            moves.insert(self.chance.randrange(len(moves) + 1), Move(signal, digits, self.chance.choice(self.ways)))
            self.held[signal] = digits

    def other(self, signal):
        """Other digits of an input."""
        if self.chance.random() < 0.5:
            return changed_digits(self.chance, self.held[signal])
        return random_digits(self.chance, signal.width, self.chance.random() < 0.1)

    def between(self):
        """The moves of a step that the bench does not have."""
        moves = []
        for signal in self.held:
            if self.chance.random() < 0.6:
                self.move(moves, signal, self.other(signal))
        return moves

    def step(self, moves):
        """The moves of a step of the bench: those of these inputs are other ones, or go to their usual digits."""
        found = list(moves)
        for signal, held in self.held.items():
            before, is_other = self.usual[signal], self.is_other()
            for move in moves:
                if move.signal is signal:
                    self.usual[signal] = placed(self.usual[signal], move)
            if held == before and not is_other:
                self.held[signal] = self.usual[signal]
                continue
            found = [move for move in found if move.signal is not signal]
            self.move(found, signal, self.other(signal) if is_other else self.usual[signal])
        return found

    def steps(self, stimuli):
        """The steps of a bench with others between them, at times that it does not have; none before the dump begins."""
        found = []
        for number, step in enumerate(stimuli.steps):
            gap = step.gap
            while number > stimuli.dump_from and gap > 3 and self.is_other():
                first = self.chance.randrange(1, gap - 2)
                found.append(Step(first, self.between()))
                gap -= first + 2
            found.append(Step(gap, self.step(step.moves)))
        return found


def moved_otherwise(case, flat, inputs, chance):
    """The bench with these inputs moved otherwise: little, at times and mostly; the last two move the others in other orders."""
    ways = list(LATER) if case.clocked else list(LATER)[:2]
    for share, starts in SHARES.items():
        made = bench_stimuli(case, flat)
        if starts is not None:
            made = made.otherwise(chance, flat, len(ways), starts)
        steps = Unseen(inputs, chance, share, ways).steps(made)
        yield Stimuli(steps, made.dump_from, made.ends_at_once, made.starts)


def other_stimuli(case, flat, inputs, chance):
    """Other runs of a case under a dump that lacks these inputs: three of its first habit, and of the free one where it has that too."""
    found = list(moved_otherwise(case, flat, inputs, chance))
    if LATE not in case.habits:
        return found
    found = [late(it, flat, chance, keep=True) for it in found]
    return found + (list(moved_otherwise(case, flat, inputs, chance)) if FREE in case.habits else [])
