"""What the bench of a design with clocked blocks does with its inputs."""
from dataclasses import replace

from .designs import Edged
from .stimuli import LATER, Move, Step, Stimuli, random_move
from .vectors import digits_of, fill


class Habit:
    """How one bench moves inputs: how often, and whether those that are no event signals move where an event signal does."""

    def __init__(self, chance):
        self.chance = chance
        self.clock_share, self.reset_share = chance.choice([0.4, 0.7, 1.0]), chance.choice([0.05, 0.15, 0.4])
        self.data_share, self.unknown = chance.choice([0.2, 0.5, 0.9]), chance.choice([0.0, 0.0, 0.05])
        self.with_clock, self.between = chance.choice([(0.0, 1.0), (1.0, 0.0), (0.3, 0.8), (1.0, 1.0)])
        self.weights = chance.choice([[8, 2, 1, 1], [1, 0, 0, 0], [0, 0, 1, 0], [1, 1, 1, 1]])

    def way(self):
        return self.chance.choices(list(LATER), self.weights)[0]

    def event_moves(self, signals, held, is_first):
        """Moves of the inputs that are event signals: mostly from 0 to 1 or back."""
        moves = []
        for signal in signals:
            share = self.reset_share if signal.name.startswith("rst") else self.clock_share
            if self.chance.random() < (0.9 if is_first else share):
                digit = "1" if held[signal] == "0" else "0"
                digit = self.chance.choice("xz") if self.chance.random() < self.unknown else digit
                moves.append(Move(signal, digit, self.way()))
                held[signal] = digit
        return moves

    def data_moves(self, signals, held, is_first, is_edge):
        """Moves of the other inputs."""
        share = 0.9 if is_first else self.data_share * (self.with_clock if is_edge else self.between)
        moved = [it for it in signals if self.chance.random() < share]
        return [replace(move, how=self.way()) for it in moved for move in random_move(self.chance, it, held)]


def clocked_stimuli(chance, flat):
    """Random steps: event signals that rise and fall, and other inputs that move with them or between."""
    inputs = [signal for signal in flat.signals if signal.is_input]
    events = {it for process in flat.processes if isinstance(process, Edged) for it in process.edges()}
    events, others = [it for it in inputs if it in events], [it for it in inputs if it not in events]
    held = {signal: digits_of(fill(signal.width, "x")) for signal in inputs}
    made, habit = Stimuli(ends_at_once=chance.random() < 0.2), Habit(chance)
    for number in range(chance.randrange(5, 50)):
        moves = habit.event_moves(events, held, number == 0)
        moves += habit.data_moves(others, held, number == 0, bool(moves))
        chance.shuffle(moves)
        made.steps.append(Step(0 if number == 0 else chance.randrange(1, 20), moves))
    made.dump_from = chance.choice([0, 0, 1, 2])
    return made
