"""What has a value: signals, and the words of memories. A memory has no value itself: it stands for all its words."""
from dataclasses import dataclass
from functools import cached_property


@dataclass(eq=False)
class Signal:
    """A signal of the flat design: its instance by path, its name, and its range."""
    path: str
    name: str
    high: int
    low: int
    ranged: bool
    signed: bool
    is_input: bool
    kind: str

    @property
    def width(self):
        return abs(self.high - self.low) + 1

    @property
    def full_name(self):
        return f"{self.path}.{self.name}"

    @property
    def named(self):
        """What a database names where it is in doubt."""
        return self

    def offset(self, index):
        """How far the bit with this index is above the lowest."""
        return index - self.low if self.high >= self.low else self.low - index

    def index(self, offset):
        """The index of a bit as the database has it."""
        return "-" if not self.ranged else str(self.low + offset if self.high >= self.low else self.low - offset)

    def things(self):
        """What has a value of its own."""
        return (self,)


@dataclass(eq=False)
class Word(Signal):
    """A word of a memory; its name has the index."""
    memory: object
    at: int

    @property
    def named(self):
        return self.memory


@dataclass(eq=False)
class Memory(Signal):
    """A memory, whose range is that of each word; `first` and `last` are the indexes that bound its words."""
    first: int
    last: int

    @cached_property
    def words(self):
        """The words by rising index."""
        low, high = sorted((self.first, self.last))
        return tuple(Word(self.path, f"{self.name}[{at}]", self.high, self.low, self.ranged, self.signed, False, self.kind, self, at)
                     for at in range(low, high + 1))

    def word(self, at):
        """The word with this index, or None where there is none, such as for an index with x or z."""
        lowest = self.words[0].at
        return self.words[at - lowest] if at is not None and 0 <= at - lowest < len(self.words) else None

    def things(self):
        return self.words


def memories_of(things):
    """The memories of the words among these things."""
    return {it.memory for it in things if isinstance(it, Word)}


def named(things):
    """The signals and memories of these things."""
    return {it.named for it in things}
