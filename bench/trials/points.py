"""The points of a flat design in the order of a database, and its head."""
from dataclasses import dataclass
from functools import lru_cache

from .designs import BlockProcess
from .machines import machine_points
from .terms import Binary, cases_of
from .words import read_key, write_key

CASES = ["0", "1", "0-", "-0", "1-", "-1", "00", "01", "10", "11"]


@dataclass(frozen=True, eq=False)
class Point:
    """A point: its address as the database has it, and what it counts.

    `blocks` has the block of a line or of a case of a node, and `key` its statement or its node and case. Those of a word are the
    processes that read its memory, or that write it. A toggle has a signal, and in `key` the offset of its bit and whether it rises;
    a state or an arc has the signal and its values.
    """
    address: str
    order: tuple
    key: tuple
    blocks: tuple = ()
    signal: object = None

    def times(self, hits):
        """When it is hit, from the times at which each block or signal hits each key."""
        return sorted({time for it in self.blocks or (self.signal,) for time in hits.get((it, self.key), ())})


def line_points(process):
    module, path = process.module, process.scope.path
    found = {}
    for statement, _ in process.body.copies(process.scope):
        if statement.word:
            number = statement.point
            address = f"l {path} {number} {module.source}:{statement.line} {statement.word}"
            found[number] = Point(address, (0, path, number), ("l", number), (process,))
    return list(found.values())


def counted_terms(process):
    """The counted nodes of a process, each once."""
    if isinstance(process, BlockProcess):
        roots = [term for statement, scope in process.body.copies(process.scope) for term, _, _ in statement.evaluated(scope)]
    else:
        roots = [process.value]
    return {inner.node: inner for root in roots for inner in root.everything() if inner.node}


def node_points(process):
    module, path = process.module, process.scope.path
    found = []
    for number, term in counted_terms(process).items():
        for case in cases_of(term.word, 2 if isinstance(term, Binary) else 1):
            address = f"c {path} {number} {module.source}:{term.line} {term.word} {case}"
            found.append(Point(address, (1, path, number, CASES.index(case)), ("c", number, case), (process,)))
    return found


def toggle_points(signal):
    found = []
    for offset in range(signal.width):
        index = signal.index(offset)
        place = -1 if index == "-" else int(index)
        for number, direction in enumerate(("01", "10")):
            address = f"t {signal.path} {signal.name} {index} {direction}"
            order = (2, signal.path, signal.name, place, number)
            found.append(Point(address, order, (offset, direction == "01"), signal=signal))
    return found


def word_points(memory, flat):
    """Each word of a memory, read and written."""
    readers = tuple(it for it in flat.processes if memory.words[0] in it.mentions())
    writers = tuple(flat.writers()[memory.words[0]])
    found = []
    for word in memory.words:
        for number, (key, blocks) in enumerate(((read_key(word), readers), (write_key(word), writers))):
            address = f"m {memory.path} {memory.name} {word.at} {key[0]}"
            found.append(Point(address, (4, memory.path, memory.name, word.at, number), key, blocks))
    return found


@lru_cache(maxsize=4)
def points_of(flat):
    """All points, in the order of a database."""
    found = [point for signal in flat.signals for point in toggle_points(signal)]
    found += [Point(*it, signal=machine.signal) for machine in flat.machines for it in machine_points(machine)]
    found += [point for memory in flat.memories for point in word_points(memory, flat)]
    for process in flat.processes:
        if process.counted:
            found += node_points(process)
            if isinstance(process, BlockProcess):
                found += line_points(process)
    return sorted(found, key=lambda point: point.order)


def head_of(flat, sources, count):
    """The lines of a database before its points."""
    lines = ["covered-db 2", f"top {flat.top.module.name}"]
    lines += [f"source {number} {name}" for number, name in enumerate(sources, 1)]
    lines += [f"instance {it.path} {it.module.name}" for it in sorted(flat.instances, key=lambda it: it.path)]
    return [*lines, f"points {count}"]


def tail_of(times):
    """The lines of a database after its points: its window, which a dump of these listed times has if they are two or more."""
    windows = [f"window {times[0]} {times[-1]}"] if len(times) > 1 else []
    return [f"windows {len(windows)}", *windows, "end"]
