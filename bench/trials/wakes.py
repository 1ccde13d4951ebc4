"""What may move in a step, which clocked blocks it can wake, and what may change before a clean one is evaluated.

A *single* signal changes at most once in a step, from its old to its new value: a dumped input, and a dumped event signal that one clocked
block writes, at most once on each path, if that block cannot wake or is clean. So there are more of them from round to round, until
there is none more. Any other event signal may rise and fall within a step, so a block that one can wake is evaluated any number of times.
An input that the dump lacks may move in each step, and nothing is known of its edges.
"""
from .designs import Edged


def edge(old, new):
    """The edge from one bit to another, or None (IEEE 1364-2001, 9.7.1)."""
    levels = {"0": 0, "x": 1, "z": 1, "1": 2}
    if levels[old] == levels[new]:
        return None
    return "posedge" if levels[old] < levels[new] else "negedge"


def least(first, processes, targets_of):
    """The least set with these signals and the targets that `targets_of` gives of each process by the set."""
    found, more = set(first), True
    while more:
        added = set().union(*(targets_of(process, found) for process in processes)) - found
        found |= added
        more = bool(added)
    return found


class Wakes:
    """What may move in a step in which these inputs change or may change.

    `edges` has the edges of the dumped ones that have one bit, and of `told`. `told` has the dumped event signals of one bit that are no inputs. By the late habit an input that is no event signal moves too
    late to be early for a clean block whose trigger is an input.
    """

    def __init__(self, flat, changed, edges, told=(), is_late=False):
        self.processes, self.changed, self.edges, self.chosen = flat.processes, changed, edges, {}
        self.moved_before = changed & events_of(flat) if is_late else changed
        self.single, more = {it for it in edges if it.is_input}, {None}
        while more:
            self.may_move = least(changed, flat.processes, self.moved_targets)
            more = {it for it in told if it not in self.single and self.is_written_once(it, flat.writers()[it])}
            self.single |= more

    def is_written_once(self, signal, writers):
        """Whether a clocked block alone writes a signal, at most once in each evaluation, of which there is at most one."""
        if len(writers) != 1 or not isinstance(writers[0], Edged):
            return False
        writer = writers[0]
        return writer.most_named(signal) <= 1 and (not self.can_wake(writer) or self.trigger(writer) is not None)

    def wakers(self, process, members):
        """The event signals among these that can wake a clocked block, in the order of its list."""
        return [signal for signal, edges in process.edges().items()
                if signal in members and (signal not in self.single or signal not in self.edges or self.edges[signal] in edges)]

    def moved_targets(self, process, members):
        if isinstance(process, Edged):
            wakes = self.wakers(process, members)
        else:
            wakes = process.watched() & members
        return process.targets() if wakes else ()

    def can_wake(self, process):
        return self.wakers(process, self.may_move)

    def trigger(self, process):
        """The event signal of a clean block, else None."""
        wakers = self.can_wake(process)
        return wakers[0] if len(wakers) == 1 and wakers[0] in self.single else None

    def early(self, block):
        """What may have changed when a clean block is evaluated, its trigger left aside."""
        if block not in self.chosen:
            trigger = self.trigger(block)
            moved = self.moved_before if trigger.is_input else self.changed

            def targets(process, members):
                more = members | {trigger}
                if not isinstance(process, Edged):
                    found = process.targets() if process.watched() & more else ()
                else:
                    at_once = process is not block and self.wakers(process, more)
                    later = self.wakers(process, members)
                    found = (process.written_at_once() if at_once else set()) | (process.written_later() if later else set())
                return set(found) - {trigger}

            self.chosen[block] = least(moved - {trigger}, self.processes, targets)
        return self.chosen[block]


def events_of(flat):
    """The event signals of a design."""
    return {it for process in flat.processes if isinstance(process, Edged) for it in process.edges()}


def wakes_of(flat, old, new, bound, is_late=False):
    """The wakes of a step from these settled values to those, under a dump of these signals; steps with equal changes of inputs and of
    dumped event signals have the same."""
    changed = frozenset(it for it in flat.signals if it.is_input and (it not in bound or old[it] != new[it]))
    told = frozenset(it for it in events_of(flat) & bound if not it.is_input and it.width == 1)
    edges = {it: edge(digit(old[it]), digit(new[it])) for it in (changed & bound) | told if it.width == 1}
    key = changed, frozenset(edges.items()), is_late
    if key not in flat.known_wakes():
        flat.known_wakes()[key] = Wakes(flat, changed, edges, told, is_late)
    return flat.known_wakes()[key]


def digit(value):
    """The digit of a vector of one bit."""
    return "01xz"[value.ones + 2 * value.strange]
