"""What the definitions say of each run, checked on a simulation: which evaluations there are, and what is clear."""
from .designs import Edged
from .points import points_of
from .vectors import digits_of


def run_differences(run, clear):
    """How a simulation breaks a law of what may move, of clean blocks or of what is clear, as texts."""
    found = []
    for old, new in run.window():
        wakes = clear.wakes[clear.time(new.time)]
        moved = [it for it in run.flat.things() if old.values[it] != new.values[it] and it not in wakes.may_move]
        found += [f"at {new.time} {it.full_name} moves, which it may not" for it in moved]
        for process in run.flat.processes:
            if isinstance(process, Edged):
                found += block_differences(process, clear, old, new)
    return found


def block_differences(process, clear, old, new):
    """How the evaluations of a clocked block in a step break a law."""
    entries, name = new.entries.get(process, []), f"the clocked block at line {process.body.line} of {process.scope.path}"
    if not clear.wakes[clear.time(new.time)].can_wake(process):
        return [f"at {new.time} {name} is evaluated, which it cannot be"] if entries else []
    knowledge = clear.knowledge(process, old, new)
    if not knowledge:
        return []
    if len(entries) != 1:
        return [f"at {new.time} {name} is evaluated {len(entries)} times, and it is clean"]
    found = [f"at {new.time} {name} reads {signal.full_name} as {digits_of(value)}"
             for signal, value in entries[0].items() if not may_read(signal, value, knowledge, old, new)]
    return found + register_differences(process, knowledge, old, new, name)


def may_read(signal, value, knowledge, old, new):
    """Whether a clean block may begin with this value: an early input has each bit old or new."""
    if signal not in knowledge.early:
        return value == knowledge.values[signal]
    if not signal.is_input:
        return True
    before, after = old.values[signal], new.values[signal]
    is_old = (value.ones ^ before.ones) | (value.strange ^ before.strange)
    is_new = (value.ones ^ after.ones) | (value.strange ^ after.strange)
    return not is_old & is_new


def register_differences(process, knowledge, old, new, name):
    """How the targets of a clean block that reads what it knows differ from what its writes leave."""
    execution, is_told = knowledge.execution()
    if not is_told:
        return []
    return [f"at {new.time} {name} leaves {digits_of(new.values[it])} in {it.full_name}" for it in process.targets()
            if (it in knowledge.known or execution.writes_whole(it)) and execution.left(it, old.values[it]) != new.values[it]]


def clear_differences(run, other, clear):
    """The signals and words that are clear at a time, and that a run does not have with the values of another that shows the same dump."""
    found = []
    for time in sorted({*clear.times, *other.times}):
        mine, its = run.last(clear.time(time)).values, other.last(time).values
        found += [f"at {time} {it.full_name} is {digits_of(mine[it])} and in another run {digits_of(its[it])}"
                  for it in clear.at[clear.time(time)] if mine[it] != its[it]]
    return found


def account_differences(runs, doubts):
    """What the account of the definitions says of all runs that show a dump, and that does not hold in these, as texts."""
    found = [text for other in runs for text in clear_differences(runs[0], other, doubts.clear)]
    hits = [run.hits() for run in runs]
    for point in points_of(runs[0].flat):
        times = [set(point.times(it)) for it in hits]
        surely = set.intersection(*times) & doubts.listed
        found += [f"{point.address} is hit at {time}, which need not be, and nothing is in doubt for it there"
                  for time in set().union(*times) - surely if not doubts.doubtful(point, time)]
        reached = doubts.reached_at(point)
        if reached is not None and not all(reached in it for it in times):
            found.append(f"{point.address} is reached at {reached}, and not hit there in each run")
    return found
