"""State machines that words name: what they are in each instance of a module, their points, where these are hit, and the faults.

The words are a list of a module, a variable and the names of states, one for each `-states`. A state has the value of its
parameter, extended or cut to the width of the variable. The key of a state is `s` and its value, that of an arc `a` and two values.
"""
from dataclasses import dataclass, replace
from itertools import permutations

from . import vectors
from .terms import Constant
from .things import Memory, Signal


@dataclass(eq=False)
class Machine:
    """A machine in one instance: the name of its variable there, the signal that it names, the value of each state, and the arcs.

    An arc is a pair of names of states.
    """
    path: str
    name: str
    signal: Signal
    states: dict
    arcs: list


def command_words(words):
    """The words of the command for these machines."""
    return [word for module, variable, names in words for word in ("-states", f"{module}={variable}:{','.join(names)}")]


def last_words(words):
    """The names of the states by module and variable: a later machine takes the place of an earlier one of the same variable."""
    found = {}
    for module, variable, names in words:
        found[module, variable] = names
    return found


def state_value(constant, width):
    """The value of a parameter as a state of a variable of this width."""
    return vectors.extend(constant.vector, width, constant.signed)


def instances_of(flat, module):
    return [made for made in flat.instances if made.module.name == module]


def fault_in(made, variable, names):
    """The fault of a machine in one instance, or None."""
    known = made.scope.names
    if not isinstance(known.get(variable), Signal) or isinstance(known[variable], Memory):
        return f"1 NoState {variable}"
    for name in names:
        if not isinstance(known.get(name), Constant):
            return f"1 NoState {name}"
    values = [state_value(known[name], known[variable].width) for name in names]
    return next((f"2 SameState {name}" for k, name in enumerate(names) if values[k] in values[:k]), None)


def machine_fault(flat, words):
    """What the program says of the first fault in the words, or None."""
    for (module, variable), names in last_words(words).items():
        found = instances_of(flat, module)
        faults = [fault_in(made, variable, names) for made in found] if found else [f"1 NoState {module}"]
        first = next((fault for fault in faults if fault), None)
        if first:
            return f"covered: source: points {first}\n"
    return None


def machines_of(flat, words):
    """The machines that words without a fault name, one in each instance of their modules."""
    found = []
    for (module, variable), names in last_words(words).items():
        for made in instances_of(flat, module):
            signal = made.scope.find(variable)
            states = {name: state_value(made.scope.find(name), signal.width) for name in names}
            found.append(Machine(made.path, variable, signal, states, list(permutations(states, 2))))
    return found


def machine_points(machine):
    """The states and arcs of a machine: address, order and key of each."""
    head, order = f"f {machine.path} {machine.name}", (3, machine.path, machine.name)
    for name, value in machine.states.items():
        yield f"{head} {name}", (*order, 0, name), ("s", value)
    for first, second in machine.arcs:
        yield f"{head} {first} {second}", (*order, 1, first, second), ("a", machine.states[first], machine.states[second])


def machine_hits(run):
    """The times at which each value and each pair of values of a signal with a machine is had, by the signal and its key."""
    found = {}
    for signal in {machine.signal for machine in run.flat.machines}:
        for time in run.dump.times[1:-1]:
            found.setdefault((signal, ("s", run.last(time).values[signal])), []).append(time)
        for old, new in run.window():
            before, after = old.values[signal], new.values[signal]
            if before != after:
                found.setdefault((signal, ("s", after)), []).append(new.time)
                found.setdefault((signal, ("a", before, after)), []).append(new.time)
    return found


def fewer_machines(case):
    """Cases without one of the machines, or with one state less of one."""
    for k, (module, variable, names) in enumerate(case.machines):
        yield replace(case, machines=case.machines[:k] + case.machines[k + 1:])
        for j in range(len(names) if len(names) > 2 else 0):
            fewer = module, variable, names[:j] + names[j + 1:]
            yield replace(case, machines=[*case.machines[:k], fewer, *case.machines[k + 1:]])
