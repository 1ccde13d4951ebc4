"""State machines that words draw from the case statements of a design: their states and arcs in each instance, and the faults.

The words are a list of a module and the names of two signals in it, one for each `-F`. The first signal has the state, and the
second is assigned the next one. A value of the first has its digits for a name. All is taken from the trees of the bodies.
"""
from dataclasses import replace

from . import vectors
from .designs import BlockProcess
from .machines import Machine, instances_of
from .statements import Case, Set, right_side
from .terms import Name, bare, width_of
from .things import Memory, Signal


def command_words(words):
    """The words of the command for these drawings."""
    return [word for module, current, following in words for word in ("-F", f"{module}={current},{following}")]


# ---------------------------------------------------------------- faults

def signal_of(made, name):
    """The signal that a name is in an instance, or None; a memory is none."""
    found = made.scope.names.get(name)
    return found if isinstance(found, Signal) and not isinstance(found, Memory) else None


def name_at_fault(made, current, following):
    """The first name at fault in an instance, or None. The second also is for a signal of another width than the first has."""
    first, second = signal_of(made, current), signal_of(made, following)
    if first is None:
        return current
    return following if second is None or first.width != second.width else None


def fault_of(flat, module, current, following):
    """The name at fault of one drawing, or None."""
    found = instances_of(flat, module)
    names = [name_at_fault(made, current, following) for made in found] if found else [module]
    return next((name for name in names if name), None)


def drawing_fault(flat, words):
    """What the program says of the first fault in the words, or None."""
    names = (fault_of(flat, *drawing) for drawing in words)
    first = next((name for name in names if name), None)
    return first and f"covered: source: points 5 NoMachine {first}\n"


# ---------------------------------------------------------------- what is drawn

def cases(flat):
    """Each `case`, `casez` and `casex` of a design, with its scope: in a loop once for each turn."""
    return [(statement, scope) for process in flat.processes if isinstance(process, BlockProcess)
            for statement, scope in process.body.copies(process.scope) if isinstance(statement, Case)]


def selected(statement, scope):
    """The signal that is the selector of a case alone, or None."""
    term = bare(statement.selector)
    found = scope.find(term.name()) if isinstance(term, Name) else None
    return found if isinstance(found, Signal) else None


def assigned(statement, scope):
    """The signal of which an assignment writes the whole, or None for other statements."""
    return scope.find(statement.target.name()) if isinstance(statement, Set) and isinstance(statement.target, Name) else None


def constant(term, scope, width, signed):
    """The value of a term in a context of this width and sign, or None where it names a signal or memory."""
    return None if term.mentions(scope) else term.value(scope, None, width, signed)


def matched(label, width, signed):
    """The value of this width that as a selector, extended by this sign, is equal to a label, or None; a label with x or z has none."""
    if label is None or label.strange:
        return None
    value = vectors.extend(label, width, False)
    return value if vectors.matches("case", vectors.extend(value, label.width, signed), label) else None


def given(statement, scope):
    """The value of its target's width that an assignment gives, or None where it is no constant or has x or z."""
    term, width, signed = right_side(statement.target, statement.value, scope)
    value = constant(term, scope, width, signed)
    cut = value and vectors.extend(value, width_of(statement.target, scope), signed)
    return None if cut is None or cut.strange else cut


def from_values(statement, scope, arm, current):
    """The values of the selector that the labels of an arm match."""
    _, width, signed = statement.evaluated(scope)[0]
    labels = (constant(label, scope, width, signed) for label in arm.labels)
    return {value for value in (matched(label, current.width, signed) for label in labels) if value is not None}


def to_values(arm, scope, following):
    """The values that assignments in an arm give to the whole of a signal."""
    values = (given(inner, its) for inner, its in arm.body.copies(scope) if assigned(inner, its) is following)
    return {value for value in values if value is not None}


def drawn(flat, current, following):
    """The states and the arcs that the design draws of two signals."""
    states, arcs = set(), set()
    for statement, scope in cases(flat):
        if statement.kind == "case" and selected(statement, scope) is current:
            for arm in statement.arms:
                values = from_values(statement, scope, arm, current)
                reached = to_values(arm, scope, following) if values else set()
                states |= values | reached
                arcs.update((old, new) for old in values for new in reached)
    return states, arcs


def drawn_machines(flat, words):
    """The machines that words without a fault draw, one in each instance: those of one module and first signal are one."""
    found = []
    for module, current in dict.fromkeys((module, current) for module, current, _ in words):
        names = [following for it, first, following in words if (it, first) == (module, current)]
        for made in instances_of(flat, module):
            parts = [drawn(flat, signal_of(made, current), signal_of(made, name)) for name in names]
            states = set().union(*(states for states, _ in parts))
            arcs = {tuple(map(vectors.digits_of, arc)) for _, arcs in parts for arc in arcs if arc[0] != arc[1]}
            states = {vectors.digits_of(value): value for value in states}
            found.append(Machine(made.path, current, signal_of(made, current), states, sorted(arcs)))
    return found


def fewer_drawings(case):
    """Cases without one of the drawings."""
    for k, _ in enumerate(case.drawings):
        yield replace(case, drawings=case.drawings[:k] + case.drawings[k + 1:])
