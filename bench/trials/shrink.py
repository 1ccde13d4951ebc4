"""Makes a case with a fault smaller, as long as it keeps a fault of the same kind."""
import copy
from dataclasses import replace

from .bodies import listed_names
from .designs import Always, Clocked, Comb, Instance
from .drawings import fewer_drawings
from .machines import fewer_machines
from .statements import Block, Case as CaseStatement, For, If
from .texts import module_statements


def smaller_cases(case):
    """Cases with one thing less: a name of the dump, a step, a move, an item, a statement, or a part of an expression."""
    yield from fewer_machines(case)
    yield from fewer_drawings(case)
    yield from fewer_modules(case)
    yield from fewer_items(case)
    yield from fewer_steps(case)
    yield from fewer_events(case)
    yield from smaller_bodies(case)
    yield from smaller_terms(case)
    for k in range(len(case.names) if len(case.names) > 1 else 0):
        yield case.with_names(case.names[:k] + case.names[k + 1:], case.altered)
    yield from fewer_declarations(case)


def with_design(case, change):
    """The case with a copy of its design that is changed."""
    design = copy.deepcopy(case.design)
    change(design)
    for module in design:
        complete_lists(module)
    return replace(case, design=design)


def complete_lists(module):
    """Adds to the list of each block the signals that it reads and does not assign any more."""
    for item in module.items:
        if isinstance(item, Comb) and item.listed is not None:
            read = listed_names(item.body, module.constant_names())
            item.listed = list(dict.fromkeys(item.listed + read))


def fewer_modules(case):
    """Without a module that has no instance."""
    used = {item.module.name for module in case.design for item in module.items if isinstance(item, Instance)}
    for m, module in enumerate(case.design[:-1]):
        if module.name not in used:
            yield with_design(case, lambda design, m=m: design.pop(m))


def fewer_declarations(case):
    """Without a declaration of what no item names."""
    for m, module in enumerate(case.design):
        used = module.used_names()
        for k in reversed(range(len(module.declared))):
            if module.declared[k].name not in used:
                yield with_design(case, lambda design, m=m, k=k: design[m].declared.pop(k))


def fewer_events(case):
    """Without an event of a clocked block that has several."""
    for m, module in enumerate(case.design):
        for i, item in enumerate(module.items):
            if isinstance(item, Clocked) and len(item.events) > 1:
                for k in range(len(item.events)):
                    yield with_design(case, lambda design, m=m, i=i, k=k: design[m].items[i].events.pop(k))


def fewer_items(case):
    for m, module in enumerate(case.design):
        for k in reversed(range(len(module.items))):
            yield with_design(case, lambda design, m=m, k=k: design[m].items.pop(k))


def fewer_steps(case):
    steps = case.stimuli.steps
    for k in reversed(range(len(steps))):
        shorter = copy.copy(case.stimuli)
        shorter.steps = steps[:k] + steps[k + 1:]
        if k < shorter.dump_from:
            shorter.dump_from -= 1
        if len(shorter.steps) > 2:
            yield replace(case, stimuli=shorter)
    for k, step in enumerate(steps):
        for j in range(len(step.moves)):
            fewer = copy.copy(case.stimuli)
            fewer.steps = list(steps)
            fewer.steps[k] = copy.copy(step)
            fewer.steps[k].moves = step.moves[:j] + step.moves[j + 1:]
            yield replace(case, stimuli=fewer)


def replacements(statement):
    """Ways to make a statement smaller in place, each a function of its copy."""
    if isinstance(statement, Block):
        for k in range(len(statement.statements)):
            yield lambda it, k=k: it.statements.pop(k)
    if isinstance(statement, If) and statement.no:
        yield lambda it: setattr(it, "no", None)
    if isinstance(statement, CaseStatement) and len(statement.arms) > 1:
        for k in range(len(statement.arms)):
            yield lambda it, k=k: it.arms.pop(k)
    if isinstance(statement, CaseStatement):
        for k, arm in enumerate(statement.arms):
            for j in range(len(arm.labels) if len(arm.labels) > 1 else 0):
                yield lambda it, k=k, j=j: it.arms[k].labels.pop(j)


def pulled_up(statement):
    """The statements that can take the place of one."""
    if isinstance(statement, (If, CaseStatement, For)):
        return statement.inner()
    if isinstance(statement, Block) and len(statement.statements) == 1:
        return statement.statements
    return []


def smaller_bodies(case):
    for m, module in enumerate(case.design):
        for s, statement in enumerate(module_statements(module)):
            for k, _ in enumerate(replacements(statement)):
                yield with_design(case, lambda design, m=m, s=s, k=k: apply(list(module_statements(design[m]))[s], k))
            for k, _ in enumerate(pulled_up(statement)):
                yield with_design(case, lambda design, m=m, s=s, k=k: pull_up(design[m], s, k))


def apply(statement, k):
    list(replacements(statement))[k](statement)


def pull_up(module, s, k):
    """Puts a statement of a module in the place of the one around it."""
    statement = list(module_statements(module))[s]
    put_in_place(module, statement, pulled_up(statement)[k])


def put_in_place(module, old, new):
    for item in module.items:
        if isinstance(item, Always) and item.body is old:
            item.body = new
    for around in module_statements(module):
        for name, value in vars(around).items():
            if value is old:
                setattr(around, name, new)
        if isinstance(around, Block):
            around.statements = [new if it is old else it for it in around.statements]
        if isinstance(around, CaseStatement):
            for arm in around.arms:
                arm.body = new if arm.body is old else arm.body


def value_holders(module):
    """Where the values of assignments and the tests of statements are: an object or list, and a name or place in it."""
    for item in module.items:
        for k, (target, _) in enumerate(getattr(item, "sets", [])):
            yield item.sets, k, target
    for statement in module_statements(module):
        for name in ("value", "test", "selector"):
            if hasattr(statement, name):
                yield statement, name, None


def held(holder, place, target):
    return holder[place][1] if target else getattr(holder, place)


def smaller_terms(case):
    for m, module in enumerate(case.design):
        for h, (holder, place, target) in enumerate(value_holders(module)):
            for k, _ in enumerate(held(holder, place, target).parts()):
                yield with_design(case, lambda design, m=m, h=h, k=k: replace_by_part(design[m], h, k))


def replace_by_part(module, h, k):
    holder, place, target = list(value_holders(module))[h]
    part = held(holder, place, target).parts()[k]
    if target:
        holder[place] = (target, part)
    else:
        setattr(holder, place, part)


def shrink(case, has_fault, tries=300):
    """A smaller case for which `has_fault` still holds."""
    more = True
    while more and tries > 0:
        more = False
        for smaller in smaller_cases(case):
            tries -= 1
            if tries <= 0:
                break
            if has_fault(smaller):
                case, more = smaller, True
                break
    return case
