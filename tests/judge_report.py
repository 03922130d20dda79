"""Judges the steps of `feats report` by the tables of plan_model.py alone, and by no other output of `feats`.

Steps are an explanation of what is on if each is about a node that is on, about another one than the others, and turned on by its `from` where
only its `gate` is on, and if both are at earlier steps. They hold exactly what is on if each node that is on has a step, but for the command
features: a step whose `from` is null begins at one. The word for a reason and the platform specs follow from the document.
"""
from judge_why import fault_of_reason, node_of, starts_of
from plan_model import HOST


def words_of(node, start):
    """The words that a reason may have."""
    if start is None:
        return ('selected', 'default')
    if start[0][1] == node[0][1]:
        return ('turns-on',)
    return ('depends',) if node[1] == 'base' and start[1] != 'feature' else ('asks',)


def platforms_of(plan, start, node):
    """The platform specs of the declarations that lead from the start's package to that of the node, if each of them has one. With resolver 1
    none counts."""
    (side, id), selection = start[0], plan.selection
    if not selection.is_split:
        return set()

    def leads(it):
        asked = [selection.host] if it.kind == 'build' or side == HOST else selection.platforms()
        return (it.to == node[0][1] and plan.lands(it, side) == node[0][0] and (it.kind != 'dev' or selection.needs_dev())
                and (it.spec is None or any(platform.holds(it.spec) for platform in asked)))

    specs = {it.spec for it in plan.packages[id].declarations if leads(it)}
    return set() if None in specs else specs


def fault_of_words(plan, node, step):
    """Returns why the word for a step's reason or its platform specs don't follow from the document, or None."""
    start = None if step['from'] is None else node_of(step['from'])
    if step['reason'] not in words_of(node, start):
        return f'the reason of {node} is {step["reason"]}, and it begins at {start}'
    wanted = platforms_of(plan, start, node) if step['reason'] in ('depends', 'asks') else set()
    return None if set(step['platforms']) == wanted else f'the platforms of {node} are {step["platforms"]}, wanted {wanted}'


def fault_of_step(plan, table, before, step):
    """Returns why a step doesn't explain its node by the steps before it, or None."""
    node = node_of(step)
    if node in before:
        return f'{node} is listed twice'
    if node not in plan.on:
        return f'{node} is not on'
    needed = [node_of(spot) for spot in (step['from'], step['gate']) if spot is not None]
    if any(it not in before for it in needed):
        return f'{node} rests on {needed}, which are not all listed before it'
    return fault_of_reason(plan, table, node, step) or fault_of_words(plan, node, step)


def fault_of_steps(plan, steps):
    """Returns why the steps aren't an explanation of exactly what is on, or None."""
    table, before = plan.on_table(), set()
    for step in steps:
        fault = fault_of_step(plan, table, before, step)
        if fault:
            return fault
        before.add(node_of(step))
    lacking = plan.on - before - set(starts_of(plan))
    return f'{len(lacking)} nodes have no step, such as {min(lacking)}' if lacking else None
