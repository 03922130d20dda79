"""Judges the steps of `feats why --format json`, also with `--all`, over the tables of plan_model.py.

Steps are an explanation if each node is on, is listed once, and is turned on by its `from` where the nodes of earlier steps are on (a weak
item waits for its gate). They are exactly what the last node rests on if each other step is the `from` or the gate of a later one. The
command features aren't shown: a step whose `from` is null begins at one. With `--all` the reasons of a step are right if they begin at
exactly the nodes that are on and turn its node on, where a node may be among its own reasons; a reason without a gate needs none, and one with a
gate suffices where only that is on.
"""
import plan_model
from plan_model import COMMAND


def node_of(spot):
    """The model's node of a spot of the program's JSON."""
    entry = (spot['side'], spot['package'])
    if spot['feature'] is not None:
        return (entry, 'feature', spot['feature'])
    if spot['dependency'] is not None:
        return (entry, 'dep', spot['dependency'])
    return (entry, 'base', '')


def starts_of(plan):
    """The nodes of the command features that are on, by which steps begin."""
    return [node for node in plan.on if node[1] == 'feature' and node[2] == COMMAND]


def leads(plan, table, before, step):
    """Whether the step's node is turned on by its `from`, or by a command feature, where the nodes `before` are on."""
    node = node_of(step)
    starts = starts_of(plan) if step['from'] is None else [node_of(step['from'])]
    inside = set(before) | set(starts_of(plan))
    return any(node in plan_model.of_node(table, inside, start) for start in starts)


def fault_of_steps(plan, steps, asked):
    """Returns why the steps don't explain the node `asked`, or None."""
    table, before, used = plan.on_table(), [], set()
    for step in steps:
        node = node_of(step)
        if node in before:
            return f'{node} is listed twice'
        if node not in plan.on:
            return f'{node} is not on'
        needed = [node_of(spot) for spot in (step['from'], step['gate']) if spot is not None]
        if any(it not in before for it in needed):
            return f'{node} rests on {needed}, which are not listed before it'
        if not leads(plan, table, before, step):
            return f'{node} is not turned on by {needed}'
        used.update(needed)
        before.append(node)
    if not before or before[-1] != asked:
        return f'the last step is {before[-1:]}, not {asked}'
    return next((f'nothing rests on {it}' for it in before[:-1] if it not in used), None)


def starts_of_reason(plan, reason):
    """The nodes at which a reason begins. If it begins at the selection, these are the command features."""
    return starts_of(plan) if reason['from'] is None else [node_of(reason['from'])]


def fault_of_reason(plan, table, node, reason):
    """Returns why the reason isn't one for the node, or None."""
    gates = [] if reason['gate'] is None else [node_of(reason['gate'])]
    if any(it not in plan.on for it in gates):
        return f'the gate {gates} of {node} is not on'
    if not any(node in plan_model.of_node(table, set(gates), start) for start in starts_of_reason(plan, reason)):
        return f'{reason} is no reason for {node}'
    return None


def fault_of_reasons(plan, step):
    """Returns why the reasons of a step aren't all direct reasons of its node, or None."""
    table, node, reasons = plan.on_table(), node_of(step), step['reasons']
    wanted = {None if it in starts_of(plan) else it for it in plan.on if it != node and node in plan_model.of_node(table, plan.on, it)}
    came = {None if it['from'] is None else node_of(it['from']) for it in reasons}
    if came - {node} != wanted:
        return f'{node} is turned on by {wanted}, came {came}'
    own = {name: step[name] for name in ('reason', 'from', 'gate', 'platforms')}
    if own not in reasons:
        return f'the reason of {node} is not one of {reasons}'
    return next((fault for it in reasons if (fault := fault_of_reason(plan, table, node, it))), None)
