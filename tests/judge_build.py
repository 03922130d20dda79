#!/usr/bin/env python3
"""Checks the steps that `build` prints against the rules, by plain functions over the graph of judge.py.

As a program it reads a row file from standard input, and prints what is wrong with steps, or `true`:

    judge_build.py STEPS KINDS ID... [-- SPEC...]      the lines of the steps, and the arguments after `build`
"""
import sys

import judge


def platform_offers(graph, kinds, specs):
    """Returns the offers for one of these kinds, on every platform or on that of one of the specs: each as a pair of nodes
    and the word for its declarations."""
    def is_met(it):
        return it.kind in kinds and (it.platform is None or it.platform in specs)

    return {(pair, offer.word) for pair, asked in graph.edges.items() for offer in asked
            if any(is_met(it) for _, declarations in offer.covered for it in declarations)}


def least(graph, initials, offers):
    """Returns the least set that contains the initial nodes and is closed under unconditional edges and these offers."""
    accepted = [f'{number}{judge.letter_of(asked, it)}' for number, (pair, asked) in enumerate(graph.edges.items())
                for it in asked if (pair, it.word) in offers]
    return judge.least(initials, judge.ways_of(graph, 'forward', True), accepted)


def specs_held(rows, target):
    """The spec texts of a row file that hold for a target, each once, in the order of the links and their declarations."""
    texts = [it.platform for link in judge.Graph(rows).links for it in link.declarations if it.platform is not None]
    return [text for text in dict.fromkeys(texts) if target.holds(text)]


def on_for(rows, target, kinds, ids):
    """What is on for a target from these features: how many, and their ids in the order of nodes."""
    graph = judge.Graph(rows)
    initials = {node for node in range(len(graph.nodes)) if graph.text(node) in ids.split()}
    members = sorted(least(graph, initials, platform_offers(graph, kinds.split(','), specs_held(rows, target))))
    return ' '.join([f'{len(members)}:', *map(graph.text, members)])


def is_reason(graph, nodes, initials, offers, node, words, before):
    """Returns whether `words` are a right reason for `node`, if the nodes `before` are listed before it."""
    if words == ['initial']:
        return node in initials
    start = nodes.get(words[1]) if len(words) > 1 else None
    asked = graph.edges.get((start, node))
    if start not in before or asked is None:
        return False
    if words[0] == 'edge':
        return len(words) == 2 and not asked
    gates = [it.gate for it in asked if [it.word] == words[2:]]
    is_offer = words[0] == 'link' and ((start, node), ' '.join(words[2:])) in offers
    return is_offer and gates in ([None], *([it] for it in before))


def fault_of(rows, words, lines, wanted=None):
    """Returns why these lines aren't the steps for the arguments after `build`, or None. `wanted` are the nodes,
    if they are known."""
    graph = judge.Graph(rows)
    nodes = {graph.text(node): node for node in range(len(graph.nodes))}
    if len(nodes) < len(graph.nodes):
        return 'two features print alike'
    cut = words.index('--') if '--' in words else len(words)
    initials = {nodes[it] for it in words[1:cut]}
    offers = platform_offers(graph, words[0].split(','), words[cut + 1:])
    members = sorted(least(graph, initials, offers))
    if wanted is not None and members != wanted:
        return f'the members are {members}'
    before = []
    for line in lines:
        text, *reason = line.split('\t')
        node = nodes.get(text)
        if node is None or node in before or not reason or not is_reason(graph, nodes, initials, offers, node, reason, before):
            return f'no step: {line}'
        before.append(node)
    return None if sorted(before) == members else f'the steps list {sorted(before)}'


def main():
    _, steps, *words = sys.argv
    print(fault_of(sys.stdin.buffer.read(), words, steps.split('\n')[:-1]) or 'true')


if __name__ == '__main__':
    main()
