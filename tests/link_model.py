#!/usr/bin/env python3
"""A reference model of the links between the packages that a plan builds, and between the features that are on in it. It is written over
plan_model.py, by the definitions in crates/plan_whys/specs/links: sets and loops, and no speed.

    link_model.py packages|features SELECTION...    prints the links, a line each, and `root` lines; SELECTION as for `plan_model.py plan`
"""
import json
import sys

sys.dont_write_bytecode = True

from plan_model import COMMAND, HOST, TARGET, Plan, Refused, document_of, of_node, parts_of, platform_of_word, selection_of, words_of


# Packages.

def units_of(plan):
    """The entries that are built: those for the host, then those for each target platform, each in the order of the packages' ids."""
    return sorted(plan.built, key=lambda it: (-1 if it[0] == HOST else it[0], it[1].encode()))


def unit_links(plan):
    """The pairs of entries that are built, of which the first depends on the second in the tables of step `built`."""
    table = plan.built_table()
    return {(entry, it.to) for entry in plan.built for it in table[entry].dependencies if it.to in plan.built}


def root_units(plan):
    """The entries at which step `built` starts."""
    return {it for it in plan.starts if it in plan.built}


def name_of_place(plan, place):
    triples = [it.triple for it in plan.selection.targets]
    return HOST if place == HOST else triples[place] if len(triples) > 1 else TARGET


def name_of_unit(plan, entry):
    place, id = entry
    return f'{name_of_place(plan, place)} {plan.label(plan.packages[id])}'


# Features.

def has_loop(table, node):
    """Whether a node has a link to itself: only through a dependency of its package on itself."""
    entry, kind, name = node
    own = [it for it in table[entry].dependencies if it.to == entry]
    if kind == 'base':
        return any(not it.is_optional for it in own)
    items = table[entry].features[name] if kind == 'feature' else []
    return any(feature == name and it.name == to for to, feature, _ in map(parts_of, items) for it in own)


def spot_links(plan):
    """The pairs of nodes of step `on`, both on, of which the first turns on the second."""
    table = plan.on_table()
    return {(node, to) for node in plan.on for to in of_node(table, plan.on, node) if to in plan.on and (node != to or has_loop(table, node))}


def root_spots(plan):
    """The nodes that are command features."""
    return {it for it in plan.on if it[1:] == ('feature', COMMAND)}


def name_of_spot(plan, node):
    (side, id), kind, name = node
    label = {'base': '', 'feature': f'/{name}', 'dep': f'/dep:{name}'}[kind]
    return f'{side} {plan.label(plan.packages[id])}{label}'


# Lines.

def lines_of(links, roots, name):
    """The links and the roots by their names, in the order of the names' bytes."""
    return sorted([f'{name(a)} -> {name(b)}' for a, b in links] + [f'root {name(it)}' for it in roots], key=str.encode)


def package_lines(plan):
    return lines_of(unit_links(plan), root_units(plan), lambda it: name_of_unit(plan, it))


def feature_lines(plan):
    return lines_of(spot_links(plan), root_spots(plan), lambda it: name_of_spot(plan, it))


def faults_of(plan):
    """What the definitions promise of the links, and doesn't hold: the roots lead to all units, and the command features to all spots."""
    faults = []
    for what, roots, links, all in [('unit', root_units(plan), unit_links(plan), set(plan.built)), ('spot', root_spots(plan), spot_links(plan), set(plan.on))]:
        reached, more = set(), set(roots)
        while more:
            reached |= more
            more = {b for a, b in links if a in more} - reached
        faults += [f'no link leads to the {what} {it}' for it in sorted(all - reached, key=str)]
    return faults


def main():
    if len(sys.argv) < 2 or sys.argv[1] not in ('packages', 'features'):
        sys.exit(__doc__)
    words = words_of(sys.argv[2:])
    with open(0 if words.metadata == '-' else words.metadata, encoding='utf-8') as it:
        document = document_of(json.load(it))
    try:
        plan = Plan(document, selection_of(words, platform_of_word))
    except Refused as refused:
        sys.exit(str(refused))
    sys.stdout.write(''.join(f'{it}\n' for it in (package_lines if sys.argv[1] == 'packages' else feature_lines)(plan)))
    return 0


if __name__ == '__main__':
    sys.exit(main())
