#!/usr/bin/env python3
"""A reference model of the routes that `feats why SPEC --routes` prints. It is written over plan_model.py and link_model.py, and to be read.

    route_model.py [--format json] SPEC SELECTION...    SELECTION as for `plan_model.py plan`

A route of a member to a package is a chain of links between units, from a unit of the member at which step `built` starts to a unit of the
package. Each member that has a route has one entry, in the order of the ids, and no route of it is shorter. Where it has several of this
length, each of them is right: the model prints one, and says so on standard error.

A link has the kind of a declaration of its first package that is used there and leads to the second unit: normal if one is, else build, else
dev.
"""
import argparse
import json
import sys

sys.dont_write_bytecode = True

import name_model
import plan_model
from answer_model import objects_of
from link_model import root_units, unit_links
from plan_model import HOST, Plan, Refused
from tree_model import detail_of, name_of_place, title_of_unit

KINDS = {'normal': 'depends on it', 'build': 'depends on it for builds', 'dev': 'depends on it for development'}


def kind_of(plan, start, end):
    """How a unit depends on another, by the declarations that are used."""
    place, id = start
    package = plan.packages[id]
    used = {it.kind for it in package.declarations if plan.is_used(place, package, it)
            and (HOST if it.kind == 'build' or plan.packages[it.to].is_macro() else place, it.to) == end}
    return next(it for it in KINDS if it in used)


def levels_of(plan, links, member, id):
    """The units at which a member starts, those one link further, and so on, up to those with a unit of the package; none without a route."""
    level, levels = {it for it in root_units(plan) if it[1] == member}, []
    while level:
        levels.append(level)
        if any(it[1] == id for it in level):
            return levels
        level = {b for a, b in links if a in level} - set().union(*levels)
    return []


def all_levels(plan, links, id):
    """Each member that has a route, with the levels up to the package."""
    members = sorted({it[1] for it in root_units(plan)}, key=str.encode)
    found = [(member, levels_of(plan, links, member, id)) for member in members]
    return [(member, levels) for member, levels in found if levels]


def route_of(links, levels, id):
    """One of the shortest routes."""
    route = [min((it for it in levels[-1] if it[1] == id), key=str)]
    for level in reversed(levels[:-1]):
        route.insert(0, min((it for it in level if (it, route[0]) in links), key=str))
    return route


def count_of(links, levels, id):
    """How many shortest routes there are."""
    ways = dict.fromkeys(levels[0], 1)
    for before, level in zip(levels, levels[1:]):
        ways |= {it: sum(ways[start] for start in before if (start, it) in links) for it in level}
    return sum(ways[it] for it in levels[-1] if it[1] == id)


def is_route(links, levels, id, route):
    """Whether it is one of the shortest routes: a chain of links from a start to the package, as long as there are levels."""
    return len(route) == len(levels) and route[0] in levels[0] and route[-1][1] == id and all(it in links for it in zip(route, route[1:]))


def object_of(plan, member, route):
    """The JSON object of a route."""
    kinds = [None, *(kind_of(plan, a, b) for a, b in zip(route, route[1:]))]
    return {'member': member, 'route': [{**detail_of(plan, it[1], place=name_of_place(plan, it[0])), 'kind': kind} for it, kind in zip(route, kinds)]}


def text_of(plan, member, route):
    """The lines of a route."""
    titles = [title_of_unit(plan, it) for it in route]
    reasons = ['selected', *(f'{title} {KINDS[kind_of(plan, a, b)]}' for title, a, b in zip(titles, route, route[1:]))]
    width = max(len(it.encode()) for it in titles)
    lines = [f'    {title}{" " * (width - len(title.encode()))}  {reason}\n' for title, reason in zip(titles, reasons)]
    return ''.join([f'{plan.label(plan.packages[member])} (the member)\n', *lines])


def chosen(plan, id, objects):
    """The routes that some objects show; or None, if they aren't one shortest route of each member that has one."""
    links, units = unit_links(plan), {(name_of_place(plan, place), id): (place, id) for place, id in plan.built}
    found = all_levels(plan, links, id)
    if [member for member, _ in found] != [it['member'] for it in objects]:
        return None
    routes = [(it['member'], [units.get((step['place'], step['package'])) for step in it['route']]) for it in objects]
    are_right = all(None not in route and is_route(links, levels, id, route) for (_, levels), (_, route) in zip(found, routes))
    return routes if are_right and [object_of(plan, *it) for it in routes] == objects else None


def main():
    parser = argparse.ArgumentParser(add_help=False)
    parser.add_argument('spec')
    parser.add_argument('--format', default='text', choices=('text', 'json'))
    own, rest = parser.parse_known_args()
    words = plan_model.words_of(rest)
    with open(0 if words.metadata == '-' else words.metadata, encoding='utf-8') as it:
        value = json.load(it)
    try:
        plan = Plan(plan_model.document_of(value), plan_model.selection_of(words))
        id = name_model.package_named(value, own.spec)
    except (Refused, name_model.Unknown, name_model.Several) as refused:
        sys.exit(str(refused))
    links = unit_links(plan)
    found = all_levels(plan, links, id)
    for member, levels in found:
        if count_of(links, levels, id) > 1:
            print(f'{member} has {count_of(links, levels, id)} shortest routes', file=sys.stderr)
    routes = [(member, route_of(links, levels, id)) for member, levels in found]
    sys.stdout.write(objects_of([object_of(plan, *it) for it in routes]) if own.format == 'json' else ''.join(text_of(plan, *it) for it in routes))
    return 0 if found else 1


if __name__ == '__main__':
    sys.exit(main())
