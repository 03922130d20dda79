#!/usr/bin/env python3
"""A reference model of the program `features`: computes its output by plain functions over paths and sets.

tests/reference.py           compares the values in tests/cases/{random,small,published}.cases with those of the model. The last
                             line is 'N passed, M failed'; the exit status is 1 if a case differs
tests/reference.py --write   replaces the values in these files by those of the model

The model follows docs/FORMAT.md and docs/DEFINITIONS.md alone: each of its rules is described there. It is written to be read,
not to be fast. An edge is a pair of nodes in a dictionary, a node is reached if a path leads to it, and the order takes the first
available node each time. The model has the commands of the three files (`resolve`, `order` and `cycles`) and all faults of a
row file.
"""
import functools
import os
import sys
from typing import NamedTuple

sys.dont_write_bytecode = True

from case_files import TOP, cases_of

FILES = ('random', 'small', 'published')
BASE = '[base]'


class Fault(Exception):
    """A fault of the row file or the arguments: a line on standard error. The exit status is 1."""


# Rows (docs/FORMAT.md, "The row file" and "Faults")

class Declaration(NamedTuple):
    kind: str
    is_optional: bool
    has_default_features: bool
    features: list


class Link(NamedTuple):
    """All declarations of one pair of packages under one name."""
    name: str
    declarations: list


class Package(NamedTuple):
    """A package: the items of its named features, its optional names, and its links by the ids that they lead to."""
    features: dict
    optional: list
    links: dict


def is_row(word, fields):
    """Returns whether a line with this first word and these fields is well formed."""
    if word == 'package':
        return len(fields) == 2 and fields[1] in ('workspace', 'external')
    if word == 'feature':
        return len(fields) > 0
    return (word == 'dep' and len(fields) >= 6 and fields[2] in ('normal', 'build', 'dev')
            and fields[3] in ('required', 'optional') and fields[5] in ('default', 'nodefault'))


def rows_of(text):
    """Returns the rows of a file, each with the number of its line."""
    try:
        lines = text.decode().split('\n')
    except UnicodeDecodeError:
        raise Fault('not UTF-8') from None
    rows = [(number, line.split('\t')) for number, line in enumerate(lines, 1) if line and not line.startswith('#')]
    for number, (word, *fields) in rows:
        if not is_row(word, fields):
            raise Fault(f'line {number}: malformed')
    return rows


def packages_of(rows):
    """Returns the packages by their ids, in the order of their rows."""
    packages, last = {}, None
    # faults of single rows come first, wherever these rows are in the file
    for number, (word, *fields) in rows:
        if word == 'package':
            if fields[0] in packages:
                raise Fault(f'line {number}: duplicate package')
            last = packages[fields[0]] = Package({}, [], {})
        elif last is None:
            raise Fault(f'line {number}: no package')
        elif word == 'feature':
            if fields[0] in last.features:
                raise Fault(f'line {number}: duplicate feature')
            last.features[fields[0]] = fields[1:]
    for number, (word, *fields) in rows:
        if word == 'package':
            last = packages[fields[0]]
        elif word == 'dep':
            declare(packages, last, number, fields)
    return packages


def declare(packages, package, number, fields):
    """Adds the declaration of a row to the link of its pair of packages."""
    name, target, kind, need, _platform, defaults, *features = fields
    if target not in packages:
        raise Fault(f'line {number}: unknown target')
    link = package.links.setdefault(target, Link(name, []))
    if link.name != name:
        raise Fault(f'line {number}: other name')
    link.declarations.append(Declaration(kind, need == 'optional', defaults == 'default', features))
    if need == 'optional' and name not in package.optional:
        package.optional.append(name)


# Nodes and edges (docs/DEFINITIONS.md, "Nodes" and "Edges")

class Node(NamedTuple):
    package: str
    kind: str
    name: str = ''

    def text(self):
        """Returns the id as it is printed."""
        return f'{self.package}/' + {'base': BASE, 'named': self.name, 'optional': f'dep:{self.name}'}[self.kind]


def nodes_of(packages):
    """Returns the nodes by their numbers: for each package the base, the named features, and the optional names."""
    return [node for id, package in packages.items() for node in [
        Node(id, 'base'), *(Node(id, 'named', it) for it in package.features), *(Node(id, 'optional', it) for it in package.optional)]]


class Candidate(NamedTuple):
    start: Node
    end: Node
    rank: int
    # the declarations that its link covers; None if it has no link
    covered: list


def candidates_of(packages):
    """Yields every candidate, by the table of docs/DEFINITIONS.md."""
    for id, package in packages.items():
        for node in nodes_of({id: package})[1:]:
            yield Candidate(node, Node(id, 'base'), 1, None)
        for feature, items in package.features.items():
            for item in items:
                yield from candidates_of_item(packages, id, feature, item)
        for target, link in package.links.items():
            yield from candidates_of_link(packages, id, target, link)


def candidates_of_item(packages, id, feature, item):
    package, start = packages[id], Node(id, 'named', feature)
    left, slash, right = item.partition('/')
    if slash:
        is_weak = left.endswith('?')
        yield from candidates_over(packages, id, feature, left[:-1] if is_weak else left, right, is_weak)
    elif item.startswith('dep:'):
        if item[4:] in package.optional:
            yield Candidate(start, Node(id, 'optional', item[4:]), 3, declarations_of(package, item[4:]))
    elif item in package.features and item != feature:
        yield Candidate(start, Node(id, 'named', item), 2, None)


def candidates_over(packages, id, feature, name, wanted, is_weak):
    """Yields the candidates of an item that names a dependency and a feature of it."""
    package, start = packages[id], Node(id, 'named', feature)
    for target, link in package.links.items():
        if link.name == name and wanted in packages[target].features:
            is_split = is_weak and any(it.is_optional for it in link.declarations)
            yield Candidate(start, Node(target, 'named', wanted), 6 if is_split else 4, link.declarations)
    if not is_weak and name in package.optional:
        covered = [it for it in declarations_of(package, name) if it.is_optional]
        yield Candidate(start, Node(id, 'optional', name), 5, covered)
        if name in package.features and name != feature:
            yield Candidate(start, Node(id, 'named', name), 5, covered)


def candidates_of_link(packages, id, target, link):
    for end in nodes_of({target: packages[target]}):
        for is_optional, start in ((False, Node(id, 'base')), (True, Node(id, 'optional', link.name))):
            covered = [it for it in link.declarations if it.is_optional == is_optional and end in requested(packages, target, it)]
            if covered:
                yield Candidate(start, end, 7, covered)


def declarations_of(package, name):
    """Returns all declarations of a package's links with this name."""
    return [it for link in package.links.values() if link.name == name for it in link.declarations]


def requested(packages, target, declaration):
    """Returns the nodes of `target` that `declaration` requests."""
    features = packages[target].features
    nodes = {Node(target, 'base')} | {Node(target, 'named', it) for it in declaration.features if it in features}
    if declaration.has_default_features and 'default' in features:
        nodes.add(Node(target, 'named', 'default'))
    return nodes


def edges_of(packages):
    """Returns the edges: for each pair of nodes the candidate of least rank."""
    edges = {}
    for it in candidates_of(packages):
        edge = edges.setdefault((it.start, it.end), it)
        if it.rank < edge.rank:
            edges[it.start, it.end] = it
    return edges


def is_dev_only(edge):
    return edge.covered is not None and all(it.kind == 'dev' for it in edge.covered)


# Paths, components and the order (docs/DEFINITIONS.md, "Reach over all edges" and "Digraphs, orders and components")

def reached(pairs, initials):
    """Returns the ends of paths, possibly empty, from one of `initials`."""
    ends = {}
    for start, end in pairs:
        ends.setdefault(start, set()).add(end)
    found, left = set(initials), list(initials)
    while left:
        new = ends.get(left.pop(), set()) - found
        found |= new
        left += new
    return found


def components_of(nodes, pairs):
    """Returns the component of each node: the nodes to which paths lead from it and back."""
    back = {(end, start) for start, end in pairs}
    components = {}
    for node in nodes:
        if node not in components:
            component = frozenset(reached(pairs, [node]) & reached(back, [node]))
            components.update(dict.fromkeys(component, component))
    return components


def order_of(nodes, edges):
    """Returns the nodes in order: each next node is the least-numbered available one."""
    components = components_of(nodes, edges)
    outside = {it: {start for start, end in edges if end in it and start not in it} for it in set(components.values())}
    holders = {node: set() for node in nodes}
    for (start, end), edge in edges.items():
        if components[start] == components[end] and not is_dev_only(edge):
            holders[end].add(start)
    order, listed, left = [], set(), list(nodes)
    while left:
        begun = {components[it] for it in listed if not components[it] <= listed}
        node = next(it for it in left if is_available(it, components[it], outside[components[it]], holders, listed, begun))
        order.append(node)
        listed.add(node)
        left.remove(node)
    return order


def is_available(node, component, outside, holders, listed, begun):
    """Returns whether an unlisted node may be listed next. `begun` has the components that are listed in part."""
    def is_held(it):
        return bool(holders[it] - listed - {it})
    return begun <= {component} and outside <= listed and (not is_held(node) or all(map(is_held, component - listed)))


# Commands (docs/FORMAT.md, "The command line")

def node_of(nodes, id):
    """Returns the node that `id` names; the id is cut at its last slash."""
    package, _, label = id.rpartition('/')
    if label == BASE:
        node = Node(package, 'base')
    elif label.startswith('dep:'):
        node = Node(package, 'optional', label[4:])
    else:
        node = Node(package, 'named', label)
    if node not in nodes:
        raise Fault(f'unknown feature: {id}')
    return node


def resolve(nodes, edges, direction, ids):
    """Returns the features that those of `ids` reach in `direction`, in the order of their numbers."""
    pairs = edges if direction == 'forward' else {(end, start) for start, end in edges}
    known = set(nodes)
    members = reached(pairs, [node_of(known, id) for id in ids])
    return [node.text() for node in nodes if node in members]


def cycles(nodes, edges):
    """Returns the components that have a cycle, the last in the order first, with an empty line between two."""
    components = components_of(nodes, edges)
    groups = {}
    for node in order_of(nodes, edges):
        groups.setdefault(components[node], []).append(node.text())
    cyclic = [texts for component, texts in groups.items() if len(component) > 1 or any((it, it) in edges for it in component)]
    return [line for texts in reversed(cyclic) for line in ['', *texts]][1:]


@functools.lru_cache(maxsize=1)
def graph_of(text):
    """Returns the nodes and the edges of a row file."""
    packages = packages_of(rows_of(text))
    return nodes_of(packages), edges_of(packages)


def answer(text, command, words):
    """Returns the lines that a command prints over the bytes of a row file."""
    nodes, edges = graph_of(text)
    if command == 'resolve':
        return resolve(nodes, edges, words[0], words[1:])
    if command == 'order':
        order = [node.text() for node in order_of(nodes, edges)]
        return order if words == ['forward'] else order[::-1]
    if command == 'cycles':
        return cycles(nodes, edges)
    raise ValueError(f'the model has no command {command}')


# Files of cases

def values_of(case):
    """Returns the lines of a file of cases for the output of `case`."""
    _, command, *words = [word.decode() for word in case.words]
    try:
        lines = answer(case.rows, command, words)
    except Fault as fault:
        return [f'!1 {fault}']
    if case.of_file:
        with open(f'{TOP}/{case.of_file}', encoding='utf-8', newline='\n') as it:
            is_same = it.read() == ''.join(f'{line}\n' for line in lines)
        return [f'> of {case.of_file}'] if is_same else [f'> {line}' for line in lines]
    return [f'> {line}' for line in lines]


def compared(path, is_written):
    """Returns how many cases of a file agree with the model, and a line for each other one."""
    with open(path, encoding='utf-8', newline='\n') as it:
        lines = it.read().split('\n')
    passed, faults, written, kept = 0, [], [], 0
    for case in cases_of(path):
        at = int(case.place.rpartition(':')[2])
        end = next(place for place in range(at, len(lines)) if not lines[place].startswith(('>', '!')))
        values = values_of(case)
        written += lines[kept:at] + values
        kept = end
        if values == lines[at:end]:
            passed += 1
        else:
            faults.append(f'{case.place}: FAILED the model has {values}, the file has {lines[at:end]}')
    if is_written:
        with open(path, 'w', encoding='utf-8', newline='\n') as it:
            it.write('\n'.join(written + lines[kept:]))
    return passed, faults


def main():
    passed = failed = 0
    for name in FILES:
        agreed, faults = compared(os.path.join(TOP, 'tests/cases', f'{name}.cases'), sys.argv[1:] == ['--write'])
        passed, failed = passed + agreed, failed + len(faults)
        for it in faults:
            print(it)
    print(f'{passed} passed, {failed} failed')
    return 1 if failed else 0


if __name__ == '__main__':
    sys.exit(main())
