#!/usr/bin/env python3
"""Checks runs of offers against the rules, by plain functions over paths.

`fault_of(rows, printed)` checks each run of offers in the output of the part `surface` of `guppy_vectors` over a row file, except in calls that
explain: each line that begins with '- ' is an offer with its answer, in the order of the questions. `fault_of_walks` checks the
output of the part `graphs`, where an offer is the number of an edge and a letter: F for its full link, R and O for the halves of a
weak edge.

As a program it reads a row file from standard input, and prints its own results:

    judge.py ways DIRECTION                      the edges as the direction follows them: the ends, the letters of the
                                                 offers, and after an @ the gate of the optional half
    judge.py reads DIRECTION MEMBERS             the least and the largest number of reads of a complete walk with these members
    judge.py run DIRECTION NODES OFFERS          what is wrong with a run from these nodes that accepts these offers; commas
                                                 separate the nodes and the offers
"""
import sys
from collections import namedtuple

# One declaration of a package link; `platform` is None for every platform.
Declaration = namedtuple('Declaration', 'kind optional platform default features')
# A link between packages: the declarations of one ordered pair under one name.
Link = namedtuple('Link', 'source target name declarations')
# A package: its named features with their items, and the names of its optional dependencies, in order.
Package = namedtuple('Package', 'name features optional')
# An offer of an edge: the word for the declarations that it covers, these declarations by package link, and the gate or None.
Asked = namedtuple('Asked', 'word covered gate')

BASE = ('base', '')


class Graph:
    """The nodes and edges of a row file. A node is an index into `nodes`, of pairs of a package and a label. `edges` has the
    offers of each pair of nodes that has an edge; they are empty if the edge is unconditional."""

    def __init__(self, rows):
        self.packages, self.links = tables_of(rows)
        self.nodes = [(place, label) for place, package in enumerate(self.packages) for label in labels_of(package)]
        self.places = {node: place for place, node in enumerate(self.nodes)}
        least = {}
        for pair, rank, asked in self.candidates():
            if pair not in least or rank < least[pair][0]:
                least[pair] = (rank, asked)
        self.edges = {pair: asked for pair, (_, asked) in sorted(least.items())}

    def node(self, package, label):
        """Returns the node with this label in `package`, or None."""
        return self.places.get((package, label))

    def text(self, node):
        """Returns the id of `node` as it is printed."""
        package, (kind, name) = self.nodes[node]
        label = {'base': '[base]', 'named': name, 'optional': f'dep:{name}'}[kind]
        return f'{self.packages[package].name}/{label}'

    def named_links(self, package, name):
        """Returns the numbers of the package's links with this name."""
        return [number for number, link in enumerate(self.links) if (link.source, link.name) == (package, name)]

    def cover(self, numbers, test):
        """Returns the declarations of these links that pass `test`, by link. A link without one is left out."""
        covered = [(number, [it for it in self.links[number].declarations if test(it)]) for number in numbers]
        return [(number, declarations) for number, declarations in covered if declarations]

    def candidates(self):
        """Yields each pair of nodes that an item or a declaration joins, with its rank and its offers."""
        for package, its in enumerate(self.packages):
            for label in labels_of(its)[1:]:
                yield (self.node(package, label), self.node(package, BASE)), 1, []
            for feature, items in its.features:
                for item in items:
                    yield from self.of_item(package, feature, item)
        for number in range(len(self.links)):
            yield from self.of_link(number)

    def of_item(self, package, feature, item):
        start = self.node(package, ('named', feature))
        left, slash, right = item.partition('/')
        if slash:
            is_weak = left.endswith('?')
            yield from self.of_slash(package, feature, left[:-1] if is_weak else left, right, is_weak)
        elif item.startswith('dep:'):
            name = item[len('dep:'):]
            gate = self.node(package, ('optional', name))
            if gate is not None:
                covered = self.cover(self.named_links(package, name), lambda it: True)
                yield (start, gate), 3, [Asked('unsplit', covered, None)]
        elif item != feature and self.node(package, ('named', item)) is not None:
            yield (start, self.node(package, ('named', item))), 2, []

    def of_slash(self, package, feature, name, right, is_weak):
        start = self.node(package, ('named', feature))
        gate = self.node(package, ('optional', name))
        numbers = self.named_links(package, name)
        optional = self.cover(numbers, lambda it: it.optional)
        for number in numbers:
            far = self.node(self.links[number].target, ('named', right))
            if far is None:
                continue
            if is_weak and any(it.optional for it in self.links[number].declarations):
                halves = [Asked('optional', self.cover([number], lambda it: it.optional), gate)]
                required = self.cover([number], lambda it: not it.optional)
                if required:
                    halves.insert(0, Asked('required', required, None))
                yield (start, far), 6, halves
            else:
                yield (start, far), 4, [Asked('unsplit', self.cover([number], lambda it: True), None)]
        if not is_weak and gate is not None:
            yield (start, gate), 5, [Asked('optional', optional, None)]
            far = self.node(package, ('named', name))
            if far is not None and name != feature:
                yield (start, far), 5, [Asked('optional', optional, None)]

    def of_link(self, number):
        link = self.links[number]
        for is_optional, label in [(False, BASE), (True, ('optional', link.name))]:
            for far in range(len(self.nodes)):
                covered = self.cover([number], lambda it: it.optional == is_optional and self.requests(link, it, far))
                if covered:
                    word = 'optional' if is_optional else 'required'
                    yield (self.node(link.source, label), far), 7, [Asked(word, covered, None)]

    def requests(self, link, declaration, node):
        """Returns whether a declaration of the link requests the node."""
        package, label = self.nodes[node]
        if package != link.target:
            return False
        by_default = ('named', 'default') if self.node(package, ('named', 'default')) is not None else BASE
        wanted = [('named', name) for name in declaration.features]
        return label == BASE or (declaration.default and label == by_default) or label in wanted

    def line(self, pair, asked):
        """Returns the text of an offer's line: the ends, the declarations, the platforms for each kind, and the package links."""
        words = ['-', self.text(pair[0]), self.text(pair[1]), asked.word]
        for kind in ('normal', 'build', 'dev'):
            covered = [it.platform for _, declarations in asked.covered for it in declarations if it.kind == kind]
            specs = '|'.join(dict.fromkeys(it for it in covered if it is not None)) or '-'
            words.append('*' if None in covered else specs)
        for number, _ in asked.covered:
            link = self.links[number]
            words.append(f'{self.packages[link.source].name}>{self.packages[link.target].name}:{link.name}')
        if words[4:6] == ['-', '-']:
            words.append('dev-only')
        return ' '.join(words)


def labels_of(package):
    return [BASE, *(('named', name) for name, _ in package.features), *(('optional', name) for name in package.optional)]


def tables_of(rows):
    """Returns the packages and the links of a row file without faults."""
    lines = [line.split('\t') for line in rows.decode().split('\n') if line and not line.startswith('#')]
    numbers = {line[1]: place for place, line in enumerate(it for it in lines if it[0] == 'package')}
    packages, links = [], {}
    for line in lines:
        if line[0] == 'package':
            packages.append(Package(line[1], [], []))
        elif line[0] == 'feature':
            packages[-1].features.append((line[1], line[2:]))
        else:
            name, target, kind, optional, platform, default = line[1:7]
            declaration = Declaration(
                kind, optional == 'optional', None if platform == '*' else platform, default == 'default', line[7:])
            pair = (len(packages) - 1, numbers[target])
            links.setdefault(pair, Link(*pair, name, [])).declarations.append(declaration)
            if declaration.optional and name not in packages[-1].optional:
                packages[-1].optional.append(name)
    return packages, list(links.values())


def ways_of(graph, direction, is_numbered=False):
    """Returns the edges as `direction` follows them: the start and the far end of each unconditional one, and of each offer
    the start, the far end, the gate or None, and the offer before it or None. The key of an offer is its line, or its edge's
    number and its letter if `is_numbered`."""
    free, offers = [], {}
    for number, (pair, asked) in enumerate(graph.edges.items()):
        start, far = pair if direction == 'forward' else pair[::-1]
        if not asked:
            free.append((start, far))
        before = None
        for it in asked:
            name = f'{number}{letter_of(asked, it)}' if is_numbered else graph.line(pair, it)
            offers[name] = (start, far, it.gate if direction == 'forward' else None, before)
            before = name
    return free, offers


def letter_of(asked, it):
    """Returns the letter of `it`, one of the offers `asked` of an edge."""
    return 'O' if it.gate is not None else 'R' if len(asked) > 1 else 'F'


def reach(initials, steps):
    """Returns the nodes that paths over `steps` reach from `initials`."""
    reached, is_more = set(initials), True
    while is_more:
        found = {far for start, far in steps if start in reached}
        is_more = not found <= reached
        reached |= found
    return reached


def least(initials, ways, accepted):
    """Returns the least set that contains the initial nodes and is closed under unconditional edges and these offers. An offer
    with a gate leads on only if the gate is in the set too."""
    free, offers = ways
    members, is_more = set(initials), True
    while is_more:
        found = {far for start, far in free if start in members}
        for start, far, gate, _ in (offers[it] for it in accepted):
            if start in members and (gate is None or gate in members):
                found.add(far)
        is_more = not found <= members
        members |= found
    return members


def accepted_in(run):
    return [name for name, answer in run if answer]


def reached_by(initials, ways, run):
    """Returns the nodes that paths over unconditional edges and the accepted offers of a run reach."""
    free, offers = ways
    return reach(initials, free + [offers[it][:2] for it in accepted_in(run)])


def due_after(initials, ways, run):
    """Returns the offers that are due after a run."""
    reached, made = reached_by(initials, ways, run), {name for name, _ in run}
    return [name for name, (start, _, gate, before) in ways[1].items() if name not in made and start in reached and (
        gate is None or gate in reached) and (before is None or before in made)]


def fault_of_run(initials, ways, run, is_complete=True):
    """Returns why a run isn't one by the rules, or None. The run is a list of pairs of an offer's name and its answer."""
    for place, (name, _) in enumerate(run):
        if name not in due_after(initials, ways, run[:place]):
            return f'not due at {place}: {name}'
    left = due_after(initials, ways, run) if is_complete else []
    return f'left out: {left[0]}' if left else None


def fault_of_members(initials, ways, run, members):
    """Returns why `members` aren't the nodes that a complete run reaches, in order, or None. They must be the ends of paths,
    and the least set both for the accepted offers and for those that aren't refused."""
    refused = {name for name, answer in run if not answer}
    for wanted in (reached_by(initials, ways, run), least(initials, ways, accepted_in(run)),
                   least(initials, ways, [it for it in ways[1] if it not in refused])):
        if members != sorted(wanted):
            return f'these are not the members: {members}'
    return None


def complete_runs(initials, ways, accepted):
    """Returns all complete runs in which exactly these offers are accepted."""
    whole, begun = [], [[]]
    while begun:
        run = begun.pop()
        due = due_after(initials, ways, run)
        begun += [[*run, (name, name in accepted)] for name in due]
        whole += [] if due else [run]
    return whole


def run_of(graph, direction, initials, lines):
    """Returns the offers of `lines` with their answers, or the text of the first line that isn't right."""
    _, offers = ways_of(graph, direction)
    run = []
    for line in lines:
        found = [it for it in offers if line.startswith(f'{it} ')]
        if len(found) != 1 or not line.endswith((' yes', ' no')):
            return line
        start = offers[found[0]][0]
        if line[len(found[0]):].startswith(' initial ') != (start in initials):
            return line
        run.append((found[0], line.endswith(' yes')))
    return run


def told_runs(lines):
    """Returns the runs that a call prints, each with the line that ends it, and the printed number of the visitor's calls; or None.
    A number between two runs is that of the calls before it."""
    runs, shown = [], []
    for place, line in enumerate(lines):
        if line.startswith('- '):
            shown.append(line)
        elif line.startswith('asked ') and not shown:
            if place + 1 == len(lines):
                return runs, int(line[6:])
            if int(line[6:]) != sum(len(run) for run, _ in runs):
                return None
        else:
            runs.append((shown, line))
            shown = []
    # if an allocation failed before the visitor was created, no number is printed
    return (runs, 0) if runs == [([], 'out of memory')] and not shown else None


def fault_of_visit(graph, by_text, call, ids, lines):
    """Returns why the output of a call `visit`, `twice` or `lend` isn't runs of offers by the rules, or None."""
    name, _, direction = call.split()[:3]
    initials = {by_text[it] for it in ids}
    told = told_runs(lines)
    least = 1 if name == 'visit' or lines[:1] == ['out of memory'] else 2
    if told is None or not least <= len(told[0]) <= (1 if name == 'visit' else 2):
        return f'{call}: no end of a run: {lines}'
    runs, asked = told
    if asked != sum(len(shown) for shown, _ in runs):
        return f'{call}: asked {asked} times'
    ways = ways_of(graph, direction)
    for shown, end in runs:
        run = run_of(graph, direction, initials, shown)
        if isinstance(run, str):
            return f'{call}: no such offer: {run}'
        is_whole = end != 'out of memory'
        fault = fault_of_run(initials, ways, run, is_whole)
        if fault is None and is_whole:
            fault = fault_of_members(initials, ways, run, [by_text.get(it) for it in end.partition(':')[2].split()])
        if fault:
            return f'{call}: {fault}'
    return None


def fault_of(rows, printed):
    """Returns why a run of offers in `printed` isn't one by the rules, or None."""
    graph = Graph(rows)
    by_text = {graph.text(node): node for node in range(len(graph.nodes))}
    if len(by_text) < len(graph.nodes):
        return 'two features print alike'
    calls = [place for place, line in enumerate(printed) if line.startswith('< ')]
    for place, end in zip(calls, [*calls[1:], len(printed)]):
        call, _, words = printed[place][2:].partition(': ')
        ids = [word if '/' in word else f'{word}/[base]' for word in words.split()]
        if not call.startswith(('visit ', 'twice ', 'lend ')) or any(it not in by_text for it in ids):
            continue
        fault = fault_of_visit(graph, by_text, call, ids, printed[place + 1:end])
        if fault:
            return fault
    return None


def is_accepted(rule, before, name):
    """Returns whether `rule` accepts the offer `name` after `before` others."""
    word, _, options = rule.partition(' ')
    return {'all': True, 'none': False, 'first': before < int(options or 0) if word == 'first' else None,
            'alternate': before % 2 == 0, 'these': name in options.split(',')}[word]


def fault_of_reads(ways, members, read, count):
    """Returns why a complete walk with `members` doesn't make the reads `read`, or None. Each read is a node."""
    if len(read) != count:
        return f'{count} reads, of which {len(read)} were written down'
    if not set(read) <= set(members):
        return f'read: {sorted(set(read) - set(members))}'
    fewest, most = reads_of(ways, members)
    return None if fewest <= count <= most else f'{count} reads, in place of {fewest} to {most}'


def reads_of(ways, members):
    """Returns the least and the largest number of reads of a complete walk with `members`: one for each edge from a member; at
    most also one for each edge whose gate is a member, and two for each member, which find no further edge."""
    free, offers = ways
    edges = [start for start, _ in free] + [start for start, _, _, before in offers.values() if before is None]
    fewest = sum(1 for start in edges if start in members)
    return fewest, fewest + 2 * len(members) + sum(1 for _, _, gate, _ in offers.values() if gate is not None and gate in members)


def fault_of_explanation(initials, reasons, steps):
    """Returns why `steps` are no explanation, or None. A step is a node and its reason, `initial` or a key of `reasons`, which
    has the start, the far end, and the gate or None of each edge and each offer."""
    listed = set()
    for node, why in steps:
        start, far, gate = reasons.get(why, (None, None, None))
        is_led_to = why in reasons and far == node and start in listed and (gate is None or gate in listed)
        if node in listed or not (is_led_to or (why == 'initial' and node in initials)):
            return f'no step: {node} {why}'
        listed.add(node)
    return None


def fault_of_steps(initials, reasons, run, members, steps):
    """Returns why `steps` don't explain `members` by edges and accepted offers of a run, or None."""
    fault = fault_of_explanation(initials, reasons, steps)
    offered = [why.partition(' ')[2] for _, why in steps if why.startswith(('offer ', 'link '))]
    if fault is None and not set(offered) <= set(accepted_in(run)):
        fault = f'not accepted: {set(offered) - set(accepted_in(run))}'
    return fault or (None if sorted(node for node, _ in steps) == members else f'not explained: {steps}')


def parts_of(lines):
    """Returns the nodes that a walk read, and the other lines of its output by the word that begins their section. The first
    section is `offers`."""
    read = [int(line[5:]) for line in lines if line.startswith('read ')]
    parts, word = {'offers': []}, 'offers'
    for line in lines:
        if line.startswith('- '):
            parts[word].append(line[2:])
        elif not line.startswith('read '):
            word, _, rest = line.partition(' ')
            parts[word] = [rest] if rest else []
    return read, parts


def fault_of_walk(graph, call, lines):
    """Returns why `lines` aren't the output of a walk by the rules, or None."""
    options, _, nodes = call.partition(': ')
    _, over, direction, rule = options.split(' ', 3)
    ways, initials = ways_of(graph, direction, True), {int(it) for it in nodes.split()}
    read, parts = parts_of(lines)
    run = [(name, word == 'yes') for name, word in (line.split(' ') for line in parts['offers'])]
    if any(answer != is_accepted(rule, place, name) for place, (name, answer) in enumerate(run)):
        return f'not the answers of the rule: {run}'
    if 'members' not in parts:
        return fault_of_run(initials, ways, run, False) if 'out' in parts else f'no end of a walk: {lines}'
    members = [int(it) for line in parts['members'][:1] for it in line.split()]
    fault = fault_of_run(initials, ways, run) or fault_of_members(initials, ways, run, members)
    if fault is None and over != 'graph':
        fault = fault_of_reads(ways, members, read, int(parts['reads'][0]))
    if fault is None and over == 'explained':
        steps = [(int(node), why) for node, _, why in (it.partition(' ') for it in parts['members'][1:])]
        reasons = {f'offer {name}': way[:3] for name, way in ways[1].items()}
        for number, (pair, asked) in enumerate(graph.edges.items()):
            if not asked:
                reasons[f'edge {number}'] = (*(pair if direction == 'forward' else pair[::-1]), None)
        fault = fault_of_steps(initials, reasons, run, members, steps)
        if parts['refused'] != [name for name, answer in run if not answer]:
            fault = f'not the refused offers: {parts["refused"]}'
    return fault


def walks_in(printed):
    """Returns the calls of walks in `printed`, each with its output."""
    calls = [place for place, line in enumerate(printed) if line.startswith('< ')]
    for place, end in zip(calls, [*calls[1:], len(printed)]):
        if printed[place].startswith('< walk '):
            yield printed[place][2:], printed[place + 1:end]


def fault_of_walks(rows, printed):
    """Returns why a walk in `printed` isn't one by the rules, or None."""
    walks = list(walks_in(printed))
    graph = Graph(rows) if walks else None
    for call, lines in walks:
        fault = fault_of_walk(graph, call, lines)
        if fault:
            return f'{call}: {fault}'
    return None


def answers_of(rows, direction):
    """Returns all sets of offers, each as a list."""
    sets = [[]]
    for name in ways_of(Graph(rows), direction, True)[1]:
        sets += [[*one, name] for one in sets]
    return sets


def fault_of_all_runs(rows, printed, wanted):
    """Returns why a walk in `printed` isn't a complete run with its accepted offers and their one result, or why there aren't
    `wanted` of these runs over all walks; or None."""
    graph, count = Graph(rows), 0
    for call, lines in walks_in(printed):
        options, _, nodes = call.partition(': ')
        _, _, direction, _, *accepted = options.split(' ')
        ways, initials = ways_of(graph, direction, True), {int(it) for it in nodes.split()}
        _, parts = parts_of(lines)
        runs = complete_runs(initials, ways, accepted[0].split(',') if accepted else [])
        if [(name, word == 'yes') for name, word in (line.split(' ') for line in parts['offers'])] not in runs:
            return f'{call}: none of all runs: {lines}'
        members = [int(it) for it in parts['members'][0].split()]
        faults = [fault_of_members(initials, ways, run, members) for run in runs]
        if any(faults):
            return f'{call}: a run with another result: {runs[faults.index(next(filter(None, faults)))]}'
        count += len(runs)
    return None if count == wanted else f'{count} complete runs'


def text_of_ways(graph, direction):
    """Returns the edges as `direction` follows them, in one line."""
    words = []
    _, offers = ways_of(graph, direction, True)
    for number, pair in enumerate(graph.edges):
        start, far = pair if direction == 'forward' else pair[::-1]
        letters = [it for it in 'FRO' if f'{number}{it}' in offers]
        gates = [offers[f'{number}{it}'][2] for it in letters]
        words.append(f'{start}-{far}{"".join(letters)}' + ''.join(f'@{it}' for it in gates if it is not None))
    return ' '.join(words)


def main():
    _, what, direction, *words = sys.argv
    graph = Graph(sys.stdin.buffer.read())
    ways, numbers = ways_of(graph, direction, True), {int(it) for it in words[0].split(',')} if words else set()
    if what == 'ways':
        print(text_of_ways(graph, direction))
    elif what == 'reads':
        print(*reads_of(ways, numbers))
    else:
        print(fault_of_run(numbers, ways, [(it, True) for it in words[1].split(',')]) or 'complete')


if __name__ == '__main__':
    main()
