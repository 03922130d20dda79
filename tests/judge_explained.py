"""Checks explanations by ids against the rules, by plain functions over steps.

`fault_of(rows, printed)` checks the calls that explain in the output of the part `surface` of `guppy_vectors` over a row file: the runs of offers
(judge.py), the steps, the refused links, and the results of checks. A step is a node and a reason, which is the text `initial`,
`edge FROM TO`, or `link FROM TO DECLARATIONS`. A refused link is the text `FROM TO DECLARATIONS`.
"""
import itertools

from judge import Graph, fault_of_explanation, fault_of_members, fault_of_run, fault_of_steps, least, letter_of, ways_of

MEMORY = 'out of memory'
KINDS = ('normal', 'build', 'dev')
DECLARATIONS = ('unsplit', 'required', 'optional')
# The number of words after the first word of a reason.
WORDS = {'initial': 0, 'edge': 2, 'link': 3}


class Named:
    """A graph as a direction follows it, by ids. `offers` are those of `ways_of`; `reasons` has the start, the far end, and the
    gate or None of each edge and each offer, by its reason."""

    def __init__(self, graph, direction):
        self.graph, self.by_text = graph, {graph.text(node): node for node in range(len(graph.nodes))}
        free, numbered = ways_of(graph, direction, True)
        self.offers, self.asked, self.reasons, names = {}, {}, {}, {}
        for number, ((source, target), asked) in enumerate(graph.edges.items()):
            ends = f'{graph.text(source)} {graph.text(target)}'
            if not asked:
                start, far = (source, target) if direction == 'forward' else (target, source)
                self.reasons[f'edge {ends}'] = (start, far, None)
            for it in asked:
                key, name = f'{number}{letter_of(asked, it)}', f'{ends} {it.word}'
                start, far, gate, before = numbered[key]
                names[key] = name
                self.offers[name] = (start, far, gate, names.get(before))
                self.reasons[f'link {name}'] = (start, far, gate)
                self.asked[name] = it
        self.ways = (free, self.offers)

    def node(self, word):
        """Returns the node that `word` names, or None. A word without a slash names a base."""
        return self.by_text.get(full(word))


def full(word):
    return word if '/' in word else f'{word}/[base]'


def fault_of_exact(initials, named, steps, refused):
    """Returns why `steps` are no explanation that follows all edges and offers except the refused ones, or None."""
    fault = fault_of_explanation(initials, named.reasons, steps)
    listed = {node for node, _ in steps}
    by_refused = [why for _, why in steps if why.startswith('link ') and why[5:] in refused]
    if fault is None and by_refused:
        fault = f'by a refused link: {by_refused[0]}'
    if fault is None and not set(initials) <= listed:
        fault = 'an initial feature is left out'
    for why, (start, far, gate) in named.reasons.items():
        is_open = start in listed and (gate is None or gate in listed) and why[5:] not in refused
        if fault is None and is_open and far not in listed:
            fault = f'left out: {why}'
    return fault


def rests_on(named, steps, node):
    """Returns `node` and the nodes on which it rests by `steps`."""
    whys, rests, left = dict(steps), set(), [node]
    while left:
        node = left.pop()
        if node is not None and node not in rests:
            rests.add(node)
            start, _, gate = named.reasons.get(whys[node], (None, None, None))
            left += [start, gate]
    return rests


def fault_of_why(initials, named, steps, node, kept):
    """Returns why `kept` aren't the steps on which the listed `node` rests, in order, or None."""
    rests = rests_on(named, steps, node)
    if kept != [it for it in steps if it[0] in rests] or kept[-1][0] != node:
        return f'not what {node} rests on: {kept}'
    return fault_of_explanation(initials, named.reasons, kept)


def steps_in(named, lines):
    """Returns the steps in `lines`."""
    words = [line.split(' ', 2) for line in lines if line.startswith('step ')]
    return [(named.by_text[id], why) for _, id, why in words]


def members_in(named, line):
    return [named.by_text[id] for id in line.partition(':')[2].split()]


def is_members(line):
    return line.partition(':')[0].isdigit()


def run_in(named, lines):
    """Returns the run of offers in `lines`."""
    run = []
    for line in lines:
        name, _, word = line[2:].rpartition(' ')
        if name not in named.offers or word not in ('yes', 'no'):
            raise ValueError(line)
        run.append((name, word == 'yes'))
    return run


def fault_of_answer(lines, word, fault):
    """Returns why the first of `lines` isn't the right result of a check for steps with this `fault`, or None."""
    wanted = f'{word} {"true" if fault is None else "false"}'
    return None if lines[:1] == [wanted] else f'{lines[:1]} in place of {wanted}, {fault}'


def fault_of_whys(initials, named, steps, lines):
    """Returns why `lines` aren't the graph's features, each with the steps on which it rests, or None."""
    starts = [place for place, line in enumerate(lines) if line.startswith('why ')]
    blocks = [lines[start:end] for start, end in zip(starts, [*starts[1:], len(lines)])]
    asked = [block[0].split(' ')[1] for block in blocks]
    if asked[:len(named.by_text)] != list(named.by_text):
        return f'not each feature: {asked}'
    listed = {node for node, _ in steps}
    for block in blocks:
        node = named.by_text[block[0].split(' ')[1]]
        if block[0].endswith(' none') != (node not in listed):
            return f'wrong: {block}'
        if node in listed:
            fault = fault_of_why(initials, named, steps, node, steps_in(named, block))
            fault = fault or fault_of_answer([it for it in block if it.startswith('explained ')], 'explained', None)
            if fault:
                return fault
    return None


def fault_of_told(initials, named, run, lines):
    """Returns why `lines` aren't the set, the steps and the refused links of `run`, or None."""
    members, steps = members_in(named, lines[0]), steps_in(named, lines[:last_of(lines)])
    refused = [line[8:] for line in lines if line.startswith('refused ')]
    fault = fault_of_run(initials, named.ways, run) or fault_of_members(initials, named.ways, run, members)
    fault = fault or fault_of_steps(initials, named.reasons, run, members, steps)
    if fault is None and refused != [name for name, answer in run if not answer]:
        fault = f'not the refused links: {refused}'
    return fault or fault_of_exact(initials, named, steps, refused)


def last_of(lines):
    """Returns the number of lines for a set, its steps and its refused links."""
    return next((place for place, line in enumerate(lines) if place and not line.startswith(('step ', 'refused '))), len(lines))


def fault_of_explain(initials, named, name, lines):
    """Returns why the output of a call with a visitor isn't right by the rules, or None."""
    shown = list(itertools.takewhile(lambda it: it.startswith('- '), lines))
    run, rest = run_in(named, shown), lines[len(shown):]
    if rest[-1:] != [f'asked {len(shown)}']:
        return f'no end, or asked another number of times: {rest}'
    if not is_members(rest[0]):
        return fault_of_run(initials, named.ways, run, False) if MEMORY in rest else f'no end of a run: {lines}'
    fault = fault_of_told(initials, named, run, rest)
    if name == 'checked' and fault is None and MEMORY not in rest:
        last = last_of(rest)
        fault = fault_of_answer(rest[last:], 'explained', None) or fault_of_answer(rest[last + 1:], 'exact', None)
        fault = fault or fault_of_whys(initials, named, steps_in(named, rest[:last]), rest[last + 2:-1])
    return fault


def fault_of_same(initials, named, lines):
    """Returns why the output for two runs of one query isn't right by the rules, or None."""
    runs, shown = [], []
    for line in lines:
        if line.startswith('- '):
            shown.append(line)
        elif is_members(line) or line == MEMORY:
            runs.append((run_in(named, shown), line))
            shown = []
    if lines[-1:] != [f'asked {sum(len(run) for run, _ in runs)}']:
        return f'asked another number of times: {lines}'
    for run, line in runs:
        fault = fault_of_run(initials, named.ways, run, line != MEMORY)
        if fault is None and line != MEMORY:
            fault = fault_of_members(initials, named.ways, run, members_in(named, line))
        if fault:
            return fault
    if MEMORY in lines:
        return None
    is_same = len(runs) == 2 and runs[0][1] == runs[1][1] and runs[0][0] == runs[1][0] and 'same true' in lines
    return None if is_same else f'two sets: {lines}'


def is_for(asked, kinds, specs):
    """Returns whether a link is for one of `kinds` on a platform where `specs` hold."""
    covered = [it for _, declarations in asked.covered for it in declarations if it.kind in kinds]
    return any(it.platform is None or it.platform in specs for it in covered)


def fault_of_platform(initials, named, options, lines):
    """Returns why `lines` aren't the least set for the links of a platform with its explanation, or None."""
    kinds, _, specs = options.partition(' ')
    accepted = [name for name, asked in named.asked.items() if is_for(asked, kinds.split(','), specs.split())]
    members, steps, last = members_in(named, lines[0]), steps_in(named, lines), last_of(lines)
    refused = [line[8:] for line in lines if line.startswith('refused ')]
    due = [name for name, (start, _, gate, _) in named.offers.items() if start in members and (gate is None or gate in members)]
    if members != sorted(least(initials, named.ways, accepted)):
        return f'not the members: {members}'
    if sorted(refused) != sorted(set(due) - set(accepted)):
        return f'not the refused links: {refused}'
    run = [(name, True) for name in accepted]
    fault = fault_of_steps(initials, named.reasons, run, members, steps) or fault_of_exact(initials, named, steps, refused)
    return fault or fault_of_answer(lines[last:], 'explained', None) or fault_of_answer(lines[last + 1:], 'exact', None)


def words_in(text):
    """Returns the words of each part of a call; semicolons separate the parts."""
    parts = [[]]
    for word in text.split():
        if word == ';':
            parts.append([])
        else:
            parts[-1].append(word[:-1] if word.endswith(',') else word)
    return [*parts, [], []][:3]


def steps_of(named, words):
    """Returns the steps in the words of a call."""
    steps, at = [], 0
    while at < len(words):
        end = at + 2 + WORDS[words[at + 1]]
        why = [words[at + 1], *map(full, words[at + 2:min(end, at + 4)]), *words[at + 4:end]]
        steps.append((named.node(words[at]), ' '.join(why)))
        at = end
    return steps


def links_of(words):
    """Returns the refused links in the words of a call."""
    return [' '.join([full(words[at]), full(words[at + 1]), words[at + 2]]) for at in range(0, len(words), 3)]


def fault_of_check(named, name, rest, lines):
    """Returns why `lines` aren't the right result of a check of steps, or None."""
    ids, steps, refused = words_in(rest)
    initials, steps = [named.node(id) for id in ids], steps_of(named, steps)
    if name == 'check':
        return fault_of_answer(lines, 'explained', fault_of_explanation(initials, named.reasons, steps))
    return fault_of_answer(lines, 'exact', fault_of_exact(initials, named, steps, links_of(refused)))


def fault_of_call(by_direction, call, lines):
    """Returns why `lines` aren't the right output of `call`, or None."""
    before, _, rest = call.partition(': ')
    name, _, options = before.partition(' ')
    direction, _, options = options.partition(' ')
    named = by_direction[direction]
    initials = [named.node(id) for id in words_in(rest)[0]]
    if None in initials or lines == [MEMORY] or lines == [MEMORY, 'asked 0']:
        return None
    if name in ('check', 'check-exact'):
        return fault_of_check(named, name, rest, lines)
    if name == 'platform':
        return None if MEMORY in lines else fault_of_platform(initials, named, options, lines)
    return fault_of_same(initials, named, lines) if name == 'same' else fault_of_explain(initials, named, name, lines)


def by_directions(rows):
    graph = Graph(rows)
    return {direction: Named(graph, direction) for direction in ('forward', 'reverse')}


def explanation_of(initials, named, accepted):
    """Returns steps for the nodes that the initial ones reach over edges and accepted offers, and the other offers that are due."""
    steps, listed = [(node, 'initial') for node in dict.fromkeys(initials)], set(initials)
    is_more = True
    while is_more:
        is_more = False
        for why, (start, far, gate) in named.reasons.items():
            is_open = start in listed and (gate is None or gate in listed)
            if is_open and far not in listed and (why.startswith('edge ') or why[5:] in accepted):
                steps.append((far, why))
                listed.add(far)
                is_more = True
    return steps, [name for name, (start, _, gate, _) in named.offers.items()
                   if name not in accepted and start in listed and (gate is None or gate in listed)]


def other_reasons(named, node, why):
    """Returns reasons in place of `why`: each that leads to `node`, and each other one with the same ends."""
    others = ['initial', *(name for name, (_, far, _) in named.reasons.items() if far == node)]
    if why != 'initial':
        ends = ' '.join(why.split(' ')[1:3])
        others += [f'edge {ends}', f'edge {" ".join(reversed(ends.split(" ")))}', *(f'link {ends} {it}' for it in DECLARATIONS)]
    return [it for it in dict.fromkeys(others) if it != why]


def edits_of(named, steps, refused):
    """Yields the steps and the refused offers, and each small change of them."""
    places = range(len(steps))
    yield steps, refused
    for place in places:
        yield steps[:place] + steps[place + 1:], refused
        yield [*steps, steps[place]], refused
        for why in other_reasons(named, *steps[place]):
            yield [*steps[:place], (steps[place][0], why), *steps[place + 1:]], refused
    for one, other in itertools.combinations(places, 2):
        order = {one: other, other: one}
        yield [steps[order.get(place, place)] for place in places], refused
    for name in named.offers:
        yield steps, [it for it in refused if it != name] if name in refused else [name, *refused]
        ends, _, _ = name.rpartition(' ')
        yield steps, [*refused, *(f'{ends} {it}' for it in DECLARATIONS if f'{ends} {it}' not in named.offers)]


def edited_calls(rows, direction, ids):
    """Yields checks of each small change of explanations from `ids`, for all offers accepted, none, and every second one."""
    named = by_directions(rows)[direction]
    offers, texts = list(named.offers), list(named.by_text)
    for accepted in (offers, [], offers[::2], offers[1::2]):
        for steps, refused in edits_of(named, *explanation_of([named.node(id) for id in ids.split()], named, accepted)):
            told = ', '.join(f'{texts[node]} {why}' for node, why in steps)
            yield f'check {direction}: {ids} ; {told}'
            yield f'check-exact {direction}: {ids} ; {told} ; {", ".join(refused)}'


def subsets(words):
    return [list(it) for count in range(len(words) + 1) for it in itertools.combinations(words, count)]


def platform_calls(rows, direction, specs):
    """Yields calls for the features on each platform, described by some of `specs`, from each two features."""
    texts = list(by_directions(rows)[direction].by_text)
    for kinds, chosen, one, other in itertools.product(subsets(KINDS), subsets(specs.split()), texts, texts):
        if one <= other:
            yield f'platform {direction} {" ".join([",".join(kinds) or "none", *chosen])}: {one} {other}'


def fault_of(rows, printed):
    """Returns why the output of a call in `printed` isn't right by the rules, or None."""
    by_direction = by_directions(rows)
    calls = [place for place, line in enumerate(printed) if line.startswith('< ')]
    for place, end in zip(calls, [*calls[1:], len(printed)]):
        call, lines = printed[place][2:], printed[place + 1:end]
        try:
            fault = fault_of_call(by_direction, call, lines)
        except (KeyError, ValueError, IndexError) as error:
            fault = f'not told so by any call: {error!r} in {lines}'
        if fault:
            return f'{call}: {fault}'
    return None
