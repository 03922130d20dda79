#!/usr/bin/env python3
"""A model of policies: the grammar of a policy file, and which of its rules a build breaks.

A rule is (LINE, VERB, WORD, TRIPLE or None, REASON or None), and a verdict (RULE, SPOTS). A spot is (SIDE, ID of a package, kind, name), with
the kinds of plan_model.py. For every choice a `deny` is judged in the plan of the widest selection, or if it is for a platform in that of all
members with all their features and tests. Run alone, it checks the worked rows below; the last line is `N passed, M failed`.
"""
import sys

sys.dont_write_bytecode = True

import name_model
import plan_model
from plan_model import HOST, TARGET

# The characters that Unicode calls white space.
WHITE = '\t\n\v\f\r \x85\xa0\u1680\u2000\u2001\u2002\u2003\u2004\u2005\u2006\u2007\u2008\u2009\u200a\u2028\u2029\u202f\u205f\u3000'
# The builds in which rules are judged.
HERE, WITH_ALL, EVERY = 'build', 'all', 'every-choice'
NO_RULE, NO_WORD, NO_TRIPLE, EXTRA_WORD = 'no rule', 'no word', 'no triple', 'extra word'
PROBLEMS = {
    NO_RULE: 'a rule begins with `deny`, `require` or `deny-duplicates`',
    NO_WORD: 'the name of a feature or of a package is missing',
    NO_TRIPLE: 'the name of a platform is missing after `on`',
    EXTRA_WORD: 'there are more words than the rule takes: a reason begins with `#`',
}


class Malformed(Exception):
    """The first malformed line: its number and what is wrong with it."""


class Uncheckable(Exception):
    """The first rule that can't be checked: its line, and ('several', WORD, PARTS) or ('platform', TRIPLE)."""


# The grammar.

def lines_of(text):
    """The lines of a text. A line feed ends a line, and a carriage return before it is no part of the line."""
    *ended, last = text.split('\n')
    return [it.removesuffix('\r') for it in ended] + ([last] if last else [])


def parts_of(line):
    """The words of a line before its reason, and the reason. A `#` at the beginning of a word begins the reason."""
    at = next((at for at, byte in enumerate(line) if byte == '#' and (at == 0 or line[at - 1] in ' \t')), len(line))
    return [it for it in line[:at].replace('\t', ' ').split(' ') if it], line[at + 1:].strip(WHITE) or None


def kind_of(verb, words):
    """The rule that begins with a verb: (VERB, WORD, TRIPLE or None), or what is wrong."""
    if verb not in ('deny', 'require', 'deny-duplicates'):
        return NO_RULE
    if not words:
        return NO_WORD
    if verb == 'deny' and words[1:2] == ['on']:
        return NO_TRIPLE if len(words) == 2 else EXTRA_WORD if len(words) > 3 else (verb, words[0], words[2])
    return EXTRA_WORD if len(words) > 1 else (verb, words[0], None)


def rules_of(text):
    """The rules of a policy, or Malformed."""
    rules = []
    for number, line in enumerate(lines_of(text), 1):
        words, reason = parts_of(line)
        if words:
            kind = kind_of(words[0], words[1:])
            if kind in PROBLEMS:
                raise Malformed(number, kind)
            rules.append((number, *kind, reason))
    return rules


# The verdicts.

def spots_of(parts):
    """The spots of parts of name_model.py: each part on the target side, and then on the host side."""
    for id, name in parts:
        kind = 'base' if name is None else 'dep' if name.startswith('dep:') else 'feature'
        yield from ((side, id, kind, (name or '').removeprefix('dep:')) for side in (TARGET, HOST))


def is_on(plan, spot):
    side, id, kind, name = spot
    return ((side, id), kind, name) in plan.on


def is_built(plan, spot):
    """Whether the package of a spot is built in a place with the features of the spot's side."""
    return any(id == spot[1] and plan.side_of(place) == spot[0] for place, id in plan.built)


def counts(plan, where, spot):
    """Whether a spot is on, and its package is built there. For every choice all that is on counts."""
    return is_on(plan, spot) and (where == EVERY or is_built(plan, spot))


def is_built_for(plan, triple, spot):
    """Whether the package of a spot is built for a platform, with the features of the spot's side."""
    return any(id == spot[1] and plan.platform_of(place).triple == triple and plan.side_of(place) == spot[0] for place, id in plan.built)


def parts_named(document, selected, line, word):
    """What the word of a rule names; nothing, if it names nothing."""
    try:
        return name_model.matching(document, selected, word)
    except name_model.Unknown:
        return []
    except name_model.Several as several:
        raise Uncheckable(line, ('several', word, several.args[0])) from None


def verdict_on(document, selected, plan, where, rule):
    """The spots that break a rule; None, if it is kept. `document` is the value of the JSON text, and `plan` a Plan of it, that of the build
    `where`. The rule's word is looked up in the packages `selected` first."""
    line, verb, word, triple, _ = rule
    if triple is not None and triple not in {it.triple for it in [plan.selection.host, *plan.selection.platforms()]}:
        raise Uncheckable(line, ('platform', triple))
    if verb == 'deny-duplicates':
        built = {id for _, id in plan.built}
        packages = [it for it in name_model.packages_matching(document, word) if it['id'] in built]
        names = [it['name'] for it in packages]
        ids = [it['id'] for it in packages if names.count(it['name']) > 1]
        return [it for it in spots_of((id, None) for id in ids) if counts(plan, where, it)] if ids else None
    spots = [it for it in spots_of(parts_named(document, selected, line, word)) if counts(plan, where, it)]
    if verb == 'require':
        return None if spots else []
    return [it for it in spots if triple is None or is_built_for(plan, triple, it)] or None


def verdicts_of(document, plans, rules):
    """The broken rules, each with the spots that break it, in their order; or Uncheckable. `plans` are the plans by the builds in which rules are
    judged: with more than that of HERE, the rules are judged for every choice."""
    found = [(rule, verdict_on(document, plans[HERE].selected, plans[judged(plans, rule)], judged(plans, rule), rule)) for rule in rules]
    return [it for it in found if it[1] is not None]


def unmatched(document, selected, rules):
    """The rules whose words name nothing."""
    def is_unmatched(rule):
        if rule[1] == 'deny-duplicates':
            return not name_model.packages_matching(document, rule[2])
        return name_model.outcome(document, selected, rule[2], name_model.matching) == ('unknown',)

    return [it for it in rules if is_unmatched(it)]


# Every choice.

class EveryPlatform:
    """A platform on which each spec holds."""
    triple = 'every'

    def holds(self, spec):
        return True


def widest_of(selection):
    """The widest selection: all members with all their features, tests, and a platform on which each spec holds."""
    every = EveryPlatform()
    return selection._replace(words=None, is_workspace=True, excluded=(), is_all=True, no_default=False, is_test=True, host=every, targets=[every])


def all_of(selection):
    """The selection of all members with all their features and tests, for the same platforms."""
    return selection._replace(words=None, is_workspace=True, excluded=(), is_all=True, no_default=False, is_test=True)


def judged(plans, rule):
    """The build in which a rule is judged."""
    _, verb, _, triple, _ = rule
    return HERE if EVERY not in plans or verb != 'deny' else EVERY if triple is None else WITH_ALL


# The answers.

def place_of(file, line):
    return f'{file}:{line}: '


def words_of(rule):
    _, verb, word, triple, _ = rule
    return f'{verb} {word}' + (f' on {triple}' if triple is not None else '')


def verdict_lines(file, where, rule, whys):
    """The lines about a broken rule that is judged in the build `where`, where `whys` are the lines that explain what is on."""
    denied = {HERE: 'it is on', WITH_ALL: 'it is on with all members, features and tests', EVERY: 'some choice may break it'}[where]
    breach = {'deny': denied, 'require': 'it is off', 'deny-duplicates': 'several are built'}[rule[1]]
    reason = f' ({rule[4]})' if rule[4] is not None else ''
    indented = ''.join(it if it == '\n' else '    ' + it for it in whys.splitlines(keepends=True))
    return f'{place_of(file, rule[0])}{words_of(rule)}: {breach}{reason}\n{indented}'


def object_of(where, rule):
    """The members of the object of a broken rule that is judged in the build `where`, without those that explain what breaks it."""
    line, verb, word, triple, reason = rule
    return {'line': line, 'rule': verb, 'word': word, 'platform': triple, 'reason': reason, 'judged': where}


def unmatched_message(file, rule):
    """The message about a rule whose word names nothing."""
    return f'{place_of(file, rule[0])}`{rule[2]}` names nothing in the document: check the spelling, or leave the rule out'


def warnings_of(file, document, plans, rules):
    """The warnings about the rules of a policy, judged in these plans."""
    if EVERY in plans and any(it[1] != 'deny' for it in rules):
        yield f'{file}: `require` and `deny-duplicates` are judged for this build alone'
    yield from (unmatched_message(file, it) for it in unmatched(document, plans[HERE].selected, rules))


def message_of(file, fault):
    """The message about a Malformed policy."""
    return place_of(file, fault.args[0]) + PROBLEMS[fault.args[1]]


def check_message_of(file, fault, selection, document):
    """The message about an Uncheckable policy."""
    line, (kind, word, *parts) = fault.args
    if kind == 'several':
        return f'{place_of(file, line)}`{word}` has several meanings: write one of these' + ''.join(
            f'\n  {name_model.word_of(document, id)}' + ('' if name is None else f'/{name}') for id, name in parts[0])
    others = [it.triple for it in selection.targets if it.triple != selection.host.triple]
    return f'{place_of(file, line)}`{word}` is neither the host nor a target of this build: write one of these' + ''.join(
        f'\n  {it}' for it in [selection.host.triple, *others])


# The text of a policy, and its rules or its first malformed line.
WORKED = [
    ('', []),
    ('\n  \n\t\n# a comment\n  # another\n', []),
    ('deny a/b\n', [(1, 'deny', 'a/b', None, None)]),
    ('deny a/b', [(1, 'deny', 'a/b', None, None)]),
    ('deny a/b\r\nrequire c\r\n', [(1, 'deny', 'a/b', None, None), (2, 'require', 'c', None, None)]),
    ('\tdeny  a\ton   x86_64-unknown-linux-gnu \n', [(1, 'deny', 'a', 'x86_64-unknown-linux-gnu', None)]),
    ('deny on\n', [(1, 'deny', 'on', None, None)]),
    ('deny on on on\n', [(1, 'deny', 'on', 'on', None)]),
    ('require on # reasons\n', [(1, 'require', 'on', None, 'reasons')]),
    ('deny-duplicates syn #   one is enough # really \n', [(1, 'deny-duplicates', 'syn', None, 'one is enough # really')]),
    # a mark within a word is no reason
    ('deny path+file:///w/app#0.1.0/tls\t#why\n', [(1, 'deny', 'path+file:///w/app#0.1.0/tls', None, 'why')]),
    ('deny a#b#\n', [(1, 'deny', 'a#b#', None, None)]),
    ('deny a #\n', [(1, 'deny', 'a', None, None)]),
    ('deny a #\u00a0\t\n', [(1, 'deny', 'a', None, None)]),
    ('deny a #\u00a0b\u3000\n', [(1, 'deny', 'a', None, 'b')]),
    # malformed lines
    ('deny\n', (1, NO_WORD)),
    ('deny # a\n', (1, NO_WORD)),
    ('require\n', (1, NO_WORD)),
    ('deny-duplicates\t\n', (1, NO_WORD)),
    ('\ndeny a b\n', (2, EXTRA_WORD)),
    ('deny a on\n', (1, NO_TRIPLE)),
    ('deny a on # x\n', (1, NO_TRIPLE)),
    ('deny a on b c\n', (1, EXTRA_WORD)),
    ('deny a On b\n', (1, EXTRA_WORD)),
    ('require a on b\n', (1, EXTRA_WORD)),
    ('deny-duplicates a b\n', (1, EXTRA_WORD)),
    ('Deny a\n', (1, NO_RULE)),
    ('deny_duplicates a\n', (1, NO_RULE)),
    ('deny\u00a0a\n', (1, NO_RULE)),
    ('require a\nallow b\ndeny\n', (2, NO_RULE)),
    ('deny a\rdeny b\n', (1, EXTRA_WORD)),
]


def outcome(text):
    try:
        return rules_of(text)
    except Malformed as malformed:
        return malformed.args


# A workspace of one member, which has two features, an optional dependency, a build script with a dependency, and two versions of one package.
# `unbuilt` is a build-dependency of a package without a build script.
def a_package(id, name, version, dependencies=(), features=None, kinds=('lib',)):
    targets = [{'name': name, 'kind': [kind], 'test': True, 'doctest': False} for kind in kinds]
    return {'id': id, 'name': name, 'version': version, 'source': None if id == 'app#1' else 'r', 'dependencies': list(dependencies),
            'features': dict(features or {}), 'targets': targets, 'manifest_path': f'/w/{id}/Cargo.toml'}


def a_dependency(name, kind=None, optional=False, req='*', features=()):
    return {'name': name, 'rename': None, 'kind': kind, 'optional': optional, 'req': req, 'source': 'r', 'target': None, 'uses_default_features': True,
            'features': list(features)}


DOCUMENT = {
    'packages': [
        a_package('app#1', 'app', '1.0.0', [a_dependency('old', req='^1'), a_dependency('new', optional=True), a_dependency('tool', 'build')],
                  {'default': ['a'], 'a': [], 'b': ['dep:new']}, ('lib', 'custom-build')),
        a_package('log#1', 'log', '1.0.0', features={'std': []}),
        a_package('log#2', 'log', '2.0.0', features={'std': []}),
        a_package('old#1', 'old', '1.0.0', [a_dependency('log', req='^1', features=['std']), a_dependency('unbuilt', 'build')]),
        a_package('unbuilt#1', 'unbuilt', '1.0.0'),
        a_package('new#1', 'new', '1.0.0', [a_dependency('log', req='^2')]),
        a_package('tool#1', 'tool', '1.0.0', [a_dependency('log', req='^2', features=['std'])]),
    ],
    'workspace_members': ['app#1'],
    'workspace_default_members': ['app#1'],
    'resolve': {'root': 'app#1', 'nodes': [
        {'id': 'app#1', 'deps': [{'name': 'old', 'pkg': 'old#1', 'dep_kinds': [{'kind': None, 'target': None}]},
                                 {'name': 'new', 'pkg': 'new#1', 'dep_kinds': [{'kind': None, 'target': None}]},
                                 {'name': 'tool', 'pkg': 'tool#1', 'dep_kinds': [{'kind': 'build', 'target': None}]}]},
        {'id': 'log#1', 'deps': []},
        {'id': 'log#2', 'deps': []},
        {'id': 'old#1', 'deps': [{'name': 'log', 'pkg': 'log#1', 'dep_kinds': [{'kind': None, 'target': None}]},
                                 {'name': 'unbuilt', 'pkg': 'unbuilt#1', 'dep_kinds': [{'kind': 'build', 'target': None}]}]},
        {'id': 'unbuilt#1', 'deps': []},
        {'id': 'new#1', 'deps': [{'name': 'log', 'pkg': 'log#2', 'dep_kinds': [{'kind': None, 'target': None}]}]},
        {'id': 'tool#1', 'deps': [{'name': 'log', 'pkg': 'log#2', 'dep_kinds': [{'kind': None, 'target': None}]}]},
    ]},
}

# A line, and the spots that break it; None, if it is kept; or why it can't be checked.
CHECKED = [
    ('deny app/a', [(TARGET, 'app#1', 'feature', 'a')]),
    ('deny app/b', None),
    ('deny nothing', None),
    ('deny log@2', [(HOST, 'log#2', 'base', '')]),
    ('deny log/std', ('several', 'log/std', [('log#1', 'std'), ('log#2', 'std')])),
    ('deny log/s*', [(TARGET, 'log#1', 'feature', 'std'), (HOST, 'log#2', 'feature', 'std')]),
    ('deny log@2/std on host', [(HOST, 'log#2', 'feature', 'std')]),
    ('deny log@2/std on one', None),
    ('deny log@1 on one', [(TARGET, 'log#1', 'base', '')]),
    ('deny log@1 on host', None),
    ('deny log@1 on three', ('platform', 'three')),
    ('deny log on three', ('platform', 'three')),
    ('deny app/dep:new', None),
    ('require app/a', None),
    ('require app/b', []),
    ('require nothing', []),
    ('require tool', None),
    ('deny-duplicates log', [(TARGET, 'log#1', 'base', ''), (HOST, 'log#2', 'base', '')]),
    ('deny-duplicates log@2', None),
    ('deny-duplicates nothing', None),
    # what is on and isn't built
    ('deny unbuilt', None),
    ('require unbuilt', []),
    # stars
    ('deny ol*', [(TARGET, 'old#1', 'base', '')]),
    ('deny lo*', [(TARGET, 'log#1', 'base', ''), (HOST, 'log#2', 'base', '')]),
    ('deny */std', [(TARGET, 'log#1', 'feature', 'std'), (HOST, 'log#2', 'feature', 'std')]),
    ('deny l*/s*d on one', [(TARGET, 'log#1', 'feature', 'std')]),
    ('deny *ssl/std', None),
    ('require */b', []),
    ('require *l*/*', None),
    ('deny-duplicates *', [(TARGET, 'log#1', 'base', ''), (HOST, 'log#2', 'base', '')]),
    ('deny-duplicates l*', [(TARGET, 'log#1', 'base', ''), (HOST, 'log#2', 'base', '')]),
    ('deny-duplicates *o*l*', None),
]


# A line, and the rule that is broken for every choice, without its line, with the spots that break it; None, or why it can't be checked; and
# where it is judged.
CHECKED_WIDELY = [
    ('deny app/b', ('deny', 'app/b', None, None), [(TARGET, 'app#1', 'feature', 'b')], EVERY),
    ('deny app/b on one', ('deny', 'app/b', 'one', None), [(TARGET, 'app#1', 'feature', 'b')], WITH_ALL),
    ('deny app/b on host', None, None, WITH_ALL),
    ('deny app/b on three # why', None, ('platform', 'three'), WITH_ALL),
    ('deny log@2', ('deny', 'log@2', None, None), [(TARGET, 'log#2', 'base', ''), (HOST, 'log#2', 'base', '')], EVERY),
    ('deny log@2 on one # why', ('deny', 'log@2', 'one', 'why'), [(TARGET, 'log#2', 'base', '')], WITH_ALL),
    ('deny log@2 on host', ('deny', 'log@2', 'host', None), [(HOST, 'log#2', 'base', '')], WITH_ALL),
    ('deny unbuilt', ('deny', 'unbuilt', None, None), [(HOST, 'unbuilt#1', 'base', '')], EVERY),
    ('deny unbuilt on host', None, None, WITH_ALL),
    ('deny nothing', None, None, EVERY),
    ('deny log/std', None, ('several', 'log/std', [('log#1', 'std'), ('log#2', 'std')]), EVERY),
    ('require app/a', None, None, HERE),
    ('require app/b', ('require', 'app/b', None, None), [], HERE),
    ('require unbuilt', ('require', 'unbuilt', None, None), [], HERE),
    ('deny-duplicates log', ('deny-duplicates', 'log', None, None), [(TARGET, 'log#1', 'base', ''), (HOST, 'log#2', 'base', '')], HERE),
    ('deny-duplicates new', None, None, HERE),
]

# A line, and whether its word names nothing.
UNMATCHED = [
    ('deny app/b', False), ('deny opensll', True), ('deny app/c', True), ('deny app/dep:new', False), ('deny app/dep:old', True), ('deny a*', False),
    ('deny */full', True), ('deny */std', False), ('deny log/std', False), ('deny std', False), ('require nothing', True), ('require new', False),
    ('deny-duplicates new', False), ('deny-duplicates *', False), ('deny-duplicates n*x', True), ('deny-duplicates log@3', True),
    ('deny-duplicates std', True), ('deny nothing on one', True),
]


def a_platform(triple):
    return plan_model.Platform(triple, '')


SELECTION = plan_model.Selection(a_platform('host'), [a_platform('one'), a_platform('two')], True, None, False, [], False, False, False)


def plans_of(document, selection, is_wide):
    """The plans by the builds in which rules are judged."""
    selections = {HERE: selection, **({WITH_ALL: all_of(selection), EVERY: widest_of(selection)} if is_wide else {})}
    return {where: plan_model.Plan(document, it) for where, it in selections.items()}


def worked_plans(is_wide):
    return plans_of(plan_model.document_of(DOCUMENT), SELECTION, is_wide)


def checked(line):
    try:
        verdicts = verdicts_of(DOCUMENT, worked_plans(False), rules_of(line))
    except Uncheckable as fault:
        return fault.args[1]
    return verdicts[0][1] if verdicts else None


def checked_widely(line):
    plans, rules = worked_plans(True), rules_of(line)
    where = judged(plans, rules[0])
    try:
        verdicts = verdicts_of(DOCUMENT, plans, rules)
    except Uncheckable as fault:
        return None, fault.args[1], where
    return (verdicts[0][0][1:], verdicts[0][1], where) if verdicts else (None, None, where)


def is_unmatched(line):
    return unmatched(DOCUMENT, worked_plans(False)[HERE].selected, rules_of(line)) != []


def main():
    failed = 0
    rows = [(outcome, *it) for it in WORKED] + [(checked, *it) for it in CHECKED] + [(checked_widely, line, wanted) for line, *wanted in CHECKED_WIDELY]
    rows = [(run, text, tuple(wanted) if run is checked_widely else wanted) for run, text, wanted in rows]
    rows += [(is_unmatched, *it) for it in UNMATCHED]
    for run, text, wanted in rows:
        came = run(text)
        if came != wanted:
            failed += 1
            print(f'{text!r}: {came}, and not {wanted}')
    print(f'{len(rows) - failed} passed, {failed} failed')
    return failed != 0


if __name__ == '__main__':
    sys.exit(main())
