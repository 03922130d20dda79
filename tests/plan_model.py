#!/usr/bin/env python3
"""A reference model of plans, by docs/PLANS.md and nothing else. It is written to be read: sets and loops, and no speed.

    plan_model.py [FILE.plans ...]                  compares the model with cargo's plans; without a file, with those in tests/plans
    plan_model.py plan --metadata FILE|- --host TRIPLE=CFG-FILE [--target TRIPLE=CFG-FILE]... [--resolver N] SELECTION...
                                                    prints what `feats` prints of the same words

A node is (entry, 'base', ''), (entry, 'feature', name) or (entry, 'dep', name). An entry is (place, id of a package).
"""
import argparse
import json
import re
import sys
from typing import NamedTuple

sys.dont_write_bytecode = True

from plan_files import TARGETS, all_cases, cases_of, command_of
from platform_model import Target as Platform

LIBRARIES = {'lib', 'rlib', 'dylib', 'cdylib', 'staticlib', 'proc-macro'}
PLURALS = {'bin': 'bins', 'example': 'examples', 'test': 'tests', 'bench': 'benches'}
KINDS = tuple(PLURALS)
COMMAND = '[command]'
HOST, TARGET = 'host', 'target'


class Refused(Exception):
    """The selection has no plan."""


class Lacking(Refused):
    """The document has no package for a dependency that the selection turns on."""


# The document, by docs/METADATA.md.

def is_macro_target(target):
    return 'proc-macro' in target['kind'] + target.get('crate_types', [])


class Declaration(NamedTuple):
    name: str
    kind: str               # 'normal', 'build' or 'dev'
    is_optional: bool
    spec: str               # None: every platform
    has_default: bool
    features: list
    to: str                 # None: the document has no package for it


class Package(NamedTuple):
    id: str
    name: str
    version: str
    source: str             # None: a package at a path
    features: dict
    declarations: list
    targets: list

    def is_macro(self):
        return any('proc-macro' in it['kind'] for it in self.targets)

    def has_macro(self):
        return any(is_macro_target(it) for it in self.targets)

    def has_script(self):
        return any('custom-build' in it['kind'] for it in self.targets)

    def named(self, name):
        return [it for it in self.declarations if it.name == name]


class Document(NamedTuple):
    packages: dict
    members: list
    default_members: list
    root: str


def numbers_of(version):
    return [int(it) for it in re.split('[-+]', version)[0].split('.')]


def admits_part(part, version):
    """Whether one comparator of a requirement admits the numbers of a version."""
    found = re.fullmatch(r'(\^|~|=|>=|<=|>|<)?\s*([0-9.]*?)(\.?[*xX])*(?:[-+].*)?', part)
    if not found:
        return False
    given = [int(it) for it in found[2].split('.') if it]
    operator = '~' if found[3] else found[1] or '^'
    if not given:
        return True
    whole = given + [0] * (3 - len(given))
    first = next((at for at, it in enumerate(given) if it), len(given) - 1) + 1
    begin = version[:len(given)]
    return {'^': version >= whole and version[:first] == given[:first], '~': version >= whole and version[:2][:len(given)] == given[:2],
            '=': begin == given, '>': begin > given, '>=': version >= whole, '<': version < whole, '<=': begin <= given}[operator]


def admits(requirement, version):
    return all(admits_part(it.strip(), numbers_of(version)) for it in requirement.split(','))


def lead_of(packages, package, uses, declared):
    """The id of the package that a declaration leads to, or None."""
    def name_in_code(to, rename):
        return (rename or next((it['name'] for it in to['targets'] if LIBRARIES & set(it['kind'])), to['name'])).replace('-', '_')

    def fits(it, has_exception):
        to = packages[it['pkg']]
        rename = None if has_exception and to['id'] == package['id'] else declared['rename']
        return to['name'] == declared['name'] and it['name'] == name_in_code(to, rename)

    fitting = [it for it in uses if fits(it, True)]
    used = [it for it in fitting if {'kind': declared['kind'], 'target': declared['target']} in it['dep_kinds']]
    if len(used) > 1:
        named = [it for it in used if fits(it, False)]
        used = named if len(named) == 1 else used
    if len(used) != 1:
        candidates = used or (fitting if declared['optional'] else [])
        used = [it for it in candidates if admits(declared['req'], packages[it['pkg']]['version'])]
    return used[0]['pkg'] if len(used) == 1 else None


def document_of(value):
    packages = {it['id']: it for it in value['packages']}
    uses = {it['id']: it['deps'] for it in value['resolve']['nodes']}
    made = {}
    for id, package in packages.items():
        declarations = [
            Declaration(it['rename'] or it['name'], it['kind'] or 'normal', it['optional'], it['target'], it['uses_default_features'],
                        it['features'], lead_of(packages, package, uses.get(id, []), it)) for it in package['dependencies']]
        made[id] = Package(id, package['name'], package['version'], package.get('source'), package['features'], declarations, package['targets'])
    return Document(made, value['workspace_members'], value['workspace_default_members'], value['resolve']['root'])


# Tables, and what is visited in them.

class Dependency(NamedTuple):
    """A dependency on the entry `to`."""
    name: str
    to: tuple
    is_optional: bool
    has_default: bool = False
    features: tuple = ()


class Entry(NamedTuple):
    features: dict
    dependencies: list

    def named(self, name):
        return [it for it in self.dependencies if it.name == name]

    def has_optional(self, name):
        return any(it.is_optional for it in self.named(name))


def parts_of(item):
    """An item as (dependency, feature, is weak); one of the first two may be None."""
    if item.startswith('dep:'):
        return item[4:], None, False
    dependency, slash, feature = item.partition('/')
    return (dependency.removesuffix('?'), feature, dependency.endswith('?')) if slash else (None, item, False)


def of_item(table, inside, entry, item):
    """The nodes that an item of a feature turns on, where `inside` are on."""
    name, feature, is_weak = parts_of(item)
    here = table[entry]
    if name is None:
        return [(entry, 'feature', feature)] if feature in here.features else []
    nodes = []
    if here.has_optional(name) and not is_weak:
        nodes.append((entry, 'dep', name))
        if feature is not None and name in here.features:
            nodes.append((entry, 'feature', name))
    for it in here.named(name):
        waits = is_weak and it.is_optional and (entry, 'dep', name) not in inside
        if feature in table[it.to].features and not waits:
            nodes.append((it.to, 'feature', feature))
    return nodes


def of_dependency(table, it):
    names = [*it.features, *(['default'] if it.has_default else [])]
    return [(it.to, 'base', '')] + [(it.to, 'feature', name) for name in names if name in table[it.to].features]


def of_node(table, inside, node):
    """The nodes that a node turns on, where `inside` are on."""
    entry, kind, name = node
    nodes = [(entry, 'base', '')]
    if kind == 'feature':
        nodes += [to for item in table[entry].features[name] for to in of_item(table, inside, entry, item)]
    for it in table[entry].dependencies:
        if kind == ('dep' if it.is_optional else 'base') and (kind == 'base' or it.name == name):
            nodes += of_dependency(table, it)
    return nodes


def visited(table, initials):
    """The least set that contains the initials and all that its nodes turn on."""
    inside = set(initials)
    while True:
        more = {to for node in inside for to in of_node(table, inside, node)} - inside
        if not more:
            return inside
        inside |= more


# The selection.

class Selection(NamedTuple):
    host: Platform
    targets: list
    is_split: bool
    words: list             # of -p; None: none are given
    is_workspace: bool      # then the words of -p have no meaning
    features: list
    is_all: bool
    no_default: bool
    is_test: bool           # the build of `cargo test`, and else that of `cargo build`
    excluded: list = ()     # the words of --exclude, with `is_workspace`
    lib: str = None         # 'must', with --lib, or 'may', with --all-targets
    named: dict = {}        # of each of KINDS, whether all are chosen (True), or the words for their names

    def platforms(self):
        return self.targets or [self.host]

    def has_targets(self):
        """Whether words choose targets."""
        return bool(self.lib or any(self.named.values()))

    def needs_dev(self):
        """Whether dependencies for development count."""
        return self.is_test or any(self.named.get(kind) for kind in KINDS if kind != 'bin')


def is_version(word, version):
    """Whether `word` is the version, perhaps without its build metadata, or a beginning of the numbers of one that is no prerelease."""
    numbers = version.partition('+')[0]
    return word in (version, numbers) or '-' not in numbers and numbers.startswith(f'{word}.')


def is_named(word, package):
    """Whether `word` is the package's name, or its name, `@` or `:`, and a version."""
    name, mark, version = re.fullmatch('([^@:]*)([@:]?)(.*)', word, re.DOTALL).groups()
    return name == package.name and (not mark or is_version(version, package.version))


def is_spec(word, package):
    """Whether `word` names the package: by its name, or by the URL of its source, with or without its kind and query."""
    place, mark, fragment = word.partition('#')
    source = package.id.partition('#')[0]
    url = re.sub('^(registry|git|path)[+]', '', source).partition('?')[0]
    is_last = url.endswith(f'/{package.name}') and (not mark or is_version(fragment, package.version))
    return is_named(word, package) or place in (source, url) and (is_named(fragment, package) or is_last)


def packages_named(document, word):
    return [id for id in document.packages if id == word] or [id for id, it in document.packages.items() if is_spec(word, it)]


def pattern_of(word):
    """A pattern, in which a star stands for any text."""
    return re.compile('.*'.join(map(re.escape, word.split('*'))), re.DOTALL)


def members_fitting(document, word):
    """The members whose names fit a pattern."""
    return [id for id in document.members if pattern_of(word).fullmatch(document.packages[id].name)]


def selected_by(document, word):
    """What a word of `-p` selects: the one package that it names, else the members that fit it."""
    found = packages_named(document, word)
    if len(found) > 1:
        raise Refused(f'the word {word} names {len(found)} packages')
    fitting = found or members_fitting(document, word)
    if not fitting:
        raise Refused(f'nothing fits the word {word}')
    return fitting


def members_but(document, words):
    """The members that no word of `--exclude` names or fits."""
    excluded = {id for word in words for id in packages_named(document, word) + members_fitting(document, word)}
    return [id for id in document.members if id not in excluded]


def is_ambiguous(value, words):
    """Whether a word of `-p` that has a meaning names several packages of the document. Cargo may know but one of them (docs/PLANS.md)."""
    return '--workspace' not in words and any(len(packages_named(document_of(value), word)) > 1 for before, word in zip(words, words[1:]) if before == '-p')


def selected_packages(document, selection):
    if selection.words is not None and not selection.is_workspace:
        return [id for it in selection.words for id in selected_by(document, it)]
    selected = members_but(document, selection.excluded) if selection.is_workspace else document.default_members
    if not selected:
        raise Refused('no package is selected')
    return selected


def item_of_word(package, word):
    """The item that a feature word is of a selected member, or None."""
    name, feature, _ = parts_of(word)

    def has(feature):
        return feature in package.features or any(it.is_optional for it in package.named(feature)[-1:])

    if word.startswith('dep:'):
        return None
    if name is None:
        return word if has(word) else None
    if package.named(name):
        return word
    return feature if name == package.name and has(feature) else None


def items_of_members(document, selection, members):
    """The items of each selected member: each word is for those that have what it names."""
    items = {id: [item_of_word(document.packages[id], word) for word in selection.features] for id in members}
    for at, word in enumerate(selection.features):
        if all(those[at] is None for those in items.values()):
            raise Refused(f'no selected member has {word}')
    return {id: [it for it in those if it is not None] for id, those in items.items()}


def items_of_root(document, selection, members):
    """The items with resolver 1 in the folder of a package: each word is the root package's, or `m/f` another selected member's."""
    items = {id: [] for id in [*members, document.root]}
    names = {document.packages[id].name: id for id in members if id != document.root}
    for word in selection.features:
        name, feature, _ = parts_of(word)
        if name in names:
            items[names[name]].append(feature)
        else:
            items[document.root].append(word)
    return items


def check_item(document, package, item):
    name, feature, _ = parts_of(item)
    if name is None and item not in package.features:
        raise Refused(f'{package.id} has no feature {item}')
    if name is not None and not package.named(name):
        raise Refused(f'{package.id} has no dependency {name}')
    for it in package.named(name):
        if it.to is not None and feature not in document.packages[it.to].features:
            raise Refused(f'{it.to} has no feature {feature}')


def command_features(document, selection, selected):
    """The items of the command feature of each started member."""
    members = [it for it in selected if it in document.members]
    by_members = selection.is_split or document.root is None
    if by_members and not members:
        if selection.features or selection.is_all or selection.no_default:
            raise Refused('features of packages that are not members')
        return {id: ['default'] if 'default' in document.packages[id].features else [] for id in document.members}
    items = (items_of_members if by_members else items_of_root)(document, selection, members)
    for id, those in items.items():
        package = document.packages[id]
        for it in those:
            check_item(document, package, it)
        without_default = selection.no_default and (by_members or id == document.root)
        if selection.is_all:
            those += package.features
        elif 'default' in package.features and not without_default:
            those.append('default')
    return items


# The three steps.


def lost_lines(document, selection):
    """The warnings about required dependencies that lead to no package: those of all packages, and those for tests of the members."""
    platforms = [selection.host, *selection.targets]

    def lost(id, is_test):
        return [f'`{it.name}`, a required dependency of {id}, leads to no package of the document: was it made with --filter-platform, or has the '
                'dependency no library?' for it in document.packages[id].declarations
                if (it.kind == 'dev') == is_test and not it.is_optional and it.to is None
                and (it.spec is None or any(at.holds(it.spec) for at in platforms))]
    ids = sorted(document.packages, key=lambda it: it.encode())
    return [line for id in ids for line in lost(id, False)] + [line for id in document.members for line in lost(id, True)]


def exclusion_lines(document, selection):
    """The warnings about words of `--exclude` that name no member and fit no name of one."""
    return [f'`--exclude {word}` excludes no member of the workspace' for word in selection.excluded
            if not set(packages_named(document, word) + members_fitting(document, word)) & set(document.members)]


class Plan:
    def __init__(self, document, selection):
        self.packages, self.document, self.selection = document.packages, document, selection
        self.selected = selected_packages(document, selection)
        self.commands = command_features(document, selection, self.selected)
        self.check_tests()
        self.resolved = visited(self.resolved_table(), self.starts_of(['root']))
        self.on = visited(self.on_table(), self.on_starts())
        self.check_targets()
        self.starts = self.built_starts()
        self.check_document()
        self.built = {entry for entry, _, _ in visited(self.built_table(), [(it, 'base', '') for it in self.starts])}
        # the sides on which each package is built
        self.built_sides = {(self.side_of(place), id) for place, id in self.built}

    def starts_of(self, places):
        return [((place, id), 'feature', COMMAND) for place in places for id in self.commands]

    def entry(self, place, package, features, dependencies, with_command=True):
        command = {COMMAND: self.commands[package.id]} if with_command and package.id in self.commands else {}
        return Entry({**features, **command}, dependencies)

    def check_tests(self):
        for id in self.selected:
            declares = any(it.kind == 'dev' for it in self.packages[id].declarations)
            if self.selection.is_test and id not in self.document.members and declares:
                raise Refused(f'{id} is not a member, and its tests need dev-dependencies')

    # Step `resolved`: what version resolving turns on.

    def resolved_table(self):
        def gated(items):
            return [it for item in items for it in ([f'dep:{parts_of(item)[0]}'] if parts_of(item)[2] else []) + [item]]

        def entry(place, package):
            is_root = place == 'root'
            made = self.entry(place, package, package.features, [
                Dependency(it.name, ('other', it.to), it.is_optional, it.has_default, it.features)
                for it in package.declarations if it.to is not None and (it.kind != 'dev' or is_root)], is_root)
            return Entry({name: gated(items) for name, items in made.features.items()}, made.dependencies)

        return {(place, id): entry(place, it) for id, it in self.packages.items() for place in ('root', 'other')}

    def is_kept(self, id, name):
        return any(((place, id), 'dep', name) in self.resolved for place in ('root', 'other'))

    # Step `on`: which features are on.

    def lands(self, declaration, side):
        is_for_host = declaration.kind == 'build' or self.packages[declaration.to].is_macro()
        return HOST if self.selection.is_split and is_for_host else side

    def admitted(self, package, it, side):
        selection = self.selection
        if it.kind == 'dev' and not (package.id in self.commands and (selection.needs_dev() or not selection.is_split)):
            return False
        if it.is_optional and not self.is_kept(package.id, it.name):
            return False
        asked = [selection.host] if it.kind == 'build' or side == HOST else selection.platforms()
        return not selection.is_split or it.spec is None or any(platform.holds(it.spec) for platform in asked)

    def on_table(self):
        return {(side, id): self.entry(side, package, package.features, [
            Dependency(it.name, (self.lands(it, side), it.to), it.is_optional, it.has_default, it.features)
            for it in package.declarations if it.to is not None and self.admitted(package, it, side)])
            for id, package in self.packages.items() for side in (TARGET, HOST)}

    def on_starts(self):
        starts = self.starts_of([TARGET])
        if self.selection.is_split:
            starts += [it for it in self.starts_of([HOST]) if self.packages[it[0][1]].has_macro()]
        return starts

    def features(self, side, id):
        return {name for entry, kind, name in self.on if (entry, kind) == ((side, id), 'feature') and name != COMMAND}

    def check_document(self):
        """Refuses a document without a package for an optional dependency that a feature which is on turns on."""
        for (_, id), kind, feature in sorted(self.on):
            items = (self.commands[id] if feature == COMMAND else self.packages[id].features[feature]) if kind == 'feature' else []
            for name, _, is_weak in map(parts_of, items):
                if name is not None and not is_weak and any(it.is_optional and it.to is None for it in self.packages[id].named(name)):
                    raise Lacking(f'the document has no package for the dependency {name} of {id}')

    # Step `built`: what is built. A place is HOST or the number of a target platform.

    def side_of(self, place):
        return HOST if place == HOST and self.selection.is_split else TARGET

    def platform_of(self, place):
        return self.selection.host if place == HOST else self.selection.platforms()[place]

    def is_used(self, place, package, it):
        platform = self.selection.host if it.kind == 'build' else self.platform_of(place)
        return (it.to is not None
                and (it.kind != 'dev' or self.starts.get((place, package.id), False))
                and (it.kind != 'build' or package.has_script())
                and (not it.is_optional or ((self.side_of(place), package.id), 'dep', it.name) in self.on)
                and (it.spec is None or platform.holds(it.spec)))

    def built_table(self):
        def place_to(place, it):
            return HOST if it.kind == 'build' or self.packages[it.to].is_macro() else place

        return {(place, id): Entry({}, [Dependency(it.name, (place_to(place, it), it.to), False)
                                        for it in package.declarations if self.is_used(place, package, it)])
                for id, package in self.packages.items() for place in (HOST, *range(len(self.selection.platforms())))}

    def chosen_by(self, target):
        """By what a target is chosen: 'lib', one of KINDS, or '' if no words choose targets."""
        selection, kinds, is_library = self.selection, set(target['kind']), bool(LIBRARIES & set(target['kind']))
        if 'custom-build' in kinds:
            return []
        if not selection.has_targets():
            tested = target['test'] or target['doctest'] or 'example' in kinds
            return [''] if (tested if selection.is_test else is_library or 'bin' in kinds) else []
        # (the document doesn't say whether a target has benchmarks: libraries and programs have them unless the manifest says otherwise)
        all_of = {'bin': 'bin' in kinds, 'example': 'example' in kinds, 'test': target['test'], 'bench': is_library or bool({'bin', 'bench'} & kinds)}
        ways = ['lib'] if selection.lib and is_library else []
        return ways + [kind for kind in KINDS if (all_of[kind] if selection.named.get(kind) is True else self.is_named(kind, target))]

    def is_named(self, kind, target):
        """Whether a target of the kind is chosen by a word that its name fits."""
        words = self.selection.named.get(kind, [])
        return words is not True and kind in target['kind'] and any(pattern_of(it).fullmatch(target['name']) for it in words)

    def check_targets(self):
        """Refuses words for targets that choose none, and targets that are chosen by name and lack required features."""
        targets = [(id, it) for id in self.selected for it in self.packages[id].targets]
        if self.selection.lib == 'must' and not any(LIBRARIES & set(it['kind']) for _, it in targets):
            raise Refused('no selected package has a library')
        for kind in KINDS:
            words = self.selection.named.get(kind, [])
            for word in [] if words is True else words:
                if not any(kind in it['kind'] and pattern_of(word).fullmatch(it['name']) for _, it in targets):
                    raise Refused(f'no {kind} target fits {word}')
        for id, it in targets:
            if any(self.is_named(kind, it) for kind in KINDS) and not self.are_met(self.packages[id], it):
                raise Refused(f'the target {it["name"]} of {id} requires features that are not on')

    def are_met(self, package, target):
        return all(self.has_required(package, it) for it in target.get('required-features', []))

    def has_required(self, package, word):
        """Whether a required feature is on. `d/f` is if `f` is on in a package to which a declaration `d` leads that version resolving
        kept, and one of these that lead there is for this build and for a platform of it."""
        name, feature, _ = parts_of(word)
        if name is None:
            return feature in self.features(TARGET, package.id)
        kept = [it for it in package.named(name) if it.to is not None and self.is_resolved(package, it)]
        platforms = [self.selection.host, *self.selection.platforms()]
        counting = {
            it.to for it in kept
            if (it.kind != 'dev' or self.selection.needs_dev()) and (it.spec is None or any(at.holds(it.spec) for at in platforms))
        }
        return any(it.to in counting and feature in self.features(self.looked_at(it), it.to) for it in kept)

    def looked_at(self, declaration):
        """The side on which a feature of a dependency must be on that a target requires: the host also if an example of it is a macro."""
        is_for_host = declaration.kind == 'build' or self.packages[declaration.to].has_macro()
        return HOST if self.selection.is_split and is_for_host else TARGET

    def is_resolved(self, package, it):
        """Whether version resolving follows the declaration."""
        is_for_all = it.kind != 'dev' or package.id in self.commands
        return is_for_all and (not it.is_optional or self.is_kept(package.id, it.name))

    def built_starts(self):
        """The entries that are started, each with whether it is with dependencies for development."""
        starts = {}
        for id in self.selected:
            package = self.packages[id]
            for target in package.targets:
                ways = self.chosen_by(target)
                if not ways or not self.are_met(package, target):
                    continue
                with_dev = self.selection.is_test or any(it in ways for it in ('example', 'test', 'bench'))
                for place in [HOST] if is_macro_target(target) else range(len(self.selection.platforms())):
                    self.check_on(place, id)
                    starts[place, id] = starts.get((place, id), False) or with_dev
                    if package.is_macro():
                        starts.setdefault((HOST, id), False)
        return starts

    def check_on(self, place, id):
        if not any(entry == (self.side_of(place), id) for entry, _, _ in self.on):
            raise Refused(f'{id} is not on')

    def lines(self):
        """The plan: a line for each package that is built, by places and then by ids."""
        triples = [it.triple for it in self.selection.targets]
        places = [HOST, *(triples if len(triples) > 1 else [TARGET])]
        built = sorted((-1 if place == HOST else place, id.encode(), id) for place, id in self.built)
        return [' '.join([places[place + 1], self.label(self.packages[id]),
                          *sorted(self.features(self.side_of(HOST if place < 0 else place), id))]) for place, _, id in built]

    def label(self, package):
        """The name and the version; and the source or the id, if another package has the same two."""
        label = f'{package.name} {package.version}'
        namesakes = [it for it in self.packages.values() if (it.name, it.version) == (package.name, package.version)]
        return label if len(namesakes) < 2 else f'{label} ({package.source or package.id})'


# The command line.

def platform_of_word(word):
    triple, _, path = word.partition('=')
    with open(path, encoding='utf-8') as it:
        return Platform(triple, it.read())


def words_of(argv):
    parser = argparse.ArgumentParser(prog='feats plan', allow_abbrev=False)
    parser.add_argument('--metadata', required=True)
    parser.add_argument('--host', required=True)
    parser.add_argument('--target', action='append', default=[])
    parser.add_argument('--resolver', default='2', choices=('1', '2', '3'))
    parser.add_argument('-p', '--package', action='append')
    parser.add_argument('--exclude', action='append', default=[])
    parser.add_argument('-F', '--features', action='append', default=[])
    for word in ('--workspace', '--all-features', '--no-default-features', '--lib', '--all-targets'):
        parser.add_argument(word, action='store_true')
    parser.add_argument('--command', choices=('build', 'test'))
    for kind in KINDS:
        parser.add_argument(f'--{kind}', action='append', default=[])
        parser.add_argument(f'--{PLURALS[kind]}', action='store_true')
    return parser.parse_args(argv)


def selection_of(words, platforms=platform_of_word):
    """The selection of parsed words."""
    if words.exclude and not words.workspace:
        raise Refused('--exclude without --workspace')
    named = {kind: words.all_targets or getattr(words, PLURALS[kind]) or getattr(words, kind) for kind in KINDS}
    lib = 'may' if words.all_targets else 'must' if words.lib else None
    is_old = words.command is None and not lib and not words.test and named == {'bin': [], 'example': [], 'test': True, 'bench': []}
    return Selection(
        platforms(words.host), [platforms(it) for it in words.target], words.resolver != '1', words.package, words.workspace,
        [it for word in words.features for it in re.split('[ ,]+', word) if it], words.all_features, words.no_default_features,
        words.command == 'test' or is_old, words.exclude, None if is_old else lib, {} if is_old else named)


def plan_of(document, words, platforms=platform_of_word):
    """The lines of the plan for parsed words."""
    return Plan(document, selection_of(words, platforms)).lines()


def fault_of(case, platforms):
    """Why the model's plan for a case isn't cargo's, or None."""
    words = words_of(command_of(case)[1:])
    for document in [case.document] if case.document is case.general else [case.general, case.document]:
        why = ''
        try:
            plan = plan_of(document_of(document), words, platforms)
        except Lacking as lacking:
            if document is case.general is not case.document:
                continue
            plan, why = None, str(lacking)
        except Refused as refused:
            plan, why = None, str(refused)
        wanted = None if is_ambiguous(document, case.words) else case.plan
        if plan != wanted:
            return f'the model: {why or plan}, wanted: {case.refused if wanted is None else wanted}'
    return None


def main():
    if sys.argv[1:2] == ['plan']:
        words = words_of(sys.argv[2:])
        with open(0 if words.metadata == '-' else words.metadata, encoding='utf-8') as it:
            document = document_of(json.load(it))
        try:
            sys.stdout.write(''.join(f'{it}\n' for it in plan_of(document, words)))
        except Refused as refused:
            sys.exit(str(refused))
        return 0
    known = {str(path): None for path in TARGETS.glob('*.cfg')}

    def platform(word):
        path = word.partition('=')[2]
        known[path] = known[path] or platform_of_word(word)
        return known[path]

    passed = failed = 0
    for case in [case for path in sys.argv[1:] for case in cases_of(path)] if sys.argv[1:] else all_cases():
        fault = fault_of(case, platform)
        passed, failed = passed + (not fault), failed + bool(fault)
        if fault:
            print(f'{case.place}: {case.workspace}: {" ".join(case.words)}: FAILED {fault}')
    print(f'{passed} passed, {failed} failed')
    return 1 if failed else 0


if __name__ == '__main__':
    sys.exit(main())
