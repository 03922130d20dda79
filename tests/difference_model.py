#!/usr/bin/env python3
"""A reference model of what `feats diff` prints, in text and JSON. It is written to be read: quadratic, and without steps of `why`.

    difference_model.py OLD NEW --host TRIPLE=CFG-FILE [--target TRIPLE=CFG-FILE]... [--format json] SELECTION...
        compares the plans of two documents for one selection
    difference_model.py DOCUMENT --host TRIPLE=CFG-FILE [--format json] -- SELECTION... -- SELECTION...
        compares the plans of one document for two selections

A part is a package that is built in a place. It stays if a part of the other plan has its place, name, version and source. Of the other
parts, those with one place and name are paired in the order of their versions; an old part without a partner goes, and a new one comes.
The status is 0 if nothing comes, goes or changes, and 1 otherwise.

The program prints the last step of a `why` below what comes, which isn't unique: `without_whys` takes it out of a text, and `members` out of
an object. Versions are ordered by their numbers, pre-releases before releases, and then by their bytes.
"""
import json
import re
import sys
from typing import NamedTuple

sys.dont_write_bytecode = True

import plan_model
from answer_model import objects_of, table_of
from plan_model import HOST, TARGET, Plan, Refused

VERSION = re.compile(r'(0|[1-9][0-9]*)\.(0|[1-9][0-9]*)\.(0|[1-9][0-9]*)(-[0-9A-Za-z.-]+)?(\+[0-9A-Za-z.-]+)?')


class Part(NamedTuple):
    place: str
    package: plan_model.Package
    label: str
    features: list


def parts_of(plan):
    """The parts of a plan, in its order."""
    triples = [it.triple for it in plan.selection.targets]
    places = [HOST, *(triples if len(triples) > 1 else [TARGET])]
    built = sorted((-1 if place == HOST else place, id.encode(), id) for place, id in plan.built)
    return [Part(places[place + 1], plan.packages[id], plan.label(plan.packages[id]), sorted(plan.features(plan.side_of(HOST if place < 0 else place), id), key=str.encode))
            for place, _, id in built]


def rank_of(version):
    """What versions are ordered by."""
    found = VERSION.fullmatch(version)
    numbers = [int(it) for it in found.groups()[:3]] if found else [0, 0, 0]
    is_version = found is not None and all(it < 2 ** 64 for it in numbers)
    return (numbers if is_version else [0, 0, 0], is_version and found[4] is None, version.encode())


def name_key(part):
    return (part.place.encode(), part.package.name.encode())


def part_key(part):
    return (*name_key(part), rank_of(part.package.version), (part.package.source or '').encode())


def paired(old, new, key):
    """Of parts with one key, the k-th old one with the k-th new one; and those without a partner."""
    def kth(parts):
        keys = [key(part) for part in parts]
        return [(it, keys[:at].count(it)) for at, it in enumerate(keys)]

    olds, news = kth(old), kth(new)
    pairs = [(old[at], new[news.index(which)]) for at, which in enumerate(olds) if which in news]
    return ([part for part, which in zip(old, olds) if which not in news], pairs, [part for part, which in zip(new, news) if which not in olds])


class Differences(NamedTuple):
    comes: list
    gone: list
    moved: list
    kept: list

    def are_none(self):
        return not (self.comes or self.gone or self.moved or any(changes(old, new) for old, new in self.kept))


def differences(old, new):
    """What differs between the parts of two plans."""
    old_rest, kept, new_rest = paired(sorted(old, key=part_key), sorted(new, key=part_key), part_key)
    gone, moved, comes = paired(old_rest, new_rest, name_key)
    return Differences(comes, gone, moved, kept)


def missing(names, others):
    return [name for name in names if name not in others]


def changes(old, new):
    """Whether a feature comes or goes."""
    return missing(new.features, old.features) or missing(old.features, new.features)


def check_partition(old, new, found):
    """Each old part stays, moves or goes, and each new part stays, moves or comes."""
    pairs = found.kept + found.moved
    assert sorted(map(id, old)) == sorted(map(id, [it for it, _ in pairs] + found.gone))
    assert sorted(map(id, new)) == sorted(map(id, [it for _, it in pairs] + found.comes))


# Text.

def is_same(old, new):
    return old.package.version == new.package.version and (old.package.source or '') == (new.package.source or '')


def title_of(old, new):
    """The label; or the name and both versions, with the sources if only these differ."""
    if is_same(old, new):
        return new.label
    sources = old.package.version == new.package.version
    one, other = (it.package.version + (f' ({it.package.source or it.package.id})' if sources else '') for it in (old, new))
    return f'{new.package.name} {one} -> {other}'


def marks_of(old, new):
    return ' '.join([f'+{it}' for it in missing(new.features, old.features)] + [f'-{it}' for it in missing(old.features, new.features)])


def changed_of(found):
    """The pairs that are shown: those whose version or source changes, and then those whose features change."""
    return found.moved + [it for it in found.kept if changes(*it)]


def rows_of(found):
    """The rows of a text, without the steps of `why`."""
    return ([(f'+ {it.place}', it.label, ' '.join(it.features)) for it in found.comes]
            + [(f'- {it.place}', it.label, ' '.join(it.features)) for it in found.gone]
            + [(f'~ {new.place}', title_of(old, new), marks_of(old, new)) for old, new in changed_of(found)])


def text_of(found):
    return table_of(rows_of(found))


def without_whys(text):
    """A text of the program without the lines of steps, which begin with a space."""
    return ''.join(line for line in text.splitlines(keepends=True) if not line.startswith(' '))


# JSON.

def head(kind, part):
    return {'difference': kind, 'place': part.place, 'package': part.package.id, 'name': part.package.name, 'version': part.package.version}


def changed_object(old, new):
    return {**head('features' if is_same(old, new) else 'version', new), 'old-package': old.package.id, 'old-version': old.package.version, 'features': new.features,
            'comes': missing(new.features, old.features), 'goes': missing(old.features, new.features)}


def objects(found):
    return ([{**head('comes', it), 'features': it.features} for it in found.comes] + [{**head('goes', it), 'features': it.features} for it in found.gone]
            + [changed_object(old, new) for old, new in changed_of(found)])


def members(shown):
    """An object of the program without the steps of `why`."""
    return {name: value for name, value in shown.items() if name not in ('why', 'whys')}


# The command line.

def plan_at(path, argv):
    words = plan_model.words_of(['--metadata', path, *argv])
    with open(path, encoding='utf-8') as it:
        return Plan(plan_model.document_of(json.load(it)), plan_model.selection_of(words))


def plans_of(argv):
    """Both plans for the words of a command line."""
    if '--' in argv:
        at = argv.index('--')
        shared, both = argv[:at], argv[at + 1:]
        old, new = both[:both.index('--')], both[both.index('--') + 1:]
        return plan_at(shared[0], shared[1:] + old), plan_at(shared[0], shared[1:] + new)
    return plan_at(argv[0], argv[2:]), plan_at(argv[1], argv[2:])


def main():
    argv = sys.argv[1:]
    is_json = '--format' in argv
    if is_json:
        del argv[argv.index('--format'):argv.index('--format') + 2]
    try:
        old, new = map(parts_of, plans_of(argv))
    except Refused as refused:
        print(refused, file=sys.stderr)
        return 2
    found = differences(old, new)
    check_partition(old, new, found)
    sys.stdout.write(objects_of(objects(found)) if is_json else text_of(found))
    return 0 if found.are_none() else 1


if __name__ == '__main__':
    sys.exit(main())
