#!/usr/bin/env python3
"""A reference model of what `feats duplicates` prints, in text and JSON. It is written to be read.

    duplicates_model.py [--alone] [--places] --metadata FILE|- --host TRIPLE=CFG-FILE [--target TRIPLE=CFG-FILE]... [--format json] SELECTION...

A line is about one package:

versions    several packages of this one's name are built; by names, and then by ids. It says which other packages depend on it in the build:
            there is a link of link_model.py from one of their units to one of its units. Only selected packages have no dependents.
places      the package is built with different features in different places; one line for each place. With --places also a package that is
            built in several places with the same features.

With --alone there are more lines:

alone       each selected member is planned alone, with the same words and with the member as the only `-p`. In these plans the package is
            built with different features for one place; one line for each member that builds it there.
join        the features of such a package in all these plans together, and the line of a manifest that asks for them. Only packages of
            crates.io have it. After each member has got the line of each package that its plan builds, each is planned alone once more,
            and the line says whether the members agree: all of them have a plan, and the same features of the package for the place.
refused     the selected member has no plan alone. The message why is `...` here, for the texts of messages aren't modelled.

Packages are in the order of the bytes of their ids, and places in the order of the command line, after the host.
"""
import json
import sys

sys.dont_write_bytecode = True

import plan_model
from answer_model import objects_of, table_of
from link_model import unit_links
from plan_model import HOST, Declaration, Plan, Refused

CRATES_IO = 'registry+https://github.com/rust-lang/crates.io-index'


def by_bytes(texts):
    return sorted(texts, key=str.encode)


def places_of(selection):
    """The places, as plans name them, each with its name in an answer."""
    targets = selection.targets
    names = [it.triple for it in targets] if len(targets) > 1 else ['target']
    return [(HOST, 'host'), *enumerate(names)]


def features_at(plan, place, id):
    return by_bytes(plan.features(plan.side_of(place), id))


def differ(lists):
    return any(it != lists[0] for it in lists)


# What is built several times. A line is (kind, id, what is said of the package).

def version_lines(plan):
    ids = {id for _, id in plan.built}
    links = {(start[1], end[1]) for start, end in unit_links(plan)}
    for name in by_bytes({plan.packages[id].name for id in ids}):
        those = by_bytes(id for id in ids if plan.packages[id].name == name)
        if len(those) > 1:
            yield from (('versions', id, {'dependents': by_bytes(it for it in ids if it != id and (it, id) in links)}) for id in those)


def place_lines(plan, is_all):
    places = places_of(plan.selection)
    for id in by_bytes(plan.packages):
        built = [(name, features_at(plan, place, id)) for place, name in places if (place, id) in plan.built]
        if differ([features for _, features in built]) or is_all and len(built) > 1:
            yield from (('places', id, {'place': name, 'features': features}) for name, features in built)


def manifest_line(package, features):
    quoted = ', '.join(f'"{it}"' for it in features)
    return f'{package.name} = {{ version = "={package.version}", default-features = false, features = [{quoted}] }}'


def features_of(built):
    return by_bytes({it for features in built.values() for it in features})


def different(plans, places):
    """Each package and place with different features in these plans, with its features in the plan of each member that builds it there."""
    ids = {id for plan in plans.values() for _, id in plan.built}
    for id in by_bytes(ids):
        for place, _ in places:
            built = {member: features_at(plan, place, id) for member, plan in plans.items() if (place, id) in plan.built}
            if differ(list(built.values())):
                yield id, place, built


def joined_document(document, found):
    """The document in which each member has the line of each package in `found` that it builds."""
    packages = dict(document.packages)
    for id, place, built in found:
        to = packages[id]
        for member in built if to.source == CRATES_IO else []:
            own = packages[member].declarations
            name = next((it.name for it in own if it.to == id), to.name)
            line = Declaration(name, 'build' if place == HOST else 'normal', False, None, False, features_of(built), id)
            packages[member] = packages[member]._replace(declarations=[*own, line])
    return document._replace(packages=packages)


def join_lines(package, place, features, agrees):
    if package.source == CRATES_IO:
        yield 'join', package.id, {'place': place, 'features': features, 'line': manifest_line(package, features), 'agrees': agrees}


def alone_lines(plan, plans, places):
    """Lines about the plans of single members: `plans` has them by the members' ids."""
    found = list(different(plans, places))
    after = plans_alone(plan, joined_document(plan.document, found))[0] if found else {}
    still = [(id, place) for id, place, _ in different(after, places)]
    for id, place, built in found:
        name = dict(places)[place]
        agrees = all(member in after for member in built) and (id, place) not in still
        yield from (('alone', id, {'member': member, 'place': name, 'features': features}) for member, features in built.items())
        yield from join_lines(plan.document.packages[id], name, features_of(built), agrees)


def plans_alone(plan, document):
    """The plan of each selected member alone in `document`, by its id, in the order of the document; and the members without one."""
    plans, refused = {}, []
    for member in document.members:
        if member in plan.selected:
            try:
                plans[member] = Plan(document, plan.selection._replace(words=[member], is_workspace=False))
            except Refused:
                refused.append(member)
    return plans, refused


def lines_of(plan, is_alone=False, is_all=False):
    plans, refused = plans_alone(plan, plan.document) if is_alone else ({}, [])
    return [*version_lines(plan), *place_lines(plan, is_all), *alone_lines(plan, plans, places_of(plan.selection)),
            *(('refused', member, {'message': '...'}) for member in refused)]


# Their text.

def with_features(text, features):
    return f'{text}: {" ".join(features)}' if features else f'{text} without features'


def asked_by(plan, ids):
    return f'asked by {", ".join(plan.label(plan.packages[it]) for it in ids)}' if ids else 'selected'


def detail_of(plan, kind, said):
    if kind == 'versions':
        return asked_by(plan, said['dependents'])
    if kind == 'places':
        return with_features(said['place'], said['features'])
    if kind == 'alone':
        return with_features(f'{said["place"]} with {plan.label(plan.packages[said["member"]])} alone', said['features'])
    if kind == 'join':
        return f'{said["line"]} # {"agree" if said["agrees"] else "still differ"}'
    return said.get('message') or ''


def text_of(plan, lines):
    return table_of([(kind, plan.label(plan.packages[id]), detail_of(plan, kind, said)) for kind, id, said in lines])


def objects_text_of(plan, lines):
    def head(kind, package):
        return {'kind': kind, 'package': package.id, 'name': package.name, 'version': package.version}

    return objects_of({**head(kind, plan.packages[id]), **said} for kind, id, said in lines)


def main():
    argv = [it for it in sys.argv[1:] if it not in ('--alone', '--places')]
    is_json = argv[-2:] == ['--format', 'json']
    words = plan_model.words_of(argv[:-2] if is_json else argv)
    with open(0 if words.metadata == '-' else words.metadata, encoding='utf-8') as it:
        document = plan_model.document_of(json.load(it))
    try:
        plan = Plan(document, plan_model.selection_of(words))
    except Refused as refused:
        sys.exit(str(refused))
    sys.stdout.write((objects_text_of if is_json else text_of)(plan, lines_of(plan, '--alone' in sys.argv, '--places' in sys.argv)))
    return 0


if __name__ == '__main__':
    sys.exit(main())
