"""A reference model of the data of `feats report`, but for its steps, which judge_report.py judges. It is written over plan_model.py,
link_model.py and answer_model.py, and is meant to be read.

A unit is a package in a place where it is built. `roots` and `links` have numbers of units, from 0. `features` has the objects of `feats list`
for each package that has a unit, in the order of the ids. `declarations` has the declarations of these packages that lead to such packages, in the order
of the ids, and then in that of the document.
"""
import json
import re

import answer_model
import link_model
from link_model import name_of_place, root_units, unit_links, units_of

MEMBERS = ['version', 'units', 'roots', 'links', 'declarations', 'steps', 'features', 'specs']
VERSION = 2
# The characters that the data of a page must not contain, each with its escape.
UNSAFE = {character: f'\\u{ord(character):04x}' for character in '<>&\u2028\u2029'}
WRONG = re.compile(f'[{"".join(UNSAFE)}\x00-\x09\x0b-\x1f\x7f-\x9f]')


def objects_in(text):
    return [json.loads(line) for line in text.split('\n') if line]


def units(plan):
    for place, id in units_of(plan):
        package = plan.packages[id]
        features = sorted(plan.features(plan.side_of(place), id), key=str.encode)
        yield {'place': name_of_place(plan, place), 'package': id, 'name': package.name, 'version': package.version, 'features': features}


def built_ids(plan):
    return sorted({id for _, id in plan.built}, key=str.encode)


def declarations(plan):
    built = built_ids(plan)
    for id in built:
        for it in plan.packages[id].declarations:
            if it.to in built:
                yield {'package': id, 'dependency': it.name, 'kind': it.kind, 'optional': it.is_optional, 'platform': it.spec,
                       'default-features': it.has_default, 'features': it.features, 'to': it.to}


def features(plan):
    for id in built_ids(plan):
        yield from objects_in(answer_model.list_objects(plan, id))


def numbered(plan):
    """The roots and the links, by the numbers of units."""
    numbers = {unit: number for number, unit in enumerate(units_of(plan))}
    return sorted(numbers[it] for it in root_units(plan)), sorted([numbers[a], numbers[b]] for a, b in unit_links(plan))


def data_of(plan):
    """The data without its steps."""
    roots, links = numbered(plan)
    specs = objects_in(answer_model.specs_objects(plan.document, plan.selection))
    return {'version': VERSION, 'units': list(units(plan)), 'roots': roots, 'links': links, 'declarations': list(declarations(plan)),
            'features': list(features(plan)), 'specs': specs}


def safe(text):
    """A text of JSON as a page has it."""
    return ''.join(UNSAFE.get(it, it) for it in text)


def fault_of_bytes(text):
    """Returns why a text can't stand in a page, or None."""
    wrong = WRONG.search(text)
    return f'the text has {wrong[0]!r}' if wrong else None if text.endswith('\n') else 'no line feed ends the text'


def first_difference(found, wanted):
    """The first member in which two objects differ, with both values."""
    for name, value in wanted.items():
        if found.get(name) != value:
            both = [found.get(name), value]
            if all(isinstance(it, list) for it in both) and len(both[0]) == len(both[1]):
                both = next([one, other] for one, other in zip(*both) if one != other)
            return f'{name}: {both[0]}, wanted {both[1]}'
    return None


def fault_of_data(plan, data):
    """Returns why the data isn't that of the plan, but for its steps, or None."""
    if list(data) != MEMBERS:
        return f'the members are {list(data)}'
    return first_difference(data, data_of(plan))
