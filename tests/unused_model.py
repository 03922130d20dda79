#!/usr/bin/env python3
"""A reference model of what `feats list --unused` prints, in text and JSON. It is written to be read.

    unused_model.py --metadata FILE|- [--format json]

A line is about a member of the workspace, in the order of the document:

unused      no other package uses this feature of the member. `default` has no line.
dead        this item of a feature of the member turns nothing on.

A feature is asked for by each declaration of another package that leads to its package and lists it, or, if it is `default`, doesn't turn
default features off; kind and platform don't matter, nor whether the declaration is optional. An item `d/f` or `d?/f` of another package asks
for `f` of each package to which a declaration `d` of that package leads. What is asked for is used, and so is each feature of the same
package that an item of a used feature names.

An item `d/f` is dead if no declaration `d` of its package leads to a package of the document. An item `d?/f` is dead too if each that does is
optional and no item `dep:d` or `d/...` of the package turns it on.

A member's unused features are before its dead items; features are in the order of the bytes of their names, and items in that of the document.
"""
import argparse
import json
import sys
from typing import NamedTuple

sys.dont_write_bytecode = True

import plan_model
from answer_model import objects_of, table_of


class Item(NamedTuple):
    dependency: str         # None: a feature of the same package
    feature: str            # None: `dep:d`
    is_weak: bool


def item_of(text):
    if '/' in text:
        left, feature = text.split('/', 1)
        return Item(left.removesuffix('?'), feature, left.endswith('?'))
    return Item(text[4:], None, False) if text.startswith('dep:') else Item(None, text, False)


def items_of(package):
    """The items of a package with their features, in order."""
    for feature in sorted(package.features, key=str.encode):
        yield from ((feature, text, item_of(text)) for text in package.features[feature])


def asked(document):
    """The features that packages ask of others: pairs of the id and the name."""
    found = set()
    for package in document.packages.values():
        for it in package.declarations:
            found |= {(it.to, name) for name in [*it.features, *['default'] * it.has_default] if it.to != package.id}
        for _, _, item in items_of(package):
            if item.dependency is not None and item.feature is not None:
                found |= {(it.to, item.feature) for it in package.named(item.dependency) if it.to != package.id}
    return found


def used_of(package, asked_for):
    """The used features of a package of which others ask for some."""
    used = set(asked_for)
    while True:
        more = {item.feature for feature, _, item in items_of(package) if feature in used and item.dependency is None} - used
        if not more:
            return used
        used |= more


def is_dead(package, item):
    if item.dependency is None or item.feature is None:
        return False
    leading = [it for it in package.named(item.dependency) if it.to is not None]
    is_turned_on = any(it.dependency == item.dependency and not it.is_weak for _, _, it in items_of(package))
    return not any(not item.is_weak or not it.is_optional or is_turned_on for it in leading)


def lines_of(document):
    """The lines: the kind, the package, and what is said of it."""
    requests = asked(document)
    for id in document.members:
        package = document.packages[id]
        used = used_of(package, {name for to, name in requests if to == id})
        for feature in sorted(set(package.features) - used - {'default'}, key=str.encode):
            yield 'unused', package, {'feature': feature}
        for feature, text, item in items_of(package):
            if is_dead(package, item):
                yield 'dead', package, {'feature': feature, 'item': text}


def label_of(document, package):
    """The name and the version; and the source or the id, if another package has the same two."""
    namesakes = [it for it in document.packages.values() if (it.name, it.version) == (package.name, package.version)]
    label = f'{package.name} {package.version}'
    return label if len(namesakes) < 2 else f'{label} ({package.source or package.id})'


def text_of(document):
    return table_of([(kind, label_of(document, package), ': '.join(said.values())) for kind, package, said in lines_of(document)])


def objects_text_of(document):
    return objects_of({'kind': kind, 'package': it.id, 'name': it.name, 'version': it.version, **said} for kind, it, said in lines_of(document))


def main():
    parser = argparse.ArgumentParser()
    parser.add_argument('--metadata', required=True)
    parser.add_argument('--format', choices=('text', 'json'), default='text')
    words = parser.parse_args()
    with open(0 if words.metadata == '-' else words.metadata, encoding='utf-8') as it:
        document = plan_model.document_of(json.load(it))
    sys.stdout.write((objects_text_of if words.format == 'json' else text_of)(document))
    return 0


if __name__ == '__main__':
    sys.exit(main())
