#!/usr/bin/env python3
"""Makes documents of `cargo metadata` for measures: copies of a small document, or a family of a size.

bench/gen_document.py COPIES [DOCUMENT] >large.json
bench/gen_document.py FAMILY N [--version VERSION] >document.json
bench/gen_document.py FAMILY N --policy RULES [--absent] >rules.policy

In the first form the document has copies of all packages of DOCUMENT, side by side in one workspace. Without DOCUMENT that is
examples/cli.metadata.json, of 57 packages. In the copy K the name of each package ends in -K, and declarations are renamed back, so
that features and items stay.

A document of a family is linear in N. All families but `members` have one member, `a`; packages from a registry have the version VERSION,
or 1.0.0:

  uses             the member depends on N packages, each with a default feature and one that it turns on
  specs            the member depends on one package, once for each of N platform specs
  chain            the member depends on the first of N packages, and each on the next; they have features as those of `uses`
  features         the member has N features, and its default feature turns on each
  feature-chain    the member has N features, each turns on the next, and its default feature the first
  mostly-features  the member has N features that turn on nothing, and no default feature
  items            the member depends on N packages as in `uses`, and each of its 100 features has one item for each package
  members          N members; each has a feature and a dependency of its own, and depends on two of eight packages, with a feature of each
  repeated         the member declares one dependency N times, each with a platform spec that holds and a feature of its own

The third form prints a policy instead: RULES rules `deny` for the packages from a registry of the document, in its order and then again,
or with --absent for as many names that no package has.
"""
import argparse
import json
import sys
from pathlib import Path
from typing import NamedTuple

EXAMPLE = Path(__file__).resolve().parent.parent / 'examples/cli.metadata.json'
REGISTRY = 'registry+https://github.com/rust-lang/crates.io-index'
# The packages on which `members` depend, and the features of each.
SHARED = 8
# The number of features of the member of `items`.
LISTS = 100
# What a package has that is depended on with its default features.
FEATURES = {'default': ['f'], 'f': []}


class Copier:
    """Makes one copy of a document's packages."""

    def __init__(self, document, number):
        self.packages = {it['id']: it for it in document['packages']}
        self.number = number

    def named(self, name):
        return f'{name}-{self.number}'

    def id(self, id):
        front, _, last = id.partition('#')
        if '@' in last:
            name, _, version = last.partition('@')
            return f'{front}#{self.named(name)}@{version}'
        return f'{self.named(front)}#{last}'

    def declaration(self, declaration):
        return {**declaration, 'name': self.named(declaration['name']), 'rename': declaration['rename'] or declaration['name']}

    def package(self, package):
        return {**package, 'id': self.id(package['id']), 'name': self.named(package['name']), 'dependencies': [self.declaration(it) for it in package['dependencies']]}

    def dependency(self, owner, dependency):
        """Returns a dependency of a node. Its name is that of the library, or that which the declaration is renamed to."""
        name = self.packages[dependency['pkg']]['name']
        is_renamed = any(it['name'] == name and (it['rename'] or '').replace('-', '_') == dependency['name'] for it in owner['dependencies'])
        return {**dependency, 'pkg': self.id(dependency['pkg']), 'name': dependency['name'] if is_renamed else name.replace('-', '_')}

    def node(self, node):
        owner = self.packages[node['id']]
        return {**node, 'id': self.id(node['id']), 'dependencies': [self.id(it) for it in node['dependencies']],
                'deps': [self.dependency(owner, it) for it in node['deps']]}


def copies_of(document, count):
    copiers = [Copier(document, number) for number in range(count)]
    members = [[copier.id(id) for copier in copiers for id in document[name]] for name in ('workspace_members', 'workspace_default_members')]
    nodes = [copier.node(it) for copier in copiers for it in document['resolve']['nodes']]
    return {**document, 'packages': [copier.package(it) for copier in copiers for it in document['packages']],
            'workspace_members': members[0], 'workspace_default_members': members[1], 'resolve': {'nodes': nodes, 'root': None}}


class Declaration(NamedTuple):
    """A dependency of a package."""
    name: str
    features: tuple = ()
    target: str = None


class Package(NamedTuple):
    """A package of a family."""
    name: str
    declarations: list = []
    features: dict = {}
    is_member: bool = False


def member(declarations=(), features=None, name='a'):
    return Package(name, list(declarations), features or {}, True)


def uses(n):
    return [member(Declaration(f'p{i}') for i in range(n)), *(Package(f'p{i}', [], FEATURES) for i in range(n))]


def specs(n):
    return [member(Declaration('p', target=f'cfg(target_os = "os{i}")') for i in range(n)), Package('p', [], FEATURES)]


def chain(n):
    nexts = [[Declaration(f'p{i}')] for i in range(n)] + [[]]
    return [member(nexts[0]), *(Package(f'p{i}', nexts[i + 1], FEATURES) for i in range(n))]


def features(n):
    names = [f'f{i}' for i in range(n)]
    return [member(features={'default': names, **{name: [] for name in names}})]


def feature_chain(n):
    return [member(features={'default': ['f0'], **{f'f{i}': [f'f{i + 1}'] if i + 1 < n else [] for i in range(n)}})]


def mostly_features(n):
    # (names of one length: 200,000 features are 4.6 MB)
    return [member(features={f'f{i:06}': [] for i in range(n)})]


def items(n):
    first, *others = uses(n)
    return [first._replace(features={f'x{k}': [f'p{i}/f' for i in range(n)] for k in range(LISTS)}), *others]


def members(n):
    def one(i):
        first, second = i % SHARED, (i + 1) % SHARED
        own = {'default': ['own'], 'own': [f's{second}/f{(i + 3) % SHARED}']}
        asked = [Declaration(f's{first}', (f'f{i // SHARED % SHARED}',)), Declaration(f's{second}'), Declaration(f'p{i}', ('f',))]
        return member(asked, own, f'm{i}')

    shared = [Package(f's{i}', [Declaration('base')], {'default': [], **{f'f{k}': [f'base/f{k}'] for k in range(SHARED)}}) for i in range(SHARED)]
    base = Package('base', [], {'default': [], **{f'f{k}': [] for k in range(SHARED)}})
    return [*map(one, range(n)), *shared, base, *(Package(f'p{i}', [], FEATURES) for i in range(n))]


def repeated(n):
    own = {f'f{i}': [] for i in range(n)}
    return [member(Declaration('p', (f'f{i}',), f'cfg(any(unix, target_os = "os{i}"))') for i in range(n)), Package('p', [], {'default': [], **own})]


FAMILIES = {it.__name__.replace('_', '-'): it for it in (uses, specs, chain, features, feature_chain, mostly_features, items, members, repeated)}


def family_of(family, n, version='1.0.0'):
    """Returns the document of a family. Packages from a registry have the version `version`."""
    return document_of(FAMILIES[family](n), version)


def document_of(packages, version='1.0.0'):
    """Returns the document of `packages`. Those from a registry have the version `version`."""
    ids = {it.name: f'path+file:///w/{it.name}#1.0.0' if it.is_member else f'{REGISTRY}#{it.name}@{version}' for it in packages}
    selected = [ids[it.name] for it in packages if it.is_member]
    return {'packages': [package_of(it, ids, version) for it in packages], 'workspace_members': selected, 'workspace_default_members': selected,
            'resolve': {'nodes': [node_of(it, ids) for it in packages], 'root': selected[0] if len(selected) == 1 else None},
            'target_directory': '/w/target', 'version': 1, 'workspace_root': '/w', 'metadata': None}


def package_of(package, ids, version):
    source = None if package.is_member else REGISTRY
    library = {'kind': ['lib'], 'crate_types': ['lib'], 'name': package.name, 'src_path': f'/w/{package.name}/src/lib.rs', 'edition': '2021',
               'doc': True, 'doctest': True, 'test': True}
    declared = [{'name': it.name, 'source': REGISTRY, 'req': f'^{version}', 'kind': None, 'rename': None, 'optional': False, 'uses_default_features': True,
                 'features': list(it.features), 'target': it.target, 'registry': None} for it in package.declarations]
    return {'id': ids[package.name], 'name': package.name, 'version': '1.0.0' if package.is_member else version, 'source': source, 'dependencies': declared,
            'features': package.features, 'targets': [library], 'manifest_path': f'/w/{package.name}/Cargo.toml', 'edition': '2021'}


def node_of(package, ids):
    """Returns the node of a package, with one dependency for all declarations of a name."""
    kinds = {}
    for it in package.declarations:
        kinds.setdefault(it.name, []).append({'kind': None, 'target': it.target})
    deps = [{'name': name, 'pkg': ids[name], 'dep_kinds': listed} for name, listed in kinds.items()]
    return {'id': ids[package.name], 'dependencies': [it['pkg'] for it in deps], 'deps': deps, 'features': list(package.features)}


def policy_of(document, count, is_absent=False):
    """Returns a policy of `count` rules: a `deny` for each package from a registry in turn, or for as many names that no package has."""
    names = [it['name'] for it in document['packages'] if it['source']]
    return ''.join(f'deny absent-{k}\n' if is_absent else f'deny {names[k % len(names)]}\n' for k in range(count))


def text_of(document):
    return json.dumps(document, separators=(',', ':')) + '\n'


def family_text(words):
    """Returns the document or the policy that the words of the second and the third form ask for."""
    parser = argparse.ArgumentParser(usage=__doc__.partition('\n\n')[2].partition('\n\n')[0])
    parser.add_argument('family', choices=FAMILIES)
    parser.add_argument('n', type=int)
    parser.add_argument('--version', default='1.0.0')
    parser.add_argument('--policy', type=int)
    parser.add_argument('--absent', action='store_true')
    wanted = parser.parse_args(words)
    if wanted.absent and wanted.policy is None:
        parser.error('--absent is for --policy')
    document = family_of(wanted.family, wanted.n, wanted.version)
    return text_of(document) if wanted.policy is None else policy_of(document, wanted.policy, wanted.absent)


def main():
    words = sys.argv[1:]
    if not words or words == ['--help']:
        print(__doc__.strip(), file=sys.stdout if words else sys.stderr)
        return 0 if words else 2
    if words[0].isdigit() and len(words) < 3:
        sys.stdout.write(text_of(copies_of(json.loads(Path(words[1] if words[1:] else EXAMPLE).read_text()), int(words[0]))))
    else:
        sys.stdout.write(family_text(words))
    return 0


if __name__ == '__main__':
    sys.exit(main())
