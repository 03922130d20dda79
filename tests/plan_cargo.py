"""What cargo says of a workspace: its document, and the plan that its unit graph shows.

Nothing is built or fetched. `--unit-graph` isn't stable, so RUSTC_BOOTSTRAP is set.

A unit graph has the units of a build: each compiles a target of a package, or compiles or runs a build script. A unit has a platform, or
null for the host; without `--target` all have null. So the place of a unit is followed from the roots: a unit is built in the place of
the one that needs it, but on the host if it is a procedural macro, or if a build script needs it. Where `--target` is given, a root without
a platform is built on the host too, and the platforms must agree with these places.
"""
import json
import os
import re
import subprocess
import tempfile
import threading

DOCUMENT = ['metadata', '--format-version', '1', '--all-features']
UNIT_GRAPH = ['--unit-graph', '-Z', 'unstable-options']
# The fields of the document that are read (docs/METADATA.md), by the path of the object.
FIELDS = {
    (): ('packages', 'workspace_members', 'workspace_default_members', 'resolve'),
    ('packages',): ('id', 'name', 'version', 'source', 'features', 'dependencies', 'targets'),
    ('packages', 'dependencies'): ('name', 'rename', 'req', 'kind', 'target', 'optional', 'uses_default_features', 'features'),
    ('packages', 'targets'): ('name', 'kind', 'crate_types', 'test', 'doctest', 'required-features'),
    ('resolve',): ('root', 'nodes'),
    ('resolve', 'nodes'): ('id', 'deps'),
    ('resolve', 'nodes', 'deps'): ('name', 'pkg', 'dep_kinds'),
    ('resolve', 'nodes', 'deps', 'dep_kinds'): ('kind', 'target'),
}


class Refused(Exception):
    """Cargo refuses the command; the text is the first line that it prints about it."""


def version():
    return subprocess.run(['cargo', '--version'], check=True, capture_output=True, text=True).stdout.strip()


def reason_of(said):
    """The first line about an error, or a panic, that cargo printed, without what is another in each run."""
    lines = said.splitlines()
    panics = [re.sub(r' \(\d+\)', '', it) for it in lines if ' panicked at ' in it]
    reason = next((it for it in lines if it.startswith('error')), (panics or [said[-200:]])[0])
    return re.sub(r'(have a dependency named) `.*', r'\1 ..', reason)


class Cargo:
    """Cargo, with a home and a folder of caches for each thread, because two processes with one home wait for each other."""

    def __init__(self, room):
        self.room, self.own = room, threading.local()

    def homes(self):
        if not hasattr(self.own, 'home'):
            self.own.home = tempfile.mkdtemp(prefix='home-', dir=self.room)
        return {'CARGO_HOME': self.own.home, 'CARGO_TARGET_DIR': f'{self.own.home}/target'}

    def text(self, folder, words):
        """Returns what cargo prints, run in `folder`."""
        env = {**os.environ, **self.homes(), 'RUSTC_BOOTSTRAP': '1', 'CARGO_TERM_COLOR': 'never', 'RUST_BACKTRACE': '0'}
        ran = subprocess.run(['cargo', *words, '--offline'], cwd=folder, env=env, stdin=subprocess.DEVNULL, capture_output=True, text=True)
        if ran.returncode:
            raise Refused(reason_of(ran.stderr))
        return ran.stdout

    def run(self, folder, words):
        """Returns the JSON that cargo prints, run in `folder`."""
        return json.loads(self.text(folder, words))

    def document(self, folder, words=()):
        """Returns the document, with `words` after those of DOCUMENT."""
        return read_fields(self.run(folder, [*DOCUMENT, *words]))

    def document_for(self, folder, words):
        """Returns the document for a selection some of whose features name a dependency: with these features beside those of the
        members; or, if version resolving refuses this, with the selection's own words."""
        features, own = feature_words(words), [it for it in words if it in ('--all-features', '--no-default-features')]
        try:
            return self.document(folder, ['--features', ','.join(it for it in features if '/' in it)])
        except Refused:
            return read_fields(self.run(folder, [*DOCUMENT[:-1], '--features', ','.join(features), *own]))

    def unit_graph(self, folder, words):
        """Returns the units of a build and the numbers of its roots, for a selection, given as words of `feats plan`."""
        command = ['test', '--no-run'] if 'test' in values_of(words, '--command') else ['build']
        graph = self.run(folder, [*command, *without_command(words), *UNIT_GRAPH])
        return graph['units'], graph['roots']

    def built(self, folder, words):
        """Returns what is built for a selection, given as words of `feats plan`: the set of (place, id, features)."""
        return places_of(*self.unit_graph(folder, words), values_of(words, '--target'))

    def plan(self, folder, document, words):
        """Returns the lines of the plan for a selection."""
        return plan_lines(document, self.built(folder, words), values_of(words, '--target'))


def values_of(words, *names):
    """The words that follow one of these names."""
    return [value for name, value in zip(words, words[1:]) if name in names]


def without_command(words):
    """The words without `--command` and its value."""
    return [it for before, it in zip([None, *words], words) if '--command' not in (before, it)]


def feature_words(words):
    return [it for value in values_of(words, '-F', '--features') for it in value.replace(',', ' ').split()]


def read_fields(value, path=()):
    """The document with the fields that are read, and no others."""
    if isinstance(value, list):
        return [read_fields(it, path) for it in value]
    if path not in FIELDS:
        return value
    return {name: read_fields(value[name], (*path, name)) for name in FIELDS[path] if name in value and is_recorded(name, value)}


def is_recorded(name, value):
    """Whether a field says something. Crate types do where a target of another kind is a procedural macro."""
    return name != 'crate_types' or 'proc-macro' in value[name] and 'proc-macro' not in value['kind']


def is_script(unit):
    return unit['target']['kind'] == ['custom-build'] and unit['mode'] != 'run-custom-build'


def is_macro(unit):
    return 'proc-macro' in unit['target']['crate_types']


def place_of_need(unit, place, needed):
    """The place in which `needed` is built for `unit`, which is built in `place`."""
    return 'host' if is_script(unit) or is_macro(needed) else place


def place_of_root(unit, targets):
    return 'host' if is_macro(unit) or targets and not unit['platform'] else unit['platform'] or 'target'


def is_of_links(unit, needed):
    """Whether a run of a script needs that of another package, which has `links`. It is in the place of that package's library."""
    return unit['mode'] == needed['mode'] == 'run-custom-build'


def places_of(units, roots, targets):
    """Returns the set of (place, id, features) of a unit graph. A place is `host`, a triple, or `target` without `--target`."""
    left = [(place_of_root(units[it], targets), it) for it in roots]
    seen = set(left)
    while left:
        place, number = left.pop()
        unit = units[number]
        for it in unit['dependencies']:
            needed = units[it['index']]
            if is_of_links(unit, needed):
                continue
            # a script is compiled with the features of the package where it is run
            assert not is_script(needed) or (needed['pkg_id'], needed['features']) == (unit['pkg_id'], unit['features'])
            node = (place_of_need(unit, place, needed), it['index'])
            if node not in seen:
                seen.add(node)
                left.append(node)
    assert {number for _, number in seen} == set(range(len(units)))
    built = [(place, units[number]) for place, number in seen if not is_script(units[number])]
    assert not targets or all((unit['platform'] or 'host') == place for place, unit in built)
    found = {(place, unit['pkg_id'], tuple(sorted(unit['features']))) for place, unit in built}
    assert len(found) == len({it[:2] for it in found})      # a package has one set of features in a place
    return found


def label_of(package, packages):
    """The name and the version of a package; and its source or its id, if another package of the document has the same two."""
    namesakes = [it for it in packages if (it['name'], it['version']) == (package['name'], package['version'])]
    label = f'{package["name"]} {package["version"]}'
    return label if len(namesakes) < 2 else f'{label} ({package["source"] or package["id"]})'


def plan_lines(document, found, targets):
    """The plan as lines: places in the order host, targets; packages in the order of the bytes of their ids."""
    packages = {it['id']: it for it in document['packages']}
    places = ['host', *(targets or ['target'])]

    def shown(place):
        return 'target' if place != 'host' and len(targets) < 2 else place

    return [' '.join([shown(place), label_of(packages[it], document['packages']), *features])
            for place, it, features in sorted(found, key=lambda it: (places.index(it[0]), it[1].encode()))]
