"""Runs of `feats` that end in a fault, or that read the resolver from a manifest.

A run has the words of the command line, in which {NAME} is the path of a file; what is on standard input; and what must be printed.
"""
import json
import os
from typing import NamedTuple

from plan_files import HOST, TARGETS, TOP, cases_of, command_of, table_of
from plan_workspaces import WINDOWS

METADATA = '`cargo metadata --format-version 1 --all-features`'


def cfg_of(triple):
    return f'`rustc --print cfg --target {triple} --crate-type proc-macro` without the line `proc_macro`'


CFG = cfg_of(HOST)
# What a feature word ends at: white space and commas, in runs and at both ends.
BETWEEN = (' ', '\t', '\n', '\r', '\x0c', '\r\n', ' \t,\n, ')


class Run(NamedTuple):
    name: str
    words: list
    # the line on standard error, without `feats: `; None: any text there
    said: str
    given: bytes = b''
    output: str = ''
    status: int = 2


def changed(value, path, other):
    """A copy of a JSON value with another value at a path; None leaves the field out."""
    copy = json.loads(json.dumps(value))
    at = copy
    for step in path[:-1]:
        at = at[step]
    if other is None:
        del at[path[-1]]
    else:
        at[path[-1]] = other
    return copy


def files_of(room, document):
    """Writes the files that the runs name, and returns their paths by name."""
    contents = {
        'document': json.dumps(document).encode(),
        'latin': b'unix="\xe9"\n',
        'no-fact': b'unix\n\ntarget os\n',
        'no-toml': b'[package\n',
    }
    paths = {'host': f'{TARGETS}/{HOST}.cfg', 'windows': f'{TARGETS}/{WINDOWS}.cfg', 'none': f'{room}/no such file', 'folder': room}
    for name, content in contents.items():
        paths[name] = f'{room}/{name}'
        with open(paths[name], 'wb') as it:
            it.write(content)
    return paths


def word_faults():
    """Yields faults of words, as (name, words, said)."""
    usual = ['plan', '--metadata', '-', '--host', f'{HOST}={{host}}']
    shape = "isn't TRIPLE=CFGFILE: write the triple, `=` and the file, as x86_64-unknown-linux-gnu=host.cfg"
    yield 'no word', [], None
    yield 'an unknown command', ['plans'], None
    yield 'an unknown option', [*usual, '--all'], None
    yield 'no document', ['plan', '--host', f'{HOST}={{host}}'], None
    yield 'no host', ['plan', '--metadata', '-'], None
    yield 'an option without its value', [*usual, '-p'], None
    yield 'a host without a file', ['plan', '--metadata', '-', '--host', HOST], f'`{HOST}` {shape}'
    yield 'a target without a file', [*usual, '--target', WINDOWS], f'`{WINDOWS}` {shape}'
    yield 'a resolver', [*usual, '--resolver', '4'], "`4` isn't a version of the resolver: write 1, 2 or 3"
    yield 'two resolvers', [*usual, '--resolver', '1', '--manifest', '{none}'], '--resolver and a manifest are both given: leave one out'
    yield 'a format', [*usual, '--format', 'xml'], "`xml` isn't a format: write text or json"
    yield 'a command of cargo', [*usual, '--command', 'run'], "`run` isn't a command whose build is planned: write build or test"
    alone = '`--exclude` leaves members out of all members: write --workspace too'
    for name, words in (('default members', []), ('a package', ['-p', 'a']), ('a package and all features', ['-p', 'a', '--all-features'])):
        yield f'excluded from {name}', [*usual, *words, '--exclude', 'a'], alone
    yield 'excluded in one of two builds', ['diff', *usual[1:], '--', '--workspace', '--exclude', 'a', '--', '--exclude', 'a'], alone
    for word in ('json', 'text', 'xml'):
        yield f'the format {word} of dot', ['dot', *usual[1:], '--format', word], '`dot` prints a graph for Graphviz: leave --format out'


def file_faults():
    """Yields faults of files, as (name, words, said)."""
    def words(metadata='{document}', host='{host}', *more):
        return ['plan', '--metadata', metadata, '--host', f'{HOST}={host}', *more]

    unopened = 'cannot open `{none}`: check the path and its permissions'
    yield 'no document there', words('{none}'), unopened
    yield 'no host there', words(host='{none}'), unopened
    yield 'no target there', words('{document}', '{host}', '--target', f'{WINDOWS}={{none}}'), unopened
    yield 'no manifest there', words('{document}', '{host}', '--manifest', '{none}'), unopened
    yield 'a folder as document', words('{folder}'), 'cannot read `{folder}`'
    yield 'a folder as host', words(host='{folder}'), 'cannot read `{folder}`'
    yield 'an empty name', words(''), 'cannot open ``: check the path and its permissions'
    yield 'a host that is not UTF-8', words(host='{latin}'), f"the cfg text of {HOST} isn't UTF-8: make it by {CFG}"
    yield 'a host with a line that is no fact', words(host='{no-fact}'), f'line 3 of the cfg text of {HOST} is no fact: make it by {CFG}'
    target = f'the cfg text of {WINDOWS} is no fact: make it by {cfg_of(WINDOWS)}'
    yield 'such a target', words('{document}', '{host}', '--target', f'{HOST}={{host}}', '--target', f'{WINDOWS}={{no-fact}}'), f'line 3 of {target}'
    yield 'a manifest that is not UTF-8', words('{document}', '{no-fact}', '--manifest', '{latin}'), "the manifest isn't UTF-8: pass the root Cargo.toml"
    yield 'the manifest, before the host', words('{document}', '{latin}', '--manifest', '{no-toml}'), "the manifest isn't a TOML document: pass the root Cargo.toml"
    yield 'the host, before a target', words('{document}', '{no-fact}', '--target', f'{WINDOWS}={{latin}}'), f'line 3 of the cfg text of {HOST} is no fact: make it by {CFG}'
    yield 'a target, before the document', words('{latin}', '{host}', '--target', f'{WINDOWS}={{no-fact}}'), f'line 3 of {target}'
    yield 'a manifest that is no TOML', words('{document}', '{host}', '--manifest', '{no-toml}'), "the manifest isn't a TOML document: pass the root Cargo.toml"


def document_faults(document):
    """Yields faults of documents, as (name, bytes, said)."""
    text = json.dumps(document).encode()
    lacks = 'missing or of another type'
    yield 'no byte', b'', f"the document isn't JSON: make it by {METADATA}"
    yield 'half a document', text[:len(text) // 2], f"the document isn't JSON: make it by {METADATA}"
    yield 'two documents', text * 2, f"the document isn't JSON: make it by {METADATA}"
    yield 'a document that is not UTF-8', text + b'\xff', f"the document isn't UTF-8: make it by {METADATA}"
    yield 'a document without packages', changed(document, ['packages'], None), f'the document: packages: {lacks}'
    yield 'a package without a name', changed(document, ['packages', 0, 'name'], None), f'the document: packages[0].name: {lacks}'
    yield 'a member that is no package', changed(document, ['workspace_members', 0], 'no'), 'the document: workspace_members: no package `no`'
    yield 'an id that is repeated', changed(document, ['packages', 1, 'id'], document['packages'][0]['id']), 'the document: packages[1].id: repeated'
    name = changed(document, ['packages', 0, 'features'], {'[x': []})
    yield 'a feature that begins with a bracket', name, f'the document: package `{document["packages"][0]["id"]}`: feature `[x` begins with `[`; rename it'
    yield 'default members', changed(document, ['workspace_default_members'], None), f'the document: workspace_default_members: {lacks}'
    yield 'a document made with --no-deps', (TOP / 'tests/documents/no-deps.json').read_bytes(), 'the document: resolve: null; the document was made with --no-deps'
    spec = changed(document, ['packages', 0, 'dependencies', 0, 'target'], 'cfg(')
    yield 'a platform spec', spec, f'package {document["packages"][0]["id"]} names `cfg(`, which is no platform spec: write a triple or `cfg(..)`'


def plan_faults(cases):
    """Yields faults of the plans of cases, as (name, document, words, said)."""
    command, others, lacking, root = cases['command'], cases['others'], cases['lacking'], cases['root-1']
    member = 'write a feature of a selected member, or DEPENDENCY/FEATURE'
    manifest = 'look it up in its manifest'
    needs = 'features are asked for, and no selected package is a member of the workspace: select a member, or leave the features out'
    at = 'path+file:///w'
    spec = "write NAME, NAME@VERSION, an id, or a pattern of members' names with `*`"
    none = 'no package is selected: the workspace has no default members, no members at all, or all are excluded; select packages by -p or --workspace'
    for word in ([], ['-F', 'no']):
        yield f'no selected package{"".join(word)}', cases['no-default'], word, none
    for words in (['*'], ['client', 'server', 'tool'], ['*er', 'client*', 'tool@0.1.0', 'nobody']):
        yield f'all members but {words}', command, ['--workspace', *(it for word in words for it in ('--exclude', word))], none
    yield 'no package', command, ['-p', 'nobody'], f'no package of the document fits `nobody`: {spec}'
    yield 'the second word', command, ['-p', 'tool', '-p', 'tool@2'], f'no package of the document fits `tool@2`: {spec}'
    yield 'a pattern', command, ['-p', 'tool', '-p', 'x*'], f'no package of the document fits `x*`: {spec}'
    both = '\n  old@1.10.0\n  old@1.2.3'
    yield 'several packages', others, ['-p', 'old'], f'several packages fit `old`: write one of these{both}'
    yield 'several packages of a version', others, ['-p', 'old@1'], f'several packages fit `old@1`: write one of these{both}'
    for word in (['-F', 'x'], ['--all-features'], ['--no-default-features']):
        yield f'{word[0]} of no member', others, ['-p', 'leaf', *word], needs
    yield 'a feature', command, ['-F', 'client/http,no', '--workspace'], f'no selected member has `no`: {member}'
    yield 'the first feature', command, ['-p', 'tool', '-F', 'client/http', '-F', 'no'], f'no selected member has `client/http`: {member}'
    yield 'a feature of a dependency', command, ['-F', 'client/no'], f'package {at}/client#0.1.0 has no feature `no`: {manifest}'
    yield 'a feature of the root package', root, ['-F', 'no'], f'package {at}#top@0.1.0 has no feature `no`: {manifest}'
    yield 'a dependency of the root package', root, ['-F', 'no/x'], f'package {at}#top@0.1.0 declares no dependency `no`: {manifest}'
    yield 'tests', others, ['-p', 'tested', '--command', 'test'], \
        f"package {at}/ext/tested#0.1.0 isn't a member of the workspace, and its tests need its dependencies for development: leave `--command test` out"
    yield 'a package that is not on', others, ['-p', 'tested'], \
        f"package {at}/ext/tested#0.1.0 isn't built for the target: select a member that depends on it too"
    for word in ('nobody', 'x*', '*y'):
        yield f'no program {word}', cases['targets'], ['-p', 'a', '--lib', '--bin', word], \
            f'no selected package has a target of the kind `bin` that fits `{word}`: write its name, or a pattern with `*`'
    yield 'the second name', cases['targets'], ['-p', 'a', '--test', 'it', '--test', 'demo'], \
        'no selected package has a target of the kind `test` that fits `demo`: write its name, or a pattern with `*`'
    yield 'no library', cases['targets'], ['-p', 'c', '--lib'], 'no selected package has a library: leave --lib out'
    yield 'a program without its features', cases['targets'], ['-p', 'a', '--bin', 'rare'], \
        f"the target `rare` of package {at}/a#0.1.0 requires features, and not all are on: add --features for `f`"
    made = 'make it by `cargo metadata --format-version 1 --all-features --features WORDS` with the words of the selection'
    for case, word, name in ((lacking, 'b/g', 'leaf'), (cases['several-fit'], 'b/old', 'old')):
        yield f'no package for {name}', case, ['-F', word], f'the document has no package for the optional dependency `{name}` of {at}/ext/b#0.1.0: {made}'


# Manifests, each with the resolver that Cargo takes from it.
MANIFESTS = {
    '[workspace]\nresolver = "1"\n': '1',
    '[workspace]\nresolver = "2"\n': '2',
    '[workspace]\nresolver = "3"\n': '3',
    '[workspace]\nmembers = ["a"]\n': '1',
    '[workspace]\n[package]\nname = "a"\nedition = "2021"\nresolver = "1"\n': '1',
    '[package]\nname = "a"\nedition = "2018"\nresolver = "2"\n': '2',
    '[package]\nname = "a"\nedition = "2024"\n': '2',
    '[package]\nname = "a"\nedition = "2021"\n': '2',
    '[package]\nname = "a"\nedition = "2015"\n': '1',
    '[project]\nname = "a"\nedition = "2021"\n': '2',
    '[project]\nname = "a"\nedition = "2018"\n': '1',
    '[project]\nname = "a"\nresolver = "2"\n': '2',
    '[project]\nname = "a"\nedition = "2021"\n[package]\nname = "b"\nedition = "2018"\n': '1',
    '[package]\nname = "a"\n': '1',
    'package = { name = "a", edition.workspace = true }\n[workspace.package]\nedition = "2021"\n': '2',
}
WITHOUT = {
    '[workspace]\nresolver = "4"\n': "the manifest's `workspace.resolver` is none that Cargo knows: give the version by --resolver",
    '[package]\nresolver = 2\n': "the manifest's `package.resolver` is none that Cargo knows: give the version by --resolver",
    '[package]\nedition = "2022"\n': "the manifest's `package.edition` is none that Cargo knows: give the version by --resolver",
    '[package]\nedition.workspace = true\n': 'the manifest has no `workspace.package.edition`, which a package inherits: give the version by --resolver',
}


def runs(room):
    """Yields the runs."""
    cases = {}
    for case in cases_of(TOP / 'tests/plans/worked.plans'):
        cases.setdefault(case.workspace, case)
    sides = {'1': cases['sides-1'], '2': cases['sides'], '3': cases['sides']}
    document = cases['sides'].general
    text = json.dumps(document).encode()
    paths = files_of(room, document)

    def placed(words):
        return [it.format(**paths) for it in words]

    for name, words, said in [*word_faults(), *file_faults()]:
        yield Run(name, placed(words), said and placed([said])[0], text)
    usual = placed(['plan', '--metadata', '-', '--host', f'{HOST}={{host}}'])
    for name, value, said in document_faults(document):
        yield Run(name, usual, said, value if isinstance(value, bytes) else json.dumps(value).encode())
    for name, case, words, said in plan_faults(cases):
        yield Run(name, [*usual, '--resolver', case.resolver, *words], said, json.dumps(case.general).encode())
    for case in [case for case in cases_of(TOP / 'tests/plans/worked.plans') if case.words[-1:] in (['leaf/y,b/x'], ['cli,leaf/x'])]:
        for between in BETWEEN:
            features = between + case.words[-1].replace(',', between) + between
            words = [*command_of(case)[:-1], features]
            yield Run(f'the features {features!r}', words, '', json.dumps(case.general).encode(), table_of(case.plan), 0)
    old = '`--tests` means `--command test` here, and will mean the targets of `cargo build --tests`: write --command'
    for case in [case for case in cases_of(TOP / 'tests/plans/worked.plans') if (case.workspace, case.words[-2:]) == ('targets', ['--command', 'test']) and case.plan]:
        yield Run('the old meaning of --tests', [*command_of(case)[:-2], '--tests'], old, json.dumps(case.general).encode(), table_of(case.plan), 0)
    for number, (manifest, wanted) in enumerate([*MANIFESTS.items(), *WITHOUT.items()]):
        path = os.path.join(room, f'{number}.toml')
        with open(path, 'w', encoding='utf-8') as it:
            it.write(manifest)
        words = [*usual, '--target', f'{WINDOWS}={paths["windows"]}', '--manifest', path]
        is_plan = wanted in sides
        yield Run(f'the manifest {manifest!r}', words, '' if is_plan else wanted, text, table_of(sides[wanted].plan) if is_plan else '', 0 if is_plan else 2)
