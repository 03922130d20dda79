"""Small workspaces of path packages, for questions to cargo: those that are written out in WORKED, and random ones.

A workspace is made from values (`Package`, `Declared`), so that a case is known by its seed. `write` writes its manifests and empty
sources. Random numbers are those of a linear congruence, the same wherever they are drawn.

The random workspaces have what a plan depends on: members and packages outside; a root package or none; default members; each resolver;
procedural macros; build scripts, and build-dependencies without one; several kinds and platforms for one package; new names, libraries
with a name of their own and one name in two versions; weak and strong items, `dep:` and implicit features; cyclic dev-dependencies;
programs, tests and examples with required features. A dependency always has a library, and its features that are named exist, because
cargo refuses the others or ignores them.
"""
import json
import shutil
from dataclasses import dataclass, field
from functools import partial
from pathlib import Path
from typing import NamedTuple

HOST = 'x86_64-unknown-linux-gnu'
LINUX, WINDOWS, MAC = 'x86_64-unknown-linux-gnu', 'x86_64-pc-windows-gnu', 'aarch64-apple-darwin'
TRIPLES = [LINUX, WINDOWS, MAC, 'x86_64-pc-windows-msvc', 'i686-unknown-linux-gnu', 'x86_64-unknown-linux-musl', 'aarch64-apple-ios',
           'wasm32-unknown-unknown', 'x86_64-unknown-freebsd', 'thumbv7em-none-eabihf']
SPECS = ['cfg(unix)', 'cfg(windows)', 'cfg(target_os = "macos")', 'cfg(not(windows))', LINUX, 'x86_64-pc-windows-msvc', 'cfg(any())',
         'cfg(all(unix, target_pointer_width = "64"))', 'cfg(any(target_arch = "wasm32", windows))', 'cfg(target_env = "gnu")']
NORMAL, BUILD, DEV = 'dependencies', 'build-dependencies', 'dev-dependencies'
NAMES = ['app', 'bits', 'codec', 'data-dir', 'edge', 'fmt_x', 'glue', 'http2', 'ids']
FEATURES = ['a', 'b', 'c', 'd', 'default', 'extra']


class Declared(NamedTuple):
    """A declaration; `to` is the folder of the package that it leads to."""
    to: str
    features: tuple = ()
    table: str = NORMAL
    spec: str = None
    rename: str = None
    is_optional: bool = False
    has_default: bool = True
    # the requirement, for a package of the registry
    requirement: str = '*'


class Target(NamedTuple):
    kind: str
    name: str
    required: tuple = ()
    # further lines of its table
    lines: tuple = ()


@dataclass
class Package:
    """A package. One in a folder below `ext` isn't a member, and neither is one below `vendor`, which stands for one of the registry. The
    one in the folder '.' is the root package."""
    folder: str
    name: str
    version: str = '0.1.0'
    features: dict = field(default_factory=dict)
    declared: list = field(default_factory=list)
    # 'lib', 'proc-macro' or None
    library: str = 'lib'
    library_lines: list = field(default_factory=list)
    has_script: bool = False
    has_links: bool = False
    targets: list = field(default_factory=list)
    # false for a package of the registry that isn't there
    is_written: bool = True
    # the features that cargo adds, one for each optional dependency which no `dep:` hides
    implicit: list = field(default_factory=list)

    def is_member(self):
        return not self.folder.startswith(('ext/', 'vendor/'))

    def all_features(self):
        return sorted([*self.features, *self.implicit])


@dataclass
class Workspace:
    name: str
    resolver: str
    packages: list
    # folders of the default members, or None
    default: list = None
    # the folder in which cargo runs
    runs_in: str = '.'


# The manifests.

def declaration_lines(package, packages):
    up = '/'.join('..' for part in package.folder.split('/') if part != '.') or '.'
    for it in package.declared:
        to = packages[it.to]
        table = f"target.'{it.spec}'.{it.table}" if it.spec else it.table
        values = {'version': it.requirement} if it.to.startswith('vendor/') else {'path': up if it.to == '.' else f'{up}/{it.to}'}
        if it.rename:
            values['package'] = to.name
        if it.is_optional:
            values['optional'] = True
        if not it.has_default:
            values['default-features'] = False
        if it.features:
            values['features'] = list(it.features)
        yield f'[{table}.{it.rename or to.name}]'
        yield from (f'{key} = {json.dumps(value)}' for key, value in values.items())


def manifest_lines(package, packages, resolver):
    yield from ('[package]', f'name = "{package.name}"', f'version = "{package.version}"', 'edition = "2021"')
    if package.has_links:
        yield f'links = "{package.name}"'
    if resolver and package.folder == '.':
        yield f'resolver = "{resolver}"'
    if package.library:
        yield '[lib]'
        if package.library == 'proc-macro':
            yield 'proc-macro = true'
        yield from package.library_lines
    for it in package.targets:
        yield f'[[{it.kind}]]'
        yield f'name = "{it.name}"'
        if it.required:
            yield f'required-features = {json.dumps(list(it.required))}'
        yield from it.lines
    yield from declaration_lines(package, packages)
    if package.features:
        yield '[features]'
        yield from (f'{json.dumps(name)} = {json.dumps(items)}' for name, items in package.features.items())


VENDORED = '[source.crates-io]\nreplace-with = "vendored"\n[source.vendored]\ndirectory = "vendor"\n'


def write_package(where, package):
    sources = {'bin': 'src/bin', 'test': 'tests', 'example': 'examples', 'bench': 'benches'}
    (where / 'src').mkdir(parents=True, exist_ok=True)
    if package.library:
        (where / 'src/lib.rs').write_text('')
    if package.folder.startswith('vendor/'):
        (where / '.cargo-checksum.json').write_text('{"files": {}}')
    if package.has_script:
        (where / 'build.rs').write_text('fn main() {}\n')
    for it in package.targets:
        (where / sources[it.kind]).mkdir(exist_ok=True)
        (where / sources[it.kind] / f'{it.name}.rs').write_text('fn main() {}\n')


def write(workspace, where):
    """Writes the workspace to the folder `where`, which is made anew, and returns the folder in which cargo runs."""
    where = Path(where)
    shutil.rmtree(where, ignore_errors=True)
    packages = {it.folder: it for it in workspace.packages}
    texts = {'.': []}
    for package in workspace.packages:
        if not package.is_written:
            continue
        write_package(where / package.folder, package)
        texts[package.folder] = list(manifest_lines(package, packages, workspace.resolver))
    members = [it.folder for it in workspace.packages if it.is_member() and it.folder != '.']
    texts['.'] += ['[workspace]', f'members = {json.dumps(members)}', 'exclude = ["ext", "vendor"]']
    if '.' not in packages:
        texts['.'].append(f'resolver = "{workspace.resolver}"')
    if workspace.default is not None:
        texts['.'].append(f'default-members = {json.dumps(workspace.default)}')
    if any(it.startswith('vendor/') for it in packages):
        (where / '.cargo').mkdir()
        (where / '.cargo/config.toml').write_text(VENDORED)
    for folder, lines in texts.items():
        (where / folder / 'Cargo.toml').write_text('\n'.join(lines) + '\n')
    return where / workspace.runs_in


# Random workspaces.

class Numbers:
    def __init__(self, seed):
        self.state = seed
        self.below(2)

    def below(self, end):
        self.state = (self.state * 6364136223846793005 + 1442695040888963407) % 2 ** 64
        return (self.state >> 33) % end

    def chance(self, percent):
        return self.below(100) < percent

    def one_of(self, items):
        return items[self.below(len(items))]

    def some_of(self, items, count):
        """`count` of the items, in a random order."""
        left = list(items)
        return [left.pop(self.below(len(left))) for _ in range(min(count, len(left)))]


def random_package(numbers, place, has_root):
    name, is_root = NAMES[place], has_root and place == 0
    is_member = place == 0 or numbers.chance(55)
    version = f'{numbers.below(3)}.{numbers.below(3)}.{numbers.below(12)}'
    it = Package('.' if is_root else name if is_member else f'ext/{name}', name, version)
    if not is_member and numbers.chance(12):
        # (another version of a package, or at least of its name)
        it.name, it.version = NAMES[place - 1], f'9.{place}.{numbers.below(20)}'
    it.features = {name: [] for name in sorted(numbers.some_of(FEATURES, numbers.below(7)))}
    it.has_script = numbers.chance(40)
    if is_member and numbers.chance(7):
        it.library = None
    elif not is_root and numbers.chance(20):
        it.library = 'proc-macro'
    if it.library and numbers.chance(10):
        it.library_lines.append(f'name = "{it.name.replace("-", "_")}_of_its_own"')
    if is_member:
        it.library_lines += [f'{word} = false' for word in ('test', 'doctest') if numbers.chance(10)]
        kinds = [kind for kind, share in (('bin', 25), ('test', 30), ('example', 20), ('bench', 10)) if numbers.chance(share)]
        if not it.library and 'bin' not in kinds:
            kinds.append('bin')
        it.targets = [Target(kind, f'{kind}-{place}') for kind in kinds]
    return it


def declare(numbers, package, packages, to, table):
    """Adds a declaration on `to`. A package has one name for another in all its tables."""
    before = [it for it in package.declared if it.to == to.folder]
    taken = {it.rename or packages[it.to].name for it in package.declared if it.to != to.folder}
    names = [it.rename for it in before] or [f'new-{to.name}' if numbers.chance(20) or to.version > '9' else None]
    spec = numbers.one_of([None, None, numbers.one_of(SPECS)])
    is_optional = table != DEV and numbers.chance(45)
    features = tuple(it for it in to.all_features() if numbers.chance(25))
    made = Declared(to.folder, features, table, spec, names[0], is_optional, numbers.chance(50))
    if (made.rename or to.name) not in taken and not any((it.table, it.spec) == (table, spec) for it in before):
        package.declared.append(made)


def fill_features(numbers, package, packages):
    """Gives the features items, and some optional dependencies a feature of their name."""
    by_name = {}
    for it in package.declared:
        by_name.setdefault(it.rename or packages[it.to].name, []).append(it)
    optional = sorted(name for name, those in by_name.items() if any(it.is_optional for it in those))
    hidden = set()
    for name, items in package.features.items():
        for _ in range(numbers.one_of((0, 0, 1, 1, 2, 3))):
            form, other = numbers.below(5), numbers.one_of(sorted(package.features))
            if form == 0 or not by_name:
                items += [other] if other != name else []
                continue
            dependency = numbers.one_of(sorted(by_name))
            inner = packages[by_name[dependency][0].to].all_features()
            if form == 1 and dependency in optional:
                items.append(f'dep:{dependency}')
                hidden.add(dependency)
            elif inner:
                is_weak = form == 2 and dependency in optional
                items.append(f'{dependency}{"?" if is_weak else ""}/{numbers.one_of(inner)}')
    for name in optional:
        if name not in package.features and numbers.chance(12):
            package.features[name] = [f'dep:{name}'] + ([numbers.one_of(sorted(package.features))] if package.features else [])
            hidden.add(name)
    package.implicit = [name for name in optional if name not in hidden and name not in package.features]
    for name in package.implicit:
        if package.features and numbers.chance(25):
            package.features[numbers.one_of(sorted(package.features))].append(name)


def require_features(numbers, package, packages):
    """Gives some programs, tests and examples required features."""
    words = package.all_features()
    for it in package.declared:
        words += [f'{it.rename or packages[it.to].name}/{feature}' for feature in packages[it.to].all_features()][:1]
    if package.library and words:
        package.targets = [it._replace(required=(numbers.one_of(words),)) if numbers.chance(35) else it for it in package.targets]


def random_workspace(seed):
    numbers = Numbers(seed)
    has_root = numbers.chance(30)
    made = [random_package(numbers, place, has_root) for place in range(3 + numbers.below(7))]
    packages = {it.folder: it for it in made}
    # Dependencies come after their dependents, except those for development, so the last package's features are known first.
    for place, package in reversed(list(enumerate(made))):
        for to in made[place + 1:]:
            while to.library and numbers.chance(55):
                declare(numbers, package, packages, to, numbers.one_of([NORMAL, NORMAL, NORMAL, BUILD, BUILD, DEV]))
        if package.is_member():
            for to in made[:place + 1]:
                if to.library and numbers.chance(15):
                    declare(numbers, package, packages, to, DEV)
        fill_features(numbers, package, packages)
        require_features(numbers, package, packages)
    members = [it.folder for it in made if it.is_member()]
    workspace = Workspace(f'random-{seed}', numbers.one_of(['1', '2', '2', '3']), made)
    if numbers.chance(30):
        workspace.default = numbers.some_of(members, 1 + numbers.below(len(members)))
    if numbers.chance(20):
        workspace.runs_in = numbers.one_of(members)
    return workspace


# Random selections, as the words of `feats plan`.

def random_features(numbers, document, chosen):
    """Feature words, most of which name something of the chosen packages or of their dependencies."""
    words = []
    packages = {it['id']: it for it in document['packages']}
    for _ in range(numbers.one_of((0, 0, 1, 1, 2, 3, 5))):
        package = packages[numbers.one_of(chosen)]
        features, form = sorted(package['features']), numbers.below(100)
        declared = numbers.one_of(package['dependencies']) if package['dependencies'] else None
        inner = [feature for it in document['packages'] if declared and it['name'] == declared['name'] for feature in sorted(it['features'])]
        if form < 30 and features:
            words.append(numbers.one_of(features))
        elif form < 55 and features:
            words.append(f'{package["name"]}/{numbers.one_of(features)}')
        elif form < 60:
            member = packages[numbers.one_of(document['workspace_members'])]
            words.append(f'{member["name"]}/{numbers.one_of(sorted(member["features"]) or ["nothing"])}')
        elif form > 96:
            words.append(numbers.one_of(['nothing', 'no-such/thing', f'{package["name"]}/nothing']))
        elif inner:
            words.append(f'{declared["rename"] or declared["name"]}{"?" if form > 84 else ""}/{numbers.one_of(inner)}')
    return words


def package_word(numbers, package):
    return numbers.one_of([package['name'], package['name'], package['id'], f'{package["name"]}@{package["version"]}',
                           f'{package["name"]}@{package["version"].rsplit(".", numbers.one_of((1, 2)))[0]}'])


def random_choice(numbers, document, with_others):
    """The words that choose packages, and the ids of these packages. If `with_others`, some packages that are named aren't members."""
    packages, members = {it['id']: it for it in document['packages']}, document['workspace_members']
    words, chosen, way = [], document['workspace_default_members'], numbers.below(100)
    if way < 15:
        chosen, words = members, ['--workspace']
    elif way > 30:
        chosen = numbers.some_of(members, numbers.one_of((1, 1, 1, 2, 2, 3, 5)))
        if with_others and way > 60:
            chosen = chosen[1:] + [numbers.one_of(sorted(packages))]
        words = [word for it in chosen for word in ('-p', package_word(numbers, packages[it]))]
    return words, chosen


def excluded_word(numbers, package, packages):
    """Returns a word of `--exclude`. Most words exclude the member `package`, alone or by a pattern; some exclude nothing."""
    name, form = package['name'], numbers.below(100)
    if form < 55:
        return package_word(numbers, package)
    if form < 85:
        return numbers.one_of([f'{name[0]}*', f'*{name[-1]}', f'*{name[1]}*', f'{name[0]}*{name[-1]}', f'{name}*', f'*{name[2:]}'])
    if form < 93:
        return package_word(numbers, packages[numbers.one_of(sorted(packages))])
    return numbers.one_of(['nothing', 'x*', '*', f'{name}@7', f'{name}@*', name[:-1]])


def random_exclusion(numbers, document):
    """The words that choose all members but some, and the ids of members that are probably chosen."""
    packages, members = {it['id']: it for it in document['packages']}, document['workspace_members']
    excluded = numbers.some_of(members, numbers.one_of((1, 1, 1, 2, 2, 3)))
    words = [] if numbers.chance(3) else ['--workspace']
    words += [word for it in excluded for word in ('--exclude', excluded_word(numbers, packages[it], packages))]
    if numbers.chance(10):
        # (it has no meaning)
        words += ['-p', package_word(numbers, packages[numbers.one_of(sorted(packages))])]
    return words, [it for it in members if it not in excluded] or members


def with_features(numbers, document, words, chosen):
    """The words, which choose packages, and more: of features, tests and targets."""
    is_all = numbers.chance(12)
    features = [] if is_all and numbers.chance(90) else random_features(numbers, document, chosen)
    if numbers.chance(50):
        words += ['--features', ','.join(features)] if features else []
    else:
        words += [word for it in features for word in ('-F', it)]
    words += ['--all-features'] if is_all else []
    words += ['--no-default-features'] if numbers.chance(40) else []
    words += ['--command', 'test'] if numbers.chance(50) else []
    targets = numbers.some_of(TRIPLES, numbers.one_of((0, 0, 1, 1, 2)))
    return words + [word for it in targets for word in ('--target', it)]


def random_selection(numbers, document, with_others):
    """The words of a selection. If `with_others`, some packages that are named aren't members."""
    return with_features(numbers, document, *random_choice(numbers, document, with_others))


def random_excluding(numbers, document):
    """The words of a selection of all members but some."""
    return with_features(numbers, document, *random_exclusion(numbers, document))


# For each group, the function that returns the words of a selection, by random numbers and a document.
GROUPS = {
    'random': partial(random_selection, with_others=False),
    'others': partial(random_selection, with_others=True),
    'excluded': random_excluding,
}
