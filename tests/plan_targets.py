"""Random workspaces with targets of all kinds, and random selections with words that choose some of them.

The packages, their declarations and their features are those of plan_workspaces.py. Each member has more targets: programs, examples, tests and
benchmarks, whose names are those of few, so that several packages have them; with required features, with and without a harness, with
`test` of both values; libraries of several crate types; examples that are procedural macros. Some packages that aren't members have programs.
Dev-dependencies name features. No target has a field `bench`, which the document doesn't contain.
"""
import plan_workspaces
from plan_workspaces import DEV, Numbers, Target, declare, random_choice, with_features

PLURALS = {'bin': 'bins', 'example': 'examples', 'test': 'tests', 'bench': 'benches'}
NAMES = {'bin': ('serve', 'send', 'tool'), 'example': ('demo', 'deep', 'tool'), 'test': ('small', 'slow', 'serve'), 'bench': ('speed', 'space', 'slow')}
LIBRARY_TYPES = ('["rlib"]', '["cdylib"]', '["cdylib", "rlib"]', '["staticlib", "lib"]')


def random_target(numbers, kind, name, words):
    """A target with the name; `words` are those that it may require."""
    required = tuple(numbers.some_of(words, numbers.one_of((1, 1, 2)))) if words and numbers.chance(35) else ()
    lines = ['harness = false'] if kind != 'example' and numbers.chance(20) else []
    lines += [f'test = {numbers.one_of(("true", "false"))}'] if numbers.chance(25) else []
    lines += ['crate-type = ["proc-macro"]'] if kind == 'example' and numbers.chance(20) else []
    return Target(kind, name, required, tuple(lines))


def required_words(package, packages):
    """The words that a target of the package may require."""
    words = package.all_features()
    for it in package.declared:
        words += [f'{it.rename or packages[it.to].name}/{feature}' for feature in packages[it.to].all_features()][:2]
    return words


def add_targets(numbers, package, packages, kinds):
    """Gives a package targets of these kinds."""
    words = required_words(package, packages) if package.library else []
    taken = {it.name for it in package.targets if it.kind == 'bin'}
    for kind in kinds:
        for name in numbers.some_of(NAMES[kind], numbers.one_of((0, 1, 1, 2))):
            if kind != 'bin' or name not in taken:
                package.targets.append(random_target(numbers, kind, name, words))
    package.targets = list({(it.kind, it.name): it for it in package.targets}.values())


def targets_workspace(seed):
    """A random workspace with targets of all kinds."""
    workspace, numbers = plan_workspaces.random_workspace(seed), Numbers(seed + 7000003)
    packages = {it.folder: it for it in workspace.packages}
    workspace.name = f'targets-{seed}'
    for place, package in enumerate(workspace.packages):
        if package.is_member():
            for to in workspace.packages[:place] + workspace.packages[place + 1:]:
                if to.library and numbers.chance(15):
                    declare(numbers, package, packages, to, DEV)
            add_targets(numbers, package, packages, [it for it in PLURALS if numbers.chance(60)])
        elif numbers.chance(20):
            add_targets(numbers, package, packages, ['bin'])
        if package.library == 'lib' and numbers.chance(20):
            package.library_lines.append(f'crate-type = {numbers.one_of(LIBRARY_TYPES)}')
    return workspace


def names_of(document, chosen, kind):
    """The names of the targets of a kind: first those of the chosen packages."""
    packages = {it['id']: it for it in document['packages']}
    return [target['name'] for id in chosen for target in packages[id]['targets'] if kind in target['kind']]


def word_for_name(numbers, document, chosen, kind):
    """A word for a target's name. Most words fit a target of a chosen package, some by a pattern; some fit none."""
    names, form = names_of(document, chosen, kind), numbers.below(100)
    every = names_of(document, sorted(it['id'] for it in document['packages']), kind)
    if names and form < 60:
        return numbers.one_of(names)
    if names and form < 85:
        name = numbers.one_of(names)
        return numbers.one_of([f'{name[0]}*', f'*{name[-1]}', f'*{name[1]}*', f'{name[0]}*{name[-1]}', f'{name}*', '*'])
    if every and form < 95:
        return numbers.one_of(every)
    return numbers.one_of(['nothing', 'x*', 'servE', 'too', f'{kind}-0'])


def target_words(numbers, document, chosen):
    """Words that choose targets, or none."""
    words, way = [], numbers.below(100)
    if way < 8:
        return ['--all-targets'] + (['--lib'] if numbers.chance(10) else [])
    words += ['--lib'] if numbers.chance(25) else []
    for kind, plural in PLURALS.items():
        form = numbers.below(100)
        if form < 20:
            words.append(f'--{plural}')
        if 15 < form < 40:
            for _ in range(numbers.one_of((1, 1, 2))):
                words += [f'--{kind}', word_for_name(numbers, document, chosen, kind)]
    return words


def random_targets(numbers, document):
    """The words of a selection that chooses targets."""
    words, chosen = random_choice(numbers, document, with_others=numbers.chance(15))
    words = [it for it in with_features(numbers, document, words, chosen) if it not in ('--command', 'test')]
    more = target_words(numbers, document, chosen)
    command = ['--command', 'test'] if numbers.chance(15) else ['--command', 'build'] if more == ['--tests'] or numbers.chance(5) else []
    return words + command + more


# For each group, the function that returns a random workspace of a seed, and the one that returns the words of a selection.
GROUPS = {name: (plan_workspaces.random_workspace, words) for name, words in plan_workspaces.GROUPS.items()} | {'targets': (targets_workspace, random_targets)}
