"""The files of tests/plans: what cargo plans for selections of small workspaces.

A file is lines of text:

    # TEXT                          a comment
    workspace NAME RESOLVER         a workspace, with its resolver
    document JSON                   what `cargo metadata --all-features` prints of it, by the fields that are read; or the path of a file
                                    with this, from the top of the repository
    own JSON                        the document of the next selection alone, whose features name more dependencies
    plan WORDS                      a selection: words of `feats plan`, without the document, the host and the resolver
     PLACE NAME VERSION FEATURE...  a package of the selection's plan, which is cargo's
    refused TEXT                    cargo refuses the selection, and prints this line
    differs TEXT                    the selection's plan by docs/PLANS.md isn't cargo's, for this reason
    = PLACE NAME VERSION FEATURE... a package of that plan; without such a line it is refused

Words are separated by one space. A target is a triple; tests/targets has its cfg text, and that of the host. Absolute paths begin with /w.
"""
import json
from pathlib import Path
from typing import NamedTuple

TOP = Path(__file__).resolve().parent.parent
FOLDER = TOP / 'tests/plans'
TARGETS = TOP / 'tests/targets'
HOST = 'x86_64-unknown-linux-gnu'


class Case(NamedTuple):
    """A selection. `cargo` has the lines of cargo's plan, or is None if cargo refuses it for the reason `refused`. `plan` is the same by
    docs/PLANS.md. `general` is the document that `cargo metadata --all-features` prints, and `document` the selection's own one, if
    it has one."""
    place: str
    workspace: str
    resolver: str
    general: dict
    document: dict
    words: list
    cargo: list
    plan: list
    refused: str = ''


def platform_word(triple):
    return f'{triple}={TARGETS / triple}.cfg'


def host_words():
    """The words of `feats` that name the platform of the host."""
    return ['--host', platform_word(HOST)]


def basis_of(case):
    """The words of `feats` that name the platform of the host and the resolver."""
    return [*host_words(), '--resolver', case.resolver]


def selection_of(case):
    """The words of `feats` that name target platforms and select packages and features."""
    return [platform_word(it) if before == '--target' else it for before, it in zip([None, *case.words], case.words)]


def command_of(case):
    """The words of `feats` for a case whose document is on standard input."""
    return ['plan', '--metadata', '-', *basis_of(case), *selection_of(case)]


def cases_of(path):
    """Reads a file, and returns its cases."""
    path = Path(path)
    cases, name, resolver, general, own = [], None, None, None, None
    for number, line in enumerate(path.read_text(encoding='utf-8').splitlines(), 1):
        word, _, rest = line.partition(' ')
        if word == 'workspace':
            name, resolver = rest.split(' ')
        elif word == 'document':
            general = json.loads(rest if rest.startswith('{') else (TOP / rest).read_text(encoding='utf-8'))
        elif word == 'own':
            own = json.loads(rest)
        elif word == 'plan':
            lines = []
            cases.append(Case(f'{path.name}:{number}', name, resolver, general, own or general, rest.split(), lines, lines))
            own = None
        elif word == 'refused':
            cases[-1] = cases[-1]._replace(cargo=None, plan=None, refused=rest)
        elif word == 'differs':
            cases[-1] = cases[-1]._replace(plan=None)
        elif word == '=':
            cases[-1] = cases[-1]._replace(plan=[*(cases[-1].plan or []), rest])
        elif word == '':
            cases[-1].cargo.append(rest)
        elif word != '#':
            raise ValueError(f'{path}:{number}: no line of a file of plans')
    return cases


def all_cases():
    return [case for path in sorted(FOLDER.glob('*.plans')) for case in cases_of(path)]


def parts_of(line):
    """A line of a plan as its place, its label and its features. A label is a name, a version, and perhaps a source in brackets."""
    place, *words = line.split(' ')
    count = 3 if words[2:] and words[2].startswith('(') else 2
    return place, ' '.join(words[:count]), words[count:]


def table_of(plan):
    """The text that `feats` prints of a plan: columns that are two spaces apart."""
    rows = [parts_of(line) for line in plan]
    first = max((len(place.encode()) for place, _, _ in rows), default=0)
    second = max((len(label.encode()) for _, label, _ in rows), default=0)

    def cell(text, width):
        return text + ' ' * (width - len(text.encode()) + 2)

    return ''.join(f'{cell(place, first)}{cell(label, second) + " ".join(features) if features else label}\n' for place, label, features in rows)
