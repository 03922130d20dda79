"""Inputs of `feats` and `features`, and random mutations of them: documents of `cargo metadata`, policies, manifests, cfg texts and row files.

Every function that draws has a `random.Random` as its first parameter, so one seed makes the same inputs again.
"""
import copy
import json
import os
from typing import NamedTuple

import plan_files
from plan_files import HOST, TARGETS, TOP

WINDOWS = 'x86_64-pc-windows-gnu'
MANIFESTS = (b'[workspace]\nmembers = ["a", "b"]\nresolver = "3"\n\n[workspace.package]\nedition = "2021"\n',
             b'[package]\nname = "a"\nversion = "0.1.0"\nedition = "2024"\nresolver = "1"\n\n[dependencies]\nb = { path = "b", features = ["x"] }\n',
             b'[package]\nname = "a"\nversion.workspace = true\nedition.workspace = true\n\n[workspace]\n[workspace.package]\nedition = "2018"\n')
SELECTIONS = ([], ['--workspace'], ['--workspace', '--all-features'], ['--workspace', '--no-default-features'], ['--workspace', '--command', 'test'])
# In a file this text becomes bytes that aren't UTF-8.
NOT_UTF_8 = 'not UTF-8'
# Texts that a name, a version, a platform spec or an item of a feature may have.
TEXTS = ('', ' ', '\0', '\n', '\t', '\x1b[31m', '\x7f\x85', '\u202e', '\ud800', '\U0001f980', 'x' * 5000, '(' * 300, NOT_UTF_8, '/', '*', '?', '#', '@', '-', '--',
         'dep:', 'dep:x', 'a/b', 'a?/b', 'default', '[base]', '1', '1.0.0-rc.1+build', '^1', '>=', 'cfg(', 'cfg()', 'cfg(any())', 'cfg(not(unix))',
         'cfg(all(unix, windows))', 'cfg(feature = "x")', 'dev', 'build', 'proc-macro', 'custom-build', 'lib')
VALUES = (None, True, False, 0, -1, 1.5, [], {}, [[]], {'': ''}, '')
BYTES = (b'\0', b'\xff', b'\xc3', b'\xef\xbb\xbf', b'\r', b'\n', b'\t', b' ', b'"', b'\\', b'\\u0000', b'{', b'}', b'[', b']', b',', b':', b'#', b'=', b'1')


class Files(NamedTuple):
    """The files of a run of `feats`. `value` is the document as a value, or None if its bytes aren't those of `bytes_of`."""
    value: object
    document: bytes
    policy: bytes
    manifest: bytes
    host: bytes
    target: bytes


def content(path):
    with open(path, 'rb') as it:
        return it.read()


class Bases:
    """The documents and row files that are mutated."""

    def __init__(self):
        self.cases = plan_files.cases_of(plan_files.FOLDER / 'worked.plans')
        small = ('tests/documents/all-features', 'tests/documents/default-features', 'tests/documents/one-platform', 'examples/weak1.metadata')
        *self.small, self.large = (json.loads(content(TOP / f'{name}.json')) for name in (*small, 'examples/cli.metadata'))
        self.rows = [content(TOP / f'examples/{name}.rows') for name in ('f1', 'weak1', 'weak1', 'cli')]
        self.cfgs = [content(TARGETS / f'{triple}.cfg') for triple in (HOST, WINDOWS)]

    def drawn(self, random):
        """Returns a document, and words that select packages of it. Large ones are rare, because their runs take long."""
        at = random.randrange(100)
        if at < 75:
            case = random.choice(self.cases)
            return case.document, [f'{it}=target.cfg' if before == '--target' else it for before, it in zip([None, *case.words], case.words)]
        return self.large if at == 99 else random.choice(self.small), random.choice(SELECTIONS)


def encoded(text):
    return text.encode(errors='replace').replace(NOT_UTF_8.encode(), b'\xff\xfe')


def bytes_of(value):
    return encoded(json.dumps(value))


# Parts of a document that may be broken.

def spots_of(value, name=''):
    """Yields each place in a JSON value: an object or an array in it, a key there, and what is there by the names of members: in `features` the
    keys are no such names."""
    for key, item in value.items() if isinstance(value, dict) else enumerate(value) if isinstance(value, list) else ():
        inner = key if isinstance(value, dict) and name != 'features' else name
        yield value, key, inner
        yield from spots_of(item, inner)


def texts_of(value):
    return [spot[key] for spot, key, _ in spots_of(value) if isinstance(spot[key], str)]


def field(value, name, kind):
    """Returns a member of an object, or an empty value of the kind if there is none of it."""
    found = value.get(name) if isinstance(value, dict) else None
    return found if isinstance(found, kind) else kind()


def named_packages(value):
    """Returns the id, the name and the names of the features of each package that has them."""
    packages = [(field(it, 'id', str), field(it, 'name', str), list(field(it, 'features', dict))) for it in field(value, 'packages', list)]
    return [it for it in packages if it[0] and it[1]] or [('a', 'a', ['x'])]


def is_word(text):
    """Returns whether a text can be a word of a command line, and is no option."""
    try:
        return b'\0' not in os.fsencode(text) and not text.startswith('-')
    except UnicodeEncodeError:
        return False


def drawn_word(random, value):
    """Returns a word that may name a package, a feature or an optional dependency of a document."""
    id, name, features = random.choice(named_packages(value))
    feature = random.choice([*features, 'default', 'dep:leaf', '*', 'x'])
    other = random.choice(texts_of(value) or TEXTS)
    word = random.choice((id, name, name, f'{name}/{feature}', f'{id}/{feature}', f'{id}/{feature}', feature, other, random.choice(TEXTS)))
    return word if is_word(word) else name if is_word(name) else 'a'


# Mutations.

def changed_bytes(random, data):
    """Flips, deletes, duplicates or inserts bytes."""
    at = random.randrange(len(data) + 1)
    end = at + random.choice((1, 1, 2, 5, 40, len(data)))
    how = random.randrange(5)
    if how == 0 and at < len(data):
        return data[:at] + bytes([data[at] ^ 1 << random.randrange(8)]) + data[at + 1:]
    if how == 1:
        return data[:at] + data[end:]
    if how == 2:
        return data[:end] + data[at:]
    return data[:at] + random.choice(BYTES) + data[at:]


def changed_fields(random, data):
    """Replaces a field of a line by that of another line with the same first field, or drops or duplicates a line."""
    lines = [line.split(b'\t') for line in data.split(b'\n')]
    at, other = random.randrange(len(lines)), random.randrange(len(lines))
    alike = [it for it in lines if len(it) > 1 and it[0] == lines[at][0]]
    if alike and len(lines[at]) > 1 and random.randrange(4):
        column = random.randrange(1, len(lines[at]))
        lines[at][column] = (random.choice(alike) + lines[at])[column]
    elif random.randrange(2):
        del lines[at]
    else:
        lines.insert(other, lines[at])
    return b'\n'.join(map(b'\t'.join, lines))


def changed_lines(random, data, words):
    """Drops, duplicates or swaps lines, or replaces a part of a line by a word."""
    lines = data.split(b'\n')
    at, other = random.randrange(len(lines)), random.randrange(len(lines))
    how = random.randrange(4)
    if how == 0:
        del lines[at]
    elif how == 1:
        lines.insert(other, lines[at])
    elif how == 2:
        lines[at], lines[other] = lines[other], lines[at]
    else:
        mark = random.choice((b'\t', b' ', b'=', b'"', b','))
        parts = lines[at].split(mark)
        parts[random.randrange(len(parts))] = encoded(random.choice(words))
        lines[at] = mark.join(parts)
    return b'\n'.join(lines)


def change_text(random, value, spot, key):
    """Replaces a text, or the name of a member, by a text of the document or by an awkward one."""
    text = random.choice((random.choice(texts_of(value) or TEXTS), random.choice(TEXTS)))
    if isinstance(spot, dict) and random.randrange(4) == 0:
        spot[text] = spot.pop(key)
    else:
        spot[key] = text


def change_json(random, value):
    """Changes a JSON value in one place: drops, swaps, copies or duplicates a member or an item, or replaces it."""
    spots = list(spots_of(value))
    if not spots:
        return
    spot, key, _ = random.choice(spots)
    how = random.randrange(8)
    if how == 0:
        del spot[key]
    elif how == 1:
        other = random.choice(list(spot) if isinstance(spot, dict) else range(len(spot)))
        spot[key], spot[other] = spot[other], spot[key]
    elif how == 2:
        other, place, _ = random.choice(spots)
        spot[key] = copy.deepcopy(other[place])
    elif how == 3 and isinstance(spot, list):
        spot.insert(random.randrange(len(spot) + 1), copy.deepcopy(spot[key]))
    elif how == 4:
        spot[key] = copy.deepcopy(random.choice(VALUES))
    else:
        held = [it[:2] for it in spots if isinstance(it[0][it[1]], str)]
        change_text(random, value, *random.choice(held or [(spot, key)]))


def change_alike(random, value):
    """Changes a JSON value in one place so that it may stay a document: puts there what another such place has, or drops or inserts an item."""
    spots = list(spots_of(value))
    spot, key, name = random.choice(spots)
    alike = [it for it in spots if it[2] == name and isinstance(it[0][it[1]], type(spot[key]))]
    other, place, _ = random.choice(alike)
    if isinstance(spot[key], bool):
        spot[key] = not spot[key]
    elif isinstance(spot, list) and random.randrange(3) == 0:
        del spot[key]
    elif isinstance(spot, list) and random.randrange(3) == 0:
        spot.insert(random.randrange(len(spot) + 1), copy.deepcopy(other[place]))
    else:
        spot[key] = copy.deepcopy(other[place])


def drawn_policy(random, value):
    """Returns a policy whose rules name parts of a document."""
    rules = ('deny {}', 'deny {} # a reason', f'deny {{}} on {HOST}', f'deny {{}} on {WINDOWS}', 'require {}', 'deny-duplicates {}', '# {}', '')
    return encoded(''.join(random.choice(rules).format(drawn_word(random, value)) + '\n' for _ in range(random.randrange(6))))


def drawn_document(random, value):
    """Returns a document with one to three mutations: its value, which is None after one of bytes, and its bytes."""
    value, is_alike = copy.deepcopy(value), random.randrange(3) > 0
    for _ in range(random.choice((1, 1, 2, 3))):
        change_alike(random, value) if is_alike else change_json(random, value)
    data = bytes_of(value)
    if b'\xff\xfe' in data:
        return None, data
    return (None, changed_bytes(random, data)) if random.randrange(8) == 0 else (value, data)


def drawn_files(random, bases, value):
    """Returns the files for a document, of which one is mutated, and the name of that one."""
    policy, manifest = drawn_policy(random, value), random.choice(MANIFESTS)
    files = Files(value, bytes_of(value), policy, manifest, *bases.cfgs)
    name = random.choice(('document',) * 6 + ('policy', 'manifest', 'host', 'target'))
    if name == 'document':
        value, data = drawn_document(random, value)
        return files._replace(value=value, document=data), name
    return files._replace(**{name: drawn_text(random, getattr(files, name), texts_of(value))}), name


def drawn_text(random, data, words):
    """Returns a text with one to three mutations of bytes and lines."""
    for _ in range(random.choice((1, 1, 2, 3))):
        data = changed_lines(random, data, [*words, *TEXTS]) if random.randrange(3) else changed_bytes(random, data)
    return data


def drawn_rows(random, rows):
    """Returns a row file with one to three mutations. Two in three stay row files by their form."""
    if random.randrange(3) == 0:
        return drawn_text(random, rows, rows.decode().split())
    for _ in range(random.choice((1, 1, 2, 3))):
        rows = changed_fields(random, rows)
    return rows


def shuffled(random, value):
    """Returns a document whose packages, nodes and dependencies of nodes are in another order."""
    value = copy.deepcopy(value)
    nodes = field(field(value, 'resolve', dict), 'nodes', list)
    for items in (field(value, 'packages', list), nodes, *(field(it, 'deps', list) for it in nodes)):
        random.shuffle(items)
    return value
