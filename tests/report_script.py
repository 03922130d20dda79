"""Runs `cargo feats report` and `cargo feats diff --report` over stand-ins for cargo, rustc and ./feats: which files are written, and what is said.

The stand-in for feats prints DATA and ends with the status ENDS. That for cargo prints DOCUMENT, and fails where it is empty; without --target it
builds for TARGETS.
"""
import html
import json
import os
import re
import shutil
import stat
import subprocess
from pathlib import Path
from typing import NamedTuple

from plan_files import HOST, TOP
from report_documents import HOSTILE

TEMPLATE = (TOP / 'lib/cargo-feats/report.html').read_text(encoding='utf-8')
DATA = '{"version":2,\n"units":[\n]}\n'
CARGO = '''#!/bin/bash
echo "cargo $*" >>"$LOG"
case $1 in
  locate-project) echo /a/Cargo.toml ;;
  metadata)
    if [ -z "$DOCUMENT" ]; then
      echo 'error: no workspace' >&2
      exit 101
    fi
    printf '%s\\n' "$DOCUMENT"
    ;;
  tree)
    ask() { "$RUSTC_WRAPPER" rustc - --crate-name ___ --print=file-names "$@" --crate-type bin --print=cfg; }
    ask
    if [[ " $* " != *' --target '* ]]; then for it in $TARGETS; do set -- "$@" --target "$it"; done; fi
    for ((; $# > 1; )); do
      if [ "$1" = --target ]; then ask --target "${2/#host-tuple/''' + HOST + '''}"; fi
      shift
    done
    ;;
esac
'''
# The characters for which a shell has a letter after a backslash.
NAMED = {ord(it): f'\\{letter}' for it, letter in zip('\a\b\t\n\v\f\r\x1b\\\'', 'abtnvfrE\\\'')}
RUSTC = f"#!/bin/bash\nprintf 'rustc 1.0\\nhost: {HOST}\\n'\n"
# It is first called with the path /dev/null/none in place of files, and says that this file isn't there.
FEATS = '''#!/bin/bash
if [[ " $*" = *[\\ =]/dev/null/none* ]]; then
  echo 'feats: cannot open `/dev/null/none`: check the path and its permissions' >&2
  exit 2
fi
echo "feats $1" >>"$LOG"
if [ "${ENDS:-0}" -lt 2 ]; then printf %s "$DATA"; else echo 'feats: no' >&2; fi
exit "${ENDS:-0}"
'''


class Ran(NamedTuple):
    output: str
    said: str
    status: int
    log: list


class Room:
    """A folder with the script, the stand-ins and a workspace."""

    def __init__(self, folder):
        self.folder, self.top, self.work = folder, folder / 'the repository', folder / 'a workspace'
        self.target = folder / 'the "target"\té\\'
        for name, text in (('bin/cargo', CARGO), ('bin/rustc', RUSTC), ('the repository/feats', FEATS)):
            (folder / name).parent.mkdir(exist_ok=True)
            (folder / name).write_text(text)
            (folder / name).chmod(0o755)
        shutil.copy(TOP / 'cargo-feats', self.top)
        shutil.copytree(TOP / 'lib', self.top / 'lib')
        self.work.mkdir()
        # (the metadata of a package and that of the workspace are no part of cargo's own answer)
        other = {'target_directory': '/no', 'version': 1, 'workspace_root': '/no'}
        self.document = json.dumps({'packages': [{'metadata': other}], 'target_directory': str(self.target), 'build_directory': '/b', 'version': 1,
                                    'workspace_root': '/w', 'metadata': {**other, 'x': 1}}, separators=(',', ':'), ensure_ascii=False)

    def run(self, *words, command=(), **env):
        log = self.folder / 'log'
        log.write_text('')
        (self.folder / 'temporary').mkdir(exist_ok=True)
        outside = {name: value for name, value in os.environ.items() if not name.startswith(('CARGO', 'RUST', 'GIT_'))}
        env = {**outside, 'PATH': f'{self.folder / "bin"}:{os.environ["PATH"]}', 'TMPDIR': str(self.folder / 'temporary'), 'LOG': str(log), 'DATA': DATA, 'TARGETS': '',
               'DOCUMENT': self.document, 'CARGO_FEATS_CACHE': str(self.folder / 'facts'), **env}
        ran = subprocess.run([*command, self.top / 'cargo-feats', 'feats', *words], cwd=self.work, env=env, stdin=subprocess.DEVNULL, capture_output=True, timeout=120,
                             preexec_fn=lambda: os.umask(0o022))
        left = os.listdir(self.folder / 'temporary')
        return Ran(ran.stdout.decode(), ran.stderr.decode() + ''.join(f'left: {it}\n' for it in left), ran.returncode, log.read_text().splitlines())


def quoted(word):
    """A word as a shell reads it."""
    if re.search('[\x01-\x1f\x7f]', word):
        return f"$'{''.join(NAMED.get(it) or (chr(it) if 32 <= it < 127 else f'{chr(92)}{it:03o}') for it in word.encode())}'"
    return word if re.fullmatch(r'[\w@%+=:,./-]+', word, re.ASCII) else "'{}'".format(word.replace("'", "'\\''"))


def isolated(text):
    return f'<bdi>{html.escape(text, quote=False)}</bdi>'


def paragraph(words, places=f'target and host: {isolated(HOST)}'):
    """The line of a page with the words of its command and its platforms."""
    return f'<p id="words" class="muted"><code>cargo feats{"".join(f" {isolated(quoted(it))}" for it in words)}</code> &middot; {places}</p>'


def page_of(data, line='<!-- WORDS -->'):
    before, middle, after = re.fullmatch('(.*\n)<!-- WORDS -->\n(.*\n)DATA\n(.*)', TEMPLATE, re.DOTALL).groups()
    return f'{before}{line}\n{middle}{data}{after}'


def made_by(words, data=DATA):
    """The page that the words write."""
    return page_of(data, paragraph(words))


def outcome(name, found, wanted):
    """Returns a case's name, and why it failed or None."""
    return name, None if found == wanted else f'wanted {str(wanted)[:500]}, came {str(found)[:500]}'


def kept(path):
    """The text of a file, its mode, and the names beside it."""
    if not path.exists():
        return None
    return path.read_text(encoding='utf-8'), oct(stat.S_IMODE(path.stat().st_mode)), sorted(os.listdir(path.parent))


def defaults(room):
    """Yields the outcomes of cases without -o."""
    for words, name in ((['report'], 'report'), (['diff', '--report', '--', '--', '--tests'], 'diff'), (['diff', 'old', 'new', '--report'], 'diff')):
        shutil.rmtree(room.target, ignore_errors=True)
        (room.work / 'old').touch()
        (room.work / 'new').touch()
        file = room.target / f'cargo-feats/{name}.html'
        for ends in (0, 1):
            yield outcome(f'{words}, status {ends}', room.run(*words, ENDS=str(ends))[:3], (f'{file}\n', '', ends))
            yield outcome(f'the page of {words}', kept(file), (made_by(words), '0o644', [f'{name}.html']))
    ran = room.run('report', ENDS='2', DATA='other')
    yield outcome('a fault of feats', (ran[:3], kept(room.target / 'cargo-feats/report.html')), (('', 'feats: no\n', 2), None))
    ran = room.run('diff', 'old', 'new', '--report', '--resolver', '2', DOCUMENT='')
    yield outcome('no workspace', (ran.output, ran.said.splitlines()[-1], ran.status), ('', 'cargo-feats: there is no workspace for the page: write `-o FILE`', 2))
    ran = room.run('report', DOCUMENT='{"packages":[{"metadata":{"target_directory":"/x"}}]}')
    yield outcome('no target directory', ran[:3], ('', 'cargo-feats: `cargo metadata` names no target directory for the page: write `-o FILE`\n', 2))
    shutil.rmtree(room.target)
    room.target.touch()
    said = f"cargo-feats: cannot write `{room.target}/cargo-feats/report.html`: its folder can't be made\n"
    yield outcome('no folder', room.run('report')[:3], ('', said, 2))
    room.target.unlink()


def files(room):
    """Yields the outcomes of cases with -o."""
    for words in (['-o', 'a page.html'], ['-oa page.html'], ['--output=a page.html'], ['--output', f'{room.work}/a page.html'], ['-o', 'no', '-o', 'a page.html']):
        ran = room.run('report', *words)
        yield outcome(f'{words}', (ran[:3], kept(room.work / 'a page.html')), (('', '', 0), (made_by(['report', *words]), '0o644', ['a page.html', 'new', 'old'])))
    words = ['report', '-o', 'a page.html']
    other = made_by(words, '{"other":1}\n')
    ran = room.run(*words, DATA='{"other":1}\n')
    yield outcome('a page in place of another', (ran[:3], kept(room.work / 'a page.html')[0]), (('', '', 0), other))
    ran = room.run(*words, ENDS='2')
    yield outcome('a fault keeps the page', (ran[:3], kept(room.work / 'a page.html')[0]), (('', 'feats: no\n', 2), other))
    (room.work / 'a link').symlink_to('a page.html')
    words = ['diff', 'old', 'new', '--report', '-o', 'a link']
    ran = room.run(*words, DOCUMENT='', ENDS='1')
    yield outcome('a link', ((ran.output, ran.status), kept(room.work / 'a page.html')[0], (room.work / 'a link').is_symlink()), (('', 1), made_by(words), True))
    (room.work / 'below').mkdir()
    words = ['report', '-o', 'x.html', '-C', 'below']
    ran = room.run(*words)
    yield outcome('a folder of -C', (ran[:3], kept(room.work / 'below/x.html')), (('', '', 0), (made_by(words), '0o644', ['x.html'])))
    yield outcome('a device', (room.run('report', '-o', '/dev/null')[:3], stat.S_ISCHR(os.stat('/dev/null').st_mode)), (('', '', 0), True))
    yield outcome('a full device', room.run('report', '-o', '/dev/full')[:3], ('', 'cargo-feats: cannot write `/dev/full`\n', 2))
    yield outcome('a folder without files', room.run('report', '-o', '/proc/x.html')[:3], ('', 'cargo-feats: cannot write `/proc/x.html`\n', 2))
    ran = room.run('report', '-o', 'below/y.html', command=['bash', '-c', 'ulimit -f 1; trap "" XFSZ; exec "$@"', ''], DATA='x' * 3000)
    yield outcome('no space', (ran.output, ran.said.splitlines()[-1:], ran.status, os.listdir(room.work / 'below')), ('', ['cargo-feats: cannot write `below/y.html`'], 2, ['x.html']))


def outputs(room):
    """Yields the outcomes of cases about standard output, and of --format json."""
    yield outcome('standard output', room.run('report', '-o', '-')[:3], (made_by(['report', '-o', '-']), '', 0))
    yield outcome('a full standard output', room.run('report', '-o', '-', command=['bash', '-c', '"$@" >/dev/full', ''])[:3], ('', 'cargo-feats: cannot write the answer\n', 2))
    closed = ['bash', '-c', 'set -o pipefail; "$@" | true', '']
    yield outcome('a closed pipe', room.run('report', '-o', '-', command=closed)[:3], ('', '', 0))
    for words in (['report', '--format', 'json'], ['report', '--format=json', '-o', '-'], ['--format', 'json', 'diff', '--report', '--', '--']):
        yield outcome(f'{words}', room.run(*words)[:3], (DATA, '', 0))
    ran = room.run('report', '--format', 'json', '-o', 'data.json')
    yield outcome('data in a file', (ran[:3], kept(room.work / 'data.json')[0]), (('', '', 0), DATA))
    yield outcome('diff without --report', room.run('diff', 'old', 'new', ENDS='1')[:3], (DATA, '', 1))


def refusals(room):
    """Yields the outcomes of cases of wrong words: cargo and feats aren't run."""
    other = 'only `report` and `diff --report` have the option `-o`: write `>FILE` for another answer'
    for words, said in ((['plan', '-o', 'x'], other), (['diff', 'old', 'new', '-o', 'x'], other), (['-o', '-', 'tree'], other), (['report', '-o'], '-o needs a value'),
                        (['report', '--output', '--tests'], '--output needs a value'), (['report', '-o', ''], 'cannot write ``: write the name of a file after `-o`'),
                        (['report', '-o', '.'], 'cannot write `.`: it is a folder'), (['report', '-o', 'none/x'], 'cannot write `none/x`: there is no folder `none/`'),
                        (['report', '-o', 'old/x'], 'cannot write `old/x`: there is no folder `old/`')):
        yield outcome(f'{words}', room.run(*words), ('', f'cargo-feats: {said}\n', 2, []))


def line_of(room, *words, **env):
    """The line of the page that the words write which isn't in the template, as bytes."""
    ran = room.run(*words, '-o', 'line.html', **env)
    page = (room.work / 'line.html').read_bytes()
    before, after = (it.encode() for it in page_of(DATA).split('<!-- WORDS -->'))
    if ran[:3] != ('', '', 0) or not page.startswith(before) or not page.endswith(after):
        return ran, page
    return page[len(before):len(page) - len(after)]


# Words, and the HTML in which a page shows them.
SHOWN = (('a,b c/d', "'a,b c/d'"), ('clap/std,x-y_z', 'clap/std,x-y_z'), ('', "''"), ('</p><script>', "'&lt;/p&gt;&lt;script&gt;'"), ('&amp;', "'&amp;amp;'"),
         ('"it\'s"', "'\"it'\\''s\"'"), ('a\nb', "$'a\\nb'"), ('\nDATA\n<!-- WORDS -->\n', "$'\\nDATA\\n&lt;!-- WORDS --&gt;\\n'"), ('\x1b[1m', "$'\\E[1m'"),
         ('\u202ecod', "'\u202ecod'"), ('é', "'é'"), ('\\1&\\&', "'\\1&amp;\\&amp;'"), ('\udce2<\udcff&', "'\udce2&lt;\udcff&amp;'"))


def lines(room):
    """Yields the outcomes of cases about the words and the platforms in the page."""
    for locale in ('C', 'C.UTF-8'):
        for word, shown in SHOWN:
            wanted = paragraph(['report', '-F', '', '-o', 'line.html']).replace("''", shown).encode(errors='surrogateescape')
            yield outcome(f'the word {word!a} in {locale}', line_of(room, 'report', '-F', word, LC_ALL=locale), wanted)
        words = ['report', *(it for name in HOSTILE for it in ('-F', name))]
        yield outcome(f'hostile words in {locale}', line_of(room, *words, LC_ALL=locale), paragraph([*words, '-o', 'line.html']).encode())
    first, second, host = isolated('wasm32-wasip1'), isolated('a<b'), isolated(HOST)
    named, other = ['--target', 'wasm32-wasip1'], ['--target', 'a<b']
    for words, targets, places in ((['report', *named], 'no', f'target: {first}, host: {host}'), (['report', *named, *other], '', f'targets: {first}, {second}, host: {host}'),
                                   (['report', '--target=host-tuple'], '', f'target: {host}, host: {host}'), (['diff', '--report', '--', '--'], '', f'target and host: {host}'),
                                   (['diff', '--report', *named, '--', '-p', 'x', '--'], '', f'target: {first}, host: {host}'),
                                   (['diff', '--report', '--', *named, '--'], '', f'old build, target: {first}, host: {host} &middot; new build, target and host: {host}')):
        yield outcome(f'the platforms of {words}', line_of(room, *words, TARGETS=targets), paragraph([*words, '-o', 'line.html'], places).encode())
    ran = room.run('report', '-o', 'line.html', TARGETS='wasm32-wasip1')
    found = paragraph(['report', '-o', 'line.html'], f'target: {first}, host: {host}') in (room.work / 'line.html').read_text()
    yield outcome('a target of the configuration', (ran.said, found), ('cargo-feats: the environment or the configuration of cargo sets the target wasm32-wasip1\n', True))
    for words, shown in ((['--config', 'a.token="b=c"'], ['--config', 'a.token=...']), (['--config=a.token="b=c"'], ['--config=a.token=...']),
                         (['--config', 'a.toml'], ['--config', 'a.toml']), (['-p', 'a=b'], ['-p', 'a=b'])):
        yield outcome(f'the setting {words}', line_of(room, 'report', *words), paragraph(['report', *shown, '-o', 'line.html']).encode())


def verdicts(folder):
    room = Room(Path(folder))
    for part in (defaults, files, outputs, refusals, lines):
        yield from part(room)
