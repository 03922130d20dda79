"""Reads files of cases, and checks the output of a program's run over a case.

A file of cases has these lines:

    # ..               a comment
    program NAME       the cases below run the program of the crate NAME; before such a line they run `features`
    rows               begins a row file: the lines that follow, unchanged, up to the line 'end'. It is the input of the
                       cases below, up to the next such block
    rows escaped       the same, but the lines are joined without line feeds, and \\n, \\r, \\t, \\0, \\\\ and \\xNN stand for
                       bytes
    rows of PATH       the row file is the file PATH, from the top of the repository
    rows chain N       one package with the features 0 to N; each except the last has the next one as its item
    $ WORDS            begins a case: the program's arguments, as in a shell, with the escapes from above. The word FILE is
                       the row file: the case runs twice, with the file's path, and with '-' and the file as standard
                       input
    with WHAT          closed stdin, empty stdin, closed stdout, or full stdout
    > LINE             a line that must be printed, in order. Without such lines nothing may be printed
    > of PATH          (as the only one) the output must be the contents of the file PATH
    !N LINE            a line on standard error, in order, and the exit status N. Without such lines standard error must be
                       empty and the status 0
    !N                 the exit status N; standard error isn't compared
    steps NODES        (of `build`) the output explains these nodes, which are separated by spaces. Any steps are right that
                       judge_build.py accepts

The program `guppy_vectors` has four parts: `program guppy_vectors PART` names one. The words of its cases are the files of a section, which
follow the part on the first line of standard input. The word FILE is the path alone, and LAST is the path of the row file before.
Such a case also has these lines:

    < CALL             a further line of standard input, which the program repeats. The word FORM in it is replaced by each of the
                       four forms of visitors and filters, and BY, EDGES, OVER and ANY by each of the words below. The case
                       runs once for each, and must print the same
    or                 begins other lines that may be printed after the last call, in place of those above
    each DIRECTION     (of `graphs` and `surface`, with no other call) walks in this direction from each two nodes, by
                       each of four rules
    answers N DIRECTION NODES
                       (the same) a walk from these nodes for each set of accepted offers. These sets have N complete runs in
                       all; the walk's offers must be one of them, and all must have the walk's result
    edits DIRECTION IDS
                       (of `surface`, with no other call) checks explanations from these features, and each small change
                       of them: a step left out, repeated, moved, or with another reason; another refused link
    platforms DIRECTION SPECS
                       (the same) the features on each platform, described by some of these specs, from each two features

A case of `platforms` has a triple as its first word, and a cfg text as its second, FILE or LAST. These lines add calls, with what
platform_model.py says of them:

    specs of PATH      each spec of this table, whose lines are a spec and the triples for which cargo uses it
    random N SEED      N random specs, about half of which are damaged
    changes of SPEC    the spec cut at each character and changed there
    deep N OPERATOR    N operators in one another
    specs held         the spec texts of the row file that hold
    on KINDS: IDS      what is on from these features

Lines that begin with '- ' are the questions to a visitor. Consecutive ones may be printed in any order, but the printed order
must be a run of offers by the rules (judge.py). Only the judge checks the reads of a walk, and the output of `each`, `answers`,
`edits` and `platforms`. If a case explains and has no line `step ` or `refused `, only judge_explained.py checks the printed
lines that begin with these words. The programs `judge` and `judge_build` are judge.py and judge_build.py, whose standard input
is the row file.
"""
import codecs
import glob
import itertools
import operator
import os
import shlex
import subprocess
import sys
import tempfile

import judge
import judge_build
import judge_explained
import platform_model

TOP = os.path.dirname(os.path.dirname(os.path.abspath(__file__)))
# The replacements for words of calls.
FORMS = {b'FORM': ('generic', 'lent', 'boxed', 'closure'), b'BY': ('generic', 'lent', 'boxed'), b'EDGES': ('edges', 'copies'), b'OVER': ('graph', 'source', 'list'),
         b'ANY': ('graph', 'source', 'list', 'explained')}
RULES = ('all', 'none', 'alternate', 'first 2')
# The same rules, by the numbers of calls.
PLACES = ('all', 'none', f'only {0x5555555555555555}', 'only 3')
# The calls that explain or check explanations, and the first words of lines that may be left to the judge.
EXPLAINED = ('check', 'check-exact', 'platform', 'explain', 'checked', 'shown', 'same')
STEPS = (b'step ', b'refused ')
# Parts of the program `guppy_vectors`.
GRAPHS, SURFACE = 'guppy_vectors graphs', 'guppy_vectors surface'
SECONDS = 60


def unescaped(text):
    return codecs.escape_decode(text.encode())[0]


def content(path):
    with open(f'{TOP}/{path}', 'rb') as it:
        return it.read()


def chain(last):
    """Returns the row file of one package with the features 0 to `last` in a chain."""
    return ''.join(['package\tp\tworkspace\n', *(f'feature\t{it}\t{it + 1}\n' for it in range(last)), f'feature\t{last}\n']).encode()


def program_of(name):
    """Returns the path of a crate's program, without its part. PROGRAM in the environment replaces that of `features`."""
    if name in ('judge', 'judge_build'):
        return f'{TOP}/tests/{name}.py'
    name = name.split(' ')[0]
    built = f'{TOP}/crates/{name}/out/{name}'
    return os.path.abspath(os.environ.get('PROGRAM', built) if name == 'features' else built)


class Case:
    def __init__(self, place, program, words, rows, last=b''):
        self.place, self.program, self.words, self.rows, self.last = place, program, words, rows, last
        self.given, self.calls, self.of_file = None, [], None
        # the alternative lists of lines that may be printed
        self.printed = [[]]
        self.line, self.status = '', 0
        # whether only the judge checks the output of calls, and how many complete runs there are
        self.is_judged, self.runs = False, None
        # the nodes that the steps of `build` must list
        self.nodes = None

    def has_calls(self):
        return self.program.startswith('guppy_vectors ')

    def is_explained(self):
        """Returns whether the case explains or checks explanations."""
        return self.program == SURFACE and any(call.split(':')[0].split(' ')[0] in EXPLAINED for call in self.calls)

    def outs(self):
        """Returns the texts that may be printed: only the empty one if standard output can't be written."""
        if self.given in ('closed stdout', 'full stdout'):
            return [b'']
        if self.of_file:
            return [content(self.of_file)]
        return [''.join(f'{line}\n' for line in lines).encode() for lines in self.printed]

    def add_call(self, line):
        self.calls.append(line)
        for lines in self.printed:
            lines.append(f'< {line}')

    def add_each(self, direction):
        """Adds walks from each two nodes."""
        self.is_judged = True
        graph = judge.Graph(self.rows)
        nodes = range(len(graph.nodes))
        if self.program == SURFACE:
            for rule, node, other in itertools.product(PLACES, map(graph.text, nodes), map(graph.text, nodes)):
                self.add_call(f'checked {direction} BY {rule}: {node} {other}')
                self.add_call(f'same {direction} BY {rule}: {node} {other}')
            return
        for rule, node, other in itertools.product(RULES, nodes, nodes):
            self.add_call(f'walk ANY {direction} {rule}: {node} {other}')

    def add_answers(self, runs, direction, nodes):
        """Adds a walk for each set of accepted offers."""
        self.is_judged, self.runs = True, int(runs)
        for accepted in judge.answers_of(self.rows, direction):
            self.add_call(f'walk ANY {direction} these {",".join(accepted)}'.rstrip() + f': {nodes}')

    def add_judged(self, calls):
        """Adds calls whose output only the judge checks."""
        self.is_judged = True
        for call in calls:
            self.add_call(call)

    def target(self):
        """The target of a case of `platforms`."""
        text = self.rows if self.words[1] == b'FILE' else self.last
        return platform_model.Target(self.words[0].decode(), text.decode())

    def add_spec(self, spec, answer):
        self.add_call(f'spec {spec}')
        self.printed[-1].append(answer)

    def add_platform(self, word, rest):
        """Calls of `platforms`, with the answers of the model."""
        target = self.target()
        if word == 'specs' and rest == 'held':
            self.add_call('held')
            self.printed[-1] += judge_build.specs_held(self.rows, target)
        elif word == 'specs':
            for spec, triples in platform_model.table_of(f'{TOP}/{rest[3:]}').items():
                answer = 'true' if target.triple in triples else 'false'
                self.add_spec(spec, f'{answer} {platform_model.spec_shown(platform_model.parse(spec))}'.rstrip())
        elif word == 'random':
            for spec in platform_model.random_specs(*map(int, rest.split())):
                self.add_spec(spec, target.answer(spec))
        elif word == 'changes':
            for spec in platform_model.changes_of(rest[3:]):
                self.add_spec(spec, target.answer(spec))
        elif word == 'deep':
            self.add_deep(*rest.split())
        else:
            self.add_call(f'on {rest}')
            self.printed[-1].append(judge_build.on_for(self.rows, target, *rest.split(': ')))

    def add_deep(self, count, operator):
        """Operators in one another over a fact that doesn't hold."""
        spec = f'cfg({f"{operator}(" * int(count)}no_fact{")" * int(count)})'
        self.add_spec(spec, f'{"true" if operator == "not" and int(count) % 2 else "false"} {spec}')

    def add_other(self):
        """Adds an alternative that begins with the lines up to the last call."""
        lines = self.printed[-1]
        last = max(place for place, line in enumerate(lines) if line.startswith('< '))
        self.printed.append(lines[:last + 1])

    def takes(self, line):
        """Adds a line of the case. Returns false if the line means nothing."""
        word, _, rest = line.partition(' ')
        if word == 'with':
            self.given = rest
        elif word == '<':
            self.add_call(rest)
        elif word in ('each', 'answers', 'edits', 'platforms'):
            self.add_directive(word, rest)
        elif word in ('specs', 'random', 'changes', 'deep', 'on') and self.program == 'guppy_vectors platforms':
            self.add_platform(word, rest)
        elif word == 'steps':
            self.nodes = [int(it) for it in rest.split()]
        elif word == 'or':
            self.add_other()
        elif line.startswith('> of '):
            self.of_file = line[5:]
        elif word == '>':
            self.printed[-1].append(rest)
        elif word.startswith('!'):
            self.status, self.line = int(word[1:]), self.line + rest + '\n' if ' ' in line else None
        else:
            return False
        return True

    def add_directive(self, word, rest):
        if word == 'each':
            self.add_each(rest)
        elif word == 'answers':
            self.add_answers(*rest.split(' ', 2))
        elif word == 'edits':
            self.add_judged(judge_explained.edited_calls(self.rows, *rest.split(' ', 1)))
        else:
            self.add_judged(judge_explained.platform_calls(self.rows, *f'{rest} '.split(' ', 1)))


def all_paths():
    return sorted(glob.glob(f'{TOP}/tests/cases/*.cases'))


def cases_of(path):
    """Returns the cases of the file `path`."""
    cases, rows, last, program, name = [], b'', b'', 'features', os.path.relpath(path, TOP)
    with open(path, encoding='utf-8', newline='\n') as it:
        lines = it.read().split('\n')
    at = 0
    while at < len(lines):
        line, at = lines[at], at + 1
        if line in ('rows', 'rows escaped'):
            end = lines.index('end', at)
            block, at = lines[at:end], end + 1
            last, rows = rows, ''.join(it + '\n' for it in block).encode() if line == 'rows' else unescaped(''.join(block))
        elif line.startswith('rows chain '):
            last, rows = rows, chain(int(line[11:]))
        elif line.startswith('rows of '):
            last, rows = rows, content(line[8:])
        elif line.startswith('program '):
            program = line[8:]
        elif line.startswith('$'):
            words = [unescaped(word) for word in shlex.split(line[1:])]
            cases.append(Case(f'{name}:{at}', program, words, rows, last))
        elif line and not line.startswith('#') and not (cases and cases[-1].takes(line)):
            sys.exit(f'{name}:{at}: this line means nothing: {line}')
    return cases


def forms_of(text):
    """Returns the replacements in `text` for each run. At most one word of `text` may have replacements."""
    return [{word: form} for word in FORMS if word in text.split() for form in FORMS[word]] or [{}]


def in_form(text, form):
    """Returns `text` with the replacements of `form`."""
    return b'\n'.join(b' '.join(form[it].encode() if it in form else it for it in line.split(b' ')) for line in text.split(b'\n'))


def section(program, words, calls):
    """Returns a section of the program `guppy_vectors`: its part and files, and the calls."""
    return b' '.join([b'=', program.split(' ')[1].encode(), *words]) + b'\n' + calls


class Run:
    """A run of a case: its arguments, its standard input, and the texts that may be printed."""

    def __init__(self, case, words, stdin, outs):
        self.case, self.words, self.stdin, self.outs = case, words, stdin, outs

    def read(self):
        """Returns what the program reads: the calls of a section follow its part and files."""
        return section(self.case.program, self.words, self.stdin) if self.case.has_calls() else self.stdin

    def outcome(self, room, environment=None, seconds=SECONDS):
        """Runs the program for at most so many seconds, over files. Returns its standard output, its standard error and its exit status."""
        given = self.case.given
        closes = {'closed stdin': 0, 'closed stdout': 1}.get(given)
        with tempfile.TemporaryFile() as source, tempfile.TemporaryFile() as printed, tempfile.TemporaryFile() as said, open('/dev/full', 'wb') as full:
            source.write(self.read() if given != 'empty stdin' else b'')
            source.seek(0)
            ran = subprocess.run(
                [program_of(self.case.program), *([] if self.case.has_calls() else self.words)], stdin=source,
                stdout=full if given == 'full stdout' else printed, stderr=said, timeout=seconds,
                cwd=room, env=environment, preexec_fn=None if closes is None else lambda: os.close(closes))
            printed.seek(0)
            said.seek(0)
            return printed.read(), said.read(), ran.returncode

    def fault(self, printed, said, status):
        """Returns why this isn't the wanted outcome, or None."""
        line = said if self.case.line is None else self.case.line.encode()
        if self.case.nodes is not None and (said, status) == (line, self.case.status):
            return self.fault_of_steps(printed.decode())
        came = [(self.seen(printed, out), said, status) for out in self.outs]
        wanted = [(self.seen(out, out), line, self.case.status) for out in self.outs]
        if not any(map(operator.eq, came, wanted)):
            return f'{self.words}\n  wanted {" or ".join(map(str, wanted))}\n  came   {came[0]}'
        return self.fault_of_offers(printed.decode().split('\n')[:-1])

    def fault_of_steps(self, printed):
        """Returns why these aren't the lines of steps to the wanted nodes, or None."""
        *lines, rest = printed.split('\n')
        words = [word.decode() for word in self.words[2:]]
        fault = judge_build.fault_of(self.case.rows, words, lines, self.case.nodes)
        return f'{words}: {rest or fault}: {lines}' if rest or fault else None

    def seen(self, printed, wanted):
        """Returns the part of a printed text that is compared with a wanted one."""
        if not self.case.has_calls():
            return printed
        unseen = (b'read ', b'reads ') if self.case.program == GRAPHS else ()
        if self.case.is_explained() and not any(it.startswith(STEPS) for it in wanted.split(b'\n')):
            unseen = STEPS
        lines = [it for it in printed.split(b'\n') if not it.startswith(unseen) and (it[:2] == b'< ' or not self.case.is_judged)]
        return sorted_runs(b'\n'.join(lines))

    def fault_of_offers(self, lines):
        """Returns why the questions to a visitor aren't a run by the rules, or None."""
        if self.case.is_explained():
            return judge_explained.fault_of(self.case.rows, lines)
        if self.case.program == SURFACE:
            return judge.fault_of(self.case.rows, lines)
        if self.case.program != GRAPHS:
            return None
        fault = judge.fault_of_walks(self.case.rows, lines)
        if fault is None and self.case.runs is not None:
            fault = judge.fault_of_all_runs(self.case.rows, lines, self.case.runs)
        return fault


def sorted_runs(text):
    """Returns `text` with consecutive lines that begin with '- ' sorted."""
    lines, run = [], []
    for line in [*text.split(b'\n'), None]:
        if line is not None and line.startswith(b'- '):
            run.append(line)
        else:
            lines += sorted(run) + ([] if line is None else [line])
            run = []
    return b'\n'.join(lines)


def runs_of(case, path):
    """Returns the runs of `case`, whose row file is at `path` and the row file before it at `path` with `.last` appended."""
    paths = {b'FILE': path.encode(), b'LAST': f'{path}.last'.encode()}
    words = [paths.get(word, word) for word in case.words]
    if case.has_calls():
        calls = ''.join(f'{call}\n' for call in case.calls).encode()
        return [Run(case, words, in_form(calls, form), [in_form(out, form) for out in case.outs()]) for form in forms_of(calls)]
    runs = [Run(case, words, case.rows, case.outs())]
    if b'FILE' in case.words:
        runs.append(Run(case, [b'-' if word == b'FILE' else word for word in case.words], case.rows, case.outs()))
    return runs
