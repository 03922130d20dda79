"""Tries the must-fail edits of a crate, several in one check.

A proof of a function uses only the contracts of the functions that it calls, so edits of different functions can be judged by one
check of these functions: an edit is refused if the function that it changes isn't proved. A round takes at most one edit of a function.
Each function must be proved without an edit first. An edit outside a function, or one that a round didn't refuse, is checked alone, with
the whole crate.
"""
import os
import re
import subprocess
import tempfile

FUNCTION = re.compile(r'^( *)(?:pub(?:\([^)]*\))? )?(?:const |unsafe |extern "C" )*fn (\w+)')
# A verdict on a function. One whose first reason is a callee's verdict says nothing of the function.
VERDICT = re.compile(r'^fn (\S+): (proved|not proved|no proof)(?!: (?:it calls|it passes|a call of|its contract rests on))', re.M)
ERROR = re.compile(r'^(?:\./)?((?:src|specs)/\S+?):\d+:\d+: error: (`[^`]*`: )?(.*)', re.M)
IMPLEMENTED = re.compile(r'^impl\b(?:<.*?>)? (?:.*?(\w+)(?:<.*?>)? for )?.*?(\w+)(?:<[^{]*)? \{$')
SEVERAL = re.compile(r'error: several functions are named `(\S+)`: help: write one of (.*)')
NO_FUNCTION = re.compile(r'error: `\w+` has no function `(\S+)`')
UNREAD = re.compile(r'is not in scope|has no field|is no name|operand is missing|expected the end|cannot continue')
# A goal that isn't proved: one that an answer of a proof file fails, or one that has no proof.
ANSWER = re.compile(r'^(?:\./)?proofs/(\S+)/(\w+)\.antt:\d+:\d+: error: (?:`([\w+-]+)`)?', re.M)
GOAL = re.compile(r'^note: (src/\S+?):(\d+):\d+: .*\(`([\w+-]+)`\)', re.M)


class Edit:
    """A file of edits: its name, and the lines to replace as triples of a path, the old text and the new text."""

    def __init__(self, file):
        self.name, self.pairs, path, old = file.stem, [], '', ''
        for line in file.read_text().split('\n'):
            if line.startswith('file: '):
                path = line[len('file: '):].strip()
            elif line.startswith('old: '):
                old = line[len('old: '):]
            elif line.startswith('new:'):
                self.pairs.append((path, old, line[len('new:'):].removeprefix(' ')))

    def applied(self, texts, folder):
        """Returns `texts`, by path, with this edit, or None if an old text is not there exactly once."""
        texts = dict(texts)
        for path, old, new in self.pairs:
            text = texts.get(path) or (folder / path).read_text()
            if text.count(old) != 1:
                return None
            texts[path] = text.replace(old, new)
        return texts

    def functions(self, folder):
        """Returns the functions that the edit changes, each as its file, its name and its type or '', or None if it changes something else."""
        found, texts = set(), {}
        for path, old, new in self.pairs:
            text = texts.get(path) or (folder / path).read_text()
            function = function_at(text.split('\n'), text[:text.find(old)].count('\n')) if path.startswith('src/') else None
            if function is None:
                return None
            texts[path] = text.replace(old, new)
            found.add((path, *function))
        return found


def function_at(lines, number):
    """Returns the name of the function that has the line `number`, with its type or '', or None."""
    for at in range(number, -1, -1):
        begun = FUNCTION.match(lines[at])
        if begun:
            end = begun[1] + '}'
            return None if end in lines[at:number] else (begun[2], type_at(lines, at) if begun[1] else '')
    return None


def type_at(lines, number):
    """Returns the name of the type whose `impl` has the line `number`, or ''. If it is of a trait, the trait's name follows, as in a check."""
    found = next((it for it in map(IMPLEMENTED.match, reversed(lines[:number])) if it), None)
    return found[2] + (found[1] or '') if found else ''


def module_of(path):
    """Returns the words of the module that the file `path` contains, as a check prints them."""
    words = path[len('src/'):-len('.rt')].split('/')
    return [word for word in words if word not in ('lib', 'main', 'mod')]


def is_unread(said):
    """Returns whether the prover could not read a text of src/ or specs/, so that no contract was tried."""
    return any(not found[2] or UNREAD.search(re.sub('`[^`]*`', '', found[3])) for found in ERROR.finditer(said))


def title_of(goal):
    """Returns which condition the goal named `goal` is a part of, with its place among the kinds of conditions: a clause of the function's
    contract, a loop's invariant, a condition of a call, or another one."""
    clause = re.search(r'-clause-(\w+)', goal)
    if goal.startswith('returns'):
        return 0, f'`{clause[1]}`' if clause else 'the contract'
    loop = re.match(r'(?:loop-)?(\w+)-(?:init|preserved)', goal)
    if loop:
        return 1, f'invariant `{loop[1]}` of a loop'
    call = re.match(r'(\w+)-(?:\w+-)?requires', goal)
    return (2, f'a condition of `{call[1]}`') if call else (3, f'the goal `{goal}`')


class Verdicts:
    """What a check's output `said` about the crate with the files `texts` in place of its own says of functions."""

    def __init__(self, crate, folder, said, texts):
        self.crate, self.folder, self.said, self.texts = crate, folder, said, texts

    def is_of(self, words, function):
        """Returns whether `words`, a function's path, names `function`: by its module, or by its type, which may be of another module."""
        module = module_of(function[0])
        return words[-1] == function[1] and (words[:len(module)] == module or words[-2:-1] == [function[2]])

    def are(self, functions, verdicts):
        """Returns whether the check has one of `verdicts` on each of `functions`."""
        found = [path.split('::')[1:] for path, verdict in VERDICT.findall(self.said) if verdict in verdicts]
        return all(any(self.is_of(words, function) for words in found) for function in functions)

    def goals(self, function):
        """Returns the conditions of `function` that are not proved: the clauses of its contract if there are any, else the invariants of
        loops, the conditions of calls, or the other goals."""
        goals = []
        for place, kind, goal in ANSWER.findall(self.said):
            if self.is_of(place.split('/'), function):
                goals += [goal] if goal else ['returns'] if kind == 'Proof' else []
        for path, line, goal in GOAL.findall(self.said):
            text = self.texts.get(path) or (self.folder / path).read_text()
            if (path, *(function_at(text.split('\n'), int(line) - 1) or ())) == function:
                goals.append(goal)
        titles = sorted({title_of(goal) for goal in goals})
        return [title for kind, title in titles if kind == titles[0][0]]

    def reason(self, functions):
        """Returns the functions that the check refuses, with the conditions that are not proved."""
        refused = [function for function in sorted(functions) if self.are([function], ('not proved', 'no proof'))]
        return '; '.join(f'{"::".join([*module_of(it[0]), it[1]])}: {", ".join(self.goals(it)) or "no goal is named"}' for it in refused)


def output_of(words, folder):
    """Runs a command in `folder`. Returns its output, its exit status, and its processor seconds."""
    with tempfile.TemporaryFile('w+', errors='replace') as output:
        ran = subprocess.Popen(words, cwd=folder, stdin=subprocess.DEVNULL, stdout=output, stderr=subprocess.STDOUT)
        _, status, used = os.wait4(ran.pid, 0)
        ran.returncode = os.waitstatus_to_exitcode(status)
        output.seek(0)
        return output.read(), ran.returncode, used.ru_utime + used.ru_stime


class Rounds:
    """The checks of a crate's edits. `check` is the command of a check, which is run in `folder`; `seconds` is their processor time."""

    def __init__(self, crate, folder, check):
        self.crate, self.folder, self.check, self.seconds = crate, folder, check, 0
        # The names of functions for a check, as far as they differ from those that spelled() makes.
        self.names = {}

    def spelled(self, function):
        """Returns the end of a function's path that names it: with its type, or else with its module."""
        path, name, owner = function
        return self.names.get(function) or '::'.join([owner, name] if owner else [*module_of(path), name])

    def respelled(self, functions, found):
        """Spells the functions otherwise whose names a check doesn't know, or knows several times. Returns whether it did."""
        several, missing = SEVERAL.search(found.said), NO_FUNCTION.search(found.said)
        said = (several or missing or ['', ''])[1]
        changed = False
        for function in functions:
            if self.spelled(function) == said:
                fit = [it for it in re.findall(r'`([\w:+]+)`', several[2]) if found.is_of(it.split('::')[1:], function)] if several else [function[1]]
                changed = changed or bool(fit) and fit[0] != said
                self.names[function] = fit[0] if fit else said
        return changed

    def said_of(self, texts, functions=()):
        """Returns what a check says with `texts` in place of the crate's, and its exit status, and puts the crate's back. The check is
        that of `functions`, or of the whole crate."""
        before = {path: (self.folder / path).read_text() for path in texts}
        only = [word for name in sorted(map(self.spelled, functions)) for word in ('--only', name)]
        try:
            for path, text in texts.items():
                (self.folder / path).write_text(text)
            said, status, seconds = output_of([*self.check, *only], self.folder)
            self.seconds += seconds
            return Verdicts(self.crate, self.folder, said, texts), status
        finally:
            for path, text in before.items():
                (self.folder / path).write_text(text)

    def fault_without(self, edits):
        """Returns what a check of the functions of `edits` says without an edit, or None if they are proved."""
        functions = set().union(*(edit.functions(self.folder) or set() for edit in edits))
        found, status = self.said_of({}, functions)
        while self.respelled(functions, found):
            found, status = self.said_of({}, functions)
        return None if status == 0 and found.are(functions, ('proved',)) else found.said

    def round_of(self, edits):
        """Returns the edits of the next round, and its texts: those of different functions that can be applied together."""
        taken, texts, seen = [], {}, set()
        for edit in edits:
            functions = edit.functions(self.folder)
            after = None if functions is None or functions & seen else edit.applied(texts, self.folder)
            if after is not None:
                taken, texts, seen = [*taken, edit], after, seen | functions
        return taken, texts

    def refused_together(self, edits):
        """Returns the edits of `edits` that one check refuses, each by its own functions, with the reasons."""
        texts, functions = {}, set()
        for edit in edits:
            texts, functions = edit.applied(texts, self.folder), functions | edit.functions(self.folder)
        found, _ = self.said_of(texts, functions)
        while self.respelled(functions, found):
            found, _ = self.said_of(texts, functions)
        if is_unread(found.said):
            half = len(edits) // 2
            return {**self.refused_together(edits[:half]), **self.refused_together(edits[half:])} if half else {}
        refused = [edit for edit in edits if found.are(edit.functions(self.folder), ('not proved', 'no proof'))]
        return {edit: found.reason(edit.functions(self.folder)) for edit in refused}

    def alone(self, edit):
        """Returns whether a check of the whole crate with the edit refuses it, and why or why not."""
        texts = edit.applied({}, self.folder)
        if texts is None:
            return False, 'an old text is not there exactly once'
        found, status = self.said_of(texts)
        if is_unread(found.said):
            return False, f'the edited text can\'t be read: {ERROR.search(found.said)[0][:200]}'
        if status == 0:
            return False, 'the crate is still proved'
        refused = [path.split('::')[1:] for path, verdict in VERDICT.findall(found.said) if verdict != 'proved']
        if not refused:
            return False, found.said[-400:]
        return True, found.reason(edit.functions(self.folder) or set()) or ', '.join('::'.join(words) for words in refused)

    def try_all(self, edits):
        """Tries `edits`, and prints a line for each. Returns the names of those that were refused, each with the reason."""
        left, alone, refused = list(edits), [], {}
        while left:
            taken, _ = self.round_of(left)
            if not taken:
                alone, left = alone + left, []
                break
            well = {edit.name: reason for edit, reason in self.refused_together(taken).items()}
            for name, reason in well.items():
                print(f'{self.crate}/{name}: refused by {reason}', flush=True)
            refused.update(well)
            alone += [edit for edit in taken if edit.name not in well]
            left = [edit for edit in left if edit not in taken]
        for edit in alone:
            is_refused, reason = self.alone(edit)
            if is_refused:
                refused[edit.name] = reason
            print(f'{self.crate}/{edit.name}: {"refused by" if is_refused else "FAILED:"} {reason}', flush=True)
        return refused
