"""Selections of tests/plans, each with the model's plan, and runs of `feats` on them; and the parts of the packages of a document.

The program is crates/feats/out/feats; PROGRAM in the environment replaces it.
"""
import json
import os
import subprocess
import sys
from concurrent.futures import ProcessPoolExecutor
from functools import partial

import plan_files
import plan_model
from plan_files import TOP
from plan_model import HOST, TARGET, Plan

PROGRAM = os.path.abspath(os.environ.get('PROGRAM', f'{TOP}/crates/feats/out/feats'))
PLATFORMS = {}


def platform_of(word):
    if word not in PLATFORMS:
        PLATFORMS[word] = plan_model.platform_of_word(word)
    return PLATFORMS[word]


def selection_of(case):
    """The model's selection of a case."""
    return plan_model.selection_of(plan_model.words_of(plan_files.command_of(case)[1:]), platform_of)


def run(words, given=b'', folder=None):
    """Runs the program, and returns what it prints, what is on standard error, and the exit status."""
    ran = subprocess.run([PROGRAM, *words], input=given, capture_output=True, timeout=600, cwd=folder)
    return ran.stdout.decode(), ran.stderr.decode(), ran.returncode


class Selected:
    """A selection of a case, with the model's plan and the program's answers."""

    def __init__(self, case):
        self.words, self.value, self.given = plan_files.command_of(case)[1:], case.document, json.dumps(case.document).encode()
        self.document = plan_model.document_of(case.document)
        self.selection = selection_of(case)
        self.plan = Plan(self.document, self.selection)

    def run(self, command, *more, folder=None):
        """Runs a command on the selection. The warnings about words of `--exclude`, which tests/plans_run compares, are taken out."""
        printed, said, status = run([command, *self.words, *more], self.given, folder)
        for line in plan_model.exclusion_lines(self.document, self.selection):
            said = said.replace(f'feats: {line}\n', '', 1)
        return printed, said, status


# Parts of packages.

def word_of(package, kind, name):
    return {'base': package, 'feature': f'{package}/{name}', 'dep': f'{package}/dep:{name}'}[kind]


def sides_of(plan, package, kind, name):
    """The sides on which a part of a package is on: the target first."""
    return [side for side in (TARGET, HOST) if plan is not None and ((side, package), kind, name) in plan.on]


def built_sides_of(plan, package, kind, name):
    """The sides on which a part of a package is on, and the package is built."""
    return [side for side in sides_of(plan, package, kind, name) if (side, package) in plan.built_sides]


def parts_of(document):
    """Every part of every package of the document."""
    for id, package in document.packages.items():
        yield id, 'base', ''
        yield from ((id, 'feature', name) for name in package.features)
        yield from dict.fromkeys((id, 'dep', it.name) for it in package.declarations if it.is_optional)


def spread(items, count):
    """Up to `count` of the items, spread over them."""
    items = list(items)
    step = max(1, len(items) // count)
    return items[step // 2::step][:count]


# Tests.

def cases_of(paths):
    """The cases that have a plan: of these files, or without files each fourth of all."""
    cases = [case for path in paths for case in plan_files.cases_of(path)] if paths else plan_files.all_cases()[::4]
    return [it for it in cases if it.plan is not None and not plan_model.is_ambiguous(it.document, it.words)]


def faults_of(yielding, case):
    """Returns the faults that `yielding` yields for a case, or None for what is right."""
    try:
        faults = list(yielding(case))
    except (OSError, ValueError, KeyError, TypeError, subprocess.SubprocessError) as error:
        faults = [repr(error)]
    return [it and f'{case.place}: {case.workspace}: {" ".join(case.words)}: FAILED {it}' for it in faults]


def test(cases, yielding, more=()):
    """Prints the faults that `yielding` yields for each case, and then those of `more`, and the last line. Returns the exit status."""
    passed = failed = 0
    with ProcessPoolExecutor() as pool:
        for faults in [*pool.map(partial(faults_of, yielding), cases, chunksize=8), list(more)]:
            wrong = [it for it in faults if it]
            passed, failed = passed + len(faults) - len(wrong), failed + len(wrong)
            sys.stdout.writelines(f'{it}\n' for it in wrong)
    print(f'{passed} passed, {failed} failed')
    return 1 if failed or not passed else 0
