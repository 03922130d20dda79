"""Checks of single crates over the libraries that `rt ci` proved and kept, so that no library is proved again.

`rt check` builds the libraries below a crate for itself. The kept ones are of `rt ci` alone, so this module takes them by the parts of `rt`.
"""
import importlib.machinery
import importlib.util
import os
import shutil
import subprocess
import sys
from pathlib import Path


def rt_module():
    """Returns the script `rt` as a module."""
    path = os.path.realpath(shutil.which('rt'))
    sys.path.insert(0, os.path.dirname(path))
    loader = importlib.machinery.SourceFileLoader('rt_script', path)
    module = importlib.util.module_from_spec(importlib.util.spec_from_loader('rt_script', loader))
    loader.exec_module(module)
    return module


def copied(top, room):
    """Copies what `rt` reads of the repository `top` to the folder `room`."""
    for folder in (top / 'crates').iterdir():
        shutil.copytree(folder, room / 'crates' / folder.name, ignore=shutil.ignore_patterns('out', 'must-fail'))
    for name in ('crates.txt', 'HANDLES'):
        shutil.copyfile(top / name, room / name)
    # `rt` takes the folder with it for the top of a repository.
    (room / '.git').mkdir()


class ProvedLibraries:
    """The crates of a copy of the repository `top` in the folder `room`, and the libraries that are kept for them."""

    def __init__(self, top, room):
        self.top, self.rt = top, rt_module()
        copied(top, room)
        self.rt.Crate.allowed = self.rt.handles_of(str(room))
        self.rt.Crate.cuts_libraries = True
        here = os.getcwd()
        os.chdir(room)
        try:
            self.crates = self.rt.crates_of(str(room))
        finally:
            os.chdir(here)
        self.kept = self.rt.Kept(self.crates)

    def named(self, name):
        return next(crate for crate in self.crates if crate.name == name)

    def take(self, names, from_crates):
        """Puts the libraries below the crates `names` into the copy. Returns the names of those that aren't kept. With `from_crates`, one that isn't
        kept is taken from the folder of its crate, where the last run of `rt ci` left it."""
        below = {library for name in names for library in self.named(name).below()}
        lacking = []
        for crate in (it for it in self.crates if it in below):
            if any(it.name in lacking for it in crate.below()):
                lacking.append(crate.name)
            elif self.kept.give(crate, False, self.kept.key(crate)) or (from_crates and self.is_copied(crate)):
                self.kept.is_built(crate)
            else:
                lacking.append(crate.name)
        return lacking

    def is_proved(self, name):
        """Returns whether `rt ci` has kept a proof of the crate `name` as it stands, over the libraries that were taken."""
        crate = self.named(name)
        return os.path.isdir(self.kept.place(crate, False, self.kept.key(crate)))

    def is_copied(self, crate):
        """Copies the library in the crate's own folder. Returns whether there is one."""
        made = self.top / 'crates' / crate.name / 'out/rlib'
        if not made.is_dir():
            return False
        shutil.copytree(made, Path(crate.folder) / 'out/rlib', copy_function=self.rt.link_or_copy, dirs_exist_ok=True)
        return True

    def command(self, name):
        """Returns the folder of the crate `name` in the copy, and the command that checks it there."""
        crate = self.named(name)
        (Path(crate.folder) / 'out').mkdir(exist_ok=True)
        return Path(crate.folder), [self.rt.rtlib.RATTLE, 'check', *crate.words(['--jobs', '1']), '--incremental', 'out/incremental']

    def archive(self, name):
        """Proves the static library `name`, and builds its archive in the copy. Returns the path, or None if it isn't proved, and the output."""
        crate = self.named(name)
        made = Path(crate.folder) / f'out/lib{name}.a'
        made.parent.mkdir(exist_ok=True)
        words = [*crate.words(['--jobs', '1'], keeps=False), '--toolchain', f'{self.rt.KIT}/toolchain', '--backend', 'llvm', '-o', str(made)]
        ran = subprocess.run([self.rt.rtlib.RATTLE, 'build', *words], cwd=crate.folder, stdin=subprocess.DEVNULL, stdout=subprocess.PIPE,
                             stderr=subprocess.STDOUT, text=True, errors='replace')
        return made if ran.returncode == 0 else None, ran.stdout


def proved_by_rt(top, names):
    """Has `rt ci` prove and keep the crates `names` and those below them. Returns whether it could."""
    ran = subprocess.run(['rt', 'ci', *names], cwd=top, stdin=subprocess.DEVNULL, stdout=subprocess.PIPE, stderr=subprocess.STDOUT, text=True, errors='replace')
    if ran.returncode:
        print(ran.stdout[-3000:], flush=True)
    return ran.returncode == 0
