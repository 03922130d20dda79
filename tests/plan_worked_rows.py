"""What the worked rows of docs/PLANS.md are made of (plan_worked.py)."""
from typing import NamedTuple

from plan_workspaces import Declared, Package

XYZ = {'x': [], 'y': [], 'z': []}
LEAF = Package('ext/leaf', 'leaf', features=XYZ)


class Row(NamedTuple):
    words: str
    plan: str
    resolver: str = '2'
    # cargo's plan, where it isn't that of docs/PLANS.md, and why
    cargo: str = None
    differs: str = ''


class Worked(NamedTuple):
    name: str
    # the rule that the rows show
    shows: str
    packages: list
    rows: list
    # folders of the default members, or None
    default: list = None


def leaf(*features, **how):
    return Declared('ext/leaf', features, **how)


def member(name, *declared, **how):
    return Package(name, name, declared=list(declared), **how)
