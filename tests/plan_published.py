"""Copies of published workspaces, so that cargo plans them without a registry.

A package at a path is copied to a path, and one of the registry to a folder of vendored packages, with its features, targets and
declarations. A declaration that leads nowhere in the document leads to an empty package, if it is optional; others are left out.
"""
import re

import plan_model
from plan_workspaces import BUILD, DEV, NORMAL, Declared, Package, Target, Workspace

TABLES = {'normal': NORMAL, 'build': BUILD, 'dev': DEV}


def folder_of(package, members):
    label = f'{package.name}-{package.version}'
    return f'vendor/{label}' if package.source else package.name if package.id in members else f'ext/{label}'


def library_lines(target):
    lines = [f'name = "{target["name"]}"']
    if 'proc-macro' not in target['kind']:
        lines.append(f'crate-type = {target["kind"]}'.replace("'", '"'))
    return lines + [f'{word} = false' for word in ('test', 'doctest') if not target[word]]


def empty_package(packages, name, requirement, features):
    """Returns the folder of an empty package with this name, a version that the requirement admits, and these features or more."""
    numbers = (re.findall(r'\d+', requirement.partition(',')[0]) + ['0', '0', '1'])[:3]
    version = '.'.join(numbers)
    made = packages.setdefault(f'vendor/{name}-{version}', Package(f'vendor/{name}-{version}', name, version))
    made.features.update({it: [] for it in features})
    return made.folder


def features_named(package, dependency):
    """The features of a dependency that the items of a package name."""
    parts = [plan_model.parts_of(item) for items in package.features.values() for item in items]
    return [feature for name, feature, _ in parts if name == dependency and feature is not None]


def copy_of(package, declared, document, packages):
    """The copy of a package. Empty packages are added to `packages`."""
    made = Package(folder_of(package, document.members), package.name, package.version, dict(package.features), library=None, has_script=package.has_script())
    for target in package.targets:
        if plan_model.LIBRARIES & set(target['kind']):
            made.library = 'proc-macro' if 'proc-macro' in target['kind'] else 'lib'
            made.library_lines = library_lines(target)
        elif 'custom-build' not in target['kind'] and package.id in document.members:
            made.targets.append(Target(target['kind'][0], target['name'], tuple(target.get('required-features', ()))))
    for it, written in zip(package.declarations, declared):
        if it.to is not None:
            folder = folder_of(document.packages[it.to], document.members)
        elif it.is_optional:
            folder = empty_package(packages, written['name'], written['req'], [*features_named(package, it.name), *it.features])
        else:
            continue
        made.declared.append(Declared(folder, tuple(it.features), TABLES[it.kind], it.spec, written['rename'], it.is_optional, it.has_default, written['req']))
    return made


def copied(name, value, resolver):
    """The copy of a document's workspace."""
    document = plan_model.document_of(value)
    packages = {}
    for package, written in zip(document.packages.values(), value['packages']):
        made = copy_of(package, written['dependencies'], document, packages)
        packages[made.folder] = made
    return Workspace(name, resolver, list(packages.values()))
