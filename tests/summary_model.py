"""A reference model of what `feats plan --summary` prints, in the form of the crate guppy-summaries. It is written to be read.

A summary is two arrays of tables, `target-package` and `host-package`: a table for each package that is built there. A table has, in this order:

    name, version       texts
    workspace-path      of a member, path of another package at a path: both from the folder of the workspace;
                        `crates-io = true` of a package of crates.io; source of any other
    status              `initial` of a selected package, `workspace` of another member, `direct` of a package on which a member depends in
                        this build, `transitive` of every other
    features            the features that are on, on the side of the place, in the order of their bytes
    optional-deps       the optional dependencies that are on there, in the order of their bytes

Tables are in the order of these statuses, and then of their names; those of one name are in the order of their ids.
"""
import ntpath
import posixpath
import re
import sys
import tomllib

sys.dont_write_bytecode = True

from link_model import unit_links, units_of
from plan_model import HOST

STATUSES = ['initial', 'workspace', 'direct', 'transitive']
SOURCES = {'workspace-path': str, 'path': str, 'crates-io': bool, 'source': str}
CRATES_IO = 'registry+https://github.com/rust-lang/crates.io-index'
SEVERAL = 'feats: a summary has the packages of one target platform: name one --target, and ask for each platform on its own\n'


def path_of(value, id):
    """The path of a package from the folder of the workspace, with forward slashes; its id, if the document has no paths."""
    root = value.get('workspace_root')
    manifest = next((it.get('manifest_path') for it in value['packages'] if it['id'] == id), None)
    if root is None or manifest is None:
        return id
    paths = posixpath if root.startswith('/') else ntpath
    path = paths.relpath(paths.dirname(manifest), root).replace('\\', '/')
    return '' if path == '.' else path


def source_of(plan, value, package):
    if package.id in plan.document.members:
        return {'workspace-path': path_of(value, package.id)}
    if package.source is None:
        return {'path': path_of(value, package.id)}
    return {'crates-io': True} if package.source == CRATES_IO else {'source': package.source}


def status_of(plan, entry):
    id, members = entry[1], plan.document.members
    if id in plan.selected:
        return 'initial'
    if id in members:
        return 'workspace'
    return 'direct' if any(to == entry and before[1] in members for before, to in unit_links(plan)) else 'transitive'


def in_order(texts):
    return sorted(set(texts), key=str.encode)


def table_of(plan, value, entry):
    place, id = entry
    package, side = plan.packages[id], plan.side_of(place)
    optional = [it.name for it in package.declarations if it.is_optional and ((side, id), 'dep', it.name) in plan.on]
    return {'name': package.name, 'version': package.version, **source_of(plan, value, package), 'status': status_of(plan, entry),
            'features': in_order(plan.features(side, id)), 'optional-deps': in_order(optional)}


def summary_of(plan, value):
    """The summary of a plan over a document, as a value of TOML."""
    units = units_of(plan)
    places = {'target-package': [it for it in units if it[0] != HOST], 'host-package': [it for it in units if it[0] == HOST]}
    tables = {name: sorted((table_of(plan, value, it) for it in those), key=lambda it: (STATUSES.index(it['status']), it['name'].encode()))
              for name, those in places.items()}
    return {name: those for name, those in tables.items() if those}


def in_lines(summary):
    """The same, so that the order of tables and keys counts."""
    return [(name, list(it.items())) for name, those in summary.items() for it in those]


def is_table(it):
    """Whether a table is one that guppy-summaries reads."""
    source = [key for key in it if key in SOURCES]
    texts = [*it['features'], *it['optional-deps']]
    return (list(it) == ['name', 'version', *source, 'status', 'features', 'optional-deps'] and len(source) == 1 and isinstance(it[source[0]], SOURCES[source[0]])
            and it['status'] in STATUSES and re.fullmatch(r'\d+\.\d+\.\d+([-+].*)?', it['version']) and all(isinstance(text, str) for text in texts))


def fault_of(wanted, came):
    """Why a run's output, standard error and status aren't those of this summary, or None."""
    text, said, status = came
    summary = tomllib.loads(text)
    is_right = in_lines(summary) == in_lines(wanted) and (said, status) == ('', 0) and all(map(is_table, [it for those in summary.values() for it in those]))
    return None if is_right else f'summary: wanted {wanted!r}, came {came}'
