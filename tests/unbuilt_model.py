"""A reference model of the lines of `feats why` about a part that is on, and whose package isn't built there. It is written to be read."""
from plan_model import HOST, TARGET
from tree_model import title_of_spot


def counts_for_script(plan, side, package, declaration):
    """Whether a declaration of a package, which is built on the side, counts for a build script of the package."""
    is_on = not declaration.is_optional or ((side, package.id), 'dep', declaration.name) in plan.on
    return declaration.kind == 'build' and is_on and (declaration.spec is None or plan.selection.host.holds(declaration.spec))


def lacking_script(plan, id):
    """The first package that is built and lacks a build script, for which it declares the package `id`; None if there is none."""
    for package in sorted(plan.packages.values(), key=lambda it: it.id.encode()):
        sides = [side for side in (TARGET, HOST) if (side, package.id) in plan.built_sides]
        if not package.has_script() and any(it.to == id and counts_for_script(plan, side, package, it) for side in sides for it in package.declarations):
            return package.id
    return None


def unbuilt_lines(plan, parts):
    """A line for each of the parts, on each side where it is on and its package isn't built."""
    lines = []
    for id, kind, name in parts:
        for side in (TARGET, HOST):
            if ((side, id), kind, name) in plan.on and (side, id) not in plan.built_sides:
                title, package = title_of_spot(plan, ((side, id), kind, name)), title_of_spot(plan, ((side, id), 'base', ''))
                lacking = lacking_script(plan, id)
                reason = '' if lacking is None else f": {title_of_spot(plan, ((TARGET, lacking), 'base', ''))} has no build script"
                lines.append(f"{title} is asked for, but {package} isn't built{reason}")
    return lines
