#!/usr/bin/env python3
"""A model of the names of `feats why|why-not|list` and of the rules of policies (docs/WHY.md, "Names"), for a document of `cargo metadata`.

A part is (ID, None) for a package, (ID, "NAME") for a feature, (ID, "dep:NAME") for an optional dependency.
Run alone, it checks the worked rows below; the last line is `N passed, M failed`.
"""
import sys


class Unknown(Exception):
    """Nothing fits a word."""


class Several(Exception):
    """Several parts fit a word that must name one: they are `args[0]`."""


def packages_of(document):
    """The packages of a document, in the order of the bytes of their ids."""
    return sorted(document["packages"], key=lambda package: package["id"].encode())


def version_fits(word, version):
    """Whether a word is a version, perhaps without its build metadata, or a beginning of its numbers."""
    plain = version.partition("+")[0]
    return word in (version, plain) or "-" not in plain and plain.startswith(word + ".")


def name_fits(word, package):
    """Whether a word is a package's name, `NAME@VERSION` or `NAME:VERSION`."""
    name, rest = word[:len(package["name"])], word[len(package["name"]):]
    return name == package["name"] and (not rest or rest[0] in "@:" and version_fits(rest[1:], package["version"]))


def spec_fits(word, package):
    """Whether a word names a package by its name, or by its source or URL and perhaps `#` and its name, version or both."""
    place, mark, fragment = word.partition("#")
    source = package["id"].partition("#")[0]
    url = source.partition("?")[0]
    for kind in ("registry+", "git+", "path+"):
        url = url[len(kind):] if url.startswith(kind) else url
    is_last = url.endswith("/" + package["name"]) and (not mark or version_fits(fragment, package["version"]))
    return name_fits(word, package) or place in (source, url) and (is_last or mark != "" and name_fits(fragment, package))


def packages_named(document, word):
    """The packages that a word of `-p` names: the one with this id, else those that it fits."""
    packages = packages_of(document)
    return [p for p in packages if p["id"] == word] or [p for p in packages if spec_fits(word, p)]


def fits(pattern, text):
    """Whether a text fits a pattern, where a star stands for any text."""
    if not pattern:
        return not text
    if pattern[0] == "*":
        return any(fits(pattern[1:], text[k:]) for k in range(len(text) + 1))
    return text[:1] == pattern[0] and fits(pattern[1:], text[1:])


def optional_names(package):
    """The names of a package's optional dependencies, each once, in the order of the document."""
    names = [d.get("rename") or d["name"] for d in package["dependencies"] if d["optional"]]
    return list(dict.fromkeys(names))


def parts_in(package, name):
    """The parts of a package that a name means."""
    if name.startswith("dep:"):
        return [(package["id"], "dep:" + d) for d in optional_names(package) if fits(name[4:], d)]
    return [(package["id"], f) for f in sorted(package["features"], key=str.encode) if fits(name, f)]


def parts_among(packages, name):
    return [part for package in packages for part in parts_in(package, name)]


def candidates(document, selected, word):
    """All that a word may mean, if the packages with the ids `selected` are selected."""
    whole = packages_named(document, word)
    if whole:
        return [(package["id"], None) for package in whole]
    spec, slash, name = word.rpartition("/")
    if slash:
        return parts_among(packages_named(document, spec), name)
    packages = packages_of(document)
    return parts_among([p for p in packages if p["id"] in selected], word) or parts_among(packages, word)


def named(document, selected, word):
    """What a word names; else Unknown or Several."""
    found = candidates(document, selected, word)
    if not found:
        raise Unknown(word)
    if len(found) > 1 and "*" not in word.rpartition("/")[2]:
        raise Several(found)
    return found


def packages_matching(document, word):
    """The packages that the word of a rule names: those that it names as a word of `-p`, or else those whose names fit it."""
    return packages_named(document, word) or [p for p in packages_of(document) if fits(word, p["name"])]


def matching(document, selected, word):
    """What the word of a rule names; else Unknown or Several."""
    spec, slash, name = word.rpartition("/")
    packages = packages_of(document)
    found = [(package["id"], None) for package in packages_matching(document, word)]
    if not found:
        found = parts_among(packages_matching(document, spec), name) if slash else (
            parts_among([p for p in packages if p["id"] in selected], word) or parts_among(packages, word))
    if not found:
        raise Unknown(word)
    if len(found) > 1 and "*" not in word:
        raise Several(found)
    return found


def package_named(document, word):
    """The id of the only package that a word of `-p` names; else Unknown or Several."""
    found = packages_named(document, word)
    if not found:
        raise Unknown(word)
    if len(found) > 1:
        raise Several([(package["id"], None) for package in found])
    return found[0]["id"]


def word_of(document, id):
    """The word for a package in a list of candidates: `NAME@VERSION` if that names this package alone, and its id otherwise."""
    package = next(p for p in document["packages"] if p["id"] == id)
    word = f'{package["name"]}@{package["version"]}'
    return word if packages_named(document, word) == [package] else id


def outcome(document, selected, word, named=named):
    """What a word names as one value: ("named", parts), ("several", parts) or ("unknown",)."""
    try:
        return ("named", named(document, selected, word))
    except Several as several:
        return ("several", several.args[0])
    except Unknown:
        return ("unknown",)


def dependency(name, optional=False, rename=None):
    return {"name": name, "optional": optional, "rename": rename}


def package(id, name, version, features=(), dependencies=()):
    return {"id": id, "name": name, "version": version, "features": {f: [] for f in features}, "dependencies": list(dependencies)}


# Two members, a and b; two versions of clap; an id that contains slashes.
APP, OTHER, OLD, NEW, PRE, LOG = "path+file:///w/app#0.1.0", "path+file:///w/b#other@0.2.0", "r#clap@3.2.25", "r#clap@4.0.32", "r#clap@4.1.0-rc.1", "r#log@0.4.17+extra"
GIT = "git+https://host/repo?branch=b#gitted@0.3.1"
DOCUMENT = {
    "packages": [
        package(APP, "app", "0.1.0", ["default", "tls", "tls-native"], [dependency("clap", True), dependency("clap", True), dependency("log"), dependency("log", True, "logger")]),
        package(OTHER, "other", "0.2.0", ["default", "std"], [dependency("clap", True)]),
        package(OLD, "clap", "3.2.25", ["std", "yaml"]),
        package(NEW, "clap", "4.0.32", ["std", "help"]),
        package(PRE, "clap", "4.1.0-rc.1"),
        package(GIT, "gitted", "0.3.1"),
        package(LOG, "log", "0.4.17+extra", ["std", "std-extra", "a*b"]),
    ]
}

# The selected packages, the word, and what it names.
WORKED = [
    ([APP], "app", ("named", [(APP, None)])),
    ([APP], APP, ("named", [(APP, None)])),
    ([APP], "clap", ("several", [(OLD, None), (NEW, None), (PRE, None)])),
    ([APP], "clap@3", ("named", [(OLD, None)])),
    ([APP], "clap@4", ("named", [(NEW, None)])),
    ([APP], "clap@4.0.3", ("unknown",)),
    ([APP], "clap@4.1.0-rc.1", ("named", [(PRE, None)])),
    ([APP], "log@0.4.17", ("named", [(LOG, None)])),
    ([APP], "clap:3", ("named", [(OLD, None)])),
    ([APP], "clap:4", ("named", [(NEW, None)])),
    ([APP], "clap:", ("unknown",)),
    ([APP], "clap3", ("unknown",)),
    # as cargo 1.95 does with a dependency of a branch
    ([APP], GIT, ("named", [(GIT, None)])),
    ([APP], "https://host/repo#gitted", ("named", [(GIT, None)])),
    ([APP], "git+https://host/repo?branch=b#gitted", ("named", [(GIT, None)])),
    ([APP], "git+https://host/repo?branch=b#gitted@0.3", ("named", [(GIT, None)])),
    ([APP], "git+https://host/repo#gitted", ("unknown",)),
    ([APP], "https://host/repo?branch=b#gitted", ("unknown",)),
    ([APP], "git+https://host/repo?branch=b#0.3", ("unknown",)),
    ([APP], "git+https://host/repo?branch=main#gitted", ("unknown",)),
    ([APP], "file:///w/app", ("named", [(APP, None)])),
    ([APP], "file:///w/app#0.1", ("named", [(APP, None)])),
    ([APP], "file:///w/b#other", ("named", [(OTHER, None)])),
    ([APP], "file:///w/b", ("unknown",)),
    ([APP], "file:///w/app/tls", ("named", [(APP, "tls")])),
    ([APP], "clap::4", ("unknown",)),
    # a name in a spec; an id is cut at the last slash
    ([APP], "app/tls", ("named", [(APP, "tls")])),
    ([APP], APP + "/tls", ("named", [(APP, "tls")])),
    ([APP], "clap/std", ("several", [(OLD, "std"), (NEW, "std")])),
    ([APP], "clap/yaml", ("named", [(OLD, "yaml")])),
    ([APP], "clap@4/std", ("named", [(NEW, "std")])),
    ([APP], "nothing/std", ("unknown",)),
    ([APP], "app/", ("unknown",)),
    ([APP], "/tls", ("unknown",)),
    # optional dependencies, by the name that the features use
    ([APP], "app/dep:clap", ("named", [(APP, "dep:clap")])),
    ([APP], "app/dep:logger", ("named", [(APP, "dep:logger")])),
    ([APP], "app/dep:log", ("unknown",)),
    ([APP], "app/clap", ("unknown",)),
    ([APP], "app/dep:*", ("named", [(APP, "dep:clap"), (APP, "dep:logger")])),
    ([APP], "dep:clap", ("named", [(APP, "dep:clap")])),
    # a name alone: in the selected packages, else in all
    ([APP], "tls", ("named", [(APP, "tls")])),
    ([APP], "default", ("named", [(APP, "default")])),
    ([APP, OTHER], "default", ("several", [(APP, "default"), (OTHER, "default")])),
    ([OTHER, OTHER], "default", ("named", [(OTHER, "default")])),
    ([OTHER], "std", ("named", [(OTHER, "std")])),
    ([APP], "std", ("several", [(OTHER, "std"), (OLD, "std"), (NEW, "std"), (LOG, "std")])),
    ([APP], "help", ("named", [(NEW, "help")])),
    ([APP], "none", ("unknown",)),
    # stars
    ([APP], "app/*", ("named", [(APP, "default"), (APP, "tls"), (APP, "tls-native")])),
    ([APP], "app/tls*", ("named", [(APP, "tls"), (APP, "tls-native")])),
    ([APP], "app/*tls*", ("named", [(APP, "tls"), (APP, "tls-native")])),
    ([APP], "app/t*s*-*t*e", ("named", [(APP, "tls-native")])),
    ([APP], "app/*l*l*", ("unknown",)),
    ([APP], "clap/*", ("named", [(OLD, "std"), (OLD, "yaml"), (NEW, "help"), (NEW, "std")])),
    ([APP], "*", ("named", [(APP, "default"), (APP, "tls"), (APP, "tls-native")])),
    ([APP], "y*", ("named", [(OLD, "yaml")])),
    ([APP], "ap*", ("unknown",)),
    ([APP], "ap*/tls", ("unknown",)),
    ([APP], "log/a**b", ("named", [(LOG, "a*b")])),
]

# The selected packages, the word of a rule, and what it names.
WORKED_RULES = [
    ([APP], "clap", ("several", [(OLD, None), (NEW, None), (PRE, None)])),
    ([APP], "cl*", ("named", [(OLD, None), (NEW, None), (PRE, None)])),
    ([APP], "*", ("named", [(GIT, None), (APP, None), (OTHER, None), (OLD, None), (NEW, None), (PRE, None), (LOG, None)])),
    ([APP], "*@4", ("unknown",)),
    ([APP], "clap@4", ("named", [(NEW, None)])),
    ([APP], "clap@*", ("unknown",)),
    ([APP], "*/std", ("named", [(OTHER, "std"), (OLD, "std"), (NEW, "std"), (LOG, "std")])),
    ([APP], "*/tls", ("named", [(APP, "tls")])),
    ([APP], "*o*/std*", ("named", [(OTHER, "std"), (LOG, "std"), (LOG, "std-extra")])),
    ([APP], "*p/dep:*", ("named", [(APP, "dep:clap"), (APP, "dep:logger")])),
    ([APP], "clap/std", ("several", [(OLD, "std"), (NEW, "std")])),
    ([APP], "nothing*/std", ("unknown",)),
    # packages come before features
    ([APP], "tls*", ("named", [(APP, "tls"), (APP, "tls-native")])),
    ([APP], "y*", ("named", [(OLD, "yaml")])),
    ([APP], "", ("unknown",)),
]

# Packages with one version: one has the version of another with build metadata too, and the id of one is the word of another.
SAME, BUILD, TWIN, OTHER_TWIN, TAKEN, ODD = "r#same@1.0.0", "r#same@1.0.0+b", "r#twin@1.0.0", "g#twin@1.0.0", "r#taken@1.0.0", "taken@1.0.0"
ALIKE = {
    "packages": [package(SAME, "same", "1.0.0"), package(BUILD, "same", "1.0.0+b"), package(TWIN, "twin", "1.0.0"), package(OTHER_TWIN, "twin", "1.0.0"),
                 package(TAKEN, "taken", "1.0.0"), package(ODD, "odd", "1.0.0")]
}

# A document, the id of a package, and its word in a list of candidates.
WORKED_WORDS = [
    (DOCUMENT, OLD, "clap@3.2.25"),
    (DOCUMENT, PRE, "clap@4.1.0-rc.1"),
    (DOCUMENT, LOG, "log@0.4.17+extra"),
    (DOCUMENT, OTHER, "other@0.2.0"),
    (ALIKE, SAME, SAME),
    (ALIKE, BUILD, "same@1.0.0+b"),
    (ALIKE, TWIN, TWIN),
    (ALIKE, OTHER_TWIN, OTHER_TWIN),
    (ALIKE, TAKEN, TAKEN),
    (ALIKE, ODD, "odd@1.0.0"),
]


def main():
    passed = failed = 0
    for document, id, wanted in WORKED_WORDS:
        found = word_of(document, id)
        passed, failed = passed + (found == wanted), failed + (found != wanted)
        if found != wanted:
            print("the word of %s: %s, and not %s" % (id, found, wanted))
    rows = [(named, *row) for row in WORKED] + [(matching, *row) for row in WORKED_RULES]
    for model, selected, word, wanted in rows:
        found = outcome(DOCUMENT, selected, word, model)
        if found == wanted:
            passed += 1
        else:
            failed += 1
            print("%s: %s, and not %s" % (word, found, wanted))
    print("%d passed, %d failed" % (passed, failed))
    return failed != 0


if __name__ == "__main__":
    sys.exit(main())
