"""Trees of about 1,000 levels and more, where `feats tree` ends without `--depth`: documents of bench/gen_document.py, with the graphs of their
packages and features. The graphs need no plan, because everything in these documents is on.
"""
import sys
from pathlib import Path
from typing import NamedTuple

sys.dont_write_bytecode = True
sys.path.append(str(Path(__file__).resolve().parent.parent / 'bench'))

import gen_document
import tree_model


class Deep(NamedTuple):
    """A document with the graph of its tree, the words that ask for this tree, and the word and the node of the root of an inverted tree."""
    name: str
    document: dict
    graph: tree_model.Graph
    words: list
    last: str
    last_node: str


def graph_of(titles, links, roots, details):
    """Returns the graph of nodes, which are in the order of `titles`."""
    return tree_model.Graph(list(titles), links, roots, titles, details, [], {it: number for number, it in enumerate(titles)})


def chain(n, more=()):
    """Returns a member `a` and N packages. Each package depends on the next, and the member on p0 and on the packages with the numbers `more`."""
    first, *others = gen_document.chain(n)
    first.declarations.extend(gen_document.Declaration(f'p{i}') for i in more)
    document = gen_document.document_of([first, *others])
    ids = {it['name']: it['id'] for it in document['packages']}
    nodes = sorted(ids, key=lambda it: ids[it].encode())
    links = {('a', 'p0'), *(('a', f'p{i}') for i in more), *((f'p{i}', f'p{i + 1}') for i in range(n - 1))}
    details = {it: {'package': ids[it], 'name': it, 'version': '1.0.0', 'place': 'target'} for it in nodes}
    graph = graph_of({it: f'{it} 1.0.0' for it in nodes}, links, {'a'}, details)
    return Deep(f'chain of {n} packages and {more}', document, graph, [], f'p{n - 1}', f'p{n - 1}')


def feature_chain(n):
    """Returns a member `a` with N features. Each feature turns on the next, and the default feature turns on the first."""
    document = gen_document.family_of('feature-chain', n)
    names = sorted(document['packages'][0]['features'], key=str.encode)
    titles = {name: f'a/{name}' if name else 'a' for name in ['', *names]}
    links = {*((name, '') for name in names), ('default', 'f0'), *((f'f{i}', f'f{i + 1}') for i in range(n - 1))}
    package = {'package': document['packages'][0]['id'], 'name': 'a', 'version': '1.0.0'}
    details = {it: {**package, 'feature': it or None, 'dependency': None, 'side': 'target'} for it in titles}
    graph = graph_of(titles, links, {'', 'default'}, details)
    return Deep(f'chain of {n} features', document, graph, ['-e', 'features'], f'a/f{n - 1}', f'f{n - 1}')


def deep_trees():
    """Yields chains that end at the depth of 1,000, below it and above it, and chains whose end is also reached by a shorter path."""
    yield from (chain(n) for n in (1000, 1001, 1200))
    yield chain(1200, [999])
    yield chain(1200, [1000])
    yield from (feature_chain(n) for n in (998, 999, 1000, 1200))


def answers():
    """Yields for each tree its name, the document, the words of `feats tree`, and the expected text."""
    for it in deep_trees():
        for turned, wanted in (([], None), (['-i', it.last], {it.last_node})):
            for limit in (None, 1000, 2000):
                depth = [] if limit is None else ['--depth', str(limit)]
                words = [*it.words, *turned, *depth]
                yield it.name, it.document, words, tree_model.tree_text(it.graph, wanted, limit)
                yield it.name, it.document, [*words, '--format', 'json'], tree_model.tree_objects(it.graph, wanted, limit)
