"""Documents for the tests of `feats report`: the sample, one of 969 packages, and one whose names try to break out of a page."""
import json
import sys

from plan_files import TOP

sys.path.append(str(TOP / 'bench'))

import gen_document

SAMPLE = TOP / 'examples/cli.metadata.json'
# The words of the sample's page, docs/report.html.
WORDS = ['--workspace']
# The number of copies of the sample's packages that have 969 packages.
COPIES = 17
# Names of packages and features that a page, a script, a shell, an address or a terminal may read as its own. None is `default`.
HOSTILE = ('</script><script>window.bad = 1</script>', '</ScRiPt ><b>', '<img src=x onerror="window.bad = 1">', '<svg onload=window.bad=1>', '<!-- <script>', ']]>',
           '"quotes\' and `ticks`', 'a&lt;b&amp;c', '\\u003cb\\u003e', '${window.bad = 1}', 'javascript:window.bad=1', 'two\u2028lines\u2029more', 'new\nline\r\ttab',
           '\x1b[31mred\x7f\x85', '\u202egnp.exe', 'שלום\u200f\u200e', '\u2066x\u2069', '__proto__', 'constructor', 'toString', '%3Cb%3E%00%', 'a b+c', 'n@1#z?view=drawing&x',
           'id:x', 'DATA', 'é😀', '0', '-', "';--")
SPEC = 'cfg(not(target_os = "</script><img src=x onerror=window.bad=1>"))'


def sample():
    return json.loads(SAMPLE.read_text())


def large():
    return gen_document.copies_of(sample(), COPIES)


def hostile():
    """A member that depends on a package for each name. Each has a feature for each name: its default feature turns on those that an item can
    name, and the member asks some packages for all."""
    features = {'default': [name for name in HOSTILE if '/' not in name], **{name: [] for name in HOSTILE}}
    packages = [gen_document.Package(f'{name}.', [], features) for name in HOSTILE]
    declared = [gen_document.Declaration(it.name, HOSTILE if ix % 2 else (), SPEC if ix % 3 else None) for ix, it in enumerate(packages)]
    document = gen_document.document_of([gen_document.member(declared, features, HOSTILE[0]), *packages])
    for node in document['resolve']['nodes']:
        for it in node['deps']:
            it['name'] = it['name'].replace('-', '_')
    return document
