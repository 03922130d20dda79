"""Opens pages of `cargo feats report` in Chromium and compares what they show with their data. The ids that are read here are listed at the head
of lib/cargo-feats/report.html.

Names of a page are compared as it shows them: characters that can't be seen are written by their numbers.
"""
import base64
import hashlib
import json
import re
import unicodedata
from collections import Counter
from urllib.parse import quote

from plan_files import HOST
from report_documents import HOSTILE, SPEC
from report_model import safe
from report_script import TEMPLATE, outcome, page_of, quoted


def shown(text):
    """A text as the page shows it."""
    return ''.join(f'\\u{{{ord(it):x}}}' if unicodedata.category(it) in ('Cc', 'Cf', 'Cs', 'Zl', 'Zp') or it != ' ' and unicodedata.category(it) == 'Zs' else it for it in text)


def part_of(spot):
    return spot['package'], spot['feature'], spot['dependency'], spot['side']


def end_of(spot):
    """The end of a part's label: the feature or the dependency, and the side of the host."""
    name = '' if spot['feature'] is spot['dependency'] is None else f'/{shown(spot["feature"])}' if spot['feature'] is not None else f'/dep:{shown(spot["dependency"])}'
    return name + (' (host)' if spot['side'] == 'host' else '')


def spot_of(step):
    """The part of a step, as `from` and `gate` of another step have it."""
    return {name: step[name] for name in ('package', 'feature', 'dependency', 'side')}


def feature_of(spot):
    """The name of a feature, an optional dependency or the package itself in the table of a package's features."""
    if spot['dependency'] is not None:
        return f'dep:{shown(spot["dependency"])}'
    return 'the package itself' if spot['feature'] is None else shown(spot['feature'])


def address_of(spot):
    """An address of a part that names its package by the id."""
    name = f'{spot["feature"] or ""}' if spot['dependency'] is None else f'dep:{spot["dependency"]}'
    part = f'dep:{quote(spot["dependency"], safe="")}' if spot['dependency'] is not None else quote(name, safe='')
    return f'#id:{quote(spot["package"], safe="")}/{part}?side={spot["side"]}'


class Shown:
    """A page in the browser, with its data and the place of its file."""

    def __init__(self, page, path, data, *line):
        self.page, self.path, self.data = page, path, data
        path.write_text(page_of(data, *line), encoding='utf-8')
        self.value = json.loads(data)
        self.places = {part_of(it): ix for ix, it in enumerate(self.value.get('steps', []))}

    def open(self, address=''):
        self.page.messages.clear()
        self.page.requests.clear()
        self.page.open(self.path, address)

    def go(self, address):
        """Goes to an address of the page, and waits for its view."""
        self.page.value(f'new Promise((done) => {{ const before = location.href; addEventListener("hashchange", () => setTimeout(done), {{ once: true }}); '
                        f'location.hash = {json.dumps(address)}; if (location.href === before) done(); }})')

    def get(self, expression):
        return self.page.value(expression)

    def view(self):
        return self.get('document.getElementById("view").dataset.view')

    def texts(self, selector):
        return self.get(f'[...document.querySelectorAll({json.dumps(selector)})].map((it) => it.textContent)')

    def count(self, selector):
        return len(self.texts(selector))

    def check(self):
        return self.get('document.getElementById("check").dataset.state')

    def press(self, *keys):
        for it in keys:
            self.page.key(it)

    def settle(self):
        self.get('new Promise((done) => requestAnimationFrame(() => setTimeout(done)))')

    def walk(self, ix):
        """The steps from one back to the selection."""
        steps, walk = self.value['steps'], [ix]
        while (start := steps[walk[-1]]['from']) is not None:
            walk.append(self.places[part_of(start)])
        return [steps[it] for it in walk]

    def longest(self):
        """The place of the step whose walk back is the longest."""
        lengths = []
        for it in self.value['steps']:
            lengths.append(1 + (-1 if it['from'] is None else lengths[self.places[part_of(it['from'])]]))
        return lengths.index(max(lengths))


def opened(it, name):
    """Yields the outcomes of loading a page: no message, no other request, the check, the summary, and the focus."""
    it.open()
    yield outcome(f'{name}: no message on the console', it.page.messages, [])
    yield outcome(f'{name}: no other request', it.page.requests, [f'file://{it.path}'])
    yield outcome(f'{name}: the check passes', (it.check(), it.texts('#view h1')[0].split(', ')[-1]), ('passed', 'a reason for each'))
    yield outcome(f'{name}: the summary', (it.view(), it.get('document.activeElement.id')), ('summary', 'search'))
    found = [[cell.replace(',', '') for cell in row] for row in it.get('[...document.querySelectorAll("#places tbody tr")].map((it) => [...it.cells].map((it) => it.textContent))')]
    packages, features = Counter(), Counter()
    for unit in it.value['units']:
        packages[unit['place']] += 1
        features[unit['place']] += len(unit['features'])
    yield outcome(f'{name}: counts by place', found, [[shown(place), str(packages[place]), str(features[place])] for place in packages])


def worded(it, name, words):
    """Yields the outcomes of the command and the platform above each view, which are text alone."""
    wanted = [*(shown(quoted(word)) for word in ['report', *words]), HOST]
    for address in ('', '#packages', '#no-such@1.0.0'):
        it.go(address)
        found = it.texts('#words bdi'), it.count('#words :not(bdi, code)'), it.get('document.getElementById("words").getClientRects().length')
        yield outcome(f'{name}: the words at {address!a}', found, (wanted, 0, 1))
    yield outcome(f'{name}: the words as a line', it.texts('#words'), [f'cargo feats {" ".join(wanted[:-1])} · target and host: {HOST}'])


def packages_of(it):
    """The packages of units, each with its name and version."""
    return {unit['package']: unit for unit in it.value['units']}


def searched(it, name, word):
    """Yields the outcomes of a search by keys alone."""
    it.go('')
    it.page.type(word)
    wanted = {f'{shown(unit["name"])} {unit["version"]}' for unit in packages_of(it).values() if word in f'{unit["name"]}@{unit["version"]}'.lower()}
    found = [text for text in it.texts('#results .row') if '/' not in text]
    yield outcome(f'{name}: packages that are found by {word}', (sorted(set(found[:40]) - wanted), len(found) > 0), ([], True))
    it.press('ArrowDown', 'Enter')
    it.settle()
    yield outcome(f'{name}: the first one by its key', (it.view(), (it.texts('#view h1') or [''])[0].split('/')[0]), ('package', found[0]))
    it.press('Escape')
    it.page.until('document.getElementById("view").dataset.view === "summary"')
    yield outcome(f'{name}: the way back by a key', it.view(), 'summary')
    it.press('/', 'n', 'o', 't', 'h', 'i', 'n', 'g', 'x')
    yield outcome(f'{name}: nothing is found', (it.count('#results .row'), it.get('document.getElementById("results").textContent !== ""')), (0, True))
    it.press('Escape')
    yield outcome(f'{name}: an empty field', (it.get('document.getElementById("search").value'), it.get('document.getElementById("results").hidden')), ('', True))


def package_shown(it, name, id):
    """Yields the outcomes of a package's view: its features, on and off, with their items."""
    it.go(f'#id:{quote(id, safe="")}')
    lines = [line for line in it.value['features'] if line['package'] == id]
    unit = packages_of(it)[id]
    yield outcome(f'{name}: the title of {unit["name"]!a}', (it.view(), it.texts('#view h1')), ('package', [f'{shown(unit["name"])} {unit["version"]}']))
    on = [step for step in it.value['steps'] if step['package'] == id]
    wanted = {**{feature_of(line): False for line in lines}, **{feature_of(step): True for step in on}}
    rows = it.get('[...document.querySelectorAll("#features tbody tr:not(.more-row)")]'
                  '.map((it) => [it.cells[0].textContent, [...it.cells].slice(1, -1).some((cell) => cell.textContent !== "off")])')
    yield outcome(f'{name}: the features of {unit["name"]!a}', sorted(map(tuple, rows)), sorted(wanted.items()))


# Declarations in words.

def few(items, most=12, mark=', '):
    return mark.join(items[:most]) + (f' and {len(items) - most} more' if len(items) > most else '')


def declaration_words(line, name):
    """A declaration that leads to a package with a name."""
    words = ['optional' if line['optional'] else 'required', '' if line['dependency'] == name else f'as {shown(line["dependency"])}',
             {'build': 'for builds', 'dev': 'for development'}.get(line['kind']), line['platform'] and f'for {shown(line["platform"])}',
             '' if line['default-features'] else 'without default features', line['features'] and f'with {few(list(map(shown, line["features"])))}']
    return ', '.join(it for it in words if it)


def declared(it, id, to, counts=lambda line: True):
    """The end of a row that has the declarations by which a package depends on another."""
    lines = [declaration_words(line, packages_of(it)[to]['name']) for line in it.value.get('declarations', [])
             if (line['package'], line['to']) == (id, to) and counts(line)]
    return f' · {few(lines, 6, "; ")}' if lines else ''


def through(it, step):
    """The end of a row in a walk back: the declarations by which a package leads to a part of another one."""
    start, is_split = step['from'], any(it['side'] == 'host' for it in it.value['steps'])
    if step['reason'] not in ('depends', 'asks') or not {start['package'], step['package']} <= set(packages_of(it)):
        return ''

    def counts(line):
        is_default = step['feature'] == 'default' and line['default-features']
        is_for = not step['platforms'] or line['platform'] in step['platforms']
        if not is_for or line['kind'] == 'build' and is_split and step['side'] == 'target':
            return False
        half = line['dependency'] if line['optional'] else None
        return start['feature'] is not None or half == start['dependency'] and (step['reason'] == 'depends' or is_default or step['feature'] in line['features'])

    return declared(it, start['package'], step['package'], counts)


def dependencies_shown(it, name, id):
    """Yields the outcomes of what depends on a package, and on what it depends, with the declarations."""
    it.go(f'#id:{quote(id, safe="")}')
    units = it.value['units']
    own = {ix for ix, unit in enumerate(units) if unit['package'] == id}
    for selector, ends in (('#dependents', {a: b for a, b in it.value['links'] if b in own}), ('#dependencies', {b: a for a, b in it.value['links'] if a in own})):
        wanted = []
        for unit in map(units.__getitem__, ends):
            both = (unit['package'], id) if selector == '#dependents' else (id, unit['package'])
            wanted.append(f'{shown(unit["name"])} {unit["version"]} {unit["place"]}{declared(it, *both)}')
        yield outcome(f'{name}: {selector} of {id!a}', sorted(it.texts(f'{selector} li')), sorted(wanted))


def declaring(page, path, data):
    """Yields the outcomes of declarations of each sort, with hostile names, in place of those between two packages; and of none."""
    value = json.loads(data)
    step = next(it for it in value['steps'] if it['reason'] == 'depends' and it['from']['dependency'] is not None and it['side'] == 'target')
    both = {'package': step['from']['package'], 'to': step['package']}
    plain = {'dependency': step['from']['dependency'], 'kind': 'normal', 'optional': True, 'platform': None, 'default-features': True, 'features': []}
    changes = [{}, {'optional': False}, {'kind': 'build'}, {'kind': 'dev', 'optional': False}, {'platform': 'cfg(unix)'}, {'default-features': False, 'features': list(HOSTILE)}]
    more = [{'dependency': HOSTILE[0], 'kind': 'build', 'platform': SPEC, 'features': [HOSTILE[2]]}]
    for those in (changes, more, [{'platform': it} for it in HOSTILE]):
        value['declarations'] = [{**both, **plain, **it} for it in those]
        it = Shown(page, path, safe(json.dumps(value)))
        it.open()
        yield outcome('the check with other declarations', (it.check(), it.page.messages), ('passed', []))
        for id in both.values():
            yield from dependencies_shown(it, f'{len(those)} declarations', id)
        yield from walked(it, f'{len(those)} declarations', value['steps'].index(step))
    value['declarations'] = [{**both, **plain, **it} for it in changes]
    it = Shown(page, path, safe(json.dumps(value)))
    it.open(f'#id:{quote(both["package"], safe="")}')
    text = next(text for text in it.texts('#dependencies li') if ' · ' in text).partition(' · ')[2]
    begin = 'optional; required; optional, for builds; required, for development; optional, for cfg(unix); optional, without default features, with '
    yield outcome('declarations in words', text[:len(begin)], begin)
    del value['declarations']
    it = Shown(page, path, safe(json.dumps(value)))
    it.open()
    yield outcome('the check without declarations', (it.check(), it.page.messages), ('passed', []))
    yield from dependencies_shown(it, 'no declarations', both['package'])
    yield from walked(it, 'no declarations', value['steps'].index(step))


def walked(it, name, ix):
    """Yields the outcomes of a walk back to the selection."""
    step = it.value['steps'][ix]
    it.go(address_of(step))
    wanted = [end_of(one) for one in it.walk(ix)]
    found = it.texts('#walk .row')
    is_right = len(found) == len(wanted) and all(text.endswith(end) for text, end in zip(found, wanted))
    yield outcome(f'{name}: the walk back from {step["package"]!a} {end_of(step)!a}', (it.view(), is_right or f'{found}, wanted {wanted}'), ('part', True))
    wanted_declarations = [through(it, one) for one in it.walk(ix)]
    declarations = [' · '.join(['', *text.split(' · ')[2:]]) for text in it.texts('#walk li')]
    yield outcome(f'{name}: the declarations on this walk', declarations, wanted_declarations)
    if len(wanted) > 1:
        before = it.get('location.hash')
        it.get('document.querySelectorAll("#walk .row")[1].focus()')
        it.press('Enter')
        it.page.until(f'location.hash !== {json.dumps(before)}')
        it.settle()
        yield outcome(f'{name}: a link of the walk', (it.view(), it.count('#walk .row')), ('part', len(wanted) - 1))


def drawn(it, name, address):
    """Yields the outcomes of a drawing: a click moves on, and so do keys."""
    it.go(f'{address}{"&" if "?" in address else "?"}view=drawing')
    yield outcome(f'{name}: the drawing of {address[:60]!a}', (it.view(), it.count('#drawing a.middle'), it.count('#drawing a') > 1), ('drawing', 1, True))
    before = it.get('location.hash')
    box = it.get('(() => { const it = [...document.querySelectorAll("#drawing a:not(.middle) rect")].at(-1); it.scrollIntoView({ block: "center", inline: "center" }); '
                 'const { x, y, width, height } = it.getBoundingClientRect(); return [x + width / 2, y + height / 2, it.parentNode.getAttribute("href")]; })()')
    for kind in ('mousePressed', 'mouseReleased'):
        it.page.call('Input.dispatchMouseEvent', type=kind, x=box[0], y=box[1], button='left', clickCount=1)
    it.page.until(f'location.hash !== {json.dumps(before)}')
    it.settle()
    yield outcome(f'{name}: a click moves the drawing on', (it.view(), it.get('location.hash') == box[2], it.count('#drawing a.middle')), ('drawing', True, 1))
    it.get('document.querySelector("#drawing a.middle").focus()')
    keys = ['ArrowLeft'] if it.get('document.querySelector("#drawing a").classList.contains("middle")') is False else ['ArrowRight']
    it.press(*keys)
    yield outcome(f'{name}: a key moves in the drawing', it.get('document.activeElement.closest("#drawing") !== null && !document.activeElement.classList.contains("middle")'), True)


def addressed(it, name, address, view):
    """Yields the outcome of a page that is opened at an address, and of the way to another address and back."""
    it.open(address)
    yield outcome(f'{name}: opened at {address!a}', (it.view(), it.page.messages), (view, []))
    title = it.get('document.title')
    it.go('#packages')
    yield outcome(f'{name}: the table of packages', (it.view(), it.count('#package-table tbody tr') > 0), ('packages', True))
    it.get('history.back()')
    it.page.until(f'document.getElementById("view").dataset.view === {json.dumps(view)}')
    yield outcome(f'{name}: back at {address!a}', it.get('document.title'), title)


def tabled(it, name):
    """Yields the outcomes of the table of packages: filters and orders."""
    it.go('#packages')
    units = it.value['units']
    word = min(units, key=lambda unit: (len(unit['name']), unit['name']))['name'].lower()
    it.get(f'(() => {{ const it = document.getElementById("filter-name"); it.value = {json.dumps(word)}; it.dispatchEvent(new Event("input")); }})()')
    wanted = sum(word in f'{unit["name"]} {unit["version"]}'.lower() for unit in units)
    yield outcome(f'{name}: a filter by the name {word!a}', it.texts('#package-count')[0].split(' ')[0].replace(',', ''), str(wanted))
    it.go('#packages?sort=features&down=1')
    numbers = [len(unit['features']) for unit in sorted(units, key=lambda unit: -len(unit['features']))][:1]
    first = it.get('document.querySelector("#package-table tbody .row").textContent')
    labels = {f'{shown(unit["name"])} {unit["version"]}' for unit in units if [len(unit['features'])] == numbers}
    yield outcome(f'{name}: the package with most features', first in labels or f'{first} is none of {labels}', True)


def changed(data):
    """Yields data that isn't right: its name, and its text."""
    def text(change):
        value = json.loads(data)
        change(value)
        return json.dumps(value)

    def own(value, test):
        return next(ix for ix, it in enumerate(value['steps']) if test(it))

    yield 'steps in the wrong order', text(lambda it: it['steps'].reverse())
    yield 'a step twice', text(lambda it: it['steps'].append(it['steps'][0]))
    yield 'no step for the first part', text(lambda it: it['steps'].pop(0))
    yield 'no step for the last part', text(lambda it: it['steps'].pop())
    yield 'a reason that begins nowhere', text(lambda it: it['steps'][own(it, lambda step: step['reason'] == 'turns-on')].update({'from': None}))
    yield 'a gate that is later', text(lambda it: it['steps'][0].update({'gate': spot_of(it['steps'][-1])}))
    yield 'a feature without a reason', text(lambda it: it['units'][0]['features'].append('more'))
    yield 'a feature that is listed as on', text(lambda it: next(line for line in it['features'] if not line['sides']).update({'sides': ['target']}))
    yield 'a feature that is listed as off', text(lambda it: next(line for line in it['features'] if 'target' in line['sides'])['sides'].remove('target'))
    for end in ('package', 'to'):
        yield f'a declaration whose `{end}` isn’t built', text(lambda it: it['declarations'][0].update({end: 'path+file:///a#other@1.0.0'}))
    yield 'a link to no unit', text(lambda it: it['links'].append([0, len(it['units'])]))


def waiting(page, path, data):
    """Yields the outcomes of a reason with a gate, which is at an earlier step: the check, the walk back, the gate's own view, and the drawing."""
    value = json.loads(data)
    step = next(it for it in reversed(value['steps']) if it['reason'] == 'turns-on' and it['feature'] is not None)
    gate = next(it for it in value['steps'] if it['dependency'] is not None and part_of(it) != part_of(step['from']))
    step['gate'] = spot_of(gate)
    it = Shown(page, path, json.dumps(value))
    it.open(address_of(step))
    yield outcome('the check with a gate', (it.check(), it.page.messages), ('passed', []))
    yield outcome('the walk back with a gate', end_of(gate) in it.texts('#walk li')[0].partition(', as ')[2], True)
    it.go(address_of(gate))
    yield outcome('what waited for a gate', [text.endswith(end_of(step)) for text in it.texts('#waited .row')], [True])
    it.go(f'{address_of(gate)}&view=drawing')
    yield outcome('the drawing of a gate', (it.view(), it.count('#drawing path.gate')), ('drawing', 1))


def refused(page, path, data):
    """Yields the outcomes of wrong data: the page says so at its foot, or that there is nothing to show."""
    for name, text in changed(data):
        it = Shown(page, path, text)
        it.open()
        found = it.check(), it.texts('#view h1')[0].partition('; ')[2], it.count('#words'), it.page.messages
        yield outcome(f'the check with {name}', found, ('failed', 'the check failed', 0, []))
    for name, text in (('no data', ''), ('the template', 'DATA'), ('another version', '{"version":1}'), ('an array that lacks', '{"version":2,"units":[]}'),
                       ('no JSON', '{"version":2'), ('other values', '{"version":2,"units":[1],"roots":[],"links":[],"steps":[],"features":[],"specs":[]}')):
        path.write_text(page_of(f'{text}\n'), encoding='utf-8')
        page.open(path)
        found = page.value('[document.getElementById("check").dataset.state, document.getElementById("view").dataset.view]')
        yield outcome(f'a page with {name}', found, ['none', 'unreadable'])


def unbroken(it):
    """Yields the outcomes of names that try to break out: the page shows each as text, and makes no element or script of it."""
    elements = '[document.scripts.length, document.querySelectorAll("img, iframe, object, embed, link, base, form").length, typeof window.bad]'
    names = {unit['package']: unit['name'] for unit in it.value['units']}
    for id, name in names.items():
        it.go(f'#id:{quote(id, safe="")}')
        yield outcome(f'the name {name!a}', (it.texts('#view h1'), it.get(elements)), ([f'{shown(name)} 1.0.0'], [2, 0, 'undefined']))
    wanted = sorted(shown(it) for it in [*HOSTILE, 'default'])
    found = [sorted(text for text in it.texts('#features tbody .row') if text != 'the package itself')]
    yield outcome('the names of features', found, [wanted])
    for name in HOSTILE:
        step = next(step for step in it.value['steps'] if step['feature'] == name and step['from'] is not None)
        it.go(address_of(step))
        found = (it.view(), it.texts('#walk .row')[:1], it.get(elements))
        is_right = found[1] and found[1][0].endswith(f'/{shown(name)}')
        yield outcome(f'the feature {name!a}', (found[0], is_right or found, found[2]), ('part', True, [2, 0, 'undefined']))
    it.go('')
    for name in HOSTILE[:4]:
        it.get(f'(() => {{ const it = document.getElementById("search"); it.value = {json.dumps(name)}; it.dispatchEvent(new Event("input")); }})()')
        yield outcome(f'the search for {name!a}', (it.count('#results .row') > 0, it.get(elements)), (True, [2, 0, 'undefined']))
    yield outcome('no message after all names', it.page.messages, [])


def policy():
    """Yields the outcome of the policy in the page: it allows the one script by its hash, and nothing from elsewhere."""
    found = re.search(r'<meta http-equiv="Content-Security-Policy" content="([^"]*)">', TEMPLATE)[1]
    rules = dict(it.strip().partition(' ')[::2] for it in found.split(';'))
    script = TEMPLATE[TEMPLATE.rindex('<script>') + len('<script>'):TEMPLATE.rindex('</script>')]
    sum = base64.b64encode(hashlib.sha256(script.encode()).digest()).decode()
    yield outcome('the policy', (rules['default-src'], rules['script-src']), ("'none'", f"'sha256-{sum}'"))
    lines = TEMPLATE.split('\n')
    yield outcome('one line for the data', (lines.count('DATA'), lines[lines.index('DATA') - 1:lines.index('DATA') + 2]),
                  (1, ['<script type="application/json" id="data">', 'DATA', '</script>']))
    yield outcome('the length of the template', len(lines) <= 901, True)


def looks(it):
    """Yields the outcomes of light and dark colours, and of the printed page."""
    it.open()
    colour = 'getComputedStyle(document.documentElement).backgroundColor'
    colours = []
    for scheme in ('light', 'dark'):
        it.page.colours(scheme)
        colours.append(sum(map(int, re.findall(r'\d+', it.get(colour))[:3])))
    it.page.colours('light')
    yield outcome('light and dark', (colours[0] > 600, colours[1] < 200), (True, True))
    it.page.call('Emulation.setEmulatedMedia', media='print')
    yield outcome('the header of the printed page', it.get('getComputedStyle(document.querySelector("header")).display'), 'none')
    it.page.call('Emulation.setEmulatedMedia', media='')


def differing(page, path, data):
    """Yields the outcomes of the page of `diff --report`."""
    it = Shown(page, path, data)
    it.open()
    kinds = [one['difference'] for one in it.value['differences']]
    found = [it.count(f'#{id} tbody tr') for id in ('comes', 'goes', 'changes')]
    wanted = [sum(it in those for it in kinds) for those in (['comes'], ['goes'], ['version', 'features'])]
    yield outcome('the page of differences', (it.view(), found, it.page.messages, it.page.requests), ('differences', wanted, [], [f'file://{path}']))
    name = it.value['differences'][0]['name']
    it.page.type(name)
    it.settle()
    rows = it.texts('#comes tbody tr, #goes tbody tr, #changes tbody tr')
    yield outcome('a search in differences', (0 < len(rows) < sum(wanted), [row for row in rows if name not in row]), (True, []))
