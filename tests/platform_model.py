#!/usr/bin/env python3
"""A reference model of platform specs, by docs/PLATFORMS.md and nothing else: which texts are specs, how a spec is printed, and
whether it holds for a target. It is written to be read.

    platform_model.py TRIPLE CFG-FILE SPEC...      prints for each spec what the part `platforms` of `guppy_vectors` prints of `spec SPEC`
    platform_model.py                              compares the model with cargo's answers in tests/targets/specs.txt

A spec is a tuple: ('platform', name), ('cfg', E); an E is ('fact', name, value or None), ('constant', bool), ('not', E),
('all', [E, ..]) or ('any', [E, ..]).
"""
import glob
import os
import sys

TARGETS = f'{os.path.dirname(os.path.abspath(__file__))}/targets'
OPERATORS = ('all', 'any', 'not')


class Malformed(Exception):
    """The text is no spec, or the line no fact."""


def begins_name(c):
    return c == '_' or c.isascii() and c.isalpha()


def continues_name(c):
    return begins_name(c) or c.isascii() and c.isdigit()


def tokens_of(text):
    """The tokens: '(', ')', ',' and '=', ('name', is raw, name), ('string', value). A text that has none next is malformed."""
    tokens, at = [], 0
    while at < len(text):
        c = text[at]
        at += 1
        if c == ' ':
            continue
        if c in '(),=':
            tokens.append(c)
        elif c == '"':
            end = text.find('"', at)
            if end < 0:
                raise Malformed
            tokens.append(('string', text[at:end]))
            at = end + 1
        elif begins_name(c):
            is_raw = text[at - 1:at + 1] == 'r#'
            first = at + 1 if is_raw else at - 1
            end = first
            while end < len(text) and (continues_name if end > first else begins_name)(text[end]):
                end += 1
            if end == first:
                raise Malformed
            tokens.append(('name', is_raw, text[first:end]))
            at = end
        else:
            raise Malformed
    return tokens


class Reader:
    def __init__(self, text):
        self.tokens = tokens_of(text)[::-1]

    def goes_on(self, token):
        return self.tokens[-1:] == [token]

    def skip(self, token):
        if self.goes_on(token):
            self.tokens.pop()
            return True
        return False

    def take(self, kind):
        token = self.tokens.pop() if self.tokens else None
        if token is None or token[0] != kind:
            raise Malformed
        return token

    def fact(self):
        name = self.take('name')[2]
        return ('fact', name, self.take('string')[1] if self.skip('=') else None)

    def parts(self):
        parts = []
        while not self.skip(')'):
            parts.append(self.expression())
            if not self.skip(','):
                self.take(')')
                break
        return parts

    def expression(self):
        operator = next((it for it in OPERATORS if self.skip(('name', False, it))), None)
        if operator is None:
            fact = self.fact()
            return ('constant', fact[1] == 'true') if fact[1:] in (('true', None), ('false', None)) else fact
        self.take('(')
        if operator != 'not':
            return (operator, self.parts())
        inner = self.expression()
        self.take(')')
        return ('not', inner)

    def end(self, value):
        if self.tokens:
            raise Malformed
        return value


def is_in_platform(c):
    return c.isalnum() or c in '_-.'


def parse(text):
    """The spec that the text spells."""
    if text.startswith('cfg(') and text.endswith(')'):
        reader = Reader(text[4:-1])
        return ('cfg', reader.end(reader.expression()))
    if not all(map(is_in_platform, text)):
        raise Malformed
    return ('platform', text)


def is_spec(text):
    try:
        parse(text)
    except Malformed:
        return False
    return True


# What ends an expression that was cut: behind a part or in a name, before one, in a value, before one, behind an operator's word.
ENDS = ('', 'a', '"', '""', '()', '(a)')


def is_begun(text):
    """Whether some spec begins with the text."""
    if not text.startswith('cfg('):
        return all(map(is_in_platform, text)) or 'cfg('.startswith(text)
    outside = ''.join(text.split('"')[::2])
    brackets = ')' * (outside.count('(') - outside.count(')'))
    return any(is_spec(text + end + brackets) for end in ENDS)


def place_of(text):
    """The byte up to which a malformed text begins a spec."""
    low, high = 0, len(text)
    while low < high:
        middle = (low + high + 1) // 2
        low, high = (middle, high) if is_begun(text[:middle]) else (low, middle - 1)
    return len(text[:low].encode())


def facts_of(text):
    """The facts of a cfg text, as a set of names and values."""
    facts = set()
    for line in text.split('\n'):
        line = line.removesuffix('\r')
        if line:
            reader = Reader(line)
            facts.add(reader.end(reader.fact())[1:])
    return facts


def is_true(expression, facts):
    kind = expression[0]
    if kind == 'fact':
        return expression[1:] in facts
    if kind == 'constant':
        return expression[1]
    if kind == 'not':
        return not is_true(expression[1], facts)
    return (all if kind == 'all' else any)(is_true(it, facts) for it in expression[1])


def holds(spec, triple, facts):
    return spec[1] == triple if spec[0] == 'platform' else is_true(spec[1], facts)


def shown(expression):
    """An expression as it is printed."""
    kind, first = expression[:2]
    if kind == 'fact':
        value = '' if expression[2] is None else f' = "{expression[2]}"'
        return ('r#' if first in OPERATORS else '') + first + value
    if kind == 'constant':
        return 'true' if first else 'false'
    return f'{kind}({", ".join(map(shown, [first] if kind == "not" else first))})'


def spec_shown(spec):
    return spec[1] if spec[0] == 'platform' else f'cfg({shown(spec[1])})'


class Target:
    def __init__(self, triple, text):
        self.triple, self.facts = triple, facts_of(text)

    def holds(self, text):
        return holds(parse(text), self.triple, self.facts)

    def answer(self, text):
        """What the part `platforms` of `guppy_vectors` prints of a spec."""
        try:
            spec = parse(text)
        except Malformed:
            return f'malformed at {place_of(text)}'
        return f'{"true" if holds(spec, self.triple, self.facts) else "false"} {spec_shown(spec)}'


def table_of(path):
    """Specs, each with the triples for which cargo uses it."""
    with open(path, encoding='utf-8') as it:
        lines = [line.split('\t') for line in it.read().splitlines() if not line.startswith('#')]
    return {spec: triples for spec, *triples in lines}


# Random specs. The numbers are those of a linear congruence, the same wherever they are drawn.

NAMES = 'unix windows true false r#unix r#true r#all all any not target_os feature test debug_assertions _x r2 r panic é Unix r# 1a'.split()
PAIRS = ['target_os = "linux"', 'target_os="windows"', 'target_family = "unix"', 'target_arch = "x86_64"', 'target_feature = "sse2"',
         'target_pointer_width = "32"', 'target_env = ""', 'feature = "std"', 'r#target_os = "linux"', 'true = "x"', 'all = "x"',
         'target_has_atomic = "ptr"', 'target_os = linux', 'target_vendor = "a\\b"', 'target_os = "macos', 'panic = "unwind"',
         'target_endian   =   "little"']
DAMAGES = ['', '(', ')', ',', '=', '"', ' ', '#', 'r#', 'x', '!', '-', '\t', '\\', '\u00a0', 'é']


class Numbers:
    def __init__(self, seed):
        self.state = seed

    def below(self, end):
        self.state = (self.state * 6364136223846793005 + 1442695040888963407) % 2 ** 64
        return (self.state >> 33) % end

    def one_of(self, items):
        return items[self.below(len(items))]


def random_expression(numbers, depth):
    way = numbers.below(20)
    if depth == 0 or way < 9:
        return numbers.one_of(PAIRS if numbers.below(2) else NAMES)
    space = numbers.one_of(['', '', ' ', '  '])
    if way < 12:
        return f'not{space}({random_expression(numbers, depth - 1)})'
    parts = [random_expression(numbers, depth - 1) for _ in range(numbers.one_of((0, 1, 2, 2, 3)))]
    return numbers.one_of(['all', 'any']) + space + '(' + f',{space}'.join(parts) + numbers.one_of(['', '', ',', ' ,']) + ')'


def random_spec(numbers, triples):
    """A spec, or in half of the cases a damaged one."""
    text = f'cfg({random_expression(numbers, numbers.below(4))})'
    if numbers.below(10) == 0:
        text = numbers.one_of([*triples, 'x86_64.json', 'my-target_1', 'ünix', 'a b', 'cfg (unix)'])
    for _ in range(numbers.one_of((0, 0, 1, 2))):
        at = numbers.below(len(text) + 1)
        text = text[:at] + numbers.one_of(DAMAGES) + text[at + numbers.below(2):]
    return text


def random_specs(count, seed):
    numbers, triples = Numbers(seed), sorted(os.path.basename(it)[:-4] for it in glob.glob(f'{TARGETS}/*.cfg'))
    return [random_spec(numbers, triples) for _ in range(count)]


def changes_of(text):
    """The text cut at each character, and changed there: a character left out, doubled, or another one put before it."""
    for at in range(len(text) + 1):
        yield text[:at]
        yield text[:at] + text[at + 1:]
        for it in (text[at:at + 1], ',', '\t', '\\', '"', ' ', '('):
            yield text[:at] + it + text[at:]


def main():
    if len(sys.argv) > 2:
        with open(sys.argv[2], encoding='utf-8') as it:
            target = Target(sys.argv[1], it.read())
        for text in sys.argv[3:]:
            print(target.answer(text))
        return 0
    table, passed, failed = table_of(f'{TARGETS}/specs.txt'), 0, 0
    for path in sorted(glob.glob(f'{TARGETS}/*.cfg')):
        triple = os.path.basename(path)[:-4]
        with open(path, encoding='utf-8') as it:
            target = Target(triple, it.read())
        for text, triples in table.items():
            same = target.holds(text) == (triple in triples)
            passed, failed = passed + same, failed + (not same)
            if not same:
                print(f'{text} for {triple}: another answer than cargo\'s')
    print(f'{passed} passed, {failed} failed')
    return 1 if failed else 0


if __name__ == '__main__':
    sys.exit(main())
