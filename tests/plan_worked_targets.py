"""The worked rows of docs/PLANS.md about words that choose targets. plan_worked.py says how a row is written."""
from plan_workspaces import BUILD, DEV, Declared, Package, Target
from plan_worked_rows import LEAF, Row, Worked, leaf, member

TARGETS = [Target('bin', 'run'), Target('bin', 'rare', ('f',)), Target('example', 'demo'), Target('test', 'it'), Target('bench', 'fast')]
MACRO_EXAMPLE = Target('example', 'one', lines=('crate-type = ["proc-macro"]',))
PLAIN, WITH_DEV = 'target a; target leaf', 'target a; target leaf x'

WORKED = [
    Worked('targets', 'words choose targets; dependencies for development count if examples, tests or benchmarks are among them', [
        member('a', leaf(), leaf('x', table=DEV), features={'f': []}, targets=TARGETS), member('b', leaf('y')),
        member('c', library=None, targets=[Target('bin', 'c')]), Package('ext/tested', 'tested', declared=[leaf('z', table=DEV)]),
        member('d', Declared('ext/tested')), LEAF,
    ], [
        *(Row(f'-p a {words}'.strip(), PLAIN) for words in ('', '--lib', '--bins', '--bin run', '--bin r*n', '--bins --bin rare', '--bins --bin nobody', '--lib --bin run')),
        *(Row(f'-p a {words}', WITH_DEV) for words in (
            '--examples', '--example demo', '--command build --tests', '--test it', '--benches', '--bench fast', '--all-targets', '--lib --examples',
            '--command test', '--command test --lib', '--command test --bin run', '--command test --tests', '--all-targets --bin nobody')),
        *(Row(f'-p a {words}', 'refused') for words in ('--bin rare', '--bin r*', '--bin nobody', '--example run', '--test demo', '--bench *x', '--bin run --bin nobody')),
        Row('-p a --bin rare -F f', 'target a f; target leaf'),
        Row('-p a -p b --bin run', 'target a; target leaf y'),
        Row('-p a -p b --lib --test it', 'target a; target b; target leaf x y'),
        Row('-p b --bins', ''),
        Row('-p b --examples', ''),
        Row('-p c --lib', 'refused'),
        Row('-p b -p c --lib', 'target b; target leaf y'),
        Row('-p c --all-targets', 'target c'),
        Row('-p leaf --lib', 'target leaf y'),
        Row('-p d -p tested --command build --tests', 'target d; target tested'),
        Row('-p d -p tested --command test', 'refused'),
        Row('-p a --bin ?un', 'refused', cargo=PLAIN, differs='a star is the only sign of a pattern'),
        Row('-p a --example d**', WITH_DEV, cargo='refused', differs='two stars together are no pattern of cargo'),
        Row('-p a --command build --tests', WITH_DEV, '1'),
        Row('-p a --bin run', WITH_DEV, '1'),
    ]),
    Worked('benchmarks', 'a document doesn\'t say which targets have benchmarks', [
        member('a', leaf(), library_lines=['bench = false']), member('b', leaf(), targets=[Target('example', 'one', lines=('bench = true',))], library_lines=['bench = false']), LEAF,
    ], [
        Row('-p a --benches', PLAIN, cargo='', differs='the document does not say that the library has no benchmarks'),
        Row('-p a --all-targets', PLAIN),
        Row('-p b --benches', 'target b; target leaf'),
    ]),
    Worked('macro-example-required', 'a feature of a dependency that a target requires must be on for the host, if an example of the dependency is a procedural macro', [
        member('a', Declared('ext/m', ('f',)), targets=[Target('bin', 'run', ('m/f',))]),
        member('b', Declared('ext/m'), Declared('ext/m', ('f',), table=BUILD), has_script=True, targets=[Target('bin', 'run', ('m/f',))]),
        Package('ext/m', 'm', features={'f': []}, targets=[MACRO_EXAMPLE]),
    ], [
        Row('-p a --bin run', 'refused'),
        Row('-p b --bin run', 'host m f; target b; target m'),
        Row('-p a --bin run', 'target a; target m f', '1'),
    ]),
]
