"""The worked rows of docs/PLANS.md: small workspaces, each with selections and the plan of each. Cargo must agree (record_plans).

All packages have a library. `leaf` has the features x, y and z. A plan is written as `place package features; ...`: `host`, or `target`,
or with two targets `windows` and `mac`. Only a package with the name `old` has its version after the name.
"""
import plan_worked_targets
from plan_worked_rows import LEAF, XYZ, Row, Worked, leaf, member
from plan_workspaces import BUILD, DEV, HOST, LINUX, MAC, WINDOWS, Declared, Package, Target, Workspace


def weak(name, **how):
    """A package with an optional `leaf`, a weak item for it and a feature that turns it on."""
    return Package(name, name.rsplit('/')[-1], features={'w': ['leaf?/x'], 'on': ['dep:leaf']}, declared=[leaf(is_optional=True)], **how)


MACRO_PROGRAM = Target('bin', 'one', lines=('proc-macro = true',))
MACRO_TEST = Target('test', 'one', lines=('proc-macro = true',))
MACRO_EXAMPLE = Target('example', 'one', lines=('crate-type = ["proc-macro"]',))
ON_WINDOWS, ON_MAC = 'cfg(windows)', 'cfg(target_os = "macos")'

WORKED = [
    Worked('sides', 'build-dependencies and procedural macros have features of their own, unless the resolver is 1', [
        member('a', leaf('x'), leaf('y', table=BUILD), Declared('ext/pm'), has_script=True),
        Package('ext/pm', 'pm', declared=[leaf('z')], library='proc-macro'), LEAF,
    ], [
        Row('--target windows', 'host pm; host leaf y z; target a; target leaf x'),
        Row('', 'host pm; host leaf y z; target a; target leaf x'),
        Row('--target windows', 'host pm; host leaf x y z; target a; target leaf x y z', '1'),
    ]),
    Worked('platforms', 'a declaration counts where its platform holds; for a build-dependency that is the host', [
        member('a', leaf(), leaf('x', spec=ON_WINDOWS), leaf('y', spec=ON_WINDOWS, table=BUILD), leaf('z', spec=ON_MAC), has_script=True), LEAF,
    ], [
        Row('--target windows', 'target a; target leaf x'),
        Row('--target windows --target mac', 'windows a; windows leaf x z; mac a; mac leaf x z'),
        Row('--target linux', 'target a; target leaf x y z', '1'),
    ]),
    Worked('dev', 'dev-dependencies count for started packages alone: in tests, or with resolver 1', [
        member('a', leaf(), leaf('x', table=DEV)), member('b', Declared('a')), LEAF,
    ], [
        Row('-p a --target linux', 'target a; target leaf'),
        Row('-p a --target linux --command test', 'target a; target leaf x'),
        Row('-p a --target linux', 'target a; target leaf x', '1'),
        Row('-p b --target linux --command test', 'target a; target b; target leaf'),
        Row('-p b --target linux', 'target a; target b; target leaf', '1'),
    ]),
    Worked('dev-host', 'dev-dependencies of a started package count on the host side too', [
        member('a', leaf(), leaf('x', table=DEV)), member('b', Declared('a', table=BUILD), has_script=True), LEAF,
    ], [
        Row('-p a -p b --target windows --command test', 'host a; host leaf x; target a; target b; target leaf x'),
        Row('-p b --target windows --command test', 'host a; host leaf; target b'),
    ]),
    Worked('weak', 'the part of a weak item over required declarations doesn\'t wait', [
        Package('a', 'a', features={'w': ['leaf?/x'], 'on': ['dep:leaf']}, declared=[leaf(is_optional=True), leaf('y', table=BUILD)], has_script=True), LEAF,
    ], [
        Row('--target windows -F w', 'host leaf x y; target a w'),
        Row('--target windows -F w,on', 'host leaf x y; target a on w; target leaf x'),
    ]),
    Worked('gate-side', 'a weak item waits for its dependency on its own side', [
        member('t', Declared('ext/a', ('w',))), member('h', Declared('ext/a', ('on',), table=BUILD), has_script=True), weak('ext/a'), LEAF,
    ], [
        Row('--workspace --target windows', 'host a on; host leaf; target a w; target h; target t'),
        Row('--workspace --target windows', 'host a on w; host leaf x; target a on w; target h; target leaf x; target t', '1'),
    ]),
    Worked('strong-elsewhere', 'a strong item turns on the feature of the dependency\'s name only where an optional declaration counts', [
        member('a', leaf(spec=ON_WINDOWS, is_optional=True), features={'s': ['leaf/x']}), LEAF,
    ], [
        Row('--target linux -F s', 'target a s'),
        Row('--target windows -F s', 'target a leaf s; target leaf x'),
        Row('--target linux -F s', 'target a leaf s', '1'),
    ]),
    Worked('command', 'feature words', [
        member('client', features={'http': []}), member('server', Declared('client', is_optional=True)), member('tool'),
    ], [
        Row('--workspace --target linux -F client/http', 'target client http; target server client; target tool'),
        Row('-p server --target linux -F client?/http', 'target server'),
        Row('-p tool --target linux -F client/http', 'refused'),
    ]),
    Worked('self', 'a word for a package that depends on itself goes through that dependency', [
        member('a', Declared('a', ('x',), table=DEV), features=XYZ),
    ], [
        Row('--target linux -F a/y', 'target a'),
        Row('--target linux -F a/y --command test', 'target a x y'),
    ]),
    Worked('self-and-other', 'a package may depend on itself, and by another name on a package of the same name', [
        member('a', Declared('a', ('x',), table=DEV), Declared('ext/a', ('y',), rename='other', table=DEV), features=XYZ), Package('ext/a', 'a', '2.0.0', features=XYZ),
    ], [
        Row('', 'target a'),
        Row('--command test', 'target a x; target a y'),
    ]),
    Worked('proc-macro', 'a procedural macro that is selected starts on both sides', [
        member('pm', leaf(), leaf('x', table=DEV), library='proc-macro', targets=[Target('test', 'it')]), member('b', leaf()), LEAF,
    ], [
        Row('--workspace --target windows', 'host leaf; host pm; target b; target leaf'),
        Row('--workspace --target windows --command test', 'host leaf x; host pm; target b; target leaf x; target pm'),
    ]),
    Worked('no-script', 'build-dependencies of a package without a script turn features on, and aren\'t built', [
        member('a', leaf('x', table=BUILD)), member('b', leaf('y', table=BUILD), has_script=True), LEAF,
    ], [
        Row('-p a --target linux', 'target a'),
        Row('-p a -p b --target linux', 'host leaf x y; target a; target b'),
    ]),
    Worked('root', 'with resolver 1 in the folder of a package, feature words are that package\'s', [
        Package('.', 'top', features=XYZ, declared=[leaf()]), Package('b', 'b', features={**XYZ, 'default': ['z']}, declared=[leaf()]), LEAF,
    ], [
        Row('-p b --target linux -F x --no-default-features', 'target b default z; target leaf', '1'),
        Row('-p b --target linux -F leaf/y,b/x', 'target b default x z; target leaf y', '1'),
        Row('-p b --target linux -F x --no-default-features', 'target b x; target leaf'),
    ]),
    Worked('resolved', 'a dependency that version resolving didn\'t turn on isn\'t built', [
        member('a', Declared('b', table=DEV), features={'f': ['b/g']}), member('c', Declared('a', ('f',))),
        member('b', leaf(is_optional=True), features={'g': ['dep:leaf']}), LEAF,
    ], [
        Row('-p a -p c --target linux --command test', 'target a f; target b g; target c'),
        Row('-p a --target linux -F f --command test', 'target a f; target b g; target leaf'),
    ]),
    Worked('resolved-weak', 'version resolving doesn\'t wait for the dependency of a weak item', [
        member('a', Declared('b', table=DEV), features={'f': ['b/g']}), member('c', Declared('a', ('f',)), Declared('b', ('h',))),
        member('b', leaf(is_optional=True), features={'g': ['dep:leaf'], 'h': ['leaf?/x']}), LEAF,
    ], [
        Row('-p a -p c --target linux --command test', 'target a f; target b g h; target c; target leaf x'),
        Row('-p c --target linux', 'target a f; target b h; target c'),
    ]),
    Worked('macro-tests', 'the library of a procedural macro is built for its tests without their dependencies', [
        member('pm', leaf('x', table=DEV), library='proc-macro', library_lines=['test = false', 'doctest = false'], targets=[Target('test', 'it')]), LEAF,
    ], [
        Row('--target windows --command test', 'host pm; target leaf x; target pm'),
        Row('--target windows', 'host pm'),
    ]),
    Worked('macro-links', 'a script waits for that of a procedural macro with `links`, which is run for the host', [
        member('a', Declared('ext/pm'), has_script=True), Package('ext/pm', 'pm', declared=[leaf('x')], library='proc-macro', has_script=True, has_links=True), LEAF,
    ], [
        Row(words, 'host leaf x; host pm; target a', resolver) for resolver in '12' for words in ('', '--target windows')
    ]),
    Worked('macro-example', 'an example that is a procedural macro is built for the host, and its package starts on both sides', [
        member('a', leaf('x'), leaf('y', table=DEV), targets=[MACRO_EXAMPLE]), member('b', leaf(table=BUILD), has_script=True), member('c', Declared('a')), LEAF,
    ], [
        Row('-p a --command test', 'host a; host leaf x y; target a; target leaf x y'),
        Row('-p a --target windows --command test', 'host a; host leaf x y; target a; target leaf x y'),
        Row('-p a --target windows --target mac --command test', 'host a; host leaf x y; windows a; windows leaf x y; mac a; mac leaf x y'),
        Row('-p a -p b --target windows', 'host leaf x; target a; target b; target leaf x'),
        Row('-p b --target windows', 'host leaf; target b'),
        Row('-p c --target windows --command test', 'target a; target c; target leaf x'),
        Row('-p a --target windows --command test', 'host a; host leaf x y; target a; target leaf x y', '1'),
        Row('-p a -p b --target windows', 'host leaf x y; target a; target b; target leaf x y', '1'),
    ]),
    Worked('macro-test', 'a test with `proc-macro = true` is planned as any other', [
        member('a', leaf(), targets=[MACRO_TEST]), LEAF,
    ], [
        Row('--target windows --command test', 'target a; target leaf', cargo='host a; host leaf; target a; target leaf',
            differs='the document doesn\'t say that the test is a procedural macro'),
    ]),
    Worked('required-kinds', 'a required feature of a dependency counts if a declaration is for this build and a platform of it', [
        Package('a', 'a', declared=[leaf(table=DEV)], library=None, targets=[Target('bin', 'one', ('leaf/x',))]),
        Package('c', 'c', declared=[leaf(spec=ON_WINDOWS)], library=None, targets=[Target('bin', 'two', ('leaf/x',))]),
        member('b', leaf('x')), LEAF,
    ], [
        Row('-p a -p b --target linux', 'target b; target leaf x'),
        Row('-p a -p b --target linux --command test', 'target a; target b; target leaf x'),
        Row('-p c -p b --target linux', 'target b; target leaf x'),
        Row('-p c -p b --target windows', 'target b; target c; target leaf x'),
    ]),
    Worked('required-package', 'a required feature of a dependency is of one package, to which a declaration for this build leads', [
        Package('a', 'a', declared=[Declared('vendor/unix-x', spec='cfg(unix)', rename='x'), Declared('vendor/windows-x', spec=ON_WINDOWS, rename='x')],
                library=None, targets=[Target('bin', 'one', ('x/g',))]),
        member('b', Declared('vendor/windows-x', ('g',))),
        Package('vendor/unix-x', 'unix-x', features={'g': []}), Package('vendor/windows-x', 'windows-x', features={'g': []}),
    ], [
        Row('-p a -p b --target linux', 'target b; target windows-x g'),
        Row('-p a -p b --target windows', 'target a; target b; target windows-x g'),
    ]),
    Worked('required-package-dev', 'the same, where a declaration for development leads to another package', [
        Package('a', 'a', declared=[Declared('vendor/normal-x', rename='x'), Declared('vendor/dev-x', table=DEV, rename='x')],
                library=None, targets=[Target('bin', 'one', ('x/g',))]),
        member('b', Declared('vendor/dev-x', ('g',))), member('c', Declared('vendor/normal-x', ('g',))),
        Package('vendor/normal-x', 'normal-x', features={'g': []}), Package('vendor/dev-x', 'dev-x', features={'g': []}),
    ], [
        Row(words, plan, resolver) for resolver in '12' for words, plan in (
            ('-p a -p b', 'target b; target dev-x g'),
            ('-p a -p b --command test', 'target a; target b; target dev-x g; target normal-x'),
            ('-p a -p c', 'target a; target c; target normal-x g'),
        )
    ]),
    Worked('required', 'a target is chosen if its required features are on', [
        Package('a', 'a', features={'x': [], 'cli': ['dep:leaf']}, declared=[leaf(is_optional=True)], library=None,
                targets=[Target('bin', 'one', ('cli', 'leaf/x'))]),
        Package('b', 'b', declared=[leaf('x')]), LEAF,
    ], [
        Row('-p a --target linux -F cli', ''),
        Row('-p a --target linux -F cli,leaf/x', 'target a cli; target leaf x'),
        Row('-p a -p b --target linux', 'target b; target leaf x'),
        Row('-p a -p b --target linux -F a/cli', 'target a cli; target b; target leaf x'),
    ]),
    Worked('lacking', 'a document with all features of the members may lack packages that a selection needs', [
        member('a', Declared('ext/b')), Package('ext/b', 'b', features={'g': ['leaf/x'], 'w': ['leaf?/y']}, declared=[leaf(is_optional=True)]), LEAF,
    ], [
        Row('--target linux', 'target a; target b'),
        Row('--target linux -F b/g', 'target a; target b g leaf; target leaf x'),
        Row('--target linux -F b/leaf', 'target a; target b leaf; target leaf'),
        Row('--target linux -F b/w', 'target a; target b w'),
    ]),
    Worked('several-fit', 'an optional declaration that fits several packages leads nowhere, until the document says which', [
        member('a', Declared('ext/b')), Package('ext/b', 'b', declared=[
            Declared('vendor/old-2', requirement='2'), Declared('vendor/old-1', requirement='1', table=BUILD),
            Declared('vendor/old-2', requirement='>=1', spec=ON_WINDOWS, is_optional=True),
        ], has_script=True),
        Package('vendor/old-1', 'old', '1.0.0'), Package('vendor/old-2', 'old', '2.0.0'),
    ], [
        Row('--target linux', 'host old 1.0.0; target a; target b; target old 2.0.0'),
        Row('--target linux -F b/old', 'host old 1.0.0; target a; target b old; target old 2.0.0'),
        Row('--target windows -F b/old', 'host old 1.0.0; target a; target b old; target old 1.0.0; target old 2.0.0'),
    ]),
    Worked('no-library', 'a required dependency without a library leads nowhere', [
        member('a', Declared('ext/tool'), leaf()), LEAF,
        Package('ext/tool', 'tool', declared=[leaf('x')], library=None, targets=[Target('bin', 'tool')]),
    ], [
        Row('--target linux', 'target a; target leaf', cargo='target a; target leaf x', differs='the document has no package for a dependency without a library'),
    ]),
    Worked('no-package', 'a weak item is no reason for a package that isn\'t there', [
        member('a', Declared('ext/b')), Package('ext/b', 'b', features={'w': ['leaf?/x'], 'absent': ['dep:leaf']}, declared=[Declared('vendor/leaf', is_optional=True)]),
        Package('vendor/other', 'other'), Package('vendor/leaf', 'leaf', is_written=False),
    ], [
        Row('--target linux', 'target a; target b'),
        Row('--target linux -F b/w', 'target a; target b w', cargo='refused', differs='version resolving wants a package that the registry doesn\'t have'),
    ]),
    Worked('two-names', 'two names of a package for one package can\'t both be on', [
        member('a', Declared('ext/b')), Package('ext/b', 'b', declared=[leaf(rename='one'), leaf('x', rename='two', is_optional=True)]), LEAF,
    ], [
        Row('', 'target a; target b; target leaf'),
        Row('-F b/two', 'refused'),
    ]),
    Worked('macro-program', 'a program with `proc-macro = true` is planned as any other', [
        Package('a', 'a', declared=[leaf()], targets=[MACRO_PROGRAM]), LEAF,
    ], [
        Row('', 'target a; target leaf', cargo='refused', differs='a program of a member can\'t have `proc-macro = true`'),
    ]),
    Worked('macro-program-other', 'the same for a package that isn\'t a member', [
        member('a', Declared('ext/b')), Package('ext/b', 'b', declared=[leaf()], targets=[MACRO_PROGRAM]), LEAF,
    ], [
        Row('', 'target a; target b; target leaf'),
        Row('-p b', 'target b; target leaf', cargo='refused', differs='cargo builds the program for the host, and has features of the package for the target alone'),
    ]),
    Worked('namesake', 'with resolver 1 a word `m/f` is an item of the member `m` if that is selected, not if another package `m` is', [
        Package('.', 'top', declared=[Declared('vendor/old', ('y',))]), member('old', version='0.2.0', features=XYZ), Package('vendor/old', 'old', features=XYZ),
    ], [
        Row('-p top -F old/x', 'target top; target old 0.1.0 x y', '1'),
        Row('-p top -p old@0.2.0 -F old/x', 'target top; target old 0.2.0 x; target old 0.1.0 y', '1'),
        Row('-p top -p old@0.1.0 -F old/x', 'target top; target old 0.1.0 x y', '1', cargo='refused',
            differs='cargo panics, because the selected package has the name of a member that isn\'t selected'),
    ]),
    Worked('twins', 'packages with the same name and version are shown with their sources', [
        member('a', leaf('x')), member('b', Declared('vendor/leaf', ('y',), requirement='0.1.0')), LEAF, Package('vendor/leaf', 'leaf', features=XYZ),
    ], [
        Row('', 'target a; target b; target leaf (path+file:///w/ext/leaf#0.1.0) x; target leaf (registry+https://github.com/rust-lang/crates.io-index) y'),
        Row('-p leaf', 'refused'),
        Row('-p path+file:///w/ext/leaf#0.1.0 -p a', 'target a; target leaf (path+file:///w/ext/leaf#0.1.0) x'),
    ]),
    Worked('ambiguous', 'a word of `-p` must name one package of the document', [
        member('a', leaf()), member('b', Declared('ext/other', rename='second')), LEAF, Package('ext/other', 'leaf', '2.0.0'),
    ], [
        Row('-p a -p b -p leaf', 'refused'),
        Row('-p a -p leaf', 'refused', cargo='target a; target leaf', differs='version resolving reaches one of the packages'),
        Row('-p a -p leaf@0.1', 'target a; target leaf'),
    ]),
    Worked('patterns', 'a word of `-p` that names no package selects the members whose names fit it', [
        member('alpha'), member('apex'), member('beta', leaf()), LEAF,
    ], [
        Row('-p a*', 'target alpha; target apex'),
        Row('-p *a', 'target alpha; target beta; target leaf'),
        Row('-p a*h*a', 'target alpha'),
        Row('-p *', 'target alpha; target apex; target beta; target leaf'),
        Row('-p alpha -p a*', 'target alpha; target apex'),
        Row('-p al* -p a*', 'target alpha; target apex'),
        Row('-p x*', 'refused'),
        Row('-p leaf*', 'refused'),
        Row('-p a*@0.1.0', 'refused'),
        Row('-p a* -p al*', 'target alpha; target apex', cargo='refused', differs='cargo refuses a pattern all of whose members fit patterns before it'),
        Row('-p a**', 'target alpha; target apex', cargo='refused', differs='two stars together are no pattern of cargo'),
        Row('-p ?lpha', 'refused', cargo='target alpha', differs='a star is the only sign of a pattern'),
        Row('-p [ab]*', 'refused', cargo='target alpha; target apex; target beta; target leaf', differs='a star is the only sign of a pattern'),
    ]),
    Worked('exclude', 'with `--workspace` a word of `--exclude` leaves out the members that it names or whose names fit it', [
        member('alpha', Declared('apex', has_default=False), features={'f': []}), member('apex', features={'default': [], 'g': []}),
        member('beta', leaf()), LEAF,
    ], [
        *(Row(f'--workspace {words}', 'target alpha; target apex default') for words in (
            '--exclude beta', '--exclude b*', '--exclude beta@0.1', '--exclude beta:0.1.0', '--exclude file:///w/beta', '--exclude path+file:///w/beta#0.1.0',
            '--exclude beta --exclude b*', '-p beta --exclude beta', '-p nobody --exclude beta')),
        Row('--workspace --exclude a*', 'target beta; target leaf'),
        Row('--workspace --exclude *a', 'target apex default'),
        Row('--workspace --exclude alpha --exclude beta', 'target apex default'),
        # (alpha depends on it)
        Row('--workspace --exclude apex', 'target alpha; target apex; target beta; target leaf'),
        Row('--workspace --exclude apex -F f', 'target alpha f; target apex; target beta; target leaf'),
        Row('--workspace --exclude apex -F g', 'refused'),
        *(Row(f'--workspace {words}', 'target alpha; target apex default; target beta; target leaf') for words in (
            '-p beta', '--exclude nobody', '--exclude x*', '--exclude leaf', '--exclude beta@2', '--exclude beta@*', '--exclude bet')),
        Row('--workspace --exclude *', 'refused'),
        Row('--workspace --exclude a* --exclude beta', 'refused'),
        Row('--exclude beta', 'refused'),
        Row('-p alpha --exclude beta', 'refused'),
        Row('--workspace --exclude ?lpha', 'target alpha; target apex default; target beta; target leaf', cargo='target apex default; target beta; target leaf',
            differs='a star is the only sign of a pattern'),
        Row('--workspace --exclude b**', 'target alpha; target apex default', cargo='refused', differs='two stars together are no pattern of cargo'),
        Row('--workspace --exclude beta@x', 'target alpha; target apex default; target beta; target leaf', cargo='refused', differs='cargo refuses what no package can have'),
        Row('--workspace -p nobody', 'target alpha; target apex default; target beta; target leaf', cargo='refused', differs='cargo refuses a word that fits no member'),
    ]),
    Worked('urls', 'a word of `-p` may be the URL of a package, with or without its kind, and the package\'s name, version or both', [
        member('a', Declared('ext/folder'), Declared('vendor/old')), Package('ext/folder', 'other'), Package('ext/leaf', 'leaf'),
        member('b', Declared('ext/leaf')), Package('vendor/old', 'old'),
    ], [
        *(Row(f'-p b -p {word}', 'target b; target leaf') for word in (
            'file:///w/ext/leaf', 'path+file:///w/ext/leaf', 'file:///w/ext/leaf#leaf', 'file:///w/ext/leaf#0.1', 'path+file:///w/ext/leaf#leaf@0',
            'file:///w/ext/leaf#leaf:0.1.0')),
        *(Row(f'-p a -p {word}', 'target a; target old 0.1.0; target other') for word in (
            'file:///w/ext/folder#other', 'file:///w/ext/folder#other@0.1.0', 'https://github.com/rust-lang/crates.io-index#old',
            'registry+https://github.com/rust-lang/crates.io-index#old@0.1')),
        *(Row(f'-p a -p b -p {word}', 'refused') for word in (
            'git+file:///w/ext/leaf', 'file:///w/ext/leaf?x=1', 'path+file:///w/ext/leaf#1', 'file:///w/ext/folder', 'file:///w/ext/folder#0.1.0',
            'https://github.com/rust-lang/crates.io-index', 'https://github.com/rust-lang/crates.io-index#0.1.0', 'ext/leaf')),
        Row('-p b -p file:///w/ext/leaf#', 'refused'),
        Row('-p b -p file:///w/ext/../ext/leaf', 'refused', cargo='target b; target leaf', differs='cargo brings the URL of a word into its usual form'),
    ]),
    Worked('no-default', 'a selection must have a package, and a workspace may have no default member', [member('a', leaf()), LEAF], [
        Row('', 'refused'),
        Row('-F no-such-feature', 'refused'),
        Row('-p a', 'target a; target leaf'),
        Row('--workspace', 'target a; target leaf'),
    ], default=[]),
    Worked('others', 'packages that aren\'t members can be named; if all are such, the members start with their defaults', [
        member('a', leaf(), Declared('ext/old'), features={'default': ['leaf/x'], 'b': []}), LEAF,
        Package('ext/old', 'old', '1.2.3', declared=[Declared('ext/new', rename='later')]), Package('ext/new', 'old', '1.10.0'),
        Package('ext/tested', 'tested', declared=[leaf(table=DEV)]), member('c', Declared('ext/tested', table=BUILD)),
    ], [
        Row('-p leaf --target linux', 'target leaf x'),
        Row('-p leaf -p c --target linux', 'refused'),
        Row('-p leaf -p a --target linux -F b --no-default-features', 'target a b; target leaf; target old 1.10.0; target old 1.2.3'),
        Row('-p leaf --target linux -F x', 'refused'),
        Row('-p leaf --target linux --no-default-features', 'refused'),
        Row('-p old@1.2', 'target old 1.10.0; target old 1.2.3'),
        Row('-p old@1.10.0', 'target old 1.10.0'),
        Row('-p old:1.2', 'target old 1.10.0; target old 1.2.3'),
        Row('-p old:1.10.0', 'target old 1.10.0'),
        Row('-p old:1', 'refused'),
        Row('-p old:1.1', 'refused'),
        Row('-p old@1:10', 'refused'),
        Row('-p old', 'refused'),
        Row('-p nobody', 'refused'),
        Row('-p tested', 'refused'),
        Row('-p tested --command test', 'refused'),
        Row('-p leaf --command test', 'target leaf x'),
    ]),
    Worked('unbuilt', 'what a package without a build script declares for builds is on, and isn\'t built by it', [
        member('a', leaf('x', table=BUILD)), member('b', leaf('y', table=BUILD), has_script=True), member('c', leaf('z')), LEAF,
    ], [
        Row('-p a', 'target a'),
        Row('-p a -p b', 'host leaf x y; target a; target b'),
        Row('-p a -p c', 'target a; target c; target leaf z'),
        Row('-p a', 'target a', '1'),
        Row('-p a -p c', 'target a; target c; target leaf x z', '1'),
    ]),
]


def workspaces():
    """Yields the workspaces with their rows, one for each resolver that the rows of a name have."""
    for it in [*WORKED, *plan_worked_targets.WORKED]:
        for resolver in sorted({row.resolver for row in it.rows}):
            rows = [row for row in it.rows if row.resolver == resolver]
            yield Workspace(it.name if resolver == '2' else f'{it.name}-{resolver}', resolver, it.packages, it.default), it.shows, rows


TRIPLES = {'linux': LINUX, 'windows': WINDOWS, 'mac': MAC}


def words_of(row):
    return [TRIPLES.get(it, it) for it in row.words.split()]


def is_plan(plan, lines):
    """Whether these lines, or none, are the plan of a row."""
    if plan == 'refused' or lines is None:
        return plan == 'refused' and lines is None
    shorter = {triple: name for name, triple in TRIPLES.items()}

    def short(line):
        place, name, version, *features = line.split(' ')
        return ' '.join([shorter.get(place, place), name, *([version] if name == 'old' else []), *features])

    return sorted(map(short, lines)) == sorted(it for it in plan.split('; ') if it)


def lines_of_difference(row, packages):
    """The lines of a row's plan, where cargo's is another."""
    if row.cargo is None:
        return []
    versions = {it.name: [it.version] for it in packages} | {'old': []}
    found = [it.split(' ') for it in row.plan.split('; ')] if row.plan != 'refused' else []
    return [f'differs {row.differs}', *(' '.join(['=', place, name, *versions[name], *features]) for place, name, *features in found)]


assert HOST == LINUX
