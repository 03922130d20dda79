#!/usr/bin/env python3
"""Writes large row files for benchmarks.

  gen_large.py N SEED            realistic: N packages, N/20 of them workspace members
  gen_large.py --family F N      adversarial scaling family F of size N
  -o FILE                        where to write (standard output otherwise)

All are linear in N and fixed by their arguments.
"""
import argparse
import random
import sys

PLATFORMS = ["cfg(windows)", "cfg(unix)", 'cfg(target_os = "linux")', 'cfg(target_os = "macos")',
             'cfg(target_arch = "wasm32")', "x86_64-pc-windows-gnu", "cfg(not(windows))",
             'cfg(any(unix, target_os = "wasi"))']
WORDS = """async core net io util fmt json http tls log trace sys macro derive parse lex num rand hash
map tree graph text utf time date path file dir mem alloc sync lock chan task pool color term line
wasm web win unix ffi bind cell once lazy bit byte buf ring aes sha curve key cert url mime uuid""".split()


def line(*fields):
    return "\t".join(fields) + "\n"


def pkg(i, n_ws, names):
    if i < n_ws:
        return f"path+file:///home/user/ws/crates/{names[i]}#0.{i % 7}.{i % 3}"
    return f"registry+https://github.com/rust-lang/crates.io-index#{names[i]}@{i % 5}.{i % 13}.{i % 29}"


def realistic(n, seed):
    """Rank 0 .. n/20 - 1 are workspace members; normal and build dependencies lead to higher ranks,
    mostly popular ones (the last ranks); dev-dependencies of members lead anywhere."""
    rng = random.Random(seed)
    n_ws = max(1, n // 20)
    names = [f"{rng.choice(WORDS)}-{rng.choice(WORDS)}-{i}" for i in range(n)]
    n_giant = max(1, n // 2000)
    giants = set(rng.sample(range(n_ws, n), min(n_giant, n - n_ws))) if n > n_ws else set()

    # Named features of each package, in row order.
    feats = []
    for i in range(n):
        own = []
        if i in giants:
            count = rng.randint(500, 3000)
            own = [f"Win32_{rng.choice(WORDS).title()}_{k}" for k in range(count)]
            own.append("default")
        else:
            if rng.random() < 0.75:
                own.append("default")
            if rng.random() < 0.45:
                own.append("std")
                if rng.random() < 0.5:
                    own.append("alloc")
            extra = min(int(rng.expovariate(1 / 3.0)), 60)
            own += [f"{WORDS[k % len(WORDS)]}{k // len(WORDS) or ''}" for k in
                    rng.sample(range(4 * len(WORDS)), extra)]
        feats.append(list(dict.fromkeys(own)))

    # Popularity: a Zipf-like draw from the high end of the ranks.
    def popular(low):
        u = rng.random()
        span = n - low
        return n - 1 - int(span * u ** 3) if span > 0 else None

    out = []
    rows_of = []
    for i in range(n):
        ws = i < n_ws
        deps = {}  # target -> [name, declarations]
        want = min(int(rng.expovariate(1 / (14.0 if ws else 4.5))), 120)
        used_names = set()
        for _ in range(want):
            if i + 1 >= n:
                break
            # members also depend on members of higher rank, next to popular packages
            if ws and i + 1 < n_ws and rng.random() < 0.25:
                t = rng.randrange(i + 1, min(n_ws, i + 1 + 50))
            else:
                t = popular(max(i + 1, n_ws) if not ws else n_ws)
            if t is None or t >= n or t <= i or t in deps:
                continue
            name = names[t]
            if rng.random() < 0.02:
                name = "renamed-" + rng.choice(WORDS)
            if name in used_names and rng.random() < 0.5:
                continue
            used_names.add(name)
            decls = []
            kind = "build" if rng.random() < 0.06 else "normal"
            optional = rng.random() < 0.3
            platform = rng.choice(PLATFORMS) if rng.random() < 0.12 else "*"
            decls.append((kind, optional, platform))
            if rng.random() < 0.04:
                decls.append(("build" if kind == "normal" else "normal", rng.random() < 0.3, "*"))
            if rng.random() < 0.02:
                decls.append((kind, optional, rng.choice(PLATFORMS)))
            if ws and rng.random() < 0.1:
                decls.append(("dev", False, "*"))
            deps[t] = [name, decls]
        if ws:
            for _ in range(min(int(rng.expovariate(1 / 3.0)), 20)):
                t = popular(n_ws)
                if t is not None and t < n and t not in deps:
                    deps[t] = [names[t], [("dev", False, "*")]]
            if i > 0 and rng.random() < 0.30:  # a dev-dependency cycle
                t = rng.randrange(max(0, i - 30), i)
                if t not in deps:
                    deps[t] = [names[t], [("dev", False, "*")]]
            if rng.random() < 0.02 and i not in deps:
                deps[i] = [names[i], [("dev", False, "*")]]

        rows = [line("package", pkg(i, n_ws, names), "workspace" if ws else "external")]
        own = feats[i]
        own_set = set(own)
        opt = [(t, nm) for t, (nm, ds) in deps.items() if any(o for _, o, _ in ds)]
        normal = [(t, nm) for t, (nm, ds) in deps.items()
                  if feats[t] and any(k != "dev" for k, _, _ in ds)]
        opt_names = {nm for _, nm in opt}
        explicit = set()
        feature_rows = []
        for k, f in enumerate(own):
            items = []
            if i in giants:
                if f != "default" and k:
                    for _ in range(rng.choice((0, 1, 1, 2, 3))):
                        g = own[rng.randrange(max(0, k - 200), k)]
                        if g not in items:
                            items.append(g)
            else:
                if f == "default":
                    items += [g for g in own[1:] if rng.random() < 0.5]
                elif f == "std":
                    if "alloc" in own_set:
                        items.append("alloc")
                    for t, nm in normal:
                        if "std" in feats[t] and t not in giants and rng.random() < 0.7:
                            items.append(nm + ("?/std" if nm in opt_names else "/std"))
                else:
                    later = own[k + 1:]
                    if later and rng.random() < 0.3:
                        items.append(rng.choice(later))
                    if opt and rng.random() < 0.35:
                        t, nm = rng.choice(opt)
                        items.append("dep:" + nm)
                        explicit.add(nm)
                        if feats[t] and rng.random() < 0.3:
                            items.append(nm + "/" + rng.choice(feats[t]))
                    if normal and rng.random() < 0.3:
                        t, nm = rng.choice(normal)
                        form = "?/" if nm in opt_names and rng.random() < 0.5 else "/"
                        items.append(nm + form + rng.choice(feats[t]))
                    if rng.random() < 0.001:
                        items.append("no-such-feature")
            feature_rows.append(line("feature", f, *items))
        for nm in sorted(opt_names - explicit - own_set):
            feature_rows.append(line("feature", nm, "dep:" + nm))
        feature_rows.sort()
        rows += feature_rows
        for t, (nm, ds) in deps.items():
            for kind, optional, platform in ds:
                listed = []
                if t in giants:
                    listed = rng.sample(feats[t], min(len(feats[t]), rng.randint(1, 25)))
                elif feats[t]:
                    listed = [g for g in feats[t][:8] if g != "default" and rng.random() < 0.25]
                if rng.random() < 0.002:
                    listed.append("gone")
                rows.append(line("dep", nm, pkg(t, n_ws, names), kind,
                                 "optional" if optional else "required", platform,
                                 "nodefault" if rng.random() < 0.3 else "default", *listed))
        rows_of.append("".join(rows))
    order = sorted(range(n), key=lambda i: pkg(i, n_ws, names))
    out = [rows_of[i] for i in order]
    return out


def chain(n):
    """n packages; p(i) needs p(i + 1), and its feature f forwards to the next f."""
    for i in range(n):
        yield line("package", f"p{i}", "workspace" if i == 0 else "external")
        last = i + 1 == n
        yield line("feature", "default", "f")
        yield line("feature", "f", *([] if last else ["next/f"]))
        if not last:
            yield line("dep", "next", f"p{i + 1}", "normal", "required", "*", "default")


def chain_back(n):
    """As chain, rows in the opposite order: node numbers against the order."""
    yield from reversed_packages(chain(n))


def reversed_packages(lines):
    blocks = []
    for text in lines:
        if text.startswith("package\t"):
            blocks.append([])
        blocks[-1].append(text)
    for block in reversed(blocks):
        yield from block


def huge(n):
    """One package of n features: `full` has them all, each has up to three of the others."""
    yield line("package", "main", "workspace")
    yield line("feature", "all", "huge/full")
    yield line("dep", "huge", "huge", "normal", "required", "*", "nodefault",
               *[f"f{k}" for k in range(0, n, 3)])
    yield line("package", "huge", "external")
    for k in range(n):
        items = sorted({f"f{j}" for j in (k // 2, k // 3, k - 1) if 0 <= j < k})
        yield line("feature", f"f{k}", *items)
    yield line("feature", "full", *[f"f{k}" for k in range(n)])


def component(n):
    """One component: a ring of n packages closed by one dev-dependency, features f in a ring
    too, and a chord to a far package from each."""
    for i in range(n):
        yield line("package", f"p{i}", "workspace")
        nxt, far = (i + 1) % n, (i * 7 + 3) % n
        yield line("feature", "f", "next/f")
        yield line("dep", "next", f"p{nxt}", "dev" if nxt == 0 else "normal", "required", "*", "nodefault")
        if far not in (nxt, i):
            yield line("dep", "far", f"p{far}", "dev", "required", "*", "nodefault", "f")


def component_hard(n):
    """One component whose edges all count (features of one package in a ring with chords), so
    that the order must fall back on the least number again and again."""
    yield line("package", "p", "workspace")
    for i in range(n):
        items = [f"f{(i + 1) % n}"]
        if i % 2:
            items.append(f"f{i - 1}")
        yield line("feature", f"f{i}", *items)


def cycles(n):
    """n pairs x(i), y(i) with a dev-dependency back, in a chain."""
    for i in range(n):
        yield line("package", f"x{i}", "workspace")
        yield line("feature", "f", "y/f")
        yield line("dep", "y", f"y{i}", "normal", "required", "*", "nodefault")
        yield line("package", f"y{i}", "external")
        yield line("feature", "f")
        yield line("dep", "x", f"x{i}", "dev", "required", "*", "nodefault", "f")
        if i + 1 < n:
            yield line("dep", "next", f"x{i + 1}", "normal", "required", "*", "nodefault", "f")


def star(n):
    """A hub that depends on n packages, half of them optional, and forwards `std` to each; all
    n depend on one common package."""
    yield line("package", "hub", "workspace")
    yield line("feature", "default", "std")
    yield line("feature", "std", *[f"d{i}{'?' if i % 2 else ''}/std" for i in range(n)])
    yield line("feature", "full", *[f"dep:d{i}" for i in range(1, n, 2)])
    for i in range(n):
        yield line("dep", f"d{i}", f"d{i}", "normal", "optional" if i % 2 else "required", "*", "nodefault")
    for i in range(n):
        yield line("package", f"d{i}", "external")
        yield line("feature", "std", "common/std")
        yield line("dep", "common", "common", "normal", "required", "*", "default")
    yield line("package", "common", "external")
    yield line("feature", "default", "std")
    yield line("feature", "std")


def weak(n):
    """n weak edges behind one gate, which the last feature opens."""
    yield line("package", "main", "workspace")
    for i in range(n):
        yield line("feature", f"w{i}", f"foo?/f{i}", *([f"w{i + 1}"] if i + 1 < n else ["dep:foo"]))
    yield line("dep", "foo", "foo", "normal", "optional", "*", "nodefault")
    yield line("package", "foo", "external")
    for i in range(n):
        yield line("feature", f"f{i}")


def weak_gates(n):
    """n gates that open one another: the far end of weak edge i leads to gate i + 1."""
    yield line("package", "main", "workspace")
    yield line("feature", "s", *[f"d{i}?/x" for i in range(n)])
    for i in range(n):
        yield line("feature", f"e{i}", f"dep:d{i}")
    for i in range(n):
        yield line("dep", f"d{i}", f"d{i}", "normal", "optional", "*", "nodefault")
    for i in range(n):
        yield line("package", f"d{i}", "external")
        yield line("feature", "x", *(["m/e%d" % (i + 1)] if i + 1 < n else []))
        if i + 1 < n:
            yield line("dep", "m", "main", "dev", "required", "*", "nodefault")


FAMILIES = {f.__name__.replace("_", "-"): f for f in
            (chain, chain_back, huge, component, component_hard, cycles, star, weak, weak_gates)}


def main():
    parser = argparse.ArgumentParser(description=__doc__, formatter_class=argparse.RawTextHelpFormatter)
    parser.add_argument("n", type=int)
    parser.add_argument("seed", type=int, nargs="?", default=1)
    parser.add_argument("--family", choices=sorted(FAMILIES))
    parser.add_argument("-o", default="-")
    args = parser.parse_args()
    lines = FAMILIES[args.family](args.n) if args.family else realistic(args.n, args.seed)
    out = sys.stdout if args.o == "-" else open(args.o, "w", encoding="utf-8", newline="\n")
    out.writelines(lines)
    out.flush()


if __name__ == "__main__":
    main()
