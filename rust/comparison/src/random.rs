//! Random row files from a seed.

/// A generator of numbers (SplitMix64).
#[derive(Clone, Debug)]
pub struct Random {
    state: u64,
}

impl Random {
    /// Returns the generator of this seed.
    pub fn new(seed: u64) -> Self {
        Random { state: seed }
    }

    fn next(&mut self) -> u64 {
        self.state = self.state.wrapping_add(0x9e37_79b9_7f4a_7c15);
        let mixed = (self.state ^ (self.state >> 30)).wrapping_mul(0xbf58_476d_1ce4_e5b9);
        let mixed = (mixed ^ (mixed >> 27)).wrapping_mul(0x94d0_49bb_1331_11eb);
        mixed ^ (mixed >> 31)
    }

    /// Returns a number below `bound`.
    pub fn below(&mut self, bound: usize) -> usize {
        (self.next() % bound.max(1) as u64) as usize
    }

    /// Returns `true` in `percent` of a hundred calls.
    pub fn chance(&mut self, percent: usize) -> bool {
        self.below(100) < percent
    }

    /// Returns one of these values, or `None` if there is none.
    pub fn one<'a, T>(&mut self, of: &'a [T]) -> Option<&'a T> {
        of.get(self.below(of.len()))
    }

    /// Returns one of these texts.
    fn text(&mut self, of: &[&str]) -> String {
        of[self.below(of.len())].to_owned()
    }
}

const NAMES: [&str; 4] = ["a", "b", "c", "d"];
const ODD_NAMES: [&str; 16] = [
    "",
    "default",
    "a/b",
    "dep:a",
    "dep:",
    "a?",
    "?",
    "x y",
    ", ",
    "[base]",
    "\u{e9}",
    "\u{1f980}",
    "*",
    "#a",
    "\r",
    "A",
];
const SPECS: [&str; 5] = ["cfg(unix)", "cfg(windows)", "x", "", "\u{e9}"];

/// The rates of one file, in percent, and its sizes.
struct Rates {
    packages: usize,
    features: usize,
    items: usize,
    declarations: usize,
    odd: usize,
    missing: usize,
    own: usize,
    back: usize,
    optional: usize,
    dev: usize,
    platform: usize,
    slash: usize,
    weak: usize,
}

/// A declaration of a file.
struct Dep {
    name: String,
    target: usize,
    is_optional: bool,
}

impl Rates {
    fn of(random: &mut Random) -> Rates {
        let rates = Rates {
            packages: 1 + random.below(4),
            features: 2 + random.below(5),
            items: 1 + random.below(5),
            declarations: 1 + random.below(7),
            odd: [0, 0, 0, 10, 30][random.below(5)],
            missing: [0, 5, 20][random.below(3)],
            own: [0, 10, 50][random.below(3)],
            back: [0, 50, 100][random.below(3)],
            optional: [20, 50, 80][random.below(3)],
            dev: [0, 30, 60][random.below(3)],
            platform: [0, 30, 60][random.below(3)],
            slash: [40, 70, 90][random.below(3)],
            weak: [10, 60, 90][random.below(3)],
        };
        // a file in twenty is of many small packages in cycles
        if random.chance(5) { Rates { packages: 8, features: 2, back: 100, ..rates } } else { rates }
    }

    fn name(&self, random: &mut Random) -> String {
        if random.chance(self.odd) { random.text(&ODD_NAMES) } else { random.text(&NAMES) }
    }
}

/// Returns a row file without faults.
pub fn rows(random: &mut Random) -> String {
    let rates = Rates::of(random);
    let ids: Vec<String> =
        (0..rates.packages).map(|it| format!("{}{it}", ["p", "q/", "r "][random.below(3)])).collect();
    let features: Vec<Vec<String>> = ids.iter().map(|_| names(random, &rates)).collect();
    let mut rows = String::new();
    for (package, id) in ids.iter().enumerate() {
        let deps = deps(random, &rates, package);
        let belongs = if random.chance(60) { "workspace" } else { "external" };
        rows.push_str(&format!("package\t{id}\t{belongs}\n"));
        let mut lines: Vec<String> = deps.iter().map(|dep| dep_line(random, &rates, dep, &ids, &features)).collect();
        for name in &features[package] {
            let items: String = (0..random.below(rates.items + 1))
                .map(|_| format!("\t{}", item(random, &rates, &deps, &features[package], &features)))
                .collect();
            let place = random.below(lines.len() + 1);
            lines.insert(place, format!("feature\t{name}{items}\n"));
        }
        lines.iter().for_each(|line| rows.push_str(line));
    }
    rows
}

/// Returns the names of a package's features, each once.
fn names(random: &mut Random, rates: &Rates) -> Vec<String> {
    let mut names: Vec<String> = Vec::new();
    for _ in 0..random.below(rates.features + 1) {
        let name = if random.chance(15) { "default".to_owned() } else { rates.name(random) };
        if !names.contains(&name) {
            names.push(name);
        }
    }
    names
}

/// Returns the declarations of a package. A pair of packages has one name.
fn deps(random: &mut Random, rates: &Rates, package: usize) -> Vec<Dep> {
    let mut deps: Vec<Dep> = Vec::new();
    for _ in 0..random.below(rates.declarations + 1) {
        let target = if random.chance(rates.own) {
            package
        } else if random.chance(rates.back) {
            random.below(rates.packages)
        } else {
            (package + 1 + random.below(rates.packages)).min(rates.packages - 1)
        };
        let known = deps.iter().find(|it| it.target == target).map(|it| it.name.clone());
        let name = known.unwrap_or_else(|| rates.name(random));
        deps.push(Dep { name, target, is_optional: random.chance(rates.optional) });
    }
    deps
}

/// Returns the line of a declaration.
fn dep_line(random: &mut Random, rates: &Rates, dep: &Dep, ids: &[String], features: &[Vec<String>]) -> String {
    let kind = if random.chance(rates.dev) { "dev" } else { ["normal", "build"][random.below(2)] };
    let need = if dep.is_optional { "optional" } else { "required" };
    let platform = if random.chance(rates.platform) { random.text(&SPECS) } else { "*".to_owned() };
    let defaults = if random.chance(40) { "default" } else { "nodefault" };
    let listed: String =
        (0..random.below(3)).map(|_| format!("\t{}", wanted(random, rates, &features[dep.target]))).collect();
    format!("dep\t{}\t{}\t{kind}\t{need}\t{platform}\t{defaults}{listed}\n", dep.name, ids[dep.target])
}

/// Returns a feature of a package, or a name that it may lack.
fn wanted(random: &mut Random, rates: &Rates, features: &[String]) -> String {
    if random.chance(rates.missing) {
        return rates.name(random);
    }
    random.one(features).cloned().unwrap_or_else(|| rates.name(random))
}

/// Returns an item of a feature.
fn item(random: &mut Random, rates: &Rates, deps: &[Dep], own: &[String], features: &[Vec<String>]) -> String {
    let (name, target) = match random.one(deps) {
        Some(dep) if !random.chance(rates.missing) => (dep.name.clone(), features[dep.target].as_slice()),
        _ => (rates.name(random), own),
    };
    if random.chance(rates.slash) {
        let mark = if random.chance(rates.weak) { "?" } else { "" };
        format!("{name}{mark}/{}", wanted(random, rates, target))
    } else if random.chance(40) {
        format!("dep:{name}")
    } else {
        wanted(random, rates, own)
    }
}
