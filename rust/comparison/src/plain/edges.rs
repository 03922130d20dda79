//! Nodes, edges and warnings, by the tables of docs/DEFINITIONS.md.
use super::rows::{Declaration, PackageLink, Tables};
use std::collections::{BTreeMap, HashMap};
use std::ops::Range;

/// The label of a node in its package.
#[derive(Clone, Debug, PartialEq, Eq, PartialOrd, Ord, Hash)]
pub enum Label {
    /// The package with no feature on.
    Base,
    /// A named feature.
    Named(String),
    /// An optional dependency.
    Optional(String),
}

/// The part of a link that an offer covers.
#[derive(Clone, Copy, Debug, PartialEq, Eq, PartialOrd, Ord, Hash)]
pub enum Half {
    /// The whole link.
    Full,
    /// The required declarations.
    Required,
    /// The optional declarations.
    Optional,
}

/// The platforms of one kind: `None` if there is a declaration for every platform, else the specs.
pub type Status = Option<Vec<String>>;

/// The declarations that a link covers: which part of them, their platforms for each kind, and their package links.
#[derive(Clone, Debug, PartialEq, Eq)]
pub struct Link {
    /// Which declarations are covered: all of `Full`, or one part.
    pub part: Half,
    /// The platforms for normal use, for build scripts and for development.
    pub statuses: [Status; 3],
    /// The numbers of the package links with a covered declaration.
    pub package_links: Vec<usize>,
}

/// An edge: its rank in the table of candidates, its full link, and what it offers.
#[derive(Clone, Debug)]
pub struct Edge {
    /// The node from which it leads.
    pub from: usize,
    /// The node to which it leads.
    pub to: usize,
    /// The rank of its candidate, from 1 to 7.
    pub rank: usize,
    /// The full link of a conditional edge.
    pub link: Option<Link>,
    /// The halves that are offered, each with its link.
    pub offers: Vec<(Half, Link)>,
    /// The node for which the optional half of a weak edge waits forward.
    pub gate: Option<usize>,
}

/// The nodes and edges of tables.
#[derive(Clone, Debug)]
pub struct Graph {
    /// The packages and links.
    pub tables: Tables,
    /// The package and the label of each node.
    pub nodes: Vec<(usize, Label)>,
    /// The edges by from, then to.
    pub edges: Vec<Edge>,
    /// The numbers of the edges that leave each node.
    pub leaving: Vec<Vec<usize>>,
    /// The numbers of the edges that enter each node.
    pub entering: Vec<Vec<usize>>,
    numbers: HashMap<(usize, Label), usize>,
}

/// The nodes of tables, and the edges found so far.
struct Builder<'t> {
    tables: &'t Tables,
    nodes: Vec<(usize, Label)>,
    numbers: HashMap<(usize, Label), usize>,
    edges: BTreeMap<(usize, usize), Edge>,
}

fn named(name: &str) -> Label {
    Label::Named(name.to_owned())
}

fn optional(name: &str) -> Label {
    Label::Optional(name.to_owned())
}

/// Returns whether a declaration is in a part.
fn is_in(part: Half, declaration: &Declaration) -> bool {
    match part {
        Half::Full => true,
        Half::Required => !declaration.is_optional,
        Half::Optional => declaration.is_optional,
    }
}

/// Returns whether a declaration requests the node with this label in its target.
fn requests(declaration: &Declaration, label: &Label) -> bool {
    match label {
        Label::Base => true,
        Label::Named(name) => (declaration.has_default && name == "default") || declaration.features.contains(name),
        Label::Optional(_) => false,
    }
}

/// Returns the specs of the declarations of one kind.
fn status(declarations: &[&Declaration], kind: usize) -> Status {
    let mut specs = Vec::new();
    for platform in declarations.iter().filter(|it| it.kind == kind).map(|it| &it.platform) {
        let spec = platform.as_ref()?;
        if !specs.contains(spec) {
            specs.push(spec.clone());
        }
    }
    Some(specs)
}

impl Graph {
    /// Returns the graph of rows without faults.
    pub fn of(rows: &str) -> Graph {
        let tables = Tables::of(rows);
        let mut builder = Builder::new(&tables);
        for package in 0..tables.packages.len() {
            builder.add_features(package);
        }
        for number in 0..tables.links.len() {
            builder.add_sections(number);
        }
        let Builder { nodes, numbers, edges, .. } = builder;
        let edges: Vec<Edge> = edges.into_values().collect();
        let mut leaving = vec![Vec::new(); nodes.len()];
        let mut entering = leaving.clone();
        for (number, edge) in edges.iter().enumerate() {
            leaving[edge.from].push(number);
            entering[edge.to].push(number);
        }
        Graph { tables, nodes, edges, leaving, entering, numbers }
    }

    /// Returns the number of a package's node.
    pub fn node(&self, package: usize, label: Label) -> Option<usize> {
        self.numbers.get(&(package, label)).copied()
    }
}

impl<'t> Builder<'t> {
    fn new(tables: &'t Tables) -> Self {
        let mut nodes = Vec::new();
        for (number, package) in tables.packages.iter().enumerate() {
            let features = package.features.iter().map(|(name, _)| named(name));
            let others = features.chain(package.optional.iter().map(|it| optional(it)));
            nodes.extend(std::iter::once(Label::Base).chain(others).map(|label| (number, label)));
        }
        let numbers = nodes.iter().cloned().zip(0..).collect();
        Builder { tables, nodes, numbers, edges: BTreeMap::new() }
    }

    fn node(&self, package: usize, label: Label) -> Option<usize> {
        self.numbers.get(&(package, label)).copied()
    }

    fn base(&self, package: usize) -> usize {
        self.numbers[&(package, Label::Base)]
    }

    /// Returns the nodes of a package.
    fn nodes_of(&self, package: usize) -> Range<usize> {
        let content = &self.tables.packages[package];
        let base = self.base(package);
        base..base + 1 + content.features.len() + content.optional.len()
    }

    /// Returns the numbers of a package's links under a name.
    fn links_named(&self, package: usize, name: &str) -> Vec<usize> {
        let links = self.tables.leaving[package].iter().copied();
        links.filter(|number| self.tables.links[*number].name == name).collect()
    }

    /// Returns the link over the declarations of package links that are in a part and pass a test, or `None` without
    /// one.
    fn over(&self, numbers: &[usize], part: Half, passes: impl Fn(&Declaration) -> bool) -> Option<Link> {
        let (mut covered, mut package_links) = (Vec::new(), Vec::new());
        for number in numbers {
            let before = covered.len();
            covered.extend(self.tables.links[*number].declarations.iter().filter(|it| is_in(part, it) && passes(it)));
            if covered.len() > before {
                package_links.push(*number);
            }
        }
        let statuses = [0, 1, 2].map(|kind| status(&covered, kind));
        (!covered.is_empty()).then_some(Link { part, statuses, package_links })
    }

    /// Adds the edge of a candidate that isn't weak.
    fn add(&mut self, from: usize, to: usize, rank: usize, link: Option<Link>) {
        let offers = link.iter().map(|it| (Half::Full, it.clone())).collect();
        self.add_edge(Edge { from, to, rank, link, offers, gate: None });
    }

    /// Adds the edge of a candidate, unless one of a lower rank leads between the same nodes.
    fn add_edge(&mut self, edge: Edge) {
        let known = self.edges.get(&(edge.from, edge.to)).is_some_and(|it| it.rank <= edge.rank);
        if !known {
            self.edges.insert((edge.from, edge.to), edge);
        }
    }

    /// Adds the candidates of a package's features and optional names.
    fn add_features(&mut self, package: usize) {
        let base = self.base(package);
        for node in self.nodes_of(package).skip(1) {
            self.add(node, base, 1, None);
        }
        for ((_, items), node) in self.tables.packages[package].features.iter().zip(base + 1..) {
            items.iter().for_each(|item| self.add_item(package, node, item));
        }
    }

    fn add_item(&mut self, package: usize, node: usize, item: &str) {
        if let Some((left, feature)) = item.split_once('/') {
            let (name, is_weak) = left.strip_suffix('?').map_or((left, false), |name| (name, true));
            self.add_links_over(package, node, name, feature, is_weak);
            if !is_weak {
                self.add_dependency(package, node, name);
            }
        } else if let Some(name) = item.strip_prefix("dep:") {
            if let Some(to) = self.node(package, optional(name)) {
                let link = self.over(&self.links_named(package, name), Half::Full, |_| true);
                self.add(node, to, 3, link);
            }
        } else if let Some(to) = self.node(package, named(item)).filter(|to| *to != node) {
            self.add(node, to, 2, None);
        }
    }

    /// Adds the candidates of an item `name/feature` or `name?/feature` that lead to the features of dependencies.
    fn add_links_over(&mut self, package: usize, node: usize, name: &str, feature: &str, is_weak: bool) {
        for number in self.links_named(package, name) {
            let Some(to) = self.node(self.tables.links[number].to, named(feature)) else { continue };
            let full = self.over(&[number], Half::Full, |_| true);
            match self.over(&[number], Half::Optional, |_| true) {
                Some(half) if is_weak => {
                    let required = self.over(&[number], Half::Required, |_| true).map(|it| (Half::Required, it));
                    let offers = required.into_iter().chain([(Half::Optional, half)]).collect();
                    let gate = self.node(package, optional(name));
                    self.add_edge(Edge { from: node, to, rank: 6, link: full, offers, gate });
                }
                _ => self.add(node, to, 4, full),
            }
        }
    }

    /// Adds the candidates of an item `name/feature` that lead to the optional dependency and to the feature of its
    /// name.
    fn add_dependency(&mut self, package: usize, node: usize, name: &str) {
        let Some(to) = self.node(package, optional(name)) else { return };
        let link = self.over(&self.links_named(package, name), Half::Optional, |_| true);
        self.add(node, to, 5, link.clone());
        if let Some(to) = self.node(package, named(name)).filter(|to| *to != node) {
            self.add(node, to, 5, link);
        }
    }

    /// Adds the candidates of the declarations of a package link.
    fn add_sections(&mut self, number: usize) {
        let PackageLink { from, to, name, .. } = &self.tables.links[number];
        for (part, start) in [(Half::Required, Label::Base), (Half::Optional, optional(name))] {
            let Some(start) = self.node(*from, start) else { continue };
            for end in self.nodes_of(*to) {
                let link = self.over(&[number], part, |it| requests(it, &self.nodes[end].1));
                if link.is_some() {
                    self.add(start, end, 7, link);
                }
            }
        }
    }
}
