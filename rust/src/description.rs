//! The description of a graph, as the library answers it.
use crate::node_set::NodeSet;
use crate::wire::{self, Reader, unknown};
use crate::{
    DependencyKind, FeatureEdge, FeatureGraphWarning, FeatureId, FeatureLabel, LinkDeclarations, PackageId, RowsError,
};
use guppy_features_calls as calls;
use std::ops::Range;

/// The packages, links, nodes and edges of a graph, by their numbers.
#[derive(Debug)]
pub(crate) struct Description {
    pub(crate) packages: Vec<PackageContent>,
    pub(crate) package_links: Vec<PackageLinkContent>,
    pub(crate) edges: Vec<EdgeContent>,
    pub(crate) warnings: Vec<FeatureGraphWarning>,
    pub(crate) defaults: NodeSet,
    pub(crate) package_order: Vec<usize>,
    pub(crate) node_count: usize,
    /// The package of each node.
    package_of: Vec<usize>,
    /// The numbers of the packages, by ascending id.
    packages_by_id: Vec<usize>,
    /// The nodes of each package by ascending label, package by package.
    nodes_by_label: Vec<usize>,
}

/// A package: its base, its named features and its optional dependencies are nodes, in this order.
#[derive(Debug)]
pub(crate) struct PackageContent {
    pub(crate) id: PackageId,
    pub(crate) in_workspace: bool,
    pub(crate) named_features: Vec<NamedFeatureContent>,
    pub(crate) optional_deps: Vec<String>,
    first_node: usize,
}

/// A named feature with its items.
#[derive(Debug)]
pub(crate) struct NamedFeatureContent {
    pub(crate) name: String,
    pub(crate) items: Vec<String>,
}

/// All declarations of one package for another.
#[derive(Debug)]
pub(crate) struct PackageLinkContent {
    pub(crate) from: usize,
    pub(crate) to: usize,
    pub(crate) name: String,
    pub(crate) declarations: Vec<Declaration>,
}

/// A declaration of a dependency.
///
/// ```
/// use guppy_features::{DependencyKind, PackageGraph};
///
/// let graph = PackageGraph::from_rows(
///     "package\ta\tworkspace\ndep\tb\tb\tbuild\toptional\tcfg(unix)\tdefault\tstd\npackage\tb\texternal\n",
/// )?;
/// let link = graph.links().next().unwrap();
/// let declaration = &link.declarations()[0];
/// assert_eq!(declaration.kind, DependencyKind::Build);
/// assert_eq!(declaration.platform.as_deref(), Some("cfg(unix)"));
/// assert!(declaration.optional && declaration.default_features);
/// assert_eq!(declaration.features, ["std"]);
/// # Ok::<(), guppy_features::RowsError>(())
/// ```
#[derive(Clone, Debug, PartialEq, Eq)]
pub struct Declaration {
    /// The section of the declaration.
    pub kind: DependencyKind,
    /// Whether the dependency is optional.
    pub optional: bool,
    /// The platform's spec, or `None` for every platform.
    pub platform: Option<String>,
    /// Whether the declaration asks for default features.
    pub default_features: bool,
    /// The features that the declaration lists.
    pub features: Vec<String>,
}

/// An edge between two nodes, with its links if it is conditional.
#[derive(Debug)]
pub(crate) struct EdgeContent {
    pub(crate) from: usize,
    pub(crate) to: usize,
    pub(crate) edge: FeatureEdge,
    /// The full link of a conditional edge.
    pub(crate) full: Option<LinkContent>,
    /// The halves of a weak edge.
    pub(crate) weak: Option<Box<WeakContent>>,
}

/// The halves of a weak edge, and the `dep:` node for which its optional half waits forward.
#[derive(Debug)]
pub(crate) struct WeakContent {
    pub(crate) required: Option<LinkContent>,
    pub(crate) optional: Option<LinkContent>,
    pub(crate) gate: usize,
}

/// The declarations that a link covers.
#[derive(Debug)]
pub(crate) struct LinkContent {
    pub(crate) declarations: LinkDeclarations,
    /// The statuses by kind, in the order of `DependencyKind`.
    pub(crate) statuses: [Status; 3],
    pub(crate) package_links: Vec<usize>,
}

/// The platforms of the declarations of one kind.
#[derive(Debug)]
pub(crate) enum Status {
    Never,
    Always,
    Specs(Vec<String>),
}

/// The part of an edge's declarations that an offer covers.
#[derive(Clone, Copy, Debug, PartialEq, Eq, Hash)]
pub(crate) enum Half {
    Full,
    Required,
    Optional,
}

impl EdgeContent {
    /// Returns the link of this half, if the edge has one.
    pub(crate) fn link(&self, half: Half) -> Option<&LinkContent> {
        match half {
            Half::Full => self.full.as_ref(),
            Half::Required => self.weak.as_ref()?.required.as_ref(),
            Half::Optional => self.weak.as_ref()?.optional.as_ref(),
        }
    }

    /// Returns the halves of which a resolve asks.
    pub(crate) fn offers(&self) -> impl Iterator<Item = Half> + '_ {
        let halves: &[Half] = if self.weak.is_some() { &[Half::Required, Half::Optional] } else { &[Half::Full] };
        halves.iter().copied().filter(|half| self.link(*half).is_some())
    }
}

impl Description {
    /// Asks the library to describe the graph of `rows`.
    pub(crate) fn of_rows(rows: &[u8]) -> Result<Self, RowsError> {
        // (the size of most answers; of a larger one the call is made again)
        let size = rows.len().saturating_mul(12).saturating_add(1024);
        wire::answer(size, |out| calls::describe(rows, out), read_description)
    }

    /// Returns the nodes of a package.
    pub(crate) fn nodes_of(&self, package: usize) -> Range<usize> {
        let next = self.packages.get(package + 1);
        self.packages[package].first_node..next.map_or(self.node_count, |it| it.first_node)
    }

    /// Returns the package of a node.
    pub(crate) fn package_of(&self, node: usize) -> usize {
        self.package_of[node]
    }

    /// Returns the id of a node.
    pub(crate) fn id(&self, node: usize) -> FeatureId<'_> {
        let package = &self.packages[self.package_of[node]];
        FeatureId::new(&package.id, package.label(node - package.first_node))
    }

    /// Returns the number of the package with this id.
    pub(crate) fn package(&self, id: &PackageId) -> Option<usize> {
        let place = self.packages_by_id.binary_search_by(|it| self.packages[*it].id.cmp(id)).ok()?;
        Some(self.packages_by_id[place])
    }

    /// Returns the node of a feature's id.
    pub(crate) fn node(&self, id: FeatureId<'_>) -> Option<usize> {
        let nodes = &self.nodes_by_label[self.nodes_of(self.package(id.package_id())?)];
        let place = nodes.binary_search_by(|it| self.id(*it).label().cmp(&id.label())).ok()?;
        Some(nodes[place])
    }

    /// Returns the number of the edge from one node to another.
    pub(crate) fn edge(&self, from: usize, to: usize) -> Option<usize> {
        self.edges.binary_search_by_key(&(from, to), |it| (it.from, it.to)).ok()
    }

    /// Fills the tables by which ids are looked up.
    fn with_tables(mut self) -> Self {
        self.packages_by_id = (0..self.packages.len()).collect();
        self.packages_by_id.sort_unstable_by(|a, b| self.packages[*a].id.cmp(&self.packages[*b].id));
        self.package_of = (0..self.packages.len()).flat_map(|it| self.nodes_of(it).map(move |_| it)).collect();
        let mut nodes: Vec<usize> = (0..self.node_count).collect();
        for package in 0..self.packages.len() {
            nodes[self.nodes_of(package)].sort_unstable_by_key(|it| self.id(*it).label());
        }
        self.nodes_by_label = nodes;
        self
    }
}

impl PackageContent {
    /// Returns the label of the node at this place of the package.
    fn label(&self, place: usize) -> FeatureLabel<'_> {
        let named = self.named_features.len();
        match place {
            0 => FeatureLabel::Base,
            _ if place <= named => FeatureLabel::Named(&self.named_features[place - 1].name),
            _ => FeatureLabel::OptionalDependency(&self.optional_deps[place - 1 - named]),
        }
    }
}

/// Reads the content of the answer to `describe`.
fn read_description(it: &mut Reader<'_>) -> Description {
    let mut packages = it.list(read_package);
    let package_links = it.list(read_package_link);
    let first_nodes = it.numbers();
    for (package, first) in packages.iter_mut().zip(first_nodes) {
        package.first_node = first;
    }
    let mut edges = it.list(read_edge);
    let gates = it.list(|it| (it.number(), it.number()).1);
    for weak in edges.iter_mut().filter_map(|edge| edge.weak.as_mut()) {
        // until here the place of the weak link is in `gate`
        weak.gate = gates[weak.gate];
    }
    let warnings = it.list(read_warning);
    let marks = it.list(Reader::flag);
    let on = marks.iter().enumerate().filter(|(_, is_on)| **is_on).map(|(node, _)| node);
    let description = Description {
        defaults: NodeSet::of(marks.len(), on),
        node_count: marks.len(),
        package_order: it.numbers(),
        packages,
        package_links,
        edges,
        warnings,
        package_of: Vec::new(),
        packages_by_id: Vec::new(),
        nodes_by_label: Vec::new(),
    };
    description.with_tables()
}

fn read_package(it: &mut Reader<'_>) -> PackageContent {
    PackageContent {
        id: PackageId::new(it.text()),
        in_workspace: it.flag(),
        named_features: it.list(|it| NamedFeatureContent { name: it.text(), items: it.list(Reader::text) }),
        optional_deps: it.list(Reader::text),
        first_node: 0,
    }
}

fn read_package_link(it: &mut Reader<'_>) -> PackageLinkContent {
    PackageLinkContent { from: it.number(), to: it.number(), name: it.text(), declarations: it.list(read_declaration) }
}

fn read_declaration(it: &mut Reader<'_>) -> Declaration {
    Declaration {
        kind: match it.number() {
            number @ 0..=2 => DependencyKind::VALUES[number],
            other => unknown("kind", other),
        },
        optional: it.flag(),
        platform: it.optional(Reader::text),
        default_features: it.flag(),
        features: it.list(Reader::text),
    }
}

fn read_edge(it: &mut Reader<'_>) -> EdgeContent {
    let (from, to) = (it.number(), it.number());
    let edge = match it.number() {
        0 => FeatureEdge::FeatureToBase,
        1 => FeatureEdge::NamedFeature,
        2 => FeatureEdge::NamedFeatureDepColon,
        3 => FeatureEdge::NamedFeatureWithSlash,
        4 => FeatureEdge::DependenciesSection,
        5 => FeatureEdge::NamedFeatureWithWeakSlash,
        other => unknown("variant", other),
    };
    let full = edge.is_conditional().then(|| read_link(it));
    let weak = (edge == FeatureEdge::NamedFeatureWithWeakSlash).then(|| {
        Box::new(WeakContent { gate: it.number(), required: it.optional(read_link), optional: it.optional(read_link) })
    });
    EdgeContent { from, to, edge, full, weak }
}

fn read_link(it: &mut Reader<'_>) -> LinkContent {
    LinkContent {
        declarations: match it.number() {
            0 => LinkDeclarations::Unsplit,
            1 => LinkDeclarations::Required,
            2 => LinkDeclarations::Optional,
            other => unknown("cover", other),
        },
        statuses: [read_status(it), read_status(it), read_status(it)],
        package_links: it.numbers(),
    }
}

fn read_status(it: &mut Reader<'_>) -> Status {
    match it.number() {
        0 => Status::Never,
        1 => Status::Always,
        2 => Status::Specs(it.list(Reader::text)),
        other => unknown("status of platforms", other),
    }
}

fn read_warning(it: &mut Reader<'_>) -> FeatureGraphWarning {
    let kind = it.number();
    let (package_id, feature_name) = (PackageId::new(it.text()), it.text());
    match kind {
        0 => FeatureGraphWarning::MissingFeature { package_id, feature_name },
        1 => FeatureGraphWarning::SelfLoop { package_id, feature_name },
        other => unknown("kind of warning", other),
    }
}
