//! Links and edges between features.
use crate::description::{Half, LinkContent, Status};
use crate::{DependencyKind, FeatureGraph, FeatureMetadata, LinkDeclarations, PackageLink, PlatformStatus};
use std::fmt;

/// What an edge is made from.
///
/// ```
/// use guppy_features::{DependencyDirection, FeatureEdge, PackageGraph};
///
/// let graph = PackageGraph::from_rows("package\ta\tworkspace\nfeature\tstd\n")?;
/// let all = graph.feature_graph().resolve_all();
/// let edges: Vec<_> = all.links(DependencyDirection::Forward).collect();
/// assert_eq!(edges[0].2, FeatureEdge::FeatureToBase);
/// assert!(!edges[0].2.is_conditional());
/// # Ok::<(), guppy_features::RowsError>(())
/// ```
#[derive(Clone, Copy, Debug, PartialEq, Eq, Hash)]
pub enum FeatureEdge {
    /// From a feature to the base of its package.
    FeatureToBase,
    /// From a named feature to another named feature of its package.
    NamedFeature,
    /// From a named feature with an item `dep:d` to the optional dependency `d`.
    NamedFeatureDepColon,
    /// From a named feature with an item `d/g`, or with an item `d?/g` over a link without optional declarations.
    NamedFeatureWithSlash,
    /// From the base or an optional dependency of a package to a feature that declarations request.
    DependenciesSection,
    /// From a named feature with an item `d?/g`. The optional half of the edge waits for the optional dependency `d`.
    NamedFeatureWithWeakSlash,
}

impl FeatureEdge {
    /// Returns whether the edge has a link.
    pub fn is_conditional(self) -> bool {
        !matches!(self, FeatureEdge::FeatureToBase | FeatureEdge::NamedFeature)
    }
}

/// The link of a conditional edge, or one half of a weak edge's link.
///
/// ```
/// use guppy_features::{LinkDeclarations, PackageGraph};
///
/// let graph = PackageGraph::from_rows(
///     "package\ta\tworkspace\nfeature\tf\tb?/std\ndep\tb\tb\tnormal\toptional\t*\tnodefault\n\
///      package\tb\texternal\nfeature\tstd\n",
/// )?;
/// let offers: Vec<_> = graph.feature_graph().offers().map(|link| link.to_string()).collect();
/// assert_eq!(offers, ["a/f -> b/std (optional)", "a/dep:b -> b/[base] (optional)"]);
/// # Ok::<(), guppy_features::RowsError>(())
/// ```
#[derive(Clone, Copy)]
pub struct ConditionalLink<'g> {
    graph: FeatureGraph<'g>,
    pub(crate) edge: usize,
    pub(crate) half: Half,
}

impl<'g> ConditionalLink<'g> {
    /// Returns the link of a half that the edge has.
    pub(crate) fn new(graph: FeatureGraph<'g>, edge: usize, half: Half) -> Self {
        ConditionalLink { graph, edge, half }
    }

    fn content(&self) -> &'g LinkContent {
        self.graph.description().edges[self.edge].link(self.half).expect("the edge has this half")
    }

    /// Returns the feature that the link leads from, in both directions of a query.
    pub fn from(&self) -> FeatureMetadata<'g> {
        self.graph.feature(self.graph.description().edges[self.edge].from)
    }

    /// Returns the feature that the link leads to, in both directions of a query.
    pub fn to(&self) -> FeatureMetadata<'g> {
        self.graph.feature(self.graph.description().edges[self.edge].to)
    }

    /// Returns the features that the link leads from and to.
    pub fn endpoints(&self) -> (FeatureMetadata<'g>, FeatureMetadata<'g>) {
        (self.from(), self.to())
    }

    /// Returns what the link's edge is made from.
    pub fn edge(&self) -> FeatureEdge {
        self.graph.description().edges[self.edge].edge
    }

    /// Returns the platforms of the covered declarations for normal use.
    pub fn normal(&self) -> PlatformStatus<'g> {
        self.status_for_kind(DependencyKind::Normal)
    }

    /// Returns the platforms of the covered declarations for build scripts.
    pub fn build(&self) -> PlatformStatus<'g> {
        self.status_for_kind(DependencyKind::Build)
    }

    /// Returns the platforms of the covered declarations for development.
    pub fn dev(&self) -> PlatformStatus<'g> {
        self.status_for_kind(DependencyKind::Development)
    }

    /// Returns the platforms of the covered declarations of this kind.
    pub fn status_for_kind(&self, kind: DependencyKind) -> PlatformStatus<'g> {
        match &self.content().statuses[kind as usize] {
            Status::Never => PlatformStatus::Never,
            Status::Always => PlatformStatus::Always,
            Status::Specs(specs) => PlatformStatus::PlatformDependent(specs),
        }
    }

    /// Returns whether no covered declaration is for normal use or for build scripts.
    pub fn dev_only(&self) -> bool {
        self.normal().is_never() && self.build().is_never()
    }

    /// Returns the declarations that the link covers.
    pub fn declarations(&self) -> LinkDeclarations {
        self.content().declarations
    }

    /// Returns the package links with a covered declaration, by the packages that they leave.
    pub fn package_links(&self) -> impl ExactSizeIterator<Item = PackageLink<'g>> + use<'g> {
        let graph = self.graph.graph;
        self.content().package_links.iter().map(move |number| PackageLink { graph, number: *number })
    }
}

impl fmt::Display for ConditionalLink<'_> {
    fn fmt(&self, f: &mut fmt::Formatter<'_>) -> fmt::Result {
        write!(f, "{} -> {}", self.from().feature_id(), self.to().feature_id())?;
        match self.declarations() {
            LinkDeclarations::Unsplit => Ok(()),
            LinkDeclarations::Required => f.write_str(" (required)"),
            LinkDeclarations::Optional => f.write_str(" (optional)"),
        }
    }
}

impl fmt::Debug for ConditionalLink<'_> {
    fn fmt(&self, f: &mut fmt::Formatter<'_>) -> fmt::Result {
        f.debug_struct("ConditionalLink")
            .field("from", &self.from().feature_id())
            .field("to", &self.to().feature_id())
            .field("declarations", &self.declarations())
            .field("normal", &self.normal())
            .field("build", &self.build())
            .field("dev", &self.dev())
            .finish()
    }
}
