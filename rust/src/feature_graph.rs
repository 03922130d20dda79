//! The feature graph.
use crate::description::{Description, Half};
use crate::node_set::NodeSet;
use crate::wire::{self, Reader, Request};
use crate::{
    ConditionalLink, Cycles, DependencyDirection, Error, FeatureFilter, FeatureGraphWarning, FeatureId, FeatureLabel,
    FeatureList, FeatureQuery, FeatureSet, PackageGraph, PackageId, PackageMetadata,
};
use guppy_features_calls as calls;
use std::fmt;

/// The feature graph of a package graph: a feature for each package, each named feature and each optional dependency,
/// and the edges between them.
///
/// ```
/// use guppy_features::{FeatureId, PackageGraph, PackageId};
///
/// let graph = PackageGraph::from_rows("package\ta\tworkspace\nfeature\tdefault\tstd\nfeature\tstd\n")?;
/// let features = graph.feature_graph();
/// let id = PackageId::new("a");
/// assert!(features.is_default_feature(FeatureId::named(&id, "std"))?);
/// assert!(features.depends_on(FeatureId::named(&id, "default"), FeatureId::base(&id))?);
/// # Ok::<(), Box<dyn std::error::Error>>(())
/// ```
#[derive(Clone, Copy)]
pub struct FeatureGraph<'g> {
    pub(crate) graph: &'g PackageGraph,
}

impl<'g> FeatureGraph<'g> {
    pub(crate) fn description(self) -> &'g Description {
        &self.graph.description
    }

    /// Returns the warnings from building the graph: those of items first, then those of listed names.
    pub fn build_warnings(self) -> &'g [FeatureGraphWarning] {
        &self.description().warnings
    }

    /// Returns the package graph.
    pub fn package_graph(self) -> &'g PackageGraph {
        self.graph
    }

    /// Returns the number of features, bases included.
    pub fn feature_count(self) -> usize {
        self.description().node_count
    }

    /// Returns the number of edges between features.
    pub fn link_count(self) -> usize {
        self.description().edges.len()
    }

    /// Returns the node of a feature. The error is `UnknownFeatureId` if the graph lacks it.
    pub(crate) fn node(self, id: FeatureId<'_>) -> Result<usize, Error> {
        self.description().node(id).ok_or_else(|| Error::unknown_feature(id))
    }

    /// Returns the nodes of features, or the error for the first that the graph lacks.
    pub(crate) fn nodes<'a>(self, ids: impl IntoIterator<Item = impl Into<FeatureId<'a>>>) -> Result<NodeSet, Error> {
        let nodes: Result<Vec<usize>, Error> = ids.into_iter().map(|id| self.node(id.into())).collect();
        Ok(NodeSet::of(self.feature_count(), nodes?))
    }

    /// Returns the feature with this number.
    pub(crate) fn feature(self, node: usize) -> FeatureMetadata<'g> {
        FeatureMetadata { graph: self, node }
    }

    /// Asks the library. `size` is the number of bytes that the answer has at most.
    ///
    /// # Panics
    ///
    /// Panics if an allocation of the library fails.
    pub(crate) fn ask<T>(
        self,
        call: fn(&[u8], &[u8], &mut [u8]) -> usize,
        request: &Request,
        size: usize,
        read: impl FnOnce(&mut Reader<'_>) -> T,
    ) -> T {
        let answer = wire::answer(size, |out| call(&self.graph.rows, request.bytes(), out), read);
        answer.unwrap_or_else(|error| panic!("feature_graph_c: {error}"))
    }

    /// Returns all features, in the library's order.
    pub(crate) fn order(self) -> &'g [usize] {
        self.graph.order.get_or_init(|| {
            let count = self.feature_count();
            let request = Request::new(DependencyDirection::Forward).numbers(0..count);
            self.ask(calls::order, &request, wire::size_of_numbers(count + 1), |it| it.numbers())
        })
    }

    /// Returns whether the graph has the feature.
    pub fn contains<'a>(self, id: impl Into<FeatureId<'a>>) -> bool {
        self.description().node(id.into()).is_some()
    }

    /// Returns the feature with this id. The error is `UnknownFeatureId` if the graph lacks it.
    pub fn metadata<'a>(self, id: impl Into<FeatureId<'a>>) -> Result<FeatureMetadata<'g>, Error> {
        Ok(self.feature(self.node(id.into())?))
    }

    /// Returns all features of a package. The error is `UnknownPackageId` if no package has this id.
    pub fn all_features_for(self, package_id: &PackageId) -> Result<FeatureList<'g>, Error> {
        let package = self.graph.metadata(package_id)?;
        let labels = self.description().nodes_of(package.number).map(|node| self.feature(node).label());
        Ok(FeatureList::new(package, labels))
    }

    /// Returns whether the feature is on by default in its package: whether the package's default feature leads to it
    /// over edges inside the package. The error is `UnknownPackageId` or `UnknownFeatureId`.
    pub fn is_default_feature<'a>(self, id: impl Into<FeatureId<'a>>) -> Result<bool, Error> {
        let id = id.into();
        self.graph.metadata(id.package_id())?;
        Ok(self.description().defaults.contains(self.node(id)?))
    }

    /// Returns whether a path of edges, possibly empty, leads from `a` to `b`. The error is `UnknownFeatureId`.
    pub fn depends_on<'a>(self, a: impl Into<FeatureId<'a>>, b: impl Into<FeatureId<'a>>) -> Result<bool, Error> {
        let (a, b) = (a.into(), b.into());
        let reached = self.query_forward([a])?.resolve();
        reached.contains(b)
    }

    /// Returns whether an edge leads from `a` to `b`. The error is `UnknownFeatureId`.
    pub fn directly_depends_on<'a>(
        self,
        a: impl Into<FeatureId<'a>>,
        b: impl Into<FeatureId<'a>>,
    ) -> Result<bool, Error> {
        let (a, b) = (self.node(a.into())?, self.node(b.into())?);
        Ok(self.description().edge(a, b).is_some())
    }

    /// Returns the links of which `FeatureQuery::resolve_with_fn` asks, each once: of a weak edge its halves, of every
    /// other conditional edge the full link.
    pub fn offers(self) -> impl Iterator<Item = ConditionalLink<'g>> {
        let edges = self.description().edges.iter().enumerate();
        edges.flat_map(move |(number, edge)| edge.offers().map(move |half| ConditionalLink::new(self, number, half)))
    }

    /// Returns the cycles of the graph.
    pub fn cycles(self) -> Cycles<'g> {
        Cycles::new(self)
    }
}

/// Sets and queries.
impl<'g> FeatureGraph<'g> {
    /// Returns the set of all features.
    pub fn resolve_all(self) -> FeatureSet<'g> {
        FeatureSet::new(self, NodeSet::of(self.feature_count(), 0..self.feature_count()))
    }

    /// Returns the empty set.
    pub fn resolve_none(self) -> FeatureSet<'g> {
        FeatureSet::new(self, NodeSet::empty(self.feature_count()))
    }

    /// Returns the set of these features. The error is `UnknownFeatureId` for the first that the graph lacks.
    pub fn resolve_ids<'a>(
        self,
        ids: impl IntoIterator<Item = impl Into<FeatureId<'a>>>,
    ) -> Result<FeatureSet<'g>, Error> {
        Ok(FeatureSet::new(self, self.nodes(ids)?))
    }

    /// Returns the query from these features, in this direction. The error is `UnknownFeatureId` for the first that the
    /// graph lacks.
    pub fn query_directed<'a>(
        self,
        ids: impl IntoIterator<Item = impl Into<FeatureId<'a>>>,
        direction: DependencyDirection,
    ) -> Result<FeatureQuery<'g>, Error> {
        Ok(self.resolve_ids(ids)?.to_feature_query(direction))
    }

    /// Returns the query for what these features turn on. The error is `UnknownFeatureId`.
    pub fn query_forward<'a>(
        self,
        ids: impl IntoIterator<Item = impl Into<FeatureId<'a>>>,
    ) -> Result<FeatureQuery<'g>, Error> {
        self.query_directed(ids, DependencyDirection::Forward)
    }

    /// Returns the query for what turns these features on. The error is `UnknownFeatureId`.
    pub fn query_reverse<'a>(
        self,
        ids: impl IntoIterator<Item = impl Into<FeatureId<'a>>>,
    ) -> Result<FeatureQuery<'g>, Error> {
        self.query_directed(ids, DependencyDirection::Reverse)
    }

    /// Returns the forward query from the features of workspace packages that `filter` accepts. It is asked once for
    /// each.
    pub fn query_workspace(self, mut filter: impl FeatureFilter<'g>) -> FeatureQuery<'g> {
        let members = self.graph.packages().filter(PackageMetadata::in_workspace);
        let nodes = members.flat_map(|package| self.description().nodes_of(package.number));
        let accepted = nodes.filter(|node| filter.accept(&self, self.feature(*node).feature_id()));
        let set = NodeSet::of(self.feature_count(), accepted);
        FeatureSet::new(self, set).to_feature_query(DependencyDirection::Forward)
    }

    /// Returns the number of the edge from one feature to another, and the half whose offer covers these declarations.
    pub(crate) fn offer(self, from: usize, to: usize, declarations: crate::LinkDeclarations) -> Option<(usize, Half)> {
        let number = self.description().edge(from, to)?;
        let edge = &self.description().edges[number];
        let half = edge.offers().find(|half| edge.link(*half).is_some_and(|it| it.declarations == declarations))?;
        Some((number, half))
    }
}

impl fmt::Debug for FeatureGraph<'_> {
    fn fmt(&self, f: &mut fmt::Formatter<'_>) -> fmt::Result {
        f.debug_struct("FeatureGraph")
            .field("feature_count", &self.feature_count())
            .field("link_count", &self.link_count())
            .finish_non_exhaustive()
    }
}

/// A feature of a graph.
///
/// ```
/// use guppy_features::{FeatureId, FeatureLabel, PackageGraph, PackageId};
///
/// let graph = PackageGraph::from_rows("package\ta\tworkspace\nfeature\tstd\n")?;
/// let id = PackageId::new("a");
/// let feature = graph.feature_graph().metadata(FeatureId::named(&id, "std"))?;
/// assert_eq!(feature.label(), FeatureLabel::Named("std"));
/// assert_eq!(feature.package().id(), &id);
/// # Ok::<(), Box<dyn std::error::Error>>(())
/// ```
#[derive(Clone, Copy)]
pub struct FeatureMetadata<'g> {
    pub(crate) graph: FeatureGraph<'g>,
    pub(crate) node: usize,
}

impl<'g> FeatureMetadata<'g> {
    /// Returns the feature's id.
    pub fn feature_id(&self) -> FeatureId<'g> {
        self.graph.description().id(self.node)
    }

    /// Returns the id of the feature's package.
    pub fn package_id(&self) -> &'g PackageId {
        self.feature_id().package_id()
    }

    /// Returns the feature's package.
    pub fn package(&self) -> PackageMetadata<'g> {
        self.graph.graph.package(self.graph.description().package_of(self.node))
    }

    /// Returns the feature's label.
    pub fn label(&self) -> FeatureLabel<'g> {
        self.feature_id().label()
    }
}

impl fmt::Debug for FeatureMetadata<'_> {
    fn fmt(&self, f: &mut fmt::Formatter<'_>) -> fmt::Result {
        f.debug_struct("FeatureMetadata").field("id", &self.feature_id()).finish()
    }
}
