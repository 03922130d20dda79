//! Sets of features.
use crate::node_set::NodeSet;
use crate::wire::{self, Request};
use crate::{
    ConditionalLink, DependencyDirection, Error, FeatureEdge, FeatureGraph, FeatureId, FeatureList, FeatureMetadata,
    FeatureQuery, PackageId, PackageMetadata, PackageSet,
};
use guppy_features_calls as calls;
use std::fmt;

/// A set of features of a graph.
///
/// ```
/// use guppy_features::{DependencyDirection, FeatureId, PackageGraph, PackageId};
///
/// let graph = PackageGraph::from_rows("package\ta\tworkspace\nfeature\tdefault\tstd\nfeature\tstd\n")?;
/// let id = PackageId::new("a");
/// let set = graph.feature_graph().query_forward([FeatureId::named(&id, "default")])?.resolve();
/// let ids: Vec<_> = set.feature_ids(DependencyDirection::Forward).map(|it| it.to_string()).collect();
/// assert_eq!(ids, ["a/default", "a/std", "a/[base]"]);
/// assert!(set.difference(&set).is_empty());
/// # Ok::<(), Box<dyn std::error::Error>>(())
/// ```
#[derive(Clone)]
pub struct FeatureSet<'g> {
    graph: FeatureGraph<'g>,
    members: NodeSet,
}

impl<'g> FeatureSet<'g> {
    pub(crate) fn new(graph: FeatureGraph<'g>, members: NodeSet) -> Self {
        FeatureSet { graph, members }
    }

    pub(crate) fn members(&self) -> &NodeSet {
        &self.members
    }

    /// Returns the graph.
    pub fn graph(&self) -> &FeatureGraph<'g> {
        &self.graph
    }

    /// Returns the number of features.
    pub fn len(&self) -> usize {
        self.members.len()
    }

    /// Returns whether the set has no feature.
    pub fn is_empty(&self) -> bool {
        self.members.is_empty()
    }

    /// Returns whether the set has the feature. The error is `UnknownFeatureId` if the graph lacks it.
    pub fn contains<'a>(&self, id: impl Into<FeatureId<'a>>) -> Result<bool, Error> {
        Ok(self.members.contains(self.graph.node(id.into())?))
    }

    /// Returns whether the set has a feature of the package. The error is `UnknownPackageId`.
    pub fn contains_package(&self, package_id: &PackageId) -> Result<bool, Error> {
        let package = self.graph.graph.metadata(package_id)?;
        Ok(self.has_package(package.number))
    }

    fn has_package(&self, package: usize) -> bool {
        self.graph.description().nodes_of(package).any(|node| self.members.contains(node))
    }

    /// Returns the query that starts from the features of the set.
    pub fn to_feature_query(&self, direction: DependencyDirection) -> FeatureQuery<'g> {
        FeatureQuery::new(self.clone(), direction)
    }

    /// Returns the set of these features of the graph.
    fn with(&self, members: NodeSet) -> Self {
        FeatureSet { graph: self.graph, members }
    }

    /// Returns the set with the words of both sets combined.
    fn combined(&self, other: &Self, word: impl Fn(u64, u64) -> u64) -> Self {
        assert!(std::ptr::eq(self.graph.graph, other.graph.graph), "both sets belong to one graph");
        self.with(self.members.combined(&other.members, word))
    }
}

/// The algebra of sets. Each call panics if the sets belong to different graphs.
impl FeatureSet<'_> {
    /// Returns the features of this set or of `other`.
    pub fn union(&self, other: &Self) -> Self {
        self.combined(other, |a, b| a | b)
    }

    /// Returns the features of both sets.
    pub fn intersection(&self, other: &Self) -> Self {
        self.combined(other, |a, b| a & b)
    }

    /// Returns the features of this set that `other` lacks.
    pub fn difference(&self, other: &Self) -> Self {
        self.combined(other, |a, b| a & !b)
    }

    /// Returns the features of exactly one of the sets.
    pub fn symmetric_difference(&self, other: &Self) -> Self {
        self.combined(other, |a, b| a ^ b)
    }
}

/// Parts of a set. Each callback is called once for each feature, in the order of `features`.
impl<'g> FeatureSet<'g> {
    /// Returns the features for which `callback` returns `true`.
    pub fn filter(&self, direction: DependencyDirection, callback: impl FnMut(FeatureMetadata<'g>) -> bool) -> Self {
        self.partition(direction, callback).0
    }

    /// Returns the features for which `callback` returns `true`, and the others.
    pub fn partition(
        &self,
        direction: DependencyDirection,
        mut callback: impl FnMut(FeatureMetadata<'g>) -> bool,
    ) -> (Self, Self) {
        self.filter_partition(direction, |feature| Some(callback(feature)))
    }

    /// Returns the features for which `callback` returns `Some(true)`, and those for which it returns `Some(false)`.
    pub fn filter_partition(
        &self,
        direction: DependencyDirection,
        mut callback: impl FnMut(FeatureMetadata<'g>) -> Option<bool>,
    ) -> (Self, Self) {
        let (mut passed, mut others) = (Vec::new(), Vec::new());
        for feature in self.features(direction) {
            match callback(feature) {
                Some(true) => passed.push(feature.node),
                Some(false) => others.push(feature.node),
                None => {}
            }
        }
        let count = self.graph.feature_count();
        (self.with(NodeSet::of(count, passed)), self.with(NodeSet::of(count, others)))
    }

    /// Returns the features that the set has of a package, or `None` if it has none. The error is `UnknownPackageId`.
    pub fn features_for(&self, package_id: &PackageId) -> Result<Option<FeatureList<'g>>, Error> {
        let package = self.graph.graph.metadata(package_id)?;
        Ok(self.list_of(package))
    }

    fn list_of(&self, package: PackageMetadata<'g>) -> Option<FeatureList<'g>> {
        let nodes = self.graph.description().nodes_of(package.number).filter(|node| self.members.contains(*node));
        let list = FeatureList::new(package, nodes.map(|node| self.graph.feature(node).label()));
        (!list.labels().is_empty()).then_some(list)
    }

    /// Returns the packages of which the set has features.
    pub fn to_package_set(&self) -> PackageSet<'g> {
        let numbers = self.packages_by_number().map(|package| package.number);
        PackageSet::new(self.graph.graph, NodeSet::of(self.graph.graph.package_count(), numbers))
    }

    /// Returns the packages of which the set has features, in the order of their rows.
    pub(crate) fn packages_by_number(&self) -> impl Iterator<Item = PackageMetadata<'g>> + '_ {
        self.graph.graph.packages().filter(|package| self.has_package(package.number))
    }
}

/// Ordered views. Forward, a feature is before those that it turns on, as far as cycles allow; in reverse the order is
/// exactly backwards.
impl<'g> FeatureSet<'g> {
    /// Returns the nodes of the set, in order.
    fn nodes_in_order(&self, direction: DependencyDirection) -> Vec<usize> {
        let members = self.graph.order().iter().copied().filter(|node| self.members.contains(*node));
        let mut nodes: Vec<usize> = members.collect();
        if direction == DependencyDirection::Reverse {
            nodes.reverse();
        }
        nodes
    }

    /// Returns the ids of the features, in order.
    pub fn feature_ids(
        &self,
        direction: DependencyDirection,
    ) -> impl ExactSizeIterator<Item = FeatureId<'g>> + use<'g> {
        self.features(direction).map(|feature| feature.feature_id())
    }

    /// Returns the features, in order.
    pub fn features(
        &self,
        direction: DependencyDirection,
    ) -> impl ExactSizeIterator<Item = FeatureMetadata<'g>> + use<'g> {
        let graph = self.graph;
        self.nodes_in_order(direction).into_iter().map(move |node| graph.feature(node))
    }

    /// Returns the features by packages, in the order of packages.
    pub fn packages_with_features(&self, direction: DependencyDirection) -> impl Iterator<Item = FeatureList<'g>> + '_ {
        self.to_package_set().packages(direction).filter_map(|package| self.list_of(package))
    }

    /// Asks the library for a list about the set. The list has at most `count` numbers.
    fn ask(
        &self,
        call: fn(&[u8], &[u8], &mut [u8]) -> usize,
        direction: DependencyDirection,
        count: usize,
    ) -> Vec<usize> {
        let members: Vec<usize> = self.members.iter().collect();
        let request = Request::new(direction).numbers(members.into_iter());
        self.graph.ask(call, &request, wire::size_of_numbers(count + 1), |it| it.numbers())
    }

    /// Returns the ids of the roots, in order. Forward these are the features whose component no edge of the set
    /// leaves; in reverse those whose component none enters.
    ///
    /// # Panics
    ///
    /// Panics if an allocation of the library fails.
    pub fn root_ids(&self, direction: DependencyDirection) -> impl ExactSizeIterator<Item = FeatureId<'g>> + use<'g> {
        self.root_features(direction).map(|feature| feature.feature_id())
    }

    /// Returns the roots, as `root_ids`.
    ///
    /// # Panics
    ///
    /// Panics if an allocation of the library fails.
    pub fn root_features(
        &self,
        direction: DependencyDirection,
    ) -> impl ExactSizeIterator<Item = FeatureMetadata<'g>> + use<'g> {
        let graph = self.graph;
        self.ask(calls::roots, direction, self.len()).into_iter().map(move |node| graph.feature(node))
    }

    /// Returns the edges between features of the set, each with the ids of its two features. They are in the order of
    /// the features at which they start, and in reverse an edge starts at its target.
    ///
    /// # Panics
    ///
    /// Panics if an allocation of the library fails.
    pub fn links(
        &self,
        direction: DependencyDirection,
    ) -> impl ExactSizeIterator<Item = (FeatureId<'g>, FeatureId<'g>, FeatureEdge)> + use<'g> {
        let graph = self.graph;
        self.ask(calls::links, direction, graph.link_count()).into_iter().map(move |number| {
            let edge = &graph.description().edges[number];
            (graph.description().id(edge.from), graph.description().id(edge.to), edge.edge)
        })
    }

    /// Returns the full links of the conditional edges of `links`, in the same order. A weak edge isn't split.
    ///
    /// # Panics
    ///
    /// Panics if an allocation of the library fails.
    pub fn conditional_links(
        &self,
        direction: DependencyDirection,
    ) -> impl Iterator<Item = ConditionalLink<'g>> + use<'g> {
        let graph = self.graph;
        let numbers = self.ask(calls::links, direction, graph.link_count()).into_iter();
        numbers.filter_map(move |number| ConditionalLink::full(graph, number))
    }
}

/// Two sets are equal if they belong to one graph and have the same features.
impl PartialEq for FeatureSet<'_> {
    fn eq(&self, other: &Self) -> bool {
        std::ptr::eq(self.graph.graph, other.graph.graph) && self.members == other.members
    }
}

impl Eq for FeatureSet<'_> {}

impl fmt::Debug for FeatureSet<'_> {
    fn fmt(&self, f: &mut fmt::Formatter<'_>) -> fmt::Result {
        f.debug_set().entries(self.packages_with_features(DependencyDirection::Forward)).finish()
    }
}

#[cfg(test)]
mod tests {
    use super::*;
    use crate::PackageGraph;

    #[test]
    fn the_order_of_a_set_is_that_of_the_library() {
        let rows = include_bytes!("../../examples/weak1.rows");
        let graph = PackageGraph::from_rows(rows.as_slice()).expect("the rows have no fault");
        let features = graph.feature_graph();
        for modulus in 1..7 {
            let members = NodeSet::of(features.feature_count(), (0..features.feature_count()).step_by(modulus));
            let set = FeatureSet::new(features, members);
            for direction in [DependencyDirection::Forward, DependencyDirection::Reverse] {
                let asked = set.ask(calls::order, direction, set.len());
                assert_eq!(set.nodes_in_order(direction), asked);
            }
        }
    }
}
