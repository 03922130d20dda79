//! Sets of packages.
use crate::node_set::NodeSet;
use crate::{DependencyDirection, Error, PackageGraph, PackageId, PackageMetadata};
use std::fmt;

/// A set of packages of a graph.
///
/// ```
/// use guppy_features::{DependencyDirection, PackageGraph, PackageId};
///
/// let graph = PackageGraph::from_rows(
///     "package\tb\texternal\npackage\ta\tworkspace\ndep\tb\tb\tnormal\trequired\t*\tnodefault\n",
/// )?;
/// let set = graph.feature_graph().resolve_all().to_package_set();
/// let ids: Vec<_> = set.packages(DependencyDirection::Forward).map(|package| package.id().repr()).collect();
/// assert_eq!(ids, ["a", "b"]);
/// # Ok::<(), guppy_features::RowsError>(())
/// ```
#[derive(Clone)]
pub struct PackageSet<'g> {
    graph: &'g PackageGraph,
    members: NodeSet,
}

impl<'g> PackageSet<'g> {
    pub(crate) fn new(graph: &'g PackageGraph, members: NodeSet) -> Self {
        PackageSet { graph, members }
    }

    /// Returns the number of packages.
    pub fn len(&self) -> usize {
        self.members.len()
    }

    /// Returns whether the set has no package.
    pub fn is_empty(&self) -> bool {
        self.members.is_empty()
    }

    /// Returns whether the set has the package. The error is `UnknownPackageId` if the graph lacks it.
    pub fn contains(&self, package_id: &PackageId) -> Result<bool, Error> {
        Ok(self.members.contains(self.graph.metadata(package_id)?.number))
    }

    /// Returns the packages in the library's order. Forward, a package is before those on which it depends, as far as
    /// cycles allow; in reverse the order is exactly backwards.
    pub fn packages(&self, direction: DependencyDirection) -> impl Iterator<Item = PackageMetadata<'g>> + use<'g> {
        let order = self.graph.description.package_order.iter().copied();
        let mut numbers: Vec<usize> = order.filter(|number| self.members.contains(*number)).collect();
        if direction == DependencyDirection::Reverse {
            numbers.reverse();
        }
        let graph = self.graph;
        numbers.into_iter().map(move |number| graph.package(number))
    }
}

/// Two sets are equal if they belong to one graph and have the same packages.
impl PartialEq for PackageSet<'_> {
    fn eq(&self, other: &Self) -> bool {
        std::ptr::eq(self.graph, other.graph) && self.members == other.members
    }
}

impl Eq for PackageSet<'_> {}

impl fmt::Debug for PackageSet<'_> {
    fn fmt(&self, f: &mut fmt::Formatter<'_>) -> fmt::Result {
        f.debug_set().entries(self.packages(DependencyDirection::Forward).map(|package| package.id())).finish()
    }
}
