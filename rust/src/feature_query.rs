//! Queries.
use crate::description::Half;
use crate::node_set::NodeSet;
use crate::wire::{self, Request};
use crate::{
    ConditionalLink, DependencyDirection, Error, Explained, FeatureGraph, FeatureSet, PackageId, PackageMetadata,
};
use guppy_features_calls as calls;

/// A query: features of a graph from which edges are followed in one direction.
///
/// ```
/// use guppy_features::{FeatureId, PackageGraph, PackageId};
///
/// let graph = PackageGraph::from_rows(
///     "package\ta\tworkspace\nfeature\tf\tb?/std\ndep\tb\tb\tnormal\toptional\t*\tnodefault\n\
///      package\tb\texternal\nfeature\tstd\n",
/// )?;
/// let id = PackageId::new("a");
/// let query = graph.feature_graph().query_forward([FeatureId::named(&id, "f")])?;
/// // a path leads to `b/std`, but `f` alone doesn't turn the optional dependency on
/// assert_eq!(query.clone().resolve().len(), 4);
/// assert_eq!(query.resolve_with_fn(|_| true).len(), 2);
/// # Ok::<(), Box<dyn std::error::Error>>(())
/// ```
#[derive(Clone, Debug)]
pub struct FeatureQuery<'g> {
    initials: FeatureSet<'g>,
    direction: DependencyDirection,
}

impl<'g> FeatureQuery<'g> {
    pub(crate) fn new(initials: FeatureSet<'g>, direction: DependencyDirection) -> Self {
        FeatureQuery { initials, direction }
    }

    /// Returns the graph.
    pub fn graph(&self) -> &FeatureGraph<'g> {
        self.initials.graph()
    }

    /// Returns the direction.
    pub fn direction(&self) -> DependencyDirection {
        self.direction
    }

    /// Returns the features from which the query starts.
    pub fn initials(&self) -> &FeatureSet<'g> {
        &self.initials
    }

    /// Returns the packages of the initial features, in the order of their rows.
    pub fn initial_packages(&self) -> impl Iterator<Item = PackageMetadata<'g>> {
        self.initials.packages_by_number()
    }

    /// Returns whether the query starts from a feature of the package. The error is `UnknownPackageId`.
    pub fn starts_from_package(&self, package_id: &PackageId) -> Result<bool, Error> {
        self.initials.contains_package(package_id)
    }

    /// Returns the request of the query: its direction and its initial features.
    fn request(&self) -> Request {
        let nodes: Vec<usize> = self.initials.members().iter().collect();
        Request::new(self.direction).numbers(nodes.into_iter())
    }

    /// Returns the features to which paths of edges lead, possibly empty ones. Nobody is asked of links.
    ///
    /// # Panics
    ///
    /// Panics if an allocation of the library fails.
    pub fn resolve(self) -> FeatureSet<'g> {
        let graph = *self.graph();
        let count = graph.feature_count();
        let nodes = graph.ask(calls::reach, &self.request(), wire::size_of_numbers(count + 1), |it| it.numbers());
        FeatureSet::new(graph, NodeSet::of(count, nodes))
    }

    /// Returns the least set of features that has the initial ones and is closed under unconditional edges and accepted
    /// links. Forward, the optional half of a weak link counts only if the set has its optional dependency.
    ///
    /// `follows` returns whether a link is accepted. It is called once for each link of `FeatureGraph::offers`, whether
    /// or not the query reaches the link, and its answers are passed to the library as a table. The answers to links
    /// that aren't reached have no effect. The set is the same in whatever order links are offered.
    ///
    /// # Panics
    ///
    /// Panics if an allocation of the library fails.
    pub fn resolve_with_fn(self, follows: impl Fn(ConditionalLink<'g>) -> bool) -> FeatureSet<'g> {
        let graph = *self.graph();
        let (steps, _) = self.walk(follows);
        FeatureSet::new(graph, NodeSet::of(graph.feature_count(), steps.iter().map(|[node, ..]| *node)))
    }

    /// As `resolve_with_fn`, with the reason for each feature of the set and the refused links.
    ///
    /// # Panics
    ///
    /// Panics if an allocation of the library fails.
    pub fn resolve_explained(self, follows: impl Fn(ConditionalLink<'g>) -> bool) -> Explained<'g> {
        let (steps, refused) = self.walk(follows);
        Explained::new(*self.graph(), self.direction, steps, &refused)
    }

    /// Returns the steps (a node, the number of its reason, an edge) and the refused offers (an edge, the number of a
    /// half).
    fn walk(&self, follows: impl Fn(ConditionalLink<'g>) -> bool) -> (Vec<[usize; 3]>, Vec<[usize; 2]>) {
        let graph = *self.graph();
        let request = self.request().number(2).numbers(answers(graph, follows).into_iter());
        let (of_steps, of_refused) = (graph.feature_count().saturating_mul(3), graph.link_count().saturating_mul(4));
        let size = wire::size_of_numbers(of_steps.saturating_add(of_refused).saturating_add(2));
        graph.ask(calls::resolve, &request, size, |it| {
            let steps = it.list(|it| [it.number(), it.number(), it.number()]);
            (steps, it.list(|it| [it.number(), it.number()]))
        })
    }
}

/// Returns the table of answers: for each edge a number with the bit 1 for the full link or the required half, and the
/// bit 2 for the optional half.
fn answers<'g>(graph: FeatureGraph<'g>, follows: impl Fn(ConditionalLink<'g>) -> bool) -> Vec<usize> {
    let mut table = vec![0; graph.link_count()];
    for link in graph.offers() {
        if follows(link) {
            table[link.edge] |= if link.half == Half::Optional { 2 } else { 1 };
        }
    }
    table
}
