//! Cycles of a graph.
use crate::wire::{self, Reader};
use crate::{Error, FeatureGraph, FeatureId};
use guppy_features_calls as calls;

/// The cycles of a feature graph: features that all turn each other on, and single ones that turn themselves on.
///
/// ```
/// use guppy_features::{FeatureId, PackageGraph, PackageId};
///
/// let graph = PackageGraph::from_rows("package\ta\tworkspace\nfeature\tf\tg\nfeature\tg\tf\n")?;
/// let cycles = graph.feature_graph().cycles();
/// let id = PackageId::new("a");
/// assert!(cycles.is_cyclic(FeatureId::named(&id, "f"), FeatureId::named(&id, "g"))?);
/// assert!(!cycles.is_cyclic(FeatureId::base(&id), FeatureId::base(&id))?);
/// assert_eq!(cycles.all_cycles().count(), 1);
/// # Ok::<(), Box<dyn std::error::Error>>(())
/// ```
#[derive(Clone, Debug)]
pub struct Cycles<'g> {
    graph: FeatureGraph<'g>,
    cycles: Vec<Vec<usize>>,
    /// The cycle of each node that is on one.
    cycle_of: Vec<Option<usize>>,
}

impl<'g> Cycles<'g> {
    /// Asks the library for the cycles of the graph.
    pub(crate) fn new(graph: FeatureGraph<'g>) -> Self {
        let count = graph.feature_count();
        let size = wire::size_of_numbers(count.saturating_mul(2).saturating_add(1));
        let answer = wire::answer(size, |out| calls::cycles(&graph.graph.rows, out), |it| it.list(Reader::numbers));
        let cycles = answer.unwrap_or_else(|error| panic!("feature_graph_c: {error}"));
        let mut cycle_of = vec![None; count];
        for (number, cycle) in cycles.iter().enumerate() {
            for node in cycle {
                cycle_of[*node] = Some(number);
            }
        }
        Cycles { graph, cycles, cycle_of }
    }

    /// Returns whether `a` and `b` are on a common cycle. The error is `UnknownFeatureId`.
    pub fn is_cyclic<'a>(&self, a: impl Into<FeatureId<'a>>, b: impl Into<FeatureId<'a>>) -> Result<bool, Error> {
        let (a, b) = (self.graph.node(a.into())?, self.graph.node(b.into())?);
        Ok(self.cycle_of[a].is_some() && self.cycle_of[a] == self.cycle_of[b])
    }

    /// Returns the cycles, each after those on which it depends. The features of one are in the graph's order.
    pub fn all_cycles(&self) -> impl ExactSizeIterator<Item = Vec<FeatureId<'g>>> + '_ {
        let ids = |cycle: &Vec<usize>| cycle.iter().map(|node| self.graph.feature(*node).feature_id()).collect();
        self.cycles.iter().map(ids)
    }
}
