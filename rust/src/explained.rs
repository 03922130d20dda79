//! Reasons why features are in a set.
use crate::description::Half;
use crate::node_set::NodeSet;
use crate::wire::{self, Request};
use crate::{
    ConditionalLink, DependencyDirection, Error, FeatureEdge, FeatureGraph, FeatureId, FeatureSet, LinkDeclarations,
};
use guppy_features_calls as calls;

/// A link that was offered, by the features that it leads from and to and the declarations that it covers.
pub type OfferId<'g> = (FeatureId<'g>, FeatureId<'g>, LinkDeclarations);

/// Why a feature is in a set.
///
/// ```
/// use guppy_features::{FeatureId, PackageGraph, PackageId, Reason};
///
/// let graph = PackageGraph::from_rows("package\ta\tworkspace\nfeature\tf\n")?;
/// let id = PackageId::new("a");
/// let from = FeatureId::named(&id, "f");
/// let explained = graph.feature_graph().query_forward([from])?.resolve_explained(|_| true);
/// assert_eq!(explained.steps()[1], (FeatureId::base(&id), Reason::Edge { from, to: FeatureId::base(&id) }));
/// # Ok::<(), Box<dyn std::error::Error>>(())
/// ```
#[derive(Clone, Copy, Debug, PartialEq, Eq)]
pub enum Reason<'g> {
    /// The query starts from the feature.
    Initial,
    /// An unconditional edge connects it to an earlier feature: to `from` forward, to `to` in reverse.
    Edge {
        /// The feature that the edge leads from.
        from: FeatureId<'g>,
        /// The feature that the edge leads to.
        to: FeatureId<'g>,
    },
    /// An accepted link connects it to an earlier feature. Forward, the optional dependency for which the optional half
    /// of a weak link waits is an earlier feature too.
    Link {
        /// The feature that the link leads from.
        from: FeatureId<'g>,
        /// The feature that the link leads to.
        to: FeatureId<'g>,
        /// The declarations that the link covers.
        declarations: LinkDeclarations,
    },
}

/// A resolved set with the reason for each feature, and the refused links.
///
/// ```
/// use guppy_features::{DependencyDirection, FeatureId, PackageGraph, PackageId};
///
/// let graph = PackageGraph::from_rows("package\ta\tworkspace\nfeature\tf\tg\nfeature\tg\n")?;
/// let id = PackageId::new("a");
/// let initials = [FeatureId::named(&id, "f")];
/// let features = graph.feature_graph();
/// let explained = features.query_forward(initials)?.resolve_explained(|_| true);
/// assert_eq!(explained.set().len(), 3);
/// let why = explained.why(FeatureId::named(&id, "g"))?.unwrap();
/// assert_eq!(why.iter().map(|(id, _)| id.to_string()).collect::<Vec<_>>(), ["a/f", "a/g"]);
/// let direction = DependencyDirection::Forward;
/// assert!(features.check_exact(direction, initials, explained.steps(), explained.refused())?);
/// # Ok::<(), Box<dyn std::error::Error>>(())
/// ```
#[derive(Clone, Debug)]
pub struct Explained<'g> {
    set: FeatureSet<'g>,
    steps: Vec<(FeatureId<'g>, Reason<'g>)>,
    refused: Vec<OfferId<'g>>,
    direction: DependencyDirection,
    /// The steps by numbers: a node, the number of its reason, an edge.
    numbers: Vec<[usize; 3]>,
}

/// Returns the half of this number.
fn half_of(number: usize) -> Half {
    match number {
        0 => Half::Full,
        1 => Half::Required,
        2 => Half::Optional,
        other => wire::unknown("half", other),
    }
}

fn offer_id<'g>(graph: FeatureGraph<'g>, edge: usize, half: Half) -> OfferId<'g> {
    let link = ConditionalLink::new(graph, edge, half);
    (link.from().feature_id(), link.to().feature_id(), link.declarations())
}

/// Returns the reason of a step by its number and the number of its edge.
fn reason_of<'g>(graph: FeatureGraph<'g>, reason: usize, edge: usize) -> Reason<'g> {
    match reason {
        0 => Reason::Initial,
        1 => {
            let edge = &graph.description().edges[edge];
            Reason::Edge { from: graph.description().id(edge.from), to: graph.description().id(edge.to) }
        }
        _ => {
            let (from, to, declarations) = offer_id(graph, edge, half_of(reason - 2));
            Reason::Link { from, to, declarations }
        }
    }
}

impl<'g> Explained<'g> {
    /// Returns the explanation of these steps (a node, the number of its reason, an edge) and refused offers.
    pub(crate) fn new(
        graph: FeatureGraph<'g>,
        direction: DependencyDirection,
        numbers: Vec<[usize; 3]>,
        refused: &[[usize; 2]],
    ) -> Self {
        let members = NodeSet::of(graph.feature_count(), numbers.iter().map(|[node, ..]| *node));
        let told =
            |[node, reason, edge]: &[usize; 3]| (graph.description().id(*node), reason_of(graph, *reason, *edge));
        Explained {
            set: FeatureSet::new(graph, members),
            steps: numbers.iter().map(told).collect(),
            refused: refused.iter().map(|[edge, half]| offer_id(graph, *edge, half_of(*half))).collect(),
            direction,
            numbers,
        }
    }

    /// Returns the nodes on which a reason leans: the start of its edge, and the gate for which its half waits.
    fn leans(&self, reason: usize, edge: usize) -> Vec<usize> {
        if reason == 0 {
            return Vec::new();
        }
        let edge = &self.set.graph().description().edges[edge];
        match (self.direction, &edge.weak) {
            (DependencyDirection::Forward, Some(weak)) if reason == 4 => vec![edge.from, weak.gate],
            (DependencyDirection::Forward, _) => vec![edge.from],
            (DependencyDirection::Reverse, _) => vec![edge.to],
        }
    }

    /// Returns the set.
    pub fn set(&self) -> &FeatureSet<'g> {
        &self.set
    }

    /// Returns each feature of the set once, with its reason. A reason uses only earlier features.
    pub fn steps(&self) -> &[(FeatureId<'g>, Reason<'g>)] {
        &self.steps
    }

    /// Returns the links that were reached and refused, in the order in which the library met them.
    pub fn refused(&self) -> &[OfferId<'g>] {
        &self.refused
    }

    /// Returns the set without the reasons.
    pub fn into_set(self) -> FeatureSet<'g> {
        self.set
    }

    /// Returns the steps on which a feature rests, in order and its own last, or `None` if the set lacks it. The error
    /// is `UnknownFeatureId`.
    pub fn why<'a>(&self, id: impl Into<FeatureId<'a>>) -> Result<Option<Vec<(FeatureId<'g>, Reason<'g>)>>, Error> {
        let graph = *self.set.graph();
        let node = graph.node(id.into())?;
        if !self.set.members().contains(node) {
            return Ok(None);
        }
        let mut wanted = vec![false; graph.feature_count()];
        wanted[node] = true;
        let mut why = Vec::new();
        for ([node, reason, edge], step) in self.numbers.iter().zip(&self.steps).rev() {
            if wanted[*node] {
                self.leans(*reason, *edge).into_iter().for_each(|it| wanted[it] = true);
                why.push(*step);
            }
        }
        why.reverse();
        Ok(Some(why))
    }
}

/// Checks of explanations, whoever made them.
impl<'g> FeatureGraph<'g> {
    /// Returns the numbers of a step, or `None` if the graph lacks a feature or an edge that it names.
    fn step_numbers(self, (id, reason): &(FeatureId<'_>, Reason<'_>)) -> Option<[usize; 3]> {
        let description = self.description();
        let node = description.node(*id)?;
        match *reason {
            Reason::Initial => Some([node, 0, 0]),
            Reason::Edge { from, to } => {
                let number = description.edge(description.node(from)?, description.node(to)?)?;
                Some([node, 1, number])
            }
            Reason::Link { from, to, declarations } => {
                let [edge, half] = self.offer_numbers(&(from, to, declarations))?;
                Some([node, 2 + half, edge])
            }
        }
    }

    /// Returns the numbers of an offer, or `None` if the graph lacks it.
    fn offer_numbers(self, (from, to, declarations): &OfferId<'_>) -> Option<[usize; 2]> {
        let description = self.description();
        let (edge, half) = self.offer(description.node(*from)?, description.node(*to)?, *declarations)?;
        Some([edge, half as usize])
    }

    /// Returns whether `steps` explain from `initials`, in this direction, exactly the least set for all links but
    /// those of `refused`. A step that names a feature or a link which the graph lacks makes the answer `false`; an
    /// entry of `refused` that does is ignored. The error is `UnknownFeatureId` for the first of `initials` that the
    /// graph lacks.
    ///
    /// # Panics
    ///
    /// Panics if an allocation of the library fails.
    pub fn check_exact<'a>(
        self,
        direction: DependencyDirection,
        initials: impl IntoIterator<Item = impl Into<FeatureId<'a>>>,
        steps: &[(FeatureId<'_>, Reason<'_>)],
        refused: &[OfferId<'_>],
    ) -> Result<bool, Error> {
        let initials: Vec<usize> = self.nodes(initials)?.iter().collect();
        let numbers: Option<Vec<[usize; 3]>> = steps.iter().map(|step| self.step_numbers(step)).collect();
        let Some(numbers) = numbers else {
            return Ok(false);
        };
        let offers: Vec<[usize; 2]> = refused.iter().filter_map(|offer| self.offer_numbers(offer)).collect();
        let request =
            Request::new(direction).numbers(initials.into_iter()).rows(numbers.into_iter()).rows(offers.into_iter());
        Ok(self.ask(calls::check, &request, wire::size_of_numbers(1), |it| it.flag()))
    }
}

impl<'g> ConditionalLink<'g> {
    /// Returns the full link of an edge, if it is conditional.
    pub(crate) fn full(graph: FeatureGraph<'g>, edge: usize) -> Option<Self> {
        let is_conditional = FeatureEdge::is_conditional(graph.description().edges[edge].edge);
        is_conditional.then(|| ConditionalLink::new(graph, edge, Half::Full))
    }
}
