//! Filters of features.
use crate::{FeatureGraph, FeatureId, FeatureLabel};
use std::collections::HashSet;

/// Selects features of workspace packages.
///
/// ```
/// use guppy_features::{FeatureFilter, FeatureGraph, FeatureId, PackageGraph};
///
/// struct OnlyBases;
///
/// impl<'g> FeatureFilter<'g> for OnlyBases {
///     fn accept(&mut self, _: &FeatureGraph<'g>, id: FeatureId<'g>) -> bool {
///         id.is_base()
///     }
/// }
///
/// let graph = PackageGraph::from_rows("package\ta\tworkspace\nfeature\tstd\n")?;
/// assert_eq!(graph.feature_graph().query_workspace(OnlyBases).initials().len(), 1);
/// # Ok::<(), guppy_features::RowsError>(())
/// ```
pub trait FeatureFilter<'g> {
    /// Returns whether `feature_id`, a feature of `graph`, is selected.
    fn accept(&mut self, graph: &FeatureGraph<'g>, feature_id: FeatureId<'g>) -> bool;
}

impl<'g, T: FeatureFilter<'g>> FeatureFilter<'g> for &mut T {
    fn accept(&mut self, graph: &FeatureGraph<'g>, feature_id: FeatureId<'g>) -> bool {
        (**self).accept(graph, feature_id)
    }
}

impl<'g> FeatureFilter<'g> for Box<dyn FeatureFilter<'g> + '_> {
    fn accept(&mut self, graph: &FeatureGraph<'g>, feature_id: FeatureId<'g>) -> bool {
        (**self).accept(graph, feature_id)
    }
}

impl<'g> FeatureFilter<'g> for &mut dyn FeatureFilter<'g> {
    fn accept(&mut self, graph: &FeatureGraph<'g>, feature_id: FeatureId<'g>) -> bool {
        (**self).accept(graph, feature_id)
    }
}

/// A filter that calls a function.
///
/// ```
/// use guppy_features::{FeatureFilterFn, PackageGraph};
///
/// let graph = PackageGraph::from_rows("package\ta\tworkspace\nfeature\tstd\n")?;
/// let filter = FeatureFilterFn::new(|_, id| id.is_named());
/// assert_eq!(graph.feature_graph().query_workspace(filter).initials().len(), 1);
/// # Ok::<(), guppy_features::RowsError>(())
/// ```
#[derive(Clone, Debug)]
pub struct FeatureFilterFn<F>(F);

impl<'g, F: FnMut(&FeatureGraph<'g>, FeatureId<'g>) -> bool> FeatureFilterFn<F> {
    /// Returns the filter that calls `f`.
    pub fn new(f: F) -> Self {
        FeatureFilterFn(f)
    }
}

impl<'g, F: FnMut(&FeatureGraph<'g>, FeatureId<'g>) -> bool> FeatureFilter<'g> for FeatureFilterFn<F> {
    fn accept(&mut self, graph: &FeatureGraph<'g>, feature_id: FeatureId<'g>) -> bool {
        (self.0)(graph, feature_id)
    }
}

/// The standard choices of Cargo.
///
/// ```
/// use guppy_features::{PackageGraph, StandardFeatures};
///
/// let graph = PackageGraph::from_rows("package\ta\tworkspace\nfeature\tdefault\tstd\nfeature\tstd\nfeature\tx\n")?;
/// let counts = StandardFeatures::VALUES.map(|choice| graph.feature_graph().query_workspace(choice).initials().len());
/// assert_eq!(counts, [1, 3, 4]);
/// # Ok::<(), guppy_features::RowsError>(())
/// ```
#[derive(Clone, Copy, Debug, PartialEq, Eq, PartialOrd, Ord, Hash)]
pub enum StandardFeatures {
    /// Bases alone, as with `--no-default-features`.
    None,
    /// The features that are on by default in their package, as without words.
    Default,
    /// Every feature, as with `--all-features`.
    All,
}

impl StandardFeatures {
    /// All choices.
    pub const VALUES: &'static [Self; 3] = &[StandardFeatures::None, StandardFeatures::Default, StandardFeatures::All];
}

impl<'g> FeatureFilter<'g> for StandardFeatures {
    /// # Panics
    ///
    /// Panics if the graph lacks the feature.
    fn accept(&mut self, graph: &FeatureGraph<'g>, feature_id: FeatureId<'g>) -> bool {
        match self {
            StandardFeatures::None => feature_id.is_base(),
            StandardFeatures::Default => graph.is_default_feature(feature_id).expect("the graph has the feature"),
            StandardFeatures::All => true,
        }
    }
}

/// Returns the filter that accepts what `base` accepts, and the named features with one of these names.
///
/// ```
/// use guppy_features::{PackageGraph, StandardFeatures, named_feature_filter};
///
/// let graph = PackageGraph::from_rows("package\ta\tworkspace\nfeature\tstd\nfeature\tx\n")?;
/// let filter = named_feature_filter(StandardFeatures::None, ["x"]);
/// assert_eq!(graph.feature_graph().query_workspace(filter).initials().len(), 2);
/// # Ok::<(), guppy_features::RowsError>(())
/// ```
pub fn named_feature_filter<'g: 'a, 'a>(
    mut base: impl FeatureFilter<'g> + 'a,
    features: impl IntoIterator<Item = &'a str>,
) -> impl FeatureFilter<'g> + 'a {
    let names: HashSet<&str> = features.into_iter().collect();
    FeatureFilterFn::new(move |graph: &FeatureGraph<'g>, id: FeatureId<'g>| {
        base.accept(graph, id) || matches!(id.label(), FeatureLabel::Named(name) if names.contains(name))
    })
}

/// Returns the filter that accepts what `base` accepts, and these features.
///
/// ```
/// use guppy_features::{FeatureId, PackageGraph, PackageId, StandardFeatures, feature_id_filter};
///
/// let graph = PackageGraph::from_rows("package\ta\tworkspace\nfeature\tstd\nfeature\tx\n")?;
/// let id = PackageId::new("a");
/// let filter = feature_id_filter(StandardFeatures::None, [FeatureId::named(&id, "std")]);
/// assert_eq!(graph.feature_graph().query_workspace(filter).initials().len(), 2);
/// # Ok::<(), guppy_features::RowsError>(())
/// ```
pub fn feature_id_filter<'g: 'a, 'a>(
    mut base: impl FeatureFilter<'g> + 'a,
    feature_ids: impl IntoIterator<Item = impl Into<FeatureId<'a>>>,
) -> impl FeatureFilter<'g> + 'a {
    let ids: HashSet<FeatureId<'a>> = feature_ids.into_iter().map(Into::into).collect();
    FeatureFilterFn::new(move |graph: &FeatureGraph<'g>, id: FeatureId<'g>| base.accept(graph, id) || ids.contains(&id))
}
