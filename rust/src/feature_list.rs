//! Lists of the features of one package.
use crate::{FeatureId, FeatureLabel, PackageMetadata};
use std::{fmt, slice, vec};

/// Features of one package, sorted by label and each once.
///
/// ```
/// use guppy_features::{PackageGraph, PackageId};
///
/// let graph = PackageGraph::from_rows("package\ta\tworkspace\nfeature\tstd\nfeature\talloc\n")?;
/// let list = graph.feature_graph().all_features_for(&PackageId::new("a"))?;
/// assert_eq!(list.display_features().to_string(), "[base], alloc, std");
/// assert!(list.has_named_feature("std"));
/// # Ok::<(), Box<dyn std::error::Error>>(())
/// ```
#[derive(Clone)]
pub struct FeatureList<'g> {
    package: PackageMetadata<'g>,
    labels: Vec<FeatureLabel<'g>>,
}

impl<'g> FeatureList<'g> {
    /// Returns the list of these labels of a package.
    pub fn new(package: PackageMetadata<'g>, labels: impl IntoIterator<Item = FeatureLabel<'g>>) -> Self {
        let mut labels: Vec<_> = labels.into_iter().collect();
        labels.sort_unstable();
        labels.dedup();
        FeatureList { package, labels }
    }

    /// Returns the package.
    pub fn package(&self) -> &PackageMetadata<'g> {
        &self.package
    }

    /// Returns whether the list has this label.
    pub fn contains(&self, label: FeatureLabel<'_>) -> bool {
        self.labels.binary_search_by(|it| it.cmp(&label)).is_ok()
    }

    /// Returns whether the list has the base.
    pub fn has_base(&self) -> bool {
        self.contains(FeatureLabel::Base)
    }

    /// Returns whether the list has this named feature.
    pub fn has_named_feature(&self, feature_name: &str) -> bool {
        self.contains(FeatureLabel::Named(feature_name))
    }

    /// Returns whether the list has this optional dependency.
    pub fn has_optional_dependency(&self, dep_name: &str) -> bool {
        self.contains(FeatureLabel::OptionalDependency(dep_name))
    }

    /// Returns the labels, sorted and each once.
    pub fn labels(&self) -> &[FeatureLabel<'g>] {
        &self.labels
    }

    /// Returns the names of the named features, sorted.
    pub fn named_features(&self) -> impl Iterator<Item = &'g str> + '_ {
        self.labels.iter().filter_map(|label| match label {
            FeatureLabel::Named(name) => Some(*name),
            _ => None,
        })
    }

    /// Returns the names of the optional dependencies, sorted.
    pub fn optional_deps(&self) -> impl Iterator<Item = &'g str> + '_ {
        self.labels.iter().filter_map(|label| match label {
            FeatureLabel::OptionalDependency(name) => Some(*name),
            _ => None,
        })
    }

    /// Returns the ids of the features.
    pub fn iter<'a>(&'a self) -> Iter<'g, 'a> {
        Iter { package: self.package, labels: self.labels.iter() }
    }

    /// Returns a value that prints the labels, with `, ` between two.
    pub fn display_features<'a>(&'a self) -> DisplayFeatures<'g, 'a> {
        DisplayFeatures(&self.labels)
    }

    /// Returns the labels, sorted and each once.
    pub fn into_labels(self) -> Vec<FeatureLabel<'g>> {
        self.labels
    }
}

/// Two lists are equal if their packages are packages of one graph with one id, and their labels are equal.
impl PartialEq for FeatureList<'_> {
    fn eq(&self, other: &Self) -> bool {
        let is_one_package =
            std::ptr::eq(self.package.graph, other.package.graph) && self.package.number == other.package.number;
        is_one_package && self.labels == other.labels
    }
}

impl Eq for FeatureList<'_> {}

impl fmt::Debug for FeatureList<'_> {
    fn fmt(&self, f: &mut fmt::Formatter<'_>) -> fmt::Result {
        f.debug_struct("FeatureList")
            .field("package", self.package.id())
            .field("labels", &self.display_features())
            .finish()
    }
}

impl<'g> IntoIterator for FeatureList<'g> {
    type Item = FeatureId<'g>;
    type IntoIter = IntoIter<'g>;

    fn into_iter(self) -> IntoIter<'g> {
        IntoIter { package: self.package, labels: self.labels.into_iter() }
    }
}

impl<'g, 'a> IntoIterator for &'a FeatureList<'g> {
    type Item = FeatureId<'g>;
    type IntoIter = Iter<'g, 'a>;

    fn into_iter(self) -> Iter<'g, 'a> {
        self.iter()
    }
}

/// An iterator that owns the labels of a list.
///
/// ```
/// use guppy_features::{PackageGraph, PackageId};
///
/// let graph = PackageGraph::from_rows("package\ta\tworkspace\n")?;
/// let list = graph.feature_graph().all_features_for(&PackageId::new("a"))?;
/// assert_eq!(list.into_iter().next().unwrap().to_string(), "a/[base]");
/// # Ok::<(), Box<dyn std::error::Error>>(())
/// ```
pub struct IntoIter<'g> {
    package: PackageMetadata<'g>,
    labels: vec::IntoIter<FeatureLabel<'g>>,
}

impl<'g> Iterator for IntoIter<'g> {
    type Item = FeatureId<'g>;

    fn next(&mut self) -> Option<FeatureId<'g>> {
        Some(FeatureId::new(self.package.id(), self.labels.next()?))
    }
}

/// An iterator over the ids of a list.
///
/// ```
/// use guppy_features::{PackageGraph, PackageId};
///
/// let graph = PackageGraph::from_rows("package\ta\tworkspace\nfeature\tstd\n")?;
/// let list = graph.feature_graph().all_features_for(&PackageId::new("a"))?;
/// assert_eq!(list.iter().count(), 2);
/// # Ok::<(), Box<dyn std::error::Error>>(())
/// ```
pub struct Iter<'g, 'a> {
    package: PackageMetadata<'g>,
    labels: slice::Iter<'a, FeatureLabel<'g>>,
}

impl<'g> Iterator for Iter<'g, '_> {
    type Item = FeatureId<'g>;

    fn next(&mut self) -> Option<FeatureId<'g>> {
        Some(FeatureId::new(self.package.id(), *self.labels.next()?))
    }
}

/// Prints the labels of a list.
///
/// ```
/// use guppy_features::{PackageGraph, PackageId};
///
/// let graph = PackageGraph::from_rows("package\ta\tworkspace\nfeature\tstd\n")?;
/// let list = graph.feature_graph().all_features_for(&PackageId::new("a"))?;
/// assert_eq!(format!("{}", list.display_features()), "[base], std");
/// # Ok::<(), Box<dyn std::error::Error>>(())
/// ```
#[derive(Clone, Copy)]
pub struct DisplayFeatures<'g, 'a>(&'a [FeatureLabel<'g>]);

impl fmt::Display for DisplayFeatures<'_, '_> {
    fn fmt(&self, f: &mut fmt::Formatter<'_>) -> fmt::Result {
        for (place, label) in self.0.iter().enumerate() {
            let before = if place == 0 { "" } else { ", " };
            write!(f, "{before}{label}")?;
        }
        Ok(())
    }
}

impl fmt::Debug for DisplayFeatures<'_, '_> {
    fn fmt(&self, f: &mut fmt::Formatter<'_>) -> fmt::Result {
        fmt::Display::fmt(self, f)
    }
}
