//! Ids and labels of features.
use crate::PackageId;
use std::fmt;

/// The kind of a feature in its package.
///
/// ```
/// use guppy_features::{FeatureKind, FeatureLabel};
///
/// assert_eq!(FeatureLabel::Named("std").kind(), FeatureKind::Named);
/// assert!(FeatureLabel::Base.kind().is_base());
/// ```
#[derive(Clone, Copy, Debug, PartialEq, Eq, PartialOrd, Ord, Hash)]
pub enum FeatureKind {
    /// The package with no feature on.
    Base,
    /// A named feature.
    Named,
    /// An optional dependency.
    OptionalDependency,
}

impl FeatureKind {
    /// Returns whether this is the base.
    pub fn is_base(self) -> bool {
        self == FeatureKind::Base
    }

    /// Returns whether this is a named feature.
    pub fn is_named(self) -> bool {
        self == FeatureKind::Named
    }

    /// Returns whether this is an optional dependency.
    pub fn is_optional_dependency(self) -> bool {
        self == FeatureKind::OptionalDependency
    }
}

/// The label of a feature in its package.
///
/// Labels are ordered: the base, named features by bytes, optional dependencies by bytes.
///
/// ```
/// use guppy_features::FeatureLabel;
///
/// assert_eq!(FeatureLabel::Base.to_string(), "[base]");
/// assert_eq!(FeatureLabel::Named("std").to_string(), "std");
/// assert_eq!(FeatureLabel::OptionalDependency("serde").to_string(), "dep:serde");
/// assert!(FeatureLabel::Named("std") < FeatureLabel::OptionalDependency("serde"));
/// ```
#[derive(Clone, Copy, Debug, PartialEq, Eq, PartialOrd, Ord, Hash)]
pub enum FeatureLabel<'g> {
    /// The package with no feature on.
    Base,
    /// The named feature of this name.
    Named(&'g str),
    /// The optional dependency of this name.
    OptionalDependency(&'g str),
}

impl FeatureLabel<'_> {
    /// Returns the label's kind.
    pub fn kind(self) -> FeatureKind {
        match self {
            FeatureLabel::Base => FeatureKind::Base,
            FeatureLabel::Named(_) => FeatureKind::Named,
            FeatureLabel::OptionalDependency(_) => FeatureKind::OptionalDependency,
        }
    }
}

impl fmt::Display for FeatureLabel<'_> {
    fn fmt(&self, f: &mut fmt::Formatter<'_>) -> fmt::Result {
        match self {
            FeatureLabel::Base => f.write_str("[base]"),
            FeatureLabel::Named(name) => f.write_str(name),
            FeatureLabel::OptionalDependency(name) => write!(f, "dep:{name}"),
        }
    }
}

/// The id of a feature: its package's id and its label.
///
/// ```
/// use guppy_features::{FeatureId, FeatureLabel, PackageId};
///
/// let package = PackageId::new("sv");
/// let id = FeatureId::named(&package, "union");
/// assert_eq!(id.to_string(), "sv/union");
/// assert_eq!(id, FeatureId::from((&package, FeatureLabel::Named("union"))));
/// assert!(FeatureId::base(&package) < id);
/// ```
#[derive(Clone, Copy, Debug, PartialEq, Eq, PartialOrd, Ord, Hash)]
pub struct FeatureId<'g> {
    package_id: &'g PackageId,
    label: FeatureLabel<'g>,
}

impl<'g> FeatureId<'g> {
    /// Returns the id of the feature of `package_id` with this label.
    pub fn new(package_id: &'g PackageId, label: FeatureLabel<'g>) -> Self {
        FeatureId { package_id, label }
    }

    /// Returns the id of a named feature.
    pub fn named(package_id: &'g PackageId, feature_name: &'g str) -> Self {
        FeatureId::new(package_id, FeatureLabel::Named(feature_name))
    }

    /// Returns the id of an optional dependency.
    pub fn optional_dependency(package_id: &'g PackageId, dep_name: &'g str) -> Self {
        FeatureId::new(package_id, FeatureLabel::OptionalDependency(dep_name))
    }

    /// Returns the id of a package's base.
    pub fn base(package_id: &'g PackageId) -> Self {
        FeatureId::new(package_id, FeatureLabel::Base)
    }

    /// Returns the package's id.
    pub fn package_id(&self) -> &'g PackageId {
        self.package_id
    }

    /// Returns the label.
    pub fn label(&self) -> FeatureLabel<'g> {
        self.label
    }

    /// Returns whether this is a package's base.
    pub fn is_base(&self) -> bool {
        self.label.kind().is_base()
    }

    /// Returns whether this is a named feature.
    pub fn is_named(&self) -> bool {
        self.label.kind().is_named()
    }

    /// Returns whether this is an optional dependency.
    pub fn is_optional_dependency(&self) -> bool {
        self.label.kind().is_optional_dependency()
    }
}

impl<'g> From<(&'g PackageId, FeatureLabel<'g>)> for FeatureId<'g> {
    fn from((package_id, label): (&'g PackageId, FeatureLabel<'g>)) -> Self {
        FeatureId::new(package_id, label)
    }
}

impl fmt::Display for FeatureId<'_> {
    fn fmt(&self, f: &mut fmt::Formatter<'_>) -> fmt::Result {
        write!(f, "{}/{}", self.package_id, self.label)
    }
}
