//! Errors of the crate, and warnings of a graph.
use crate::{FeatureId, PackageId};
use std::error;
use std::fmt;

/// An id that the graph lacks.
///
/// ```
/// use guppy_features::{Error, PackageGraph, PackageId};
///
/// let graph = PackageGraph::from_rows("package\ta\tworkspace\n")?;
/// let error = graph.metadata(&PackageId::new("b")).unwrap_err();
/// assert_eq!(error, Error::UnknownPackageId(PackageId::new("b")));
/// assert_eq!(error.to_string(), "unknown package: b");
/// # Ok::<(), guppy_features::RowsError>(())
/// ```
#[derive(Clone, Debug, PartialEq, Eq)]
#[non_exhaustive]
pub enum Error {
    /// No package has this id.
    UnknownPackageId(PackageId),
    /// The graph lacks the feature of this package with this label. The text is the printed label.
    UnknownFeatureId(PackageId, String),
}

impl Error {
    /// Returns the error for a feature that the graph lacks.
    pub(crate) fn unknown_feature(id: FeatureId<'_>) -> Self {
        Error::UnknownFeatureId(id.package_id().clone(), id.label().to_string())
    }
}

impl fmt::Display for Error {
    fn fmt(&self, f: &mut fmt::Formatter<'_>) -> fmt::Result {
        match self {
            Error::UnknownPackageId(id) => write!(f, "unknown package: {id}"),
            Error::UnknownFeatureId(id, label) => write!(f, "unknown feature: {id}/{label}"),
        }
    }
}

impl error::Error for Error {}

/// A fault of a row.
///
/// ```
/// use guppy_features::RowFault;
///
/// assert_eq!(RowFault::UnknownTarget.to_string(), "unknown target");
/// ```
#[derive(Clone, Copy, Debug, PartialEq, Eq, Hash)]
pub enum RowFault {
    /// A feature or dependency row before any package row.
    NoPackage,
    /// A package row whose id an earlier row has.
    DuplicatePackage,
    /// A feature row whose name an earlier row of its package has.
    DuplicateFeature,
    /// A dependency row whose target is no package of the rows.
    UnknownTarget,
    /// A dependency row whose pair of packages has a link of another name.
    OtherName,
}

impl fmt::Display for RowFault {
    fn fmt(&self, f: &mut fmt::Formatter<'_>) -> fmt::Result {
        f.write_str(match self {
            RowFault::NoPackage => "no package",
            RowFault::DuplicatePackage => "duplicate package",
            RowFault::DuplicateFeature => "duplicate feature",
            RowFault::UnknownTarget => "unknown target",
            RowFault::OtherName => "other name",
        })
    }
}

/// Why rows are no graph. Lines are counted from 1.
///
/// ```
/// use guppy_features::{PackageGraph, RowFault, RowsError};
///
/// let error = PackageGraph::from_rows("feature\tstd\n").unwrap_err();
/// assert_eq!(error, RowsError::Row { line: 1, fault: RowFault::NoPackage });
/// assert_eq!(error.to_string(), "line 1: no package");
/// ```
#[derive(Clone, Debug, PartialEq, Eq)]
#[non_exhaustive]
pub enum RowsError {
    /// The bytes aren't UTF-8.
    NotText,
    /// The first malformed line.
    Malformed {
        /// The number of the line.
        line: usize,
    },
    /// The first row with a fault.
    Row {
        /// The number of the row's line.
        line: usize,
        /// The fault.
        fault: RowFault,
    },
    /// An allocation failed, or the graph is over a limit of the library.
    Memory,
}

impl fmt::Display for RowsError {
    fn fmt(&self, f: &mut fmt::Formatter<'_>) -> fmt::Result {
        match self {
            RowsError::NotText => f.write_str("not UTF-8"),
            RowsError::Malformed { line } => write!(f, "line {line}: malformed"),
            RowsError::Row { line, fault } => write!(f, "line {line}: {fault}"),
            RowsError::Memory => f.write_str("out of memory"),
        }
    }
}

impl error::Error for RowsError {}

/// An item or a listed name that asks for what isn't there.
///
/// ```
/// use guppy_features::{FeatureGraphWarning, PackageGraph, PackageId};
///
/// let graph = PackageGraph::from_rows("package\ta\tworkspace\nfeature\tf\tf\tg\n")?;
/// let id = PackageId::new("a");
/// assert_eq!(
///     graph.feature_graph().build_warnings(),
///     [
///         FeatureGraphWarning::SelfLoop { package_id: id.clone(), feature_name: "f".to_owned() },
///         FeatureGraphWarning::MissingFeature { package_id: id, feature_name: "g".to_owned() },
///     ]
/// );
/// # Ok::<(), guppy_features::RowsError>(())
/// ```
#[derive(Clone, Debug, PartialEq, Eq)]
#[non_exhaustive]
pub enum FeatureGraphWarning {
    /// A name that the package lacks.
    MissingFeature {
        /// The package that lacks it.
        package_id: PackageId,
        /// The name, after `dep:` for an optional dependency.
        feature_name: String,
    },
    /// A feature that has itself as an item.
    SelfLoop {
        /// The feature's package.
        package_id: PackageId,
        /// The feature's name.
        feature_name: String,
    },
}

impl fmt::Display for FeatureGraphWarning {
    fn fmt(&self, f: &mut fmt::Formatter<'_>) -> fmt::Result {
        match self {
            FeatureGraphWarning::MissingFeature { package_id, feature_name } => {
                write!(f, "{package_id} lacks the feature {feature_name}")
            }
            FeatureGraphWarning::SelfLoop { package_id, feature_name } => {
                write!(f, "the feature {feature_name} of {package_id} names itself")
            }
        }
    }
}
