//! Platforms and kinds of declarations.
use std::fmt;

/// The direction of a query or a list.
///
/// ```
/// use guppy_features::DependencyDirection;
///
/// assert_eq!(DependencyDirection::Forward.opposite(), DependencyDirection::Reverse);
/// ```
#[derive(Clone, Copy, Debug, PartialEq, Eq, Hash)]
pub enum DependencyDirection {
    /// From a feature to those that it turns on.
    Forward,
    /// From a feature to those that turn it on.
    Reverse,
}

impl DependencyDirection {
    /// Returns the other direction.
    pub fn opposite(self) -> Self {
        match self {
            DependencyDirection::Forward => DependencyDirection::Reverse,
            DependencyDirection::Reverse => DependencyDirection::Forward,
        }
    }
}

/// The kind of a declaration.
///
/// ```
/// use guppy_features::DependencyKind;
///
/// let names = DependencyKind::VALUES.map(|kind| kind.to_string());
/// assert_eq!(names, ["normal", "build", "dev"]);
/// ```
#[derive(Clone, Copy, Debug, PartialEq, Eq, PartialOrd, Ord, Hash)]
pub enum DependencyKind {
    /// For normal use.
    Normal,
    /// For the build script.
    Build,
    /// For development.
    Development,
}

impl DependencyKind {
    /// All kinds.
    pub const VALUES: &'static [Self; 3] =
        &[DependencyKind::Normal, DependencyKind::Build, DependencyKind::Development];
}

impl fmt::Display for DependencyKind {
    fn fmt(&self, f: &mut fmt::Formatter<'_>) -> fmt::Result {
        f.write_str(match self {
            DependencyKind::Normal => "normal",
            DependencyKind::Build => "build",
            DependencyKind::Development => "dev",
        })
    }
}

/// The platforms for which a link has declarations of one kind.
///
/// Specs are opaque texts; nothing evaluates them.
///
/// ```
/// use guppy_features::{PackageGraph, PackageId, PlatformStatus};
///
/// let graph = PackageGraph::from_rows(
///     "package\ta\tworkspace\ndep\tb\tb\tnormal\trequired\tcfg(unix)\tnodefault\npackage\tb\texternal\n",
/// )?;
/// let link = graph.feature_graph().offers().next().unwrap();
/// assert_eq!(link.normal(), PlatformStatus::PlatformDependent(&["cfg(unix)".to_owned()]));
/// assert!(link.normal().holds_for(|spec| spec == "cfg(unix)"));
/// assert!(link.build().is_never());
/// # Ok::<(), guppy_features::RowsError>(())
/// ```
#[derive(Clone, Copy, Debug, PartialEq, Eq)]
pub enum PlatformStatus<'g> {
    /// No declaration of this kind.
    Never,
    /// For the platforms of these specs: never empty, each once, by first appearance.
    PlatformDependent(&'g [String]),
    /// For every platform.
    Always,
}

impl PlatformStatus<'_> {
    /// Returns whether there is no declaration of this kind.
    pub fn is_never(self) -> bool {
        self == PlatformStatus::Never
    }

    /// Returns whether a declaration is for every platform.
    pub fn is_always(self) -> bool {
        self == PlatformStatus::Always
    }

    /// Returns whether there is a declaration of this kind.
    pub fn is_present(self) -> bool {
        !self.is_never()
    }

    /// Returns whether a declaration is for every platform, or for a spec of which `holds` returns `true`.
    pub fn holds_for(self, holds: impl Fn(&str) -> bool) -> bool {
        match self {
            PlatformStatus::Never => false,
            PlatformStatus::PlatformDependent(specs) => specs.iter().any(|spec| holds(spec)),
            PlatformStatus::Always => true,
        }
    }
}

/// The declarations that a link covers.
///
/// ```
/// use guppy_features::LinkDeclarations;
///
/// assert!(LinkDeclarations::Unsplit.includes_required());
/// assert!(!LinkDeclarations::Optional.includes_required());
/// ```
#[derive(Clone, Copy, Debug, PartialEq, Eq, Hash)]
pub enum LinkDeclarations {
    /// All declarations.
    Unsplit,
    /// The required declarations.
    Required,
    /// The optional declarations.
    Optional,
}

impl LinkDeclarations {
    /// Returns whether required declarations are among them.
    pub fn includes_required(self) -> bool {
        self != LinkDeclarations::Optional
    }

    /// Returns whether optional declarations are among them.
    pub fn includes_optional(self) -> bool {
        self != LinkDeclarations::Required
    }
}
