//! Packages and the links between them.
use crate::description::{Declaration, Description, PackageContent, PackageLinkContent};
use crate::{DependencyKind, Error, FeatureGraph, FeatureId, FeatureLabel, PackageId, RowsError};
use std::fmt;
use std::sync::OnceLock;

/// The packages of a row file, and the feature graph over them.
///
/// The library describes the graph once, in `from_rows`. The rows are kept, because each later question passes them
/// again.
///
/// ```
/// use guppy_features::PackageGraph;
///
/// let graph = PackageGraph::from_rows("package\ta\tworkspace\nfeature\tstd\n")?;
/// assert_eq!(graph.package_count(), 1);
/// assert_eq!(graph.feature_graph().feature_count(), 2);
/// # Ok::<(), guppy_features::RowsError>(())
/// ```
pub struct PackageGraph {
    pub(crate) rows: Vec<u8>,
    pub(crate) description: Description,
    pub(crate) order: OnceLock<Vec<usize>>,
}

impl PackageGraph {
    /// Returns the graph of a row file's bytes, or the first fault of the rows.
    pub fn from_rows(rows: impl Into<Vec<u8>>) -> Result<Self, RowsError> {
        let rows = rows.into();
        let description = Description::of_rows(&rows)?;
        Ok(PackageGraph { rows, description, order: OnceLock::new() })
    }

    /// Returns the feature graph. It was built with this graph, so the call is cheap.
    pub fn feature_graph(&self) -> FeatureGraph<'_> {
        FeatureGraph { graph: self }
    }

    /// Returns the number of packages.
    pub fn package_count(&self) -> usize {
        self.description.packages.len()
    }

    /// Returns the number of links between packages.
    pub fn link_count(&self) -> usize {
        self.description.package_links.len()
    }

    /// Returns the package with this id. The error is `UnknownPackageId` if there is none.
    pub fn metadata(&self, id: &PackageId) -> Result<PackageMetadata<'_>, Error> {
        match self.description.package(id) {
            Some(number) => Ok(self.package(number)),
            None => Err(Error::UnknownPackageId(id.clone())),
        }
    }

    /// Returns the packages in the order of their rows.
    pub fn packages(&self) -> impl ExactSizeIterator<Item = PackageMetadata<'_>> {
        (0..self.package_count()).map(|number| self.package(number))
    }

    /// Returns the links between packages, by the package that they leave.
    pub fn links(&self) -> impl ExactSizeIterator<Item = PackageLink<'_>> {
        (0..self.link_count()).map(|number| PackageLink { graph: self, number })
    }

    pub(crate) fn package(&self, number: usize) -> PackageMetadata<'_> {
        PackageMetadata { graph: self, number }
    }
}

impl fmt::Debug for PackageGraph {
    fn fmt(&self, f: &mut fmt::Formatter<'_>) -> fmt::Result {
        f.debug_struct("PackageGraph")
            .field("package_count", &self.package_count())
            .field("link_count", &self.link_count())
            .finish_non_exhaustive()
    }
}

/// A package of a graph.
///
/// ```
/// use guppy_features::{PackageGraph, PackageId};
///
/// let graph = PackageGraph::from_rows("package\ta\tworkspace\nfeature\tdefault\tstd\nfeature\tstd\n")?;
/// let id = PackageId::new("a");
/// let package = graph.metadata(&id)?;
/// assert!(package.in_workspace());
/// assert_eq!(package.named_features().collect::<Vec<_>>(), ["default", "std"]);
/// assert_eq!(package.default_feature_id().to_string(), "a/default");
/// # Ok::<(), Box<dyn std::error::Error>>(())
/// ```
#[derive(Clone, Copy)]
pub struct PackageMetadata<'g> {
    pub(crate) graph: &'g PackageGraph,
    pub(crate) number: usize,
}

impl<'g> PackageMetadata<'g> {
    fn content(&self) -> &'g PackageContent {
        &self.graph.description.packages[self.number]
    }

    /// Returns the package's id.
    pub fn id(&self) -> &'g PackageId {
        &self.content().id
    }

    /// Returns the graph of the package.
    pub fn graph(&self) -> &'g PackageGraph {
        self.graph
    }

    /// Returns whether the package belongs to the workspace.
    pub fn in_workspace(&self) -> bool {
        self.content().in_workspace
    }

    /// Returns the names of the package's features, in the order of their rows.
    pub fn named_features(&self) -> impl ExactSizeIterator<Item = &'g str> + use<'g> {
        self.content().named_features.iter().map(|feature| feature.name.as_str())
    }

    /// Returns the items of the named feature, or `None` if the package lacks it.
    pub fn items(&self, feature_name: &str) -> Option<&'g [String]> {
        let feature = self.content().named_features.iter().find(|it| it.name == feature_name)?;
        Some(&feature.items)
    }

    /// Returns the names of the package's optional dependencies, by the first row of each.
    pub fn optional_deps(&self) -> impl ExactSizeIterator<Item = &'g str> + use<'g> {
        self.content().optional_deps.iter().map(String::as_str)
    }

    /// Returns the feature `default`, or the base of a package without it.
    pub fn default_feature_id(&self) -> FeatureId<'g> {
        let has_default = self.named_features().any(|name| name == "default");
        let label = if has_default { FeatureLabel::Named("default") } else { FeatureLabel::Base };
        FeatureId::new(self.id(), label)
    }

    /// Returns the links that leave the package.
    pub fn direct_links(&self) -> impl Iterator<Item = PackageLink<'g>> + use<'g> {
        let (graph, number) = (self.graph, self.number);
        let first = graph.description.package_links.partition_point(|it| it.from < number);
        (first..graph.link_count())
            .take_while(move |it| graph.description.package_links[*it].from == number)
            .map(move |it| PackageLink { graph, number: it })
    }
}

impl fmt::Debug for PackageMetadata<'_> {
    fn fmt(&self, f: &mut fmt::Formatter<'_>) -> fmt::Result {
        f.debug_struct("PackageMetadata").field("id", self.id()).finish_non_exhaustive()
    }
}

/// A link between two packages: all declarations of the one for the other.
///
/// ```
/// use guppy_features::PackageGraph;
///
/// let graph = PackageGraph::from_rows(
///     "package\ta\tworkspace\ndep\tb\tb 1.0\tdev\trequired\t*\tnodefault\npackage\tb 1.0\texternal\n",
/// )?;
/// let link = graph.links().next().unwrap();
/// assert_eq!((link.from().id().repr(), link.dep_name(), link.to().id().repr()), ("a", "b", "b 1.0"));
/// assert!(link.dev_only());
/// # Ok::<(), guppy_features::RowsError>(())
/// ```
#[derive(Clone, Copy)]
pub struct PackageLink<'g> {
    pub(crate) graph: &'g PackageGraph,
    pub(crate) number: usize,
}

impl<'g> PackageLink<'g> {
    fn content(&self) -> &'g PackageLinkContent {
        &self.graph.description.package_links[self.number]
    }

    /// Returns the package that declares the dependency.
    pub fn from(&self) -> PackageMetadata<'g> {
        self.graph.package(self.content().from)
    }

    /// Returns the package that is depended on.
    pub fn to(&self) -> PackageMetadata<'g> {
        self.graph.package(self.content().to)
    }

    /// Returns the name of the dependency.
    pub fn dep_name(&self) -> &'g str {
        &self.content().name
    }

    /// Returns the declarations, in the order of their rows. There is at least one.
    pub fn declarations(&self) -> &'g [Declaration] {
        &self.content().declarations
    }

    /// Returns whether each declaration is for development.
    pub fn dev_only(&self) -> bool {
        self.declarations().iter().all(|it| it.kind == DependencyKind::Development)
    }
}

impl fmt::Debug for PackageLink<'_> {
    fn fmt(&self, f: &mut fmt::Formatter<'_>) -> fmt::Result {
        f.debug_struct("PackageLink")
            .field("from", self.from().id())
            .field("to", self.to().id())
            .field("dep_name", &self.dep_name())
            .finish_non_exhaustive()
    }
}
