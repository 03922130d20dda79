//! guppy's feature graph of a Cargo workspace, whose answers are computed by a proved library.
//!
//! The names are those of guppy's module `graph::feature`. Rows of packages, features and dependencies are read from
//! the text of a row file, and each question is answered by the static library `feature_graph_c`, whose contracts are
//! proved. This crate passes bytes to it and gives the numbers of its answers names: ids, links, sets.
//!
//! ```
//! use guppy_features::{DependencyKind, FeatureId, PackageGraph, PackageId};
//!
//! let rows = "package\tmain\tworkspace\nfeature\tsmall\tsv/union\n\
//!             dep\tsv\tsv\tnormal\trequired\tcfg(unix)\tnodefault\npackage\tsv\texternal\nfeature\tunion\n";
//! let graph = PackageGraph::from_rows(rows)?;
//! let main = PackageId::new("main");
//! let query = graph.feature_graph().query_forward([FeatureId::named(&main, "small")])?;
//! let on = query.resolve_with_fn(|link| link.normal().holds_for(|spec| spec == "cfg(unix)"));
//! assert_eq!(on.len(), 4);
//! assert!(on.contains(FeatureId::named(&PackageId::new("sv"), "union"))?);
//! # let _ = DependencyKind::Normal;
//! # Ok::<(), Box<dyn std::error::Error>>(())
//! ```
//!
//! # One answer for each link
//!
//! A visitor here is a function of the link alone: [`FeatureQuery::resolve_with_fn`] calls it once for each link of the
//! graph, and passes the table of its answers to the library. By a law of the library this is no restriction for such
//! visitors: each link is offered at most once, and the result is the least closed set in whatever order links are
//! offered. Visitors with state aren't offered.
//!
//! # Failing allocations
//!
//! [`PackageGraph::from_rows`] returns [`RowsError::Memory`] if an allocation of the library fails. Later calls panic
//! in that case, as their counterparts in guppy have no error for it.
#![forbid(unsafe_code)]
#![warn(missing_docs)]

mod conditional_link;
mod cycles;
mod description;
mod error;
mod explained;
mod feature_filter;
mod feature_graph;
mod feature_id;
pub mod feature_list;
mod feature_query;
mod feature_set;
mod node_set;
mod package_graph;
mod package_id;
mod package_set;
mod platform;
mod wire;

pub use conditional_link::{ConditionalLink, FeatureEdge};
pub use cycles::Cycles;
pub use description::Declaration;
pub use error::{Error, FeatureGraphWarning, RowFault, RowsError};
pub use explained::{Explained, OfferId, Reason};
pub use feature_filter::{FeatureFilter, FeatureFilterFn, StandardFeatures, feature_id_filter, named_feature_filter};
pub use feature_graph::{FeatureGraph, FeatureMetadata};
pub use feature_id::{FeatureId, FeatureKind, FeatureLabel};
pub use feature_list::FeatureList;
pub use feature_query::FeatureQuery;
pub use feature_set::FeatureSet;
pub use package_graph::{PackageGraph, PackageLink, PackageMetadata};
pub use package_id::PackageId;
pub use package_set::PackageSet;
pub use platform::{DependencyDirection, DependencyKind, LinkDeclarations, PlatformStatus};
