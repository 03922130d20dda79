//! A plain implementation of the feature graph over std, and random row files, for comparisons with the proved library.
//!
//! The rules are those of docs/DEFINITIONS.md. Nothing here knows the library or its crate: rows are read, edges are
//! made and walks are made anew. It is written to be read, and not to be fast.
//!
//! ```
//! use comparison::plain::{Graph, Label, least};
//!
//! let graph = Graph::of("package\ta\tworkspace\nfeature\tf\tg\nfeature\tg\n");
//! assert_eq!(graph.nodes[1], (0, Label::Named("f".to_owned())));
//! let members = least(&graph, true, &[1], |_, _| true);
//! assert_eq!(members, [true, true, true]);
//! ```
#![forbid(unsafe_code)]
#![warn(missing_docs)]

pub mod plain;
pub mod random;
