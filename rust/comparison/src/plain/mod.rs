//! The plain implementation.
mod edges;
mod rows;
mod views;
mod walk;
mod warnings;

pub use edges::{Edge, Graph, Half, Label, Link, Status};
pub use rows::{Declaration, Package, PackageLink, Tables};
pub use walk::{least, reach};
