//! The id of a package.
use std::fmt;

/// The id of a package, as its row spells it.
///
/// ```
/// use guppy_features::PackageId;
///
/// let id = PackageId::new("path+file:///ws#0.1.0");
/// assert_eq!(id.repr(), "path+file:///ws#0.1.0");
/// assert_eq!(id.to_string(), id.repr());
/// ```
#[derive(Clone, Debug, PartialEq, Eq, PartialOrd, Ord, Hash)]
pub struct PackageId {
    repr: Box<str>,
}

impl PackageId {
    /// Returns the id with this text.
    pub fn new(repr: impl Into<Box<str>>) -> Self {
        PackageId { repr: repr.into() }
    }

    /// Returns the id's text.
    pub fn repr(&self) -> &str {
        &self.repr
    }
}

impl fmt::Display for PackageId {
    fn fmt(&self, f: &mut fmt::Formatter<'_>) -> fmt::Result {
        f.write_str(&self.repr)
    }
}
