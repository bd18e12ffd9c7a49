// Made from crates/pm_span/src/location.rt by dev/erase: change that file, not this one.
//! Lines and columns.

/// A line and a column of a text, as people count them.
#[derive(Clone, Copy, Debug, PartialEq, Eq, PartialOrd, Ord, Hash)]
pub struct LineColumn {
    /// The line, counted from 1.
    pub line: usize,
    /// The column in characters, counted from 0.
    pub column: usize,
}
