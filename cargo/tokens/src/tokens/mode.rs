// Made from crates/tokens/src/mode.rt by dev/erase: change that file, not this one.
//! The forms in which tokens are written.

/// The form in which a stream is written.
#[derive(Clone, Copy, Debug, PartialEq, Eq)]
pub enum OutputMode {
    /// The printed stream and a line feed.
    Print,
    /// A line for each tree: where the tree begins and ends, and its kind.
    Spans,
}
