// Made from crates/pm_token/src/delimiters.rt by dev/erase: change that file, not this one.
//! The delimiters of groups.

/// The delimiters around a group of trees.
#[derive(Clone, Copy, Debug, PartialEq, Eq)]
pub enum Delimiter {
    /// `( .. )`
    Parenthesis,
    /// `{ .. }`
    Brace,
    /// `[ .. ]`
    Bracket,
    /// No delimiters are written: the group only keeps its trees together.
    None,
}
