// Made from crates/pm_stream/src/laws.rt by dev/erase: change that file, not this one.
//! Facts that are proved about the definitions which the other contracts use.

/// The printed text of a stream is its trees in order, with one space between two trees but none after a Joint mark.
///
/// The text of a group is its delimiters around the text of its stream. `( .. )` and `[ .. ]` have no spaces inside.
/// Braces are `{ }` around an empty stream, and otherwise `{ .. }` with one space on each side. A group without
/// delimiters is printed as its stream.
///
/// # Contract
///
/// - `ensures`: <code>(stream : [Forest]) → [printed] stream ≡ [text_by_rule] stream</code>
///
/// [Forest]: crate::contracts#pm_stream.Forest.Forest
/// [printed]: crate::contracts#pm_stream.Printed.printed
/// [text_by_rule]: crate::contracts#pm_stream.PrinterRule.text_by_rule
pub fn printed_by_the_rule()
{}
