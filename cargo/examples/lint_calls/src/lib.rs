//! A lint for Rust files, and a rewriter that takes out calls of `dbg!`.
//!
//! [`lint`] reports what breaks one of these rules, also in the bodies of functions:
//!
//! - `debug-macro`: a call of `dbg!`, `todo!` or `unimplemented!`, also among the tokens of other macros.
//! - `allow-without-reason`: an attribute `#[allow(..)]` or `#![allow(..)]` without an entry `reason = ".."`, also
//!   there.
//! - `many-parameters`: a function with more than 6 parameters, of which a receiver is one.
//! - `missing-docs`: a `pub` field of a `pub` struct without a doc comment.
//! - `option-option`: a field of a struct whose type is `Option<Option<..>>`.
//!
//! [`fix`] writes `(x)` in place of each `dbg!(x)`, and keeps everything else.

mod fix;
mod rules;
mod source;
mod trees;

pub use fix::{fix, Fixed};
pub use source::Columns;

use source::Source;

/// Returns a line `FILE:LINE:COLUMN: RULE: MESSAGE` for each finding, in the order of the text.
///
/// Lines and columns count from 1, and a byte order mark at the start of the text counts for nothing. If the text does
/// not parse, the result is the message that says where and why.
pub fn lint(file: &str, text: &str, columns: Columns) -> Result<Vec<String>, String> {
    let mut source = Source::read(file, text, columns)?;
    let findings = rules::findings(source.stream.trees()).map_err(|fault| source.fault_message(&fault))?;
    let mut placed: Vec<_> =
        findings.into_iter().map(|finding| (source.byte_range(finding.span).start, finding)).collect();
    placed.sort_by_key(|(offset, _)| *offset);
    let line = |(offset, finding): (usize, rules::Finding)| {
        format!("{}: {}: {}", source.place(offset), finding.rule, finding.message)
    };
    Ok(placed.into_iter().map(line).collect())
}
