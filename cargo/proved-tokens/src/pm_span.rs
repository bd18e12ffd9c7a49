// Made from crates/pm_span/src/lib.rt by dev/erase: change that file, not this one.
//! Source maps: the texts that were read, with spans, lines, columns and byte offsets.
//!
//! A word in backquotes that names no item, such as `next-position`, is the label of a rule. `docs/GRAMMAR.md`
//! defines all rules.

mod byte_index;
mod file_info;
pub mod laws;
mod line_index;
pub mod location;
mod lookups;
pub mod parts;
mod plain;
pub mod source_map;
pub mod spans;
mod text;
mod text_lines;

pub use location::LineColumn;
pub use source_map::SourceMap;
pub use spans::Span;
