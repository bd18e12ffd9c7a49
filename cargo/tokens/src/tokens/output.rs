// Made from crates/tokens/src/output.rt by dev/erase: change that file, not this one.
//! The output for an input, complete before it is written.

use crate::tokens::errors::RunError;
use crate::tokens::sinks::ByteSink;
use crate::tokens::spans::write_lines;
use crate::tokens::writing::write_all;
use proved_tokens::proc_macro2::PlacedTree;

/// The whole output for an input, known before its first byte is written.
pub enum RunOutput {
    /// A text, which is written as it is.
    Text(String),
    /// Trees, each of which is written as a line.
    Trees(Vec<PlacedTree>),
}

/// Writes the output to the sink.
///
/// Returns `Io` if a write failed or took no bytes. A prefix of the output is written then.
pub fn write_output<W: ByteSink>(writer: &mut W, output: &RunOutput) -> Result<(), RunError>
{
    match output {
        RunOutput::Text(text) => write_all(writer, text.as_bytes()),
        RunOutput::Trees(trees) => write_lines(writer, trees.as_slice()),
    }
}
