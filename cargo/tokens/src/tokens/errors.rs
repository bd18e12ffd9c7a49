// Made from crates/tokens/src/errors.rt by dev/erase: change that file, not this one.
//! The error of a run.

use proved_tokens::proc_macro2::LineColumn;
use proved_tokens::shim::alloc::AllocError;

/// Why a run failed.
#[derive(Clone, Copy, Debug)]
pub enum RunError {
    /// A read or a write failed, or a write took no bytes.
    Io,
    /// The input isn't UTF-8.
    NotUtf8,
    /// The input has more characters than a source map has positions.
    MapFull,
    /// The input has a syntax error at this line and column. Lines count from 1, and columns count characters from 0.
    Lex(LineColumn),
    /// Memory ran out.
    Memory(AllocError),
}

impl From<AllocError> for RunError {
    fn from(error: AllocError) -> RunError {
        RunError::Memory(error)
    }
}
