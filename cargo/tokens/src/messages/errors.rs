// Made from crates/messages/src/errors.rt by dev/erase: change that file, not this one.
//! Why a program fails.

use proved_tokens::proc_macro2::{LineColumn, ParseError, SourceMap};
use proved_tokens::shim::alloc::AllocError;
use proved_tokens::shim::io;

/// Why a program fails.
#[derive(Debug)]
pub enum Failure {
    /// The words after the program's name are wrong. The text says how the program is called.
    Usage(&'static str),
    /// The text has a syntax error at this line and column.
    Fault(LineColumn),
    /// The input is not UTF-8. It is valid up to this byte offset.
    NotUtf8(usize),
    /// The text has more characters than a source map has positions.
    MapFull,
    /// Memory ran out.
    Memory,
    /// The input could not be opened or read.
    Read(io::Error),
    /// The output could not be written.
    Write(io::Error),
}

impl Failure {
    /// Returns the failure for a text that was not parsed into the map: `Fault` with the line and column of the syntax
    /// error, `MapFull`, or `Memory`.
    pub fn parse_failure(error: ParseError, map: &SourceMap) -> Failure
    {
        match error {
            ParseError::Lex(fault) => Failure::Fault(fault.span().start(map)),
            ParseError::MapFull => Failure::MapFull,
            ParseError::Memory(_) => Failure::Memory,
        _ => unreachable!("each case is above"),
}
    }

    /// Returns the failure for an error of a read: `Memory` if memory ran out, and otherwise `Read`.
    pub fn reading(error: io::Error) -> Failure
    {
        if is_memory(error.kind()) {
            Failure::Memory
        } else {
            Failure::Read(error)
        }
    }
}

/// Makes the failure for an error of a write: `Memory` if memory ran out, and otherwise `Write`.
impl From<io::Error> for Failure {
    fn from(error: io::Error) -> Failure {
        if is_memory(error.kind()) {
            Failure::Memory
        } else {
            Failure::Write(error)
        }
    }
}

impl From<AllocError> for Failure {
    fn from(_: AllocError) -> Failure {
        Failure::Memory
    }
}

/// Whether the error is that memory ran out.
fn is_memory(kind: io::ErrorKind) -> bool
{
    matches!(kind, io::ErrorKind::OutOfMemory)
}
