// Made from crates/tokens/src/messages.rt by dev/erase: change that file, not this one.
//! The messages of the program, one line each. Writing a message allocates no memory, and a message that cannot be
//! written is dropped.

use crate::tokens::errors::RunError;
use crate::tokens::sinks::ByteSink;
use crate::tokens::writing::write_all;
use proved_tokens::shim::itoa::Buffer;
use proved_tokens::proc_macro2::LineColumn;

/// Writes the usage line.
pub fn say_usage<E: ByteSink>(errors: &mut E)
{
    let _ = write_all(errors, b"usage: tokens print|spans\n");
}

/// Writes why a run failed, and nothing if it did not. For a syntax error at the start of line 2 it writes `fault 2:0`.
pub fn say<E: ByteSink>(errors: &mut E, answer: &Result<(), RunError>)
{
    let _ = match answer {
        Ok(()) => Ok(()),
        Err(RunError::Io) => write_all(errors, b"input or output failed\n"),
        Err(RunError::NotUtf8) => write_all(errors, b"not utf-8\n"),
        Err(RunError::MapFull) => write_all(errors, b"map full\n"),
        Err(RunError::Lex(start)) => say_fault(errors, *start),
        Err(RunError::Memory(_)) => write_all(errors, b"no memory\n"),
    };
}

/// Writes the line and column of a syntax error.
fn say_fault<E: ByteSink>(errors: &mut E, start: LineColumn) -> Result<(), RunError>
{
    write_all(errors, b"fault ")?;
    say_number(errors, start.line)?;
    write_all(errors, b":")?;
    say_number(errors, start.column)?;
    write_all(errors, b"\n")
}

/// Writes a number in decimal digits.
fn say_number<E: ByteSink>(errors: &mut E, number: usize) -> Result<(), RunError>
{
    let mut buffer = Buffer::new();
    write_all(errors, buffer.format(number).as_bytes())
}
