// Made from crates/tokens/src/writing.rt by dev/erase: change that file, not this one.
//! Writes bytes to a sink.

use crate::tokens::errors::RunError;
use crate::tokens::sinks::ByteSink;

/// Writes all the bytes, in as many calls as the sink needs.
///
/// Returns `Io` if a write failed or took no bytes. A prefix of the bytes is written then.
pub fn write_all<W: ByteSink>(writer: &mut W, bytes: &[u8]) -> Result<(), RunError>
{
    let mut rest = bytes;
    while !rest.is_empty() {
        match writer.write(rest) {
            Ok(0) | Err(_) => return Err(RunError::Io),
            Ok(n) => rest = &rest[n..],
        }
    }
    Ok(())
}
