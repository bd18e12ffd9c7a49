// Made from crates/tokens/src/reading.rt by dev/erase: change that file, not this one.
//! Reads a source to its end.

use proved_tokens::shim::prelude::{Grow, GrowList};

use crate::tokens::errors::RunError;
use crate::tokens::sources::ByteSource;
use proved_tokens::shim::alloc::AllocError;
use proved_tokens::shim::io;

/// The number of bytes for which each read has room at least.
const BLOCK: usize = 64 * 1024;

/// Reads all the bytes that the source has left.
///
/// Returns `Io` if a read failed, and `Memory` if memory runs out. Some of the bytes may have been read then.
pub fn read_to_end<R: ByteSource>(reader: &mut R) -> Result<Vec<u8>, RunError>
{
    let mut bytes = Vec::new();
    let mut filled = 0;
    loop {
        make_room(&mut bytes, filled)?;
        let Ok(count) = read_at(reader, bytes.as_mut_slice(), filled) else {
            return Err(RunError::Io);
        };
        if count == 0 {
            bytes.truncate(filled);
            return Ok(bytes);
        }
        filled += count;
    }
}

/// Makes room for a block of zeros after the bytes that are filled. Capacity past that block stays untouched, so the
/// system need not provide memory for it.
fn make_room(bytes: &mut Vec<u8>, filled: usize) -> Result<(), AllocError>
{
    if bytes.len() - filled < BLOCK {
        bytes.reserve_fallibly(BLOCK)?;
        bytes.resize_fallibly(filled + BLOCK, 0)?;
    }
    Ok(())
}

/// Reads once, into the part of the buffer after the bytes that are filled.
fn read_at<R: ByteSource>(reader: &mut R, buffer: &mut [u8], filled: usize) -> io::Result<usize>
{
    reader.read(&mut buffer[filled..])
}
