// Made from crates/tokens/src/sources.rt by dev/erase: change that file, not this one.
//! Sources, from which the input of a run comes.

use proved_tokens::shim::io;
use proved_tokens::shim::io::Read;

/// Something from which bytes can be read.
///
/// Proofs may know which bytes a source has left, as they do for one in memory. For a file they don't.
pub trait ByteSource {
    // the bytes that later reads will give, if proofs may know them

    // whether a call has failed so far

    /// Reads bytes into the start of `buffer`, and returns how many bytes it read.
    ///
    /// If it returns 0 for a buffer that isn't empty, the input has ended. It reads nothing if it returns an error.
    fn read(&mut self, buffer: &mut [u8]) -> io::Result<usize>;
}

/// Bytes in memory. No read of them fails.
pub struct MemorySource<'a> {
    rest: &'a [u8],
    failed: bool,
}

impl<'a> MemorySource<'a> {
    /// Returns a source of these bytes.
    pub fn new(bytes: &'a [u8]) -> MemorySource<'a>
    {
        MemorySource {
            rest: bytes,
            failed: false,
        }
    }
}

impl ByteSource for MemorySource<'_> {
    fn read(&mut self, buffer: &mut [u8]) -> io::Result<usize> {
        let n = self.rest.len().min(buffer.len());
        buffer[..n].copy_from_slice(&self.rest[..n]);
        self.rest = &self.rest[n..];
        Ok(n)
    }
}

/// A source that reads from a `Read`. Its bytes are known to proofs if those of the reader are.
///
/// A read that a signal interrupts counts as failed.
pub struct ReadSource<R> {
    reader: R,
    failed: bool,
}

impl<R: Read> ReadSource<R> {
    /// Returns a source of the bytes that the reader gives.
    pub fn new(reader: R) -> ReadSource<R>
    {
        ReadSource {
            reader,
            failed: false,
        }
    }
}

impl<R: Read> ByteSource for ReadSource<R> {
    fn read(&mut self, buffer: &mut [u8]) -> io::Result<usize> {
        let result = self.reader.read(buffer);
        self.failed = self.failed || result.is_err();
        result
    }
}
