// Made from crates/tokens/src/sinks.rt by dev/erase: change that file, not this one.
//! Sinks, to which the output of a run goes.

use proved_tokens::shim::prelude::GrowList;

use proved_tokens::shim::io;
use proved_tokens::shim::io::Write;

/// Something to which bytes can be written.
///
/// Proofs may know which bytes a sink holds, as they do for one in memory. For a file they don't.
pub trait ByteSink {
    // the bytes that the sink holds, if proofs may know them

    // whether a call so far has failed, or has taken no bytes of a slice that isn't empty

    /// Takes a prefix of `bytes`, and returns how many bytes that is. It takes none if it returns an error.
    fn write(&mut self, bytes: &[u8]) -> io::Result<usize>;
}

/// Bytes in memory. A write fails if memory runs out.
pub struct MemorySink {
    bytes: Vec<u8>,
    failed: bool,
}

impl MemorySink {
    /// Returns a sink that holds nothing yet.
    pub fn new() -> MemorySink
    {
        MemorySink {
            bytes: Vec::new(),
            failed: false,
        }
    }

    /// Returns the bytes that the sink holds.
    pub fn bytes(&self) -> &[u8]
    {
        self.bytes.as_slice()
    }
}

impl ByteSink for MemorySink {
    fn write(&mut self, bytes: &[u8]) -> io::Result<usize> {
        let result = self.bytes.extend_from_slice_fallibly(bytes);
        self.failed = self.failed || result.is_err();
        result?;
        Ok(bytes.len())
    }
}

/// A sink that writes to a `Write`. Its bytes are known to proofs if those of the writer are.
///
/// It does not flush, so the owner of the writer must. A write that a signal interrupts counts as failed.
pub struct WriteSink<W> {
    writer: W,
    failed: bool,
}

impl<W: Write> WriteSink<W> {
    /// Returns a sink that passes its bytes to the writer.
    pub fn new(writer: W) -> WriteSink<W>
    {
        WriteSink {
            writer,
            failed: false,
        }
    }
}

impl<W: Write> ByteSink for WriteSink<W> {
    fn write(&mut self, bytes: &[u8]) -> io::Result<usize> {
        let result = self.writer.write(bytes);
        self.failed = self.failed || is_refusal(&result, bytes);
        result
    }
}

/// Whether a write failed, or took no bytes of a slice that isn't empty.
pub(crate) fn is_refusal(answer: &io::Result<usize>, bytes: &[u8]) -> bool
{
    match answer {
        Ok(n) => *n == 0 && !bytes.is_empty(),
        Err(_) => true,
    }
}
