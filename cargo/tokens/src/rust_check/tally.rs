// Made from crates/rust_check/src/tally.rt by dev/erase: change that file, not this one.
//! Counts the files with an error and the files that were not read, for the exit status.

use crate::messages::Failure;
use proved_tokens::shim::io;
use proved_tokens::shim::io::Write;

/// How many of the files so far have an error, or were not read.
#[derive(Clone, Copy, Debug, PartialEq, Eq)]
pub struct Tally {
    /// The number of files whose text has an error.
    pub faulty: usize,
    /// The number of files that were not read.
    pub unread: usize,
}

impl Tally {
    /// Returns the counts before any file.
    pub fn new() -> Tally
    {
        Tally {
            faulty: 0,
            unread: 0,
        }
    }

    /// Returns the counts with the outcome of one more file: whether its text has an error, or why it was not read.
    pub fn with(self, outcome: &Result<bool, Failure>) -> Tally
    {
        match outcome {
            Ok(true) => Tally {
                faulty: self.faulty + 1,
                unread: self.unread,
            },
            Ok(false) => self,
            Err(_) => Tally {
                faulty: self.faulty,
                unread: self.unread + 1,
            },
        }
    }

    /// Returns the exit status: 2 if a file was not read, else 1 if a text has an error, else 0.
    pub fn status(self) -> u8
    {
        if self.unread > 0 {
            2
        } else if self.faulty > 0 {
            1
        } else {
            0
        }
    }

    /// Writes how many of the `files` files have an error and how many were not read.
    pub fn write_summary<W: Write>(self, files: usize, writer: &mut W) -> io::Result<()>
    {
        let Tally { faulty, unread } = self;
        writeln!(
            writer,
            "{files} files, {faulty} with a fault, {unread} not read"
        )
    }
}
