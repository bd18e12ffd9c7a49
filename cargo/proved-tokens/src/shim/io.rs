//! Reading and writing.

pub use std::io::{Error, ErrorKind, Result, Write};

/// A reader whose lines are read.
pub trait BufRead {
    /// Contract: the lines, each without the LF or CR LF at its end, and an error where one is no UTF-8 or reading
    /// fails.
    fn lines(self) -> impl Iterator<Item = Result<String>>;
}

impl<R: std::io::BufRead> BufRead for R {
    fn lines(self) -> impl Iterator<Item = Result<String>> {
        std::io::BufRead::lines(self)
    }
}

/// A reader.
pub trait Read {
    /// Contract: reads into the front of the buffer and answers how many bytes; 0 are the input's end, where the buffer
    /// isn't empty.
    fn read(&mut self, buffer: &mut [u8]) -> Result<usize>;

    /// Contract: puts all that is left at the end of the bytes, and answers how many that are.
    fn read_to_end(&mut self, bytes: &mut Vec<u8>) -> Result<usize>;
}

impl<R: std::io::Read> Read for R {
    fn read(&mut self, buffer: &mut [u8]) -> Result<usize> {
        std::io::Read::read(self, buffer)
    }

    fn read_to_end(&mut self, bytes: &mut Vec<u8>) -> Result<usize> {
        std::io::Read::read_to_end(self, bytes)
    }
}

#[cfg(test)]
mod tests {
    use super::*;

    #[test]
    fn a_reader_is_read_to_its_end() -> Result<()> {
        let (mut rest, mut buffer, mut bytes) = (&b"abc"[..], [0; 2], Vec::new());
        assert_eq!((Read::read(&mut rest, &mut buffer)?, buffer), (2, *b"ab"));
        assert_eq!((Read::read_to_end(&mut rest, &mut bytes)?, bytes.as_slice()), (1, &b"c"[..]));
        assert_eq!(Read::read(&mut rest, &mut buffer)?, 0);
        Ok(())
    }

    #[test]
    fn lines_end_at_line_feeds() {
        let lines: std::vec::Vec<_> = BufRead::lines(&b"a\r\n\nb"[..]).flatten().collect();
        assert_eq!(lines.iter().map(|line| line.as_str()).collect::<std::vec::Vec<_>>(), ["a", "", "b"]);
        assert!(BufRead::lines(&b"\xFF"[..]).all(|line| line.is_err()));
    }
}
