// Made from crates/pm_token/src/escapes/c_strings.rt by dev/erase: change that file, not this one.
//! Writes the bytes of a C string.

use crate::pm_token::escapes::TextBuilder;
use crate::shim::alloc::AllocError;

impl TextBuilder {
    /// Writes the bytes, none of which is zero (`c-string-parts`).
    pub(crate) fn push_c_string(&mut self, bytes: &[u8]) -> Result<(), AllocError>
    {
        let mut left = bytes;
        while !left.is_empty() {
            left = self.push_front(left)?;
        }
        Ok(())
    }

    /// Writes the text that the bytes begin with, and the byte after it, which begins no character. It returns
    /// the bytes after that byte.
    fn push_front<'a>(&mut self, bytes: &'a [u8]) -> Result<&'a [u8], AllocError>
    {
        let Some(chunk) = bytes.utf8_chunks().next() else {
            return Ok(&[]);
        };
        let text = chunk.valid();
        self.push_content('"', text)?;
        match bytes[text.len()..].split_first() {
            Some((&byte, rest)) => {
                self.push_hex(byte)?;
                Ok(rest)
            }
            None => Ok(&[]),
        }
    }
}
