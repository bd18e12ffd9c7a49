// Made from crates/pm_token/src/escapes/bytes.rt by dev/erase: change that file, not this one.
//! Writes bytes for literals that have quotes.

use crate::pm_token::escapes::TextBuilder;
use crate::shim::alloc::AllocError;

impl TextBuilder {
    /// Writes the bytes for a literal in these quotes (`escaped`, `written-byte`).
    pub(crate) fn push_bytes(&mut self, quote: u8, bytes: &[u8]) -> Result<(), AllocError>
    {
        let mut left = bytes;
        while let Some((&byte, rest)) = left.split_first() {
            self.push_byte(quote, byte, rest)?;
            left = rest;
        }
        Ok(())
    }

    /// Writes the byte for a literal in these quotes, whose content goes on with `rest`.
    pub(crate) fn push_byte(&mut self, quote: u8, byte: u8, rest: &[u8]) -> Result<(), AllocError>
    {
        match byte {
            0 if begins_octal(rest) => self.push_long_zero(),
            0 => self.push_short('0'),
            b'\t' => self.push_short('t'),
            b'\r' => self.push_short('r'),
            b'\n' => self.push_short('n'),
            b'\\' => self.push_short('\\'),
            _ if byte == quote => self.push_short(char::from(quote)),
            _ => self.push_plain_byte(byte),
        }
    }

    /// Writes a byte that has no short escape.
    fn push_plain_byte(&mut self, byte: u8) -> Result<(), AllocError>
    {
        if is_bare(byte) {
            self.push(char::from(byte))
        } else {
            self.push_hex(byte)
        }
    }

    /// Writes the byte as its number, such as `\xFF`.
    pub(crate) fn push_hex(&mut self, byte: u8) -> Result<(), AllocError>
    {
        self.push_short('x')?;
        self.push(hex_digit(byte / 16))?;
        self.push(hex_digit(byte % 16))
    }
}

/// Returns whether the bytes begin with one of the digits 0 to 7.
fn begins_octal(bytes: &[u8]) -> bool
{
    match bytes.first() {
        Some(byte) => matches!(byte, b'0'..=b'7'),
        None => false,
    }
}

/// Returns whether the byte is a printable ASCII character.
fn is_bare(byte: u8) -> bool
{
    byte >= b' ' && byte < 0x7F
}

/// Returns the hex digit of this value, in upper case.
fn hex_digit(value: u8) -> char
{
    if value < 10 {
        char::from(b'0' + value)
    } else {
        char::from(b'A' + (value - 10))
    }
}
