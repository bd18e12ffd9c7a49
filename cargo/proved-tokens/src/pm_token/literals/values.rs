// Made from crates/pm_token/src/literals/values.rt by dev/erase: change that file, not this one.
//! The values of literals.

mod content;
mod raw;
mod single;
mod unescaped;

use crate::pm_token::literals::Literal;
use crate::pm_token::literals::conversion::ConversionErrorKind;
use crate::pm_token::literals::values::content::{cooked_content, raw_content};
use crate::pm_token::literals::values::raw::{raw_bytes, raw_c_string, raw_string};
use crate::pm_token::literals::values::single::{byte_of, character_of};
use crate::pm_token::literals::values::unescaped::{unescaped_bytes, unescaped_c_string, unescaped_string};

impl Literal {
    /// Returns the value of a string literal without a suffix (`string-value`).
    ///
    /// The value of `".."` is the characters of its items, in order. The value of `r".."`, with any number of
    /// `#`, is its content unchanged.
    ///
    /// `FailedToUnescape` has the last error among the items of a `".."`; warnings don't count.
    /// `InvalidLiteralKind` comes for all other literals, and only for these. `Memory` comes if memory runs
    /// out, but never if the value is empty.
    ///
    /// The value of `"a\tb"` is `a`, a tab and `b`, and that of `r#"\"#` is a backslash. `"a"s` and `b"a"` are
    /// rejected.
    ///
    /// # Contract
    ///
    /// - `ensures value`: <code>[Answers] [text_of] ([str_value] self.now.text) result</code>
    /// - `ensures memory`: <code>[str_value] self.now.text ≡ [Ok] \[\] → [IsOk] result</code>
    ///
    /// [Answers]: crate::contracts#pm_token.Value.Answers
    /// [text_of]: crate::contracts#pm_token.Value.text_of
    /// [str_value]: crate::contracts#pm_token.Value.str_value
    /// [Ok]: crate::contracts#std.Ok
    /// [IsOk]: crate::contracts#std.IsOk
    pub fn str_value(&self) -> Result<String, ConversionErrorKind>
    {
        let text = self.text();
        if let Some(content) = cooked_content(text, "\"") {
            return unescaped_string(content);
        }
        match raw_content(text, "r") {
            Some(content) => Ok(raw_string(content)?),
            None => Err(ConversionErrorKind::InvalidLiteralKind),
        }
    }

    /// Returns the value of a byte string literal without a suffix (`byte-string-value`).
    ///
    /// The value of `b".."` is the bytes of its items, and that of `br".."` is the bytes of its content. The
    /// errors are those of `str_value`.
    ///
    /// The value of `b"\xFF"` is the byte 0xFF, and that of `br"\x"` is the bytes 0x5C and 0x78. `"a"` is
    /// rejected.
    ///
    /// # Contract
    ///
    /// - `ensures value`: <code>[Answers] [bytes_of] ([byte_str_value] self.now.text) result</code>
    /// - `ensures memory`: <code>[byte_str_value] self.now.text ≡ [Ok] \[\] → [IsOk] result</code>
    ///
    /// [Answers]: crate::contracts#pm_token.Value.Answers
    /// [bytes_of]: crate::contracts#pm_token.Value.bytes_of
    /// [byte_str_value]: crate::contracts#pm_token.Value.byte_str_value
    /// [Ok]: crate::contracts#std.Ok
    /// [IsOk]: crate::contracts#std.IsOk
    pub fn byte_str_value(&self) -> Result<Vec<u8>, ConversionErrorKind>
    {
        let text = self.text();
        if let Some(content) = cooked_content(text, "b\"") {
            return unescaped_bytes(content);
        }
        match raw_content(text, "br") {
            Some(content) => Ok(raw_bytes(content)?),
            None => Err(ConversionErrorKind::InvalidLiteralKind),
        }
    }

    /// Returns the value of a C string literal without a suffix, with a zero byte at its end
    /// (`c-string-value`).
    ///
    /// The value of `c".."` is the bytes of its items; those of a character are its UTF-8. The value of
    /// `cr".."` is the bytes of its content. The errors are those of `str_value`, but `Memory` may come for any
    /// value.
    ///
    /// The value of `c"a\x80"` is the bytes 0x61, 0x80 and 0. `"a"` is rejected.
    ///
    /// # Contract
    ///
    /// - `ensures`: <code>[Answers] [bytes_of] ([cstr_value] self.now.text) result</code>
    ///
    /// [Answers]: crate::contracts#pm_token.Value.Answers
    /// [bytes_of]: crate::contracts#pm_token.Value.bytes_of
    /// [cstr_value]: crate::contracts#pm_token.Value.cstr_value
    pub fn cstr_value(&self) -> Result<Vec<u8>, ConversionErrorKind>
    {
        let text = self.text();
        if let Some(content) = cooked_content(text, "c\"") {
            return unescaped_c_string(content);
        }
        match raw_content(text, "cr") {
            Some(content) => Ok(raw_c_string(content)?),
            None => Err(ConversionErrorKind::InvalidLiteralKind),
        }
    }

    /// Returns the value of a character literal without a suffix (`character-value`).
    ///
    /// The value is the character between the quotes, or the character of the escape there. This allocates
    /// nothing. All other literals are rejected with `InvalidLiteralKind`, and there is no other error.
    ///
    /// The value of `'\''` is `'`, and that of `' '` is the space. `'a'u8`, `"a"` and `b'a'` are rejected.
    ///
    /// # Contract
    ///
    /// - `ensures ok`: <code>[IsOk] result ↔ [IsUnsuffixed] [Character] self.now.text</code>
    /// - `ensures value`: <code>result ≡ [char_value] self.now.text</code>
    /// - `ensures kind`: <code>[IfErr] result (λ error. error ≡ InvalidLiteralKind)</code>
    ///
    /// [IsOk]: crate::contracts#std.IsOk
    /// [IsUnsuffixed]: crate::contracts#pm_token.SingleValue.IsUnsuffixed
    /// [Character]: crate::contracts#lexical.SingleQuoted.Character
    /// [char_value]: crate::contracts#pm_token.SingleValue.char_value
    /// [IfErr]: crate::contracts#std.IfErr
    pub fn char_value(&self) -> Result<char, ConversionErrorKind>
    {
        // This computes nothing. It shows to the proof that the text is that of a literal.
        let _ = &self.text;
        character_of(self.text())
    }

    /// Returns the value of a byte literal without a suffix (`byte-value`).
    ///
    /// All other literals are rejected with `InvalidLiteralKind`, and there is no other error. This allocates
    /// nothing. The value of `b'\xFF'` is 255. `b'a'u8` and `'a'` are rejected.
    ///
    /// # Contract
    ///
    /// - `ensures ok`: <code>[IsOk] result ↔ [IsUnsuffixed] [Byte] self.now.text</code>
    /// - `ensures value`: <code>result ≡ [byte_value] self.now.text</code>
    /// - `ensures kind`: <code>[IfErr] result (λ error. error ≡ InvalidLiteralKind)</code>
    ///
    /// [IsOk]: crate::contracts#std.IsOk
    /// [IsUnsuffixed]: crate::contracts#pm_token.SingleValue.IsUnsuffixed
    /// [Byte]: crate::contracts#lexical.SingleQuoted.Byte
    /// [byte_value]: crate::contracts#pm_token.SingleValue.byte_value
    /// [IfErr]: crate::contracts#std.IfErr
    pub fn byte_value(&self) -> Result<u8, ConversionErrorKind>
    {
        let _ = &self.text;
        byte_of(self.text())
    }
}
