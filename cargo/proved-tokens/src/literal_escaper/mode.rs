// Made from crates/literal_escaper/src/mode.rt by dev/erase: change that file, not this one.
//! Kinds of literals.

/// A kind of literal whose content can be checked for errors.
#[derive(Clone, Copy, Debug, PartialEq, Eq)]
pub enum Mode {
    /// A character: `'a'`.
    Char,
    /// A byte: `b'a'`.
    Byte,
    /// A string: `"a"`.
    Str,
    /// A raw string: `r"a"`.
    RawStr,
    /// A byte string: `b"a"`.
    ByteStr,
    /// A raw byte string: `br"a"`.
    RawByteStr,
    /// A C string: `c"a"`.
    CStr,
    /// A raw C string: `cr"a"`.
    RawCStr,
}

impl Mode {
    /// Whether a literal of this kind is between double quotes: `false` for a character and a byte, and `true` for the
    /// rest.
    ///
    /// # Contract
    ///
    /// - `ensures`: <code>result ≡ [is_double_quoted] self</code>
    ///
    /// [is_double_quoted]: crate::contracts#literal_escaper.Mode.is_double_quoted
    pub fn in_double_quotes(self) -> bool
    {
        !matches!(self, Mode::Char | Mode::Byte)
    }

    /// Returns the literal's prefix without its `r`: `b`, `c` or the empty text. For a raw C string it is `c`.
    ///
    /// # Contract
    ///
    /// - `ensures`: <code>result.now ≡ [prefix] self</code>
    ///
    /// [prefix]: crate::contracts#literal_escaper.Mode.prefix
    pub fn prefix_noraw(self) -> &'static str
    {
        match self {
            Mode::CStr | Mode::RawCStr => "c",
            Mode::Byte | Mode::ByteStr | Mode::RawByteStr => "b",
            Mode::Char | Mode::Str | Mode::RawStr => "",
        }
    }
}
