// Made from crates/literal_escaper/src/num.rt by dev/erase: change that file, not this one.
//! Characters and bytes other than zero.

/// A character other than NUL.
#[derive(Clone, Copy, Debug, PartialEq, Eq)]
pub struct NonZeroChar(char);

impl NonZeroChar {
    /// Returns the character, or `None` if it is NUL: `a` for `a`, and `None` for U+0000.
    ///
    /// # Contract
    ///
    /// - `ensures`: <code>[MatchOption] result (c ≡ 0) (λ other. (other ≡ c) × (0 &lt; c))</code>
    ///
    /// [MatchOption]: crate::contracts#std.MatchOption
    pub fn new(c: char) -> Option<NonZeroChar>
    {
        match c {
            '\0' => None,
            _ => Some(NonZeroChar(c)),
        }
    }

    /// Returns the character as a `char`, which is never NUL.
    ///
    /// # Contract
    ///
    /// - `ensures value`: <code>result ≡ self</code>
    /// - `ensures within`: <code>0 &lt; result</code>
    pub fn get(self) -> char
    {
        let NonZeroChar(c) = self;
        c
    }
}

/// A byte other than zero.
#[derive(Clone, Copy, Debug, PartialEq, Eq)]
pub struct NonZeroU8(u8);

impl NonZeroU8 {
    /// Returns the byte, or `None` if it is zero: 1 for 1, and `None` for 0.
    ///
    /// # Contract
    ///
    /// - `ensures`: <code>[MatchOption] result (n ≡ 0) (λ b. (b ≡ n) × (0 &lt; n))</code>
    ///
    /// [MatchOption]: crate::contracts#std.MatchOption
    pub fn new(n: u8) -> Option<NonZeroU8>
    {
        if n == 0 { None } else { Some(NonZeroU8(n)) }
    }

    /// Returns the byte as a `u8`, which is never zero.
    ///
    /// # Contract
    ///
    /// - `ensures value`: <code>result ≡ self</code>
    /// - `ensures within`: <code>0 &lt; result</code>
    pub fn get(self) -> u8
    {
        let NonZeroU8(byte) = self;
        byte
    }
}
