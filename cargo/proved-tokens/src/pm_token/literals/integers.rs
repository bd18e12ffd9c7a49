// Made from crates/pm_token/src/literals/integers.rt by dev/erase: change that file, not this one.
//! Makes the literals of integers.

use crate::pm_token::literals::Literal;
use crate::pm_token::symbols::Symbol;
use crate::shim::itoa::Buffer;
use crate::pm_span::Span;
use crate::shim::alloc::AllocError;

/// The text after the digits of a number: nothing, or the name of a type.
#[derive(Clone, Copy)]
enum Suffix {
    /// Nothing.
    Nothing,
    /// `u8`.
    U8,
    /// `u16`.
    U16,
    /// `u32`.
    U32,
    /// `u64`.
    U64,
    /// `u128`.
    U128,
    /// `usize`.
    Usize,
    /// `i8`.
    I8,
    /// `i16`.
    I16,
    /// `i32`.
    I32,
    /// `i64`.
    I64,
    /// `i128`.
    I128,
    /// `isize`.
    Isize,
}

impl Suffix {
    /// Returns the suffix as it is written.
    #[cfg_attr(not(debug_assertions), inline(always))]
    fn name(self) -> &'static str
    {
        match self {
            Suffix::Nothing => "",
            Suffix::U8 => "u8",
            Suffix::U16 => "u16",
            Suffix::U32 => "u32",
            Suffix::U64 => "u64",
            Suffix::U128 => "u128",
            Suffix::Usize => "usize",
            Suffix::I8 => "i8",
            Suffix::I16 => "i16",
            Suffix::I32 => "i32",
            Suffix::I64 => "i64",
            Suffix::I128 => "i128",
            Suffix::Isize => "isize",
        }
    }
}

/// Returns the text of a number of 64 bits with its suffix. Out of memory is the only error.
#[cfg_attr(not(debug_assertions), inline(always))]
fn narrow_unsigned(value: u64, suffix: Suffix) -> Result<Symbol, AllocError>
{
    match Symbol::number(false, value, suffix.name()) {
        Some(text) => Ok(text),
        None => wide_unsigned(u128::from(value), suffix),
    }
}

/// Returns the text of a signed number of 64 bits with its suffix. Out of memory is the only error.
#[cfg_attr(not(debug_assertions), inline(always))]
fn narrow_signed(value: i64, suffix: Suffix) -> Result<Symbol, AllocError>
{
    match Symbol::number(value < 0, value.unsigned_abs(), suffix.name()) {
        Some(text) => Ok(text),
        None => wide_signed(i128::from(value), suffix),
    }
}

/// Returns the text of any number with its suffix. Out of memory is the only error.
fn wide_unsigned(value: u128, suffix: Suffix) -> Result<Symbol, AllocError>
{
    let mut buffer = Buffer::new();
    let text = Symbol::concat(buffer.format(value), suffix.name())?;
    Ok(text)
}

/// Returns the text of any signed number with its suffix. Out of memory is the only error.
fn wide_signed(value: i128, suffix: Suffix) -> Result<Symbol, AllocError>
{
    let mut buffer = Buffer::new();
    let text = Symbol::concat(buffer.format(value), suffix.name())?;
    Ok(text)
}

/// Returns the text of a number with its suffix, in a faster way for 64 bits. Out of memory is the only error.
#[cfg_attr(not(debug_assertions), inline(always))]
fn unsigned_text(value: u128, suffix: Suffix) -> Result<Symbol, AllocError>
{
    if value <= u128::from(u64::MAX) {
        return narrow_unsigned(value as u64, suffix);
    }
    wide_unsigned(value, suffix)
}

/// Returns the text of a signed number with its suffix, as `unsigned_text` does. Out of memory is the only error.
#[cfg_attr(not(debug_assertions), inline(always))]
fn signed_text(value: i128, suffix: Suffix) -> Result<Symbol, AllocError>
{
    if value >= i128::from(i64::MIN) && value <= i128::from(i64::MAX) {
        return narrow_signed(value as i64, suffix);
    }
    wide_signed(value, suffix)
}

/// Makes the literal of a number without a sign.
#[cfg_attr(not(debug_assertions), inline(always))]
fn unsigned_literal(value: u128, suffix: Suffix) -> Result<Literal, AllocError>
{
    Ok(Literal {
        text: unsigned_text(value, suffix)?,
        span: Span::call_site(),
    })
}

/// Makes the literal of a number, with `-` before it if it is negative.
#[cfg_attr(not(debug_assertions), inline(always))]
fn signed_literal(value: i128, suffix: Suffix) -> Result<Literal, AllocError>
{
    Ok(Literal {
        text: signed_text(value, suffix)?,
        span: Span::call_site(),
    })
}

/// Literals of integers.
///
/// A literal without a suffix is the decimal text of the number (`integer-text`), which is the same for
/// a wider type. A literal with a suffix has the type's name after the digits.
impl Literal {
    /// Makes the literal of the number without a suffix, with the span 0..0. For 255 it is `255`.
    /// Out of memory is the only error.
    ///
    /// # Contract
    ///
    /// - `ensures ok`: <code>[IfOk] result (λ literal. literal ≡ record { text = [decimal] value; span = [nowhere]
    ///   })</code>
    ///
    /// [IfOk]: crate::contracts#std.IfOk
    /// [decimal]: crate::contracts#std.decimal
    /// [nowhere]: crate::contracts#pm_span.Extent.nowhere
    #[inline]
    pub fn u8_unsuffixed(value: u8) -> Result<Literal, AllocError>
    {
        Literal::u16_unsuffixed(u16::from(value))
    }

    /// Makes the literal of the number without a suffix, with the span 0..0. For 65535 it is `65535`.
    /// Out of memory is the only error.
    ///
    /// # Contract
    ///
    /// - `ensures ok`: <code>[IfOk] result (λ literal. literal ≡ record { text = [decimal] value; span = [nowhere]
    ///   })</code>
    ///
    /// [IfOk]: crate::contracts#std.IfOk
    /// [decimal]: crate::contracts#std.decimal
    /// [nowhere]: crate::contracts#pm_span.Extent.nowhere
    #[inline]
    pub fn u16_unsuffixed(value: u16) -> Result<Literal, AllocError>
    {
        Literal::u32_unsuffixed(u32::from(value))
    }

    /// Makes the literal of the number without a suffix, with the span 0..0. For 3 it is `3`.
    /// Out of memory is the only error.
    ///
    /// # Contract
    ///
    /// - `ensures ok`: <code>[IfOk] result (λ literal. literal ≡ record { text = [decimal] value; span = [nowhere]
    ///   })</code>
    ///
    /// [IfOk]: crate::contracts#std.IfOk
    /// [decimal]: crate::contracts#std.decimal
    /// [nowhere]: crate::contracts#pm_span.Extent.nowhere
    #[inline]
    pub fn u32_unsuffixed(value: u32) -> Result<Literal, AllocError>
    {
        Literal::u64_unsuffixed(u64::from(value))
    }

    /// Makes the literal of the number without a suffix, with the span 0..0. For 10 it is `10`.
    /// Out of memory is the only error.
    ///
    /// # Contract
    ///
    /// - `ensures ok`: <code>[IfOk] result (λ literal. literal ≡ record { text = [decimal] value; span = [nowhere]
    ///   })</code>
    ///
    /// [IfOk]: crate::contracts#std.IfOk
    /// [decimal]: crate::contracts#std.decimal
    /// [nowhere]: crate::contracts#pm_span.Extent.nowhere
    #[inline]
    pub fn u64_unsuffixed(value: u64) -> Result<Literal, AllocError>
    {
        Literal::u128_unsuffixed(u128::from(value))
    }

    /// Makes the literal of the number without a suffix, with the span 0..0. For 7 it is `7`.
    /// Out of memory is the only error.
    ///
    /// # Contract
    ///
    /// - `ensures ok`: <code>[IfOk] result (λ literal. literal ≡ record { text = [decimal] value; span = [nowhere]
    ///   })</code>
    ///
    /// [IfOk]: crate::contracts#std.IfOk
    /// [decimal]: crate::contracts#std.decimal
    /// [nowhere]: crate::contracts#pm_span.Extent.nowhere
    #[inline]
    pub fn u128_unsuffixed(value: u128) -> Result<Literal, AllocError>
    {
        unsigned_literal(value, Suffix::Nothing)
    }

    /// Makes the literal of the number without a suffix, with the span 0..0. For 0 it is `0`.
    /// Out of memory is the only error.
    ///
    /// # Contract
    ///
    /// - `ensures ok`: <code>[IfOk] result (λ literal. literal ≡ record { text = [decimal] value; span = [nowhere]
    ///   })</code>
    ///
    /// [IfOk]: crate::contracts#std.IfOk
    /// [decimal]: crate::contracts#std.decimal
    /// [nowhere]: crate::contracts#pm_span.Extent.nowhere
    #[inline]
    pub fn usize_unsuffixed(value: usize) -> Result<Literal, AllocError>
    {
        unsigned_literal(value as u128, Suffix::Nothing)
    }

    /// Makes the literal of the number followed by `u8`, with the span 0..0. For 255 it is `255u8`.
    /// Out of memory is the only error.
    ///
    /// # Contract
    ///
    /// - `ensures ok`: <code>[IfOk] result (λ literal. literal ≡ record { text = [decimal] value ++ [codes] \"u8\";
    ///   span = [nowhere] })</code>
    ///
    /// [IfOk]: crate::contracts#std.IfOk
    /// [decimal]: crate::contracts#std.decimal
    /// [codes]: crate::contracts#std.codes
    /// [nowhere]: crate::contracts#pm_span.Extent.nowhere
    #[inline]
    pub fn u8_suffixed(value: u8) -> Result<Literal, AllocError>
    {
        unsigned_literal(u128::from(value), Suffix::U8)
    }

    /// Makes the literal of the number followed by `u16`, with the span 0..0. For 65535 it is `65535u16`.
    /// Out of memory is the only error.
    ///
    /// # Contract
    ///
    /// - `ensures ok`: <code>[IfOk] result (λ literal. literal ≡ record { text = [decimal] value ++ [codes]
    ///   \"u16\"; span = [nowhere] })</code>
    ///
    /// [IfOk]: crate::contracts#std.IfOk
    /// [decimal]: crate::contracts#std.decimal
    /// [codes]: crate::contracts#std.codes
    /// [nowhere]: crate::contracts#pm_span.Extent.nowhere
    #[inline]
    pub fn u16_suffixed(value: u16) -> Result<Literal, AllocError>
    {
        unsigned_literal(u128::from(value), Suffix::U16)
    }

    /// Makes the literal of the number followed by `u32`, with the span 0..0. For 3 it is `3u32`.
    /// Out of memory is the only error.
    ///
    /// # Contract
    ///
    /// - `ensures ok`: <code>[IfOk] result (λ literal. literal ≡ record { text = [decimal] value ++ [codes]
    ///   \"u32\"; span = [nowhere] })</code>
    ///
    /// [IfOk]: crate::contracts#std.IfOk
    /// [decimal]: crate::contracts#std.decimal
    /// [codes]: crate::contracts#std.codes
    /// [nowhere]: crate::contracts#pm_span.Extent.nowhere
    #[inline]
    pub fn u32_suffixed(value: u32) -> Result<Literal, AllocError>
    {
        unsigned_literal(u128::from(value), Suffix::U32)
    }

    /// Makes the literal of the number followed by `u64`, with the span 0..0. For 10 it is `10u64`.
    /// Out of memory is the only error.
    ///
    /// # Contract
    ///
    /// - `ensures ok`: <code>[IfOk] result (λ literal. literal ≡ record { text = [decimal] value ++ [codes]
    ///   \"u64\"; span = [nowhere] })</code>
    ///
    /// [IfOk]: crate::contracts#std.IfOk
    /// [decimal]: crate::contracts#std.decimal
    /// [codes]: crate::contracts#std.codes
    /// [nowhere]: crate::contracts#pm_span.Extent.nowhere
    #[inline]
    pub fn u64_suffixed(value: u64) -> Result<Literal, AllocError>
    {
        unsigned_literal(u128::from(value), Suffix::U64)
    }

    /// Makes the literal of the number followed by `u128`, with the span 0..0. For 7 it is `7u128`.
    /// Out of memory is the only error.
    ///
    /// # Contract
    ///
    /// - `ensures ok`: <code>[IfOk] result (λ literal. literal ≡ record { text = [decimal] value ++ [codes]
    ///   \"u128\"; span = [nowhere] })</code>
    ///
    /// [IfOk]: crate::contracts#std.IfOk
    /// [decimal]: crate::contracts#std.decimal
    /// [codes]: crate::contracts#std.codes
    /// [nowhere]: crate::contracts#pm_span.Extent.nowhere
    #[inline]
    pub fn u128_suffixed(value: u128) -> Result<Literal, AllocError>
    {
        unsigned_literal(value, Suffix::U128)
    }

    /// Makes the literal of the number followed by `usize`, with the span 0..0. For 0 it is `0usize`.
    /// Out of memory is the only error.
    ///
    /// # Contract
    ///
    /// - `ensures ok`: <code>[IfOk] result (λ literal. literal ≡ record { text = [decimal] value ++ [codes]
    ///   \"usize\"; span = [nowhere] })</code>
    ///
    /// [IfOk]: crate::contracts#std.IfOk
    /// [decimal]: crate::contracts#std.decimal
    /// [codes]: crate::contracts#std.codes
    /// [nowhere]: crate::contracts#pm_span.Extent.nowhere
    #[inline]
    pub fn usize_suffixed(value: usize) -> Result<Literal, AllocError>
    {
        unsigned_literal(value as u128, Suffix::Usize)
    }

    /// Makes the literal of the number without a suffix, with the span 0..0. For -128 it is `-128`.
    /// Out of memory is the only error.
    ///
    /// # Contract
    ///
    /// - `ensures ok`: <code>[IfOk] result (λ literal. literal ≡ record { text = [signed_decimal] value; span =
    ///   [nowhere] })</code>
    ///
    /// [IfOk]: crate::contracts#std.IfOk
    /// [signed_decimal]: crate::contracts#std.signed_decimal
    /// [nowhere]: crate::contracts#pm_span.Extent.nowhere
    #[inline]
    pub fn i8_unsuffixed(value: i8) -> Result<Literal, AllocError>
    {
        Literal::i16_unsuffixed(i16::from(value))
    }

    /// Makes the literal of the number without a suffix, with the span 0..0. For -3 it is `-3`.
    /// Out of memory is the only error.
    ///
    /// # Contract
    ///
    /// - `ensures ok`: <code>[IfOk] result (λ literal. literal ≡ record { text = [signed_decimal] value; span =
    ///   [nowhere] })</code>
    ///
    /// [IfOk]: crate::contracts#std.IfOk
    /// [signed_decimal]: crate::contracts#std.signed_decimal
    /// [nowhere]: crate::contracts#pm_span.Extent.nowhere
    #[inline]
    pub fn i16_unsuffixed(value: i16) -> Result<Literal, AllocError>
    {
        Literal::i32_unsuffixed(i32::from(value))
    }

    /// Makes the literal of the number without a suffix, with the span 0..0. For -3 it is `-3`.
    /// Out of memory is the only error.
    ///
    /// # Contract
    ///
    /// - `ensures ok`: <code>[IfOk] result (λ literal. literal ≡ record { text = [signed_decimal] value; span =
    ///   [nowhere] })</code>
    ///
    /// [IfOk]: crate::contracts#std.IfOk
    /// [signed_decimal]: crate::contracts#std.signed_decimal
    /// [nowhere]: crate::contracts#pm_span.Extent.nowhere
    #[inline]
    pub fn i32_unsuffixed(value: i32) -> Result<Literal, AllocError>
    {
        Literal::i64_unsuffixed(i64::from(value))
    }

    /// Makes the literal of the number without a suffix, with the span 0..0. For 12 it is `12`.
    /// Out of memory is the only error.
    ///
    /// # Contract
    ///
    /// - `ensures ok`: <code>[IfOk] result (λ literal. literal ≡ record { text = [signed_decimal] value; span =
    ///   [nowhere] })</code>
    ///
    /// [IfOk]: crate::contracts#std.IfOk
    /// [signed_decimal]: crate::contracts#std.signed_decimal
    /// [nowhere]: crate::contracts#pm_span.Extent.nowhere
    #[inline]
    pub fn i64_unsuffixed(value: i64) -> Result<Literal, AllocError>
    {
        Literal::i128_unsuffixed(i128::from(value))
    }

    /// Makes the literal of the number without a suffix, with the span 0..0. For -1 it is `-1`.
    /// Out of memory is the only error.
    ///
    /// # Contract
    ///
    /// - `ensures ok`: <code>[IfOk] result (λ literal. literal ≡ record { text = [signed_decimal] value; span =
    ///   [nowhere] })</code>
    ///
    /// [IfOk]: crate::contracts#std.IfOk
    /// [signed_decimal]: crate::contracts#std.signed_decimal
    /// [nowhere]: crate::contracts#pm_span.Extent.nowhere
    #[inline]
    pub fn i128_unsuffixed(value: i128) -> Result<Literal, AllocError>
    {
        signed_literal(value, Suffix::Nothing)
    }

    /// Makes the literal of the number without a suffix, with the span 0..0. For 0 it is `0`.
    /// Out of memory is the only error.
    ///
    /// # Contract
    ///
    /// - `ensures ok`: <code>[IfOk] result (λ literal. literal ≡ record { text = [signed_decimal] value; span =
    ///   [nowhere] })</code>
    ///
    /// [IfOk]: crate::contracts#std.IfOk
    /// [signed_decimal]: crate::contracts#std.signed_decimal
    /// [nowhere]: crate::contracts#pm_span.Extent.nowhere
    #[inline]
    pub fn isize_unsuffixed(value: isize) -> Result<Literal, AllocError>
    {
        signed_literal(value as i128, Suffix::Nothing)
    }

    /// Makes the literal of the number followed by `i8`, with the span 0..0. For -128 it is `-128i8`.
    /// Out of memory is the only error.
    ///
    /// # Contract
    ///
    /// - `ensures ok`: <code>[IfOk] result (λ literal. literal ≡ record { text = [signed_decimal] value ++ [codes]
    ///   \"i8\"; span = [nowhere] })</code>
    ///
    /// [IfOk]: crate::contracts#std.IfOk
    /// [signed_decimal]: crate::contracts#std.signed_decimal
    /// [codes]: crate::contracts#std.codes
    /// [nowhere]: crate::contracts#pm_span.Extent.nowhere
    #[inline]
    pub fn i8_suffixed(value: i8) -> Result<Literal, AllocError>
    {
        signed_literal(i128::from(value), Suffix::I8)
    }

    /// Makes the literal of the number followed by `i16`, with the span 0..0. For -3 it is `-3i16`.
    /// Out of memory is the only error.
    ///
    /// # Contract
    ///
    /// - `ensures ok`: <code>[IfOk] result (λ literal. literal ≡ record { text = [signed_decimal] value ++ [codes]
    ///   \"i16\"; span = [nowhere] })</code>
    ///
    /// [IfOk]: crate::contracts#std.IfOk
    /// [signed_decimal]: crate::contracts#std.signed_decimal
    /// [codes]: crate::contracts#std.codes
    /// [nowhere]: crate::contracts#pm_span.Extent.nowhere
    #[inline]
    pub fn i16_suffixed(value: i16) -> Result<Literal, AllocError>
    {
        signed_literal(i128::from(value), Suffix::I16)
    }

    /// Makes the literal of the number followed by `i32`, with the span 0..0. For -3 it is `-3i32`.
    /// Out of memory is the only error.
    ///
    /// # Contract
    ///
    /// - `ensures ok`: <code>[IfOk] result (λ literal. literal ≡ record { text = [signed_decimal] value ++ [codes]
    ///   \"i32\"; span = [nowhere] })</code>
    ///
    /// [IfOk]: crate::contracts#std.IfOk
    /// [signed_decimal]: crate::contracts#std.signed_decimal
    /// [codes]: crate::contracts#std.codes
    /// [nowhere]: crate::contracts#pm_span.Extent.nowhere
    #[inline]
    pub fn i32_suffixed(value: i32) -> Result<Literal, AllocError>
    {
        signed_literal(i128::from(value), Suffix::I32)
    }

    /// Makes the literal of the number followed by `i64`, with the span 0..0. For 12 it is `12i64`.
    /// Out of memory is the only error.
    ///
    /// # Contract
    ///
    /// - `ensures ok`: <code>[IfOk] result (λ literal. literal ≡ record { text = [signed_decimal] value ++ [codes]
    ///   \"i64\"; span = [nowhere] })</code>
    ///
    /// [IfOk]: crate::contracts#std.IfOk
    /// [signed_decimal]: crate::contracts#std.signed_decimal
    /// [codes]: crate::contracts#std.codes
    /// [nowhere]: crate::contracts#pm_span.Extent.nowhere
    #[inline]
    pub fn i64_suffixed(value: i64) -> Result<Literal, AllocError>
    {
        signed_literal(i128::from(value), Suffix::I64)
    }

    /// Makes the literal of the number followed by `i128`, with the span 0..0. For -1 it is `-1i128`.
    /// Out of memory is the only error.
    ///
    /// # Contract
    ///
    /// - `ensures ok`: <code>[IfOk] result (λ literal. literal ≡ record { text = [signed_decimal] value ++ [codes]
    ///   \"i128\"; span = [nowhere] })</code>
    ///
    /// [IfOk]: crate::contracts#std.IfOk
    /// [signed_decimal]: crate::contracts#std.signed_decimal
    /// [codes]: crate::contracts#std.codes
    /// [nowhere]: crate::contracts#pm_span.Extent.nowhere
    #[inline]
    pub fn i128_suffixed(value: i128) -> Result<Literal, AllocError>
    {
        signed_literal(value, Suffix::I128)
    }

    /// Makes the literal of the number followed by `isize`, with the span 0..0. For 0 it is `0isize`.
    /// Out of memory is the only error.
    ///
    /// # Contract
    ///
    /// - `ensures ok`: <code>[IfOk] result (λ literal. literal ≡ record { text = [signed_decimal] value ++ [codes]
    ///   \"isize\"; span = [nowhere] })</code>
    ///
    /// [IfOk]: crate::contracts#std.IfOk
    /// [signed_decimal]: crate::contracts#std.signed_decimal
    /// [codes]: crate::contracts#std.codes
    /// [nowhere]: crate::contracts#pm_span.Extent.nowhere
    #[inline]
    pub fn isize_suffixed(value: isize) -> Result<Literal, AllocError>
    {
        signed_literal(value as i128, Suffix::Isize)
    }
}
