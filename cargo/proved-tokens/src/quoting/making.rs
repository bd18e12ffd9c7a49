// Made from crates/quoting/src/making.rt by dev/erase: change that file, not this one.
//! Tokens of truth values and numbers.

use crate::quoting::values::Number;
use crate::proc_macro2::{Ident, Literal, Span};
use crate::shim::alloc::AllocError;

/// Returns the text `true` or `false`.
fn truth_name(truth: bool) -> &'static str
{
    if truth { "true" } else { "false" }
}

/// Returns the identifier `true` or `false`.
pub(crate) fn truth_ident(truth: bool) -> Result<Ident, AllocError>
{
    match Ident::new(truth_name(truth), Span::call_site()) {
        Ok(ident) => Ok(ident),
        Err(_) => Err(AllocError::met()),
    }
}

/// Returns the literal of the number, with its suffix.
pub(crate) fn number_literal(number: Number) -> Result<Literal, AllocError>
{
    match number {
        Number::U8(n) => Literal::u8_suffixed(n),
        Number::U16(n) => Literal::u16_suffixed(n),
        Number::U32(n) => Literal::u32_suffixed(n),
        Number::U64(n) => Literal::u64_suffixed(n),
        Number::U128(n) => Literal::u128_suffixed(n),
        Number::Usize(n) => Literal::usize_suffixed(n),
        Number::I8(n) => Literal::i8_suffixed(n),
        Number::I16(n) => Literal::i16_suffixed(n),
        Number::I32(n) => Literal::i32_suffixed(n),
        Number::I64(n) => Literal::i64_suffixed(n),
        Number::I128(n) => Literal::i128_suffixed(n),
        Number::Isize(n) => Literal::isize_suffixed(n),
    }
}
