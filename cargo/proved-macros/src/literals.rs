//! The caller's literals of a text.
use proc_macro2::{Literal, Span};
use std::sync::OnceLock;

/// The caller's literal with this text. The public crate reads the text. For the compiler each text that is read is a
/// file of its own, so most of its literals are made of their values. Their texts are the given ones.
#[inline]
pub(crate) fn made_literal(text: &str) -> Option<Literal> {
    let made = if is_compilers() { of_value(text) } else { None };
    made.or_else(|| text.parse().ok())
}

/// The literal of the value that a text without escapes stands for, if it is written so.
fn of_value(text: &str) -> Option<Literal> {
    match text.as_bytes() {
        [b'"', inside @ .., b'"'] if is_plain(inside) => Some(Literal::string(&text[1..text.len() - 1])),
        [b'b', b'"', inside @ .., b'"'] if is_plain(inside) => Some(Literal::byte_string(inside)),
        [b'\'', c, b'\''] if is_plain(&[*c]) => Some(Literal::character(char::from(*c))),
        [b'0'..=b'9', ..] => integer(text),
        _ => None,
    }
}

/// Whether these bytes stand for themselves between quotes, and are written so.
fn is_plain(bytes: &[u8]) -> bool {
    bytes.iter().all(|byte| matches!(byte, b' '..=b'~') && !matches!(byte, b'"' | b'\'' | b'\\'))
}

/// The integer that is written so in decimal digits without leading zeros, perhaps with a suffix.
fn integer(text: &str) -> Option<Literal> {
    let (digits, suffix) = text.split_at(text.bytes().take_while(u8::is_ascii_digit).count());
    let value: u64 = digits.parse().ok().filter(|_| digits.len() == 1 || !digits.starts_with('0'))?;
    Some(match suffix {
        "" => Literal::u64_unsuffixed(value),
        "u8" => Literal::u8_suffixed(value.try_into().ok()?),
        "u16" => Literal::u16_suffixed(value.try_into().ok()?),
        "u32" => Literal::u32_suffixed(value.try_into().ok()?),
        "u64" => Literal::u64_suffixed(value),
        "usize" => Literal::usize_suffixed(value.try_into().ok()?),
        "i32" => Literal::i32_suffixed(value.try_into().ok()?),
        "i64" => Literal::i64_suffixed(value.try_into().ok()?),
        _ => return None,
    })
}

/// Whether the caller's tokens are the compiler's, for which each text that is read is a file of its own. What is made
/// of a text is the same in both cases. Only the number of steps differs.
fn is_compilers() -> bool {
    static IS_COMPILERS: OnceLock<bool> = OnceLock::new();
    *IS_COMPILERS.get_or_init(|| format!("{:?}", Span::call_site()).starts_with('#'))
}
