//! What the Rust crate answers to each kind of line of crates/conformance/stdin.
use crate::lists::list_answer;
use crate::spans::span_lines;
use escaper::num::NonZeroChar;
use escaper::rustc_literal_escaper::{
    check_for_errors, check_raw_byte_str, check_raw_c_str, check_raw_str, unescape_byte, unescape_byte_str,
    unescape_c_str, unescape_char, unescape_str, EscapeError, MixedUnit, Mode,
};
use proc_macro2::{ConversionErrorKind, Literal, TokenStream};
use std::ffi::CString;
use std::ops::Range;

/// All kinds of literals that the escaper tells apart.
const MODES: [Mode; 8] = [
    Mode::Char,
    Mode::Byte,
    Mode::Str,
    Mode::RawStr,
    Mode::ByteStr,
    Mode::RawByteStr,
    Mode::CStr,
    Mode::RawCStr,
];

/// The answer to what is no literal, and to a value that has none.
const REFUSED: (&str, String) = ("refused", String::new());

/// What the crate says where this was asked of the text: the kind of the answer, and the answer. `None` where no such
/// kind is known.
pub fn answer<'a>(asked: &'a str, text: &str) -> Option<(&'a str, String)> {
    match asked {
        "print" | "tree" | "spans" | "fault" => Some(of_stream(asked, text)),
        "literal" | "refused" | "str_value" | "byte_str_value" | "cstr_value" => Some(of_literal(asked, text)),
        "string" | "character" | "byte_character" | "byte_string" | "c_string" => {
            Some(written(asked, text).map_or(REFUSED, |output| (asked, output)))
        }
        "list" => Some((asked, list_answer(text)?)),
        _ => Some((asked, items(asked, text)?)),
    }
}

/// The stream that the text parses to, or where its trees stand, or the place of its fault.
fn of_stream<'a>(asked: &'a str, text: &str) -> (&'a str, String) {
    match text.parse::<TokenStream>() {
        Ok(stream) if asked == "tree" => (asked, format!("{stream:?}")),
        Ok(stream) if asked == "spans" => (asked, span_lines(stream).expect("a String takes all text")),
        Ok(stream) => ("print", stream.to_string()),
        Err(error) => {
            let place = error.span().start();
            ("fault", format!("{}:{}", place.line, place.column))
        }
    }
}

/// The text of the literal that the text is, or its value.
fn of_literal<'a>(asked: &'a str, text: &str) -> (&'a str, String) {
    let Ok(literal) = text.parse::<Literal>() else {
        return REFUSED;
    };
    match asked {
        "str_value" => (asked, hex(literal.str_value().map(String::into_bytes))),
        "byte_str_value" => (asked, hex(literal.byte_str_value())),
        "cstr_value" => (asked, hex(literal.cstr_value())),
        _ => ("literal", literal.to_string()),
    }
}

/// The bytes of a value in hex, or why there is none.
fn hex(value: Result<Vec<u8>, ConversionErrorKind>) -> String {
    match value {
        Ok(bytes) => bytes.iter().map(|byte| format!("{byte:02x}")).collect(),
        Err(error) => format!("{error:?}"),
    }
}

/// The text of the literal that the crate makes of a value by this call; `None` where there is none.
fn written(call: &str, value: &str) -> Option<String> {
    let literal = match call {
        "string" => Literal::string(value),
        "character" => Literal::character(value.chars().next()?),
        "byte_character" => Literal::byte_character(*value.as_bytes().first()?),
        "byte_string" => Literal::byte_string(value.as_bytes()),
        "c_string" => Literal::c_string(&CString::new(value).ok()?),
        _ => return None,
    };
    Some(literal.to_string())
}

/// The items that this call of the escaper gives for a content, or its only unit; `None` where no such call is known.
fn items(call: &str, content: &str) -> Option<String> {
    let mut output = String::new();
    match call {
        "unescape_str" => unescape_str(content, |range, unit| output += &item(range, note(unit))),
        "unescape_byte_str" => unescape_byte_str(content, |range, unit| output += &item(range, note(unit))),
        "unescape_c_str" => unescape_c_str(content, |range, unit| output += &item(range, note(unit))),
        "check_raw_str" => check_raw_str(content, |range, unit| output += &item(range, note(unit))),
        "check_raw_byte_str" => check_raw_byte_str(content, |range, unit| output += &item(range, note(unit))),
        "check_raw_c_str" => check_raw_c_str(content, |range, unit| output += &item(range, note(unit))),
        "unescape_char" => output = note(unescape_char(content)),
        "unescape_byte" => output = note(unescape_byte(content)),
        _ => {
            let name = call.strip_prefix("errors_")?;
            let mode = MODES.into_iter().find(|mode| format!("{mode:?}") == name)?;
            check_for_errors(content, mode, |range, error| output += &item(range, format!("{error:?}")));
        }
    }
    Some(output)
}

/// An item by its bytes and what is found there.
fn item(range: Range<usize>, what: String) -> String {
    format!("{}..{} {what};", range.start, range.end)
}

/// A unit, or the name of what is wrong.
fn note<U: Unit>(unit: Result<U, EscapeError>) -> String {
    unit.map_or_else(|error| format!("{error:?}"), Unit::note)
}

/// What a content is made of.
trait Unit {
    /// `U+` and the character's code, or the byte in two digits.
    fn note(self) -> String;
}

impl Unit for char {
    fn note(self) -> String {
        format!("U+{:X}", u32::from(self))
    }
}

impl Unit for u8 {
    fn note(self) -> String {
        format!("{self:02X}")
    }
}

impl Unit for NonZeroChar {
    fn note(self) -> String {
        self.get().note()
    }
}

impl Unit for MixedUnit {
    fn note(self) -> String {
        match self {
            MixedUnit::Char(c) => c.note(),
            MixedUnit::HighByte(byte) => byte.get().note(),
        }
    }
}
