// Made from crates/pm_token/src/laws.rt by dev/erase: change that file, not this one.
//! Laws of literals and their values, and of equality. These functions compute nothing: what is proved is in
//! their contracts. `specs/KindLaws.antt` and `specs/ValueLaws.antt` define the laws of literals.

use crate::pm_token::delimiters::Delimiter;
use crate::pm_token::errors::{LexError, ParseError};
use crate::pm_token::identifiers::IdentError;
use crate::pm_token::literals::ConversionErrorKind;
use crate::pm_token::marks::Spacing;

/// Two delimiters, two spacings, or two reasons why a literal has no value are equal exactly if they are the
/// same variant. Two reasons `FailedToUnescape` must also have the same fault.
///
/// The faults of `"\z"` and `"\x1"` both give `FailedToUnescape`, but they are not equal.
///
/// # Contract
///
/// - `ensures delimiters`: <code>(a b : Delimiter) → [IsTrue] (⟦&lt;Delimiter as PartialEq&gt;⟧.eq a b) ↔ (a ≡
///   b)</code>
/// - `ensures spacings`: <code>(a b : Spacing) → [IsTrue] (⟦&lt;Spacing as PartialEq&gt;⟧.eq a b) ↔ (a ≡
///   b)</code>
/// - `ensures errors`: <code>(a b : ConversionErrorKind) → [IsTrue] (⟦&lt;ConversionErrorKind as
///   PartialEq&gt;⟧.eq a b) ↔ (a ≡ b)</code>
///
/// [IsTrue]: crate::contracts#std.IsTrue
pub fn equal_delimiters_spacings_and_errors()
{}

/// Two errors of a text, or of a name, are equal exactly if they are the same variant. Two syntax errors must
/// also have the same span.
///
/// # Contract
///
/// - `ensures lexing`: <code>(a b : [Extent]) → [IsTrue] (⟦&lt;LexError as PartialEq&gt;⟧.eq a b) ↔ (a ≡
///   b)</code>
/// - `ensures parsing`: <code>(a b : ParseError) → [IsTrue] (⟦&lt;ParseError as PartialEq&gt;⟧.eq a b) ↔ (a ≡
///   b)</code>
/// - `ensures names`: <code>(a b : IdentError) → [IsTrue] (⟦&lt;IdentError as PartialEq&gt;⟧.eq a b) ↔ (a ≡
///   b)</code>
///
/// [Extent]: crate::contracts#pm_span.Extent.Extent
/// [IsTrue]: crate::contracts#std.IsTrue
pub fn equal_errors()
{}

/// Each constructor makes a literal of its own kind, with nothing after it. `Literal::string` makes a string,
/// `byte_string` a byte string, and `c_string` a C string. `character` makes a character, and `byte_character`
/// a byte.
///
/// # Contract
///
/// - `ensures strings`: <code>[StringsAreStrings]</code>
/// - `ensures byte_strings`: <code>[ByteStringsAreByteStrings]</code>
/// - `ensures c_strings`: <code>[CStringsAreCStrings]</code>
/// - `ensures characters`: <code>[CharactersAreCharacters]</code>
/// - `ensures bytes`: <code>[BytesAreBytes]</code>
///
/// [StringsAreStrings]: crate::contracts#pm_token.KindLaws.StringsAreStrings
/// [ByteStringsAreByteStrings]: crate::contracts#pm_token.KindLaws.ByteStringsAreByteStrings
/// [CStringsAreCStrings]: crate::contracts#pm_token.KindLaws.CStringsAreCStrings
/// [CharactersAreCharacters]: crate::contracts#pm_token.KindLaws.CharactersAreCharacters
/// [BytesAreBytes]: crate::contracts#pm_token.KindLaws.BytesAreBytes
pub fn made_literals()
{}

/// The value of a made literal is what it was made of. The value of `Literal::string` is the text, that of
/// `byte_string` is the bytes, and that of `c_string` is the bytes and a zero byte. The text between the quotes
/// of a `character` unescapes to the character, and for a `byte_character` to the byte.
///
/// # Contract
///
/// - `ensures strings`: <code>[StringsComeBack]</code>
/// - `ensures byte_strings`: <code>[ByteStringsComeBack]</code>
/// - `ensures c_strings`: <code>[CStringsComeBack]</code>
/// - `ensures characters`: <code>[CharactersComeBack]</code>
/// - `ensures bytes`: <code>[BytesComeBack]</code>
///
/// [StringsComeBack]: crate::contracts#pm_token.ValueLaws.StringsComeBack
/// [ByteStringsComeBack]: crate::contracts#pm_token.ValueLaws.ByteStringsComeBack
/// [CStringsComeBack]: crate::contracts#pm_token.ValueLaws.CStringsComeBack
/// [CharactersComeBack]: crate::contracts#pm_token.ValueLaws.CharactersComeBack
/// [BytesComeBack]: crate::contracts#pm_token.ValueLaws.BytesComeBack
pub fn values_come_back()
{}

/// The text between the quotes of a character or byte literal is one unit that unescapes, whatever suffix
/// follows. Without a suffix this unit is the value that `char_value` or `byte_value` returns. So the value of
/// `Literal::character` is the character, and that of `byte_character` is the byte.
///
/// # Contract
///
/// - `ensures characters`: <code>[CharactersHaveUnits]</code>
/// - `ensures bytes`: <code>[BytesHaveUnits]</code>
/// - `ensures made_characters`: <code>[CharacterValuesComeBack]</code>
/// - `ensures made_bytes`: <code>[ByteValuesComeBack]</code>
///
/// [CharactersHaveUnits]: crate::contracts#pm_token.ValueLaws.CharactersHaveUnits
/// [BytesHaveUnits]: crate::contracts#pm_token.ValueLaws.BytesHaveUnits
/// [CharacterValuesComeBack]: crate::contracts#pm_token.ValueLaws.CharacterValuesComeBack
/// [ByteValuesComeBack]: crate::contracts#pm_token.ValueLaws.ByteValuesComeBack
pub fn single_values()
{}

/// Every raw literal without a suffix has a value. A string's is its body, a byte string's is the bytes of the
/// body, and a C string's is these bytes and a zero byte.
///
/// # Contract
///
/// - `ensures strings`: <code>[RawStringsHaveBodies]</code>
/// - `ensures byte_strings`: <code>[RawByteStringsHaveBodies]</code>
/// - `ensures c_strings`: <code>[RawCStringsHaveBodies]</code>
///
/// [RawStringsHaveBodies]: crate::contracts#pm_token.ValueLaws.RawStringsHaveBodies
/// [RawByteStringsHaveBodies]: crate::contracts#pm_token.ValueLaws.RawByteStringsHaveBodies
/// [RawCStringsHaveBodies]: crate::contracts#pm_token.ValueLaws.RawCStringsHaveBodies
pub fn raw_values()
{}

/// The value of a literal with escapes is what the units of its content give, in order. This holds for a
/// literal without a suffix and without CR, however the grammar divides its content into units. A character by
/// itself gives that character, and an escape gives what it means. A backslash with LF gives nothing, nor do
/// the spaces, tabs and LFs that follow. In a C string a character gives its UTF-8, `\x` with two digits gives
/// one byte, and a zero byte ends the value. A literal with CR LF may have no value.
///
/// A string of `a\`, LF, two spaces and `b` has the value `ab`, and `c"é\xe9"` has C3 A9 E9 00.
///
/// # Contract
///
/// - `ensures strings`: <code>[StringsHaveValues]</code>
/// - `ensures byte_strings`: <code>[ByteStringsHaveValues]</code>
/// - `ensures c_strings`: <code>[CStringsHaveValues]</code>
///
/// [StringsHaveValues]: crate::contracts#pm_token.ValueLaws.StringsHaveValues
/// [ByteStringsHaveValues]: crate::contracts#pm_token.ValueLaws.ByteStringsHaveValues
/// [CStringsHaveValues]: crate::contracts#pm_token.ValueLaws.CStringsHaveValues
pub fn cooked_values()
{}
