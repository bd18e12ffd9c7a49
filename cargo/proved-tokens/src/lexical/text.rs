// Made from crates/lexical/src/text.rt by dev/erase: change that file, not this one.
//! Basic functions on texts.

/// Splits a text after its first character, or returns `None` if it is empty.
///
/// # Contract
///
/// - `ensures split`: <code>[MatchOption] result ([chars] text.now ≡ \[\]) (λ x. [chars] text.now ≡ x.0 ∷
///   [chars] x.1.now)</code>
/// - `ensures utf8`: <code>[IfSome] result (λ x. [IsUtf8] x.1.now)</code>
///
/// [MatchOption]: crate::contracts#std.MatchOption
/// [chars]: crate::contracts#std.chars
/// [IfSome]: crate::contracts#std.IfSome
/// [IsUtf8]: crate::contracts#std.IsUtf8
#[cfg_attr(not(debug_assertions), inline(always))]
pub fn split_first(text: &str) -> Option<(char, &str)>
{
    let mut characters = text.chars();
    let first = characters.next()?;
    Some((first, characters.as_str()))
}

/// How many bytes `char_count` tests at once. Mostly they are ASCII.
const BLOCK: usize = 64;

/// Counts the characters of a text, which are its bytes that begin one.
///
/// # Contract
///
/// - `ensures`: <code>result ≡ [length] ([chars] text.now)</code>
///
/// [length]: crate::contracts#std.length
/// [chars]: crate::contracts#std.chars
pub fn char_count(text: &str) -> usize
{
    if text.is_ascii() {
        return text.len();
    }
    let mut rest = text.as_bytes();
    let mut count = 0;
    while rest.len() > BLOCK {
        count += first_bytes(&rest[..BLOCK]);
        rest = &rest[BLOCK..];
    }
    count + first_bytes(rest)
}

/// Counts the bytes of a text that begin a character.
fn first_bytes(bytes: &[u8]) -> usize
{
    if bytes.is_ascii() {
        return bytes.len();
    }
    let mut count = 0;
    for byte in bytes {
        if *byte < 0x80 || *byte >= 0xC0 {
            count += 1;
        }
    }
    count
}

/// Whether the text begins with the ASCII text `front`.
///
/// # Contract
///
/// - `requires`: <code>[IsTrue] ([all_ascii] front.now)</code>
/// - `ensures`: <code>result ≡ [begins_with] front.now ([chars] text.now)</code>
///
/// [IsTrue]: crate::contracts#std.IsTrue
/// [all_ascii]: crate::contracts#lexical.Ascii.all_ascii
/// [begins_with]: crate::contracts#lexical.Text.begins_with
/// [chars]: crate::contracts#std.chars
#[cfg_attr(not(debug_assertions), inline(always))]
pub fn begins(text: &str, front: &str) -> bool
{
    text.starts_with(front)
}

/// Whether the text equals the ASCII text `ascii`.
///
/// # Contract
///
/// - `requires`: <code>[IsTrue] ([all_ascii] ascii.now)</code>
/// - `ensures`: <code>result ≡ [pointwise] [nat_eq] ([chars] text.now) ascii.now</code>
///
/// [IsTrue]: crate::contracts#std.IsTrue
/// [all_ascii]: crate::contracts#lexical.Ascii.all_ascii
/// [pointwise]: crate::contracts#std.pointwise
/// [nat_eq]: crate::contracts#std.nat_eq
/// [chars]: crate::contracts#std.chars
pub fn is_text(text: &str, ascii: &str) -> bool
{
    text == ascii
}

/// Returns the text before `rest`, which must be a suffix of `text`.
///
/// # Contract
///
/// - `requires`: <code>(front : [List] ℕ) × ([chars] text.now ≡ front ++ [chars] rest.now)</code>
/// - `ensures`: <code>(front : [List] ℕ) → [chars] text.now ≡ front ++ [chars] rest.now → [chars] result.now ≡
///   front</code>
///
/// [List]: crate::contracts#std.List
/// [chars]: crate::contracts#std.chars
#[cfg_attr(not(debug_assertions), inline(always))]
pub fn before<'a>(text: &'a str, rest: &str) -> &'a str
{
    &text[..text.len() - rest.len()]
}

/// Returns the text after the ASCII text `front`, or `None` if the text does not begin with it.
///
/// # Contract
///
/// - `requires`: <code>[IsTrue] ([all_ascii] front.now)</code>
/// - `ensures split`: <code>[MatchOption] result ([begins_with] front.now ([chars] text.now) ≡ [false]) (λ
///   rest. [chars] text.now ≡ front.now ++ [chars] rest.now)</code>
/// - `ensures utf8`: <code>[IfSome] result (λ rest. [IsUtf8] rest.now)</code>
///
/// [IsTrue]: crate::contracts#std.IsTrue
/// [all_ascii]: crate::contracts#lexical.Ascii.all_ascii
/// [MatchOption]: crate::contracts#std.MatchOption
/// [begins_with]: crate::contracts#lexical.Text.begins_with
/// [chars]: crate::contracts#std.chars
/// [false]: crate::contracts#std.false
/// [IfSome]: crate::contracts#std.IfSome
/// [IsUtf8]: crate::contracts#std.IsUtf8
#[cfg_attr(not(debug_assertions), inline(always))]
pub fn strip<'a>(text: &'a str, front: &str) -> Option<&'a str>
{
    text.strip_prefix(front)
}

/// Returns the text without the CR at its end, if it ends with one.
///
/// # Contract
///
/// - `ensures`: <code>[chars] text.now ≡ [chars] result.now ++ (if [ends_with] [carriage_return] ([chars]
///   text.now) then [carriage_return] ∷ \[\] else \[\])</code>
///
/// [chars]: crate::contracts#std.chars
/// [ends_with]: crate::contracts#lexical.Text.ends_with
/// [carriage_return]: crate::contracts#lexical.Character.carriage_return
pub fn without_return(text: &str) -> &str
{
    match text.strip_suffix('\r') {
        Some(front) => front,
        None => text,
    }
}
