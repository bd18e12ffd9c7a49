// Made from crates/lexical/src/contents.rt by dev/erase: change that file, not this one.
//! The characters that a string must not contain.
//!
//! The end of a string is searched for among its bytes. Then the bytes up to there are checked.

use crate::lexical::quoted::StringKind;
use crate::shim::memchr::memchr;

/// Whether a string of the kind may contain the character, with escapes or raw.
///
/// # Contract
///
/// - `ensures`: <code>result ≡ [may_stand_raw] kind c</code>
///
/// [may_stand_raw]: crate::contracts#lexical.RawString.may_stand_raw
pub fn may_stand(c: char, kind: StringKind) -> bool
{
    match kind {
        StringKind::Plain => true,
        StringKind::Byte => c.is_ascii(),
        StringKind::C => c != '\0',
    }
}

/// Counts the bytes before the first one that is past ASCII.
fn count_ascii(bytes: &[u8]) -> usize
{
    if bytes.is_ascii() {
        return bytes.len();
    }
    let mut count = 0;
    while count < bytes.len() {
        if !bytes[count].is_ascii() {
            break;
        }
        count += 1;
    }
    count
}

/// Counts the bytes before the first one that a string of the kind must not contain.
///
/// # Contract
///
/// - `ensures`: <code>result ≡ [length] ([while_front] ([may_stand_raw] kind) stretch.now)</code>
///
/// [length]: crate::contracts#std.length
/// [while_front]: crate::contracts#lexical.Finder.while_front
/// [may_stand_raw]: crate::contracts#lexical.RawString.may_stand_raw
pub fn count_allowed(stretch: &[u8], kind: StringKind) -> usize
{
    match kind {
        StringKind::Plain => stretch.len(),
        StringKind::Byte => count_ascii(stretch),
        StringKind::C => memchr(0, stretch).unwrap_or(stretch.len()),
    }
}
