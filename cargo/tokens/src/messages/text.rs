// Made from crates/messages/src/text.rt by dev/erase: change that file, not this one.
//! Parts of texts.

use proved_tokens::lexical::parts::before;

/// Splits the text after its first `count` characters, or at its end if it has fewer.
pub fn split_chars(text: &str, count: u32) -> (&str, &str)
{
    let mut rest = text.chars();
    for _ in 0..count {
        let _ = rest.next();
    }
    let after = rest.as_str();
    (before(text, after), after)
}
