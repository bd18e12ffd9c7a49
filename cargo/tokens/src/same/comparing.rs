// Made from crates/same/src/comparing.rt by dev/erase: change that file, not this one.
//! Compares two texts, word by word.

use crate::same::source_word::SourceWord;
use crate::same::words::Words;
use proved_tokens::pm_token::parts::TextBuilder;
use proved_tokens::shim::alloc::AllocError;

/// Returns where two texts first differ in their tokens and, if `comments` is true, in their comments. The result is
/// the rest of each text from there on, which is empty if the text has no more words. Returns `None` if the texts are
/// the same.
pub fn difference<'a>(
    comments: bool,
    first: &'a str,
    second: &'a str,
) -> Result<Option<(&'a str, &'a str)>, AllocError>
{
    let mut ones = Words::new(first, comments);
    let mut others = Words::new(second, comments);
    while let Some(one) = ones.next() {
        let other = others.next();
        if !is_same(one, other)? {
            return Ok(Some((ones.here, others.here)));
        }
    }
    match others.next() {
        Some(_) => Ok(Some((ones.here, others.here))),
        None => Ok(None),
    }
}

/// Whether there is another word and it is the same as the first.
fn is_same(
    one: SourceWord<'_>,
    other: Option<SourceWord<'_>>,
) -> Result<bool, AllocError>
{
    match other {
        Some(other) => is_alike(one, other),
        None => Ok(false),
    }
}

/// Whether the two words are the same.
fn is_alike(one: SourceWord<'_>, other: SourceWord<'_>) -> Result<bool, AllocError>
{
    Ok(match (one, other) {
        (SourceWord::Name(raw, name), SourceWord::Name(other_raw, other)) => raw == other_raw
            && name == other,
        (SourceWord::Mark(joint, mark), SourceWord::Mark(other_joint, other)) => {
            joint == other_joint && mark == other
        }
        (SourceWord::Literal(text), SourceWord::Literal(other)) => text == other,
        (SourceWord::DocText(text), SourceWord::DocText(other)) => text == other,
        (SourceWord::DocText(text), SourceWord::Literal(literal)) => is_string_of(
            text, literal,
        )?,
        (SourceWord::Literal(literal), SourceWord::DocText(text)) => is_string_of(
            text, literal,
        )?,
        (SourceWord::Opener(delimiter), SourceWord::Opener(other)) => delimiter == other,
        (SourceWord::Closer(delimiter), SourceWord::Closer(other)) => delimiter == other,
        (SourceWord::Comment(text), SourceWord::Comment(other)) => text == other,
        _ => false,
    })
}

/// Whether the literal is the one that `Literal::string` writes for the text.
fn is_string_of(text: &str, literal: &str) -> Result<bool, AllocError>
{
    let mut string = TextBuilder::with_room(0)?;
    string.push_string(text)?;
    Ok(string.into_string().as_str() == literal)
}
