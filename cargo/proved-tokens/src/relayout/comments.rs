// Made from crates/relayout/src/comments.rt by dev/erase: change that file, not this one.
//! Writes the doc attributes of a text as doc comments.

use crate::relayout::errors::RelayoutError;
use crate::relayout::forms::form_of;
use crate::relayout::literals::{escaped_text, plain_front};
use crate::lexical::parts::{TextCursor, before, begins};
use crate::lexical::{PieceKind, literal_at, past_white, piece_at};
use crate::pm_token::parts::{TextBuilder, string_literal};
use crate::pm_token::{ConversionErrorKind, Literal};
use crate::proc_macro2::Span;
use crate::shim::alloc::AllocError;

/// Returns the text with its doc attributes written as doc comments.
///
/// `#[doc = ".."]` becomes `///..`, and `# ![doc = ".."]` becomes `//!..`. Such a comment is read as that attribute, so
/// the text parses to the same tokens up to spans. An attribute stays if it is spelled in another way, if more than
/// white space precedes it on its line, or if LF does not follow its `]` at once. It also stays if its text has LF or
/// CR, which no one-line comment can hold, or if the text would begin with `/` right after `///`. Everything else stays
/// as it is.
///
/// Returns `NoPiece` if no pieces cover the text, and `Memory` if memory runs out. Delimiters need not match. The call
/// takes time proportional to the length of the text.
///
/// Example: `#[doc = " a"]`, LF and `fn f() {}` become `/// a`, LF and `fn f() {}`.
///
/// # Contract
///
/// - `ensures ok`: <code>[IfOk] result (λ out. [IsCommented] [false] ([chars] text.now) ([chars]
///   ([string_bytes] out)))</code>
/// - `ensures no_piece`: <code>[IfErr] result ([IfNoPiece] ([HasNoCover] ([chars] text.now)))</code>
///
/// [IfOk]: crate::contracts#std.IfOk
/// [IsCommented]: crate::contracts#relayout.Comments.IsCommented
/// [false]: crate::contracts#std.false
/// [chars]: crate::contracts#std.chars
/// [string_bytes]: crate::contracts#std.string_bytes
/// [IfErr]: crate::contracts#std.IfErr
/// [IfNoPiece]: crate::contracts#relayout.Relaid.IfNoPiece
/// [HasNoCover]: crate::contracts#relayout.Relaid.HasNoCover
pub fn with_doc_comments(text: &str) -> Result<String, RelayoutError>
{
    commented(text, false)
}

/// Returns the text with its doc attributes written as doc comments, whatever the spelling of their literals.
///
/// It writes the comments of `with_doc_comments`, and more. A literal may be spelled in any way, as `r" a"`, which
/// rustc makes of `/// a` in a macro. An attribute whose text no one-line comment can hold becomes `/**..*/` or
/// `/*!..*/`, if that comment is read as this text and the text has no CR. The returned text parses to the same tokens
/// up to spans, but a doc literal may become another spelling of its value. Everything else stays as it is.
///
/// Returns `NoPiece` if no pieces cover the text, and `Memory` if memory runs out. Delimiters need not match. The call
/// takes time proportional to the length of the text.
///
/// Example: `#[doc = r" a"]`, LF, `#[doc = "b\nc"]` and LF become `/// a`, LF, `/**b`, LF, `c*/` and LF.
///
/// # Contract
///
/// - `ensures ok`: <code>[IfOk] result (λ out. [IsCommented] [true] ([chars] text.now) ([chars] ([string_bytes]
///   out)))</code>
/// - `ensures no_piece`: <code>[IfErr] result ([IfNoPiece] ([HasNoCover] ([chars] text.now)))</code>
///
/// [IfOk]: crate::contracts#std.IfOk
/// [IsCommented]: crate::contracts#relayout.Comments.IsCommented
/// [true]: crate::contracts#std.true
/// [chars]: crate::contracts#std.chars
/// [string_bytes]: crate::contracts#std.string_bytes
/// [IfErr]: crate::contracts#std.IfErr
/// [IfNoPiece]: crate::contracts#relayout.Relaid.IfNoPiece
/// [HasNoCover]: crate::contracts#relayout.Relaid.HasNoCover
pub fn with_any_doc_comments(text: &str) -> Result<String, RelayoutError>
{
    commented(text, true)
}

/// Does the work of `with_doc_comments` or, if `any` is true, of `with_any_doc_comments`.
fn commented(text: &str, any: bool) -> Result<String, RelayoutError>
{
    let mut out = TextBuilder::with_room(text.len())?;
    // `kept` is the text that is not written yet, and `rest` its end that is not read yet. What is kept is copied in
    // one go.
    let mut kept = text;
    let mut rest = text;
    let mut first = true;
    let mut free = true;
    while !rest.is_empty() {
        // Of white space only the line ends matter, so it is skipped without the lexer.
        let (solid, white) = past_white(rest);
        if white > 0 {
            free = is_free_after(free, before(rest, solid));
            rest = solid;
            first = false;
            continue;
        }
        if let Some(after) = push_comment(&mut out, kept, rest, free, any)? {
            kept = after;
            rest = after;
            first = false;
            continue;
        }
        let Some((after, is_free)) = past_piece(rest, first, free, any) else {
            return Err(RelayoutError::NoPiece);
        };
        rest = after;
        first = false;
        free = is_free;
    }
    out.push_text(kept)?;
    Ok(out.into_string())
}

/// Whether the line is blank up to the end of `white`. `free` says whether it is blank up to the start of `white`.
#[cfg_attr(not(debug_assertions), inline(always))]
fn is_free_after(free: bool, white: &str) -> bool
{
    free || ends_line(white)
}

/// Whether the white space has a line end in it.
#[cfg_attr(not(debug_assertions), inline(always))]
fn ends_line(white: &str) -> bool
{
    white.chars().any(|c| c == '\n')
}

/// Writes a comment for the attribute at the start of `text`, after the part of `kept` that precedes `text`. `free`
/// says whether only white space precedes `text` on its line. Returns what follows the attribute's line. If no
/// attribute that becomes a comment begins there, it returns `None` and writes nothing.
#[cfg_attr(not(debug_assertions), inline(always))]
fn push_comment<'a>(
    out: &mut TextBuilder,
    kept: &str,
    text: &'a str,
    free: bool,
    any: bool,
) -> Result<Option<&'a str>, AllocError>
{
    if !free {
        return Ok(None);
    }
    if !begins(text, "#") {
        return Ok(None);
    }
    push_attribute(out, kept, text, any)
}

/// Does the work of `push_comment` for a text that only white space precedes on its line.
#[inline(never)]
fn push_attribute<'a>(
    out: &mut TextBuilder,
    kept: &str,
    text: &'a str,
    any: bool,
) -> Result<Option<&'a str>, AllocError>
{
    let Some((inner, after)) = past_front(text) else {
        return Ok(None);
    };
    // Most literals hold their text as it is or with short escapes. These are read without the lexer.
    if let Some((front, more)) = plain_front(after) {
        if let Some(end) = TextCursor::new(more).past("\"]\n") {
            return push_doc(out, kept, text, inner, any, front, end.rest);
        }
        if let Some((doc_body, rest)) = escaped_text(front, more)? {
            return push_doc(out, kept, text, inner, any, doc_body.as_str(), rest);
        }
    }
    let Some((literal, rest)) = split_literal(after) else {
        return Ok(None);
    };
    let Some(doc_body) = text_of(literal, any)? else {
        return Ok(None);
    };
    push_doc(out, kept, text, inner, any, doc_body.as_str(), rest)
}

/// Writes the comment for an attribute whose text is `doc_body`, if a comment can hold that text, and returns `rest`,
/// which follows the attribute's line. Otherwise it returns `None` and writes nothing.
fn push_doc<'a>(
    out: &mut TextBuilder,
    kept: &str,
    text: &str,
    inner: bool,
    any: bool,
    doc_body: &str,
    rest: &'a str,
) -> Result<Option<&'a str>, AllocError>
{
    let Some((front, end)) = form_of(inner, any, doc_body)? else {
        return Ok(None);
    };
    out.push_text(before(kept, text))?;
    out.push_text(front)?;
    out.push_text(doc_body)?;
    out.push_text(end)?;
    Ok(Some(rest))
}

/// Returns what follows the piece at the start of the text, and whether only white space precedes that on its line.
/// `free` says whether only white space precedes the piece on its line. If so, no attribute that becomes a comment may
/// begin there. Returns `None` if no piece begins there.
#[cfg_attr(not(debug_assertions), inline(always))]
fn past_piece(text: &str, first: bool, free: bool, _any: bool) -> Option<(&str, bool)>
{
    let Some(piece) = piece_at(text, first) else {
        return None;
    };
    let (own, rest) = text.split_at(piece.bytes);
    Some((rest, is_free(free, piece.kind, own)))
}

/// Whether the line is blank up to the end of a piece of this kind and text. `free` says whether it is blank up to its
/// start.
fn is_free(free: bool, kind: PieceKind<'_>, text: &str) -> bool
{
    match kind {
        PieceKind::Gap => !begins(text, "/") && (free || begins(text, "\n")),
        _ => false,
    }
}

/// Returns which doc attribute begins the text, an inner one (`true`) or an outer one, and the text from its literal
/// on. Returns `None` if none begins it.
fn past_front(text: &str) -> Option<(bool, &str)>
{
    let start = TextCursor::new(text);
    if let Some(literal) = start.past("#[doc = ") {
        return Some((false, literal.rest));
    }
    if let Some(literal) = start.past("# ![doc = ") {
        return Some((true, literal.rest));
    }
    None
}

/// Returns the literal at the start of the text, and what follows the `]` and LF after it. Returns `None` if no literal
/// begins there or something else follows it.
fn split_literal(text: &str) -> Option<(&str, &str)>
{
    let Some(bytes) = literal_at(text) else {
        return None;
    };
    let Some(end) = TextCursor::new(&text[bytes..]).past("]\n") else {
        return None;
    };
    Some((&text[..bytes], end.rest))
}

/// Returns the text that this literal spells, if there is one. If `any` is false, the literal must be the one that
/// `Literal::string` writes for the text.
fn text_of(literal: &str, any: bool) -> Result<Option<String>, AllocError>
{
    match Literal::from_str_unchecked(literal)?.str_value() {
        Ok(text) => {
            if any {
                Ok(Some(text))
            } else {
                same_literal(literal, text)
            }
        }
        Err(ConversionErrorKind::Memory(error)) => Err(error),
        Err(ConversionErrorKind::InvalidLiteralKind) => Ok(None),
        Err(ConversionErrorKind::FailedToUnescape(_)) => Ok(None),
    }
}

/// Returns `text` if `Literal::string` writes `literal` for it.
fn same_literal(literal: &str, text: String) -> Result<Option<String>, AllocError>
{
    let again = string_literal(text.as_str(), Span::call_site())?;
    if is_same(again.text(), literal) {
        Ok(Some(text))
    } else {
        Ok(None)
    }
}

/// Whether the two texts are equal.
fn is_same(text: &str, other: &str) -> bool
{
    text == other
}
