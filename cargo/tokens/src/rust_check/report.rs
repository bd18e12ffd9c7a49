// Made from crates/rust_check/src/report.rt by dev/erase: change that file, not this one.
//! Reports the hidden text of a source.

use crate::rust_check::ends::{odd, tell_line_ends};
use crate::rust_check::finding::{Finding, TextPosition};
use crate::rust_check::hidden::{Hidden, hides_as};
use crate::rust_check::name_forms::NameForms;
use crate::rust_check::names::is_mixed;
use crate::rust_check::options::Form;
use crate::rust_check::turns::is_balanced;
use crate::rust_check::writing::write_line;
use proved_tokens::proc_macro2::{PieceKind, pieces};
use proved_tokens::shim::alloc::AllocError;
use proved_tokens::shim::io;
use proved_tokens::shim::io::Write;
use proved_tokens::shim::unicode_normalization::is_nfc;

/// Writes a line for each position of the text where something is hidden, and returns whether there is one. The hidden
/// characters come first, piece by piece, and then what is odd about the line ends.
pub fn tell_hidden<W: Write>(
    form: Form,
    path: &str,
    text: &str,
    writer: &mut W,
) -> io::Result<bool>
{
    let mut found = false;
    tell_pieces(form, path, text, &mut found, writer)?;
    tell_line_ends(form, path, text, &mut found, writer)?;
    Ok(found)
}

/// Writes a line for each hidden character in the text's pieces and in what follows the last piece, and for each odd
/// name.
fn tell_pieces<W: Write>(
    form: Form,
    path: &str,
    text: &str,
    found: &mut bool,
    writer: &mut W,
) -> io::Result<()>
{
    let mut place = TextPosition::front();
    let mut forms = NameForms::new();
    let mut walk = pieces(text);
    while let Some(next) = walk.next_piece() {
        tell_name(
            form,
            path,
            place,
            next.piece.kind,
            next.text,
            &mut forms,
            found,
            writer,
        )?;
        let literal = is_literal(next.piece.kind);
        place = tell_piece(form, path, literal, place, next.text, found, writer)?;
    }
    tell_piece(form, path, false, place, walk.rest(), found, writer)?;
    Ok(())
}

/// Writes a line for each oddity of the piece, if it is a name, and adds the name to `forms`.
fn tell_name<W: Write>(
    form: Form,
    path: &str,
    place: TextPosition,
    kind: PieceKind<'_>,
    text: &str,
    forms: &mut NameForms,
    found: &mut bool,
    writer: &mut W,
) -> io::Result<()>
{
    let PieceKind::Name { name, .. } = kind else {
        return Ok(());
    };
    let is_other_form = !is_nfc(name)?;
    let finding = odd(
        "name-not-in-nfc",
        "a name that is not in the form NFC",
        text,
        place,
    );
    tell_if(form, path, is_other_form, &finding, found, writer)?;
    let finding = odd(
        "name-of-mixed-scripts",
        "a name of scripts that are not written together",
        text,
        place,
    );
    tell_if(form, path, is_mixed(name), &finding, found, writer)?;
    let is_other = forms.take(name)?;
    let finding = odd(
        "name-like-another",
        "a name that the form NFKC makes one with a name before it",
        text,
        place,
    );
    tell_if(form, path, is_other, &finding, found, writer)
}

/// Writes a line for the finding if `is` is true.
fn tell_if<W: Write>(
    form: Form,
    path: &str,
    is: bool,
    finding: &Finding<'_>,
    found: &mut bool,
    writer: &mut W,
) -> io::Result<()>
{
    if !is {
        return Ok(());
    }
    *found = true;
    write_line(form, path, finding, writer)
}

/// Whether the piece is a literal.
fn is_literal(kind: PieceKind<'_>) -> bool
{
    matches!(kind, PieceKind::Literal)
}

/// Writes a line for each hidden character of a piece that begins at `place`, and returns where the piece ends.
fn tell_piece<W: Write>(
    form: Form,
    path: &str,
    literal: bool,
    place: TextPosition,
    text: &str,
    found: &mut bool,
    writer: &mut W,
) -> io::Result<TextPosition>
{
    let mut at = place;
    let mut balanced = is_balanced(text)?;
    let mut rest = text.chars();
    while let Some(c) = rest.next() {
        tell_character(form, path, literal, balanced, at, c, found, writer)?;
        balanced = balanced_after(balanced, c, rest.as_str())?;
        at = at.after(c);
    }
    Ok(at)
}

/// Whether the controls of direction are balanced on the line on which the text after this character begins.
fn balanced_after(balanced: bool, c: char, rest: &str) -> Result<bool, AllocError>
{
    if c == '\n' {
        is_balanced(rest)
    } else {
        Ok(balanced)
    }
}

/// Writes a line for the character at this place, if it hides something.
fn tell_character<W: Write>(
    form: Form,
    path: &str,
    literal: bool,
    balanced: bool,
    place: TextPosition,
    c: char,
    found: &mut bool,
    writer: &mut W,
) -> io::Result<()>
{
    let Some(hidden) = hides_as(c) else {
        return Ok(());
    };
    if is_spared(literal, place, c, hidden) {
        return Ok(());
    }
    let mut bytes = [0; 4];
    let finding = finding(balanced, place, hidden, c, c.encode_utf8(&mut bytes));
    *found = true;
    write_line(form, path, &finding, writer)
}

/// Whether a hidden character is not reported: white space in a literal, and U+FEFF at the start of the text.
fn is_spared(literal: bool, place: TextPosition, c: char, hidden: Hidden) -> bool
{
    match hidden {
        Hidden::White => literal,
        Hidden::Invisible => c == '\u{FEFF}' && place.begin == 0,
        _ => false,
    }
}

/// Returns the finding for a hidden character, whose text is `here`.
fn finding<'a>(
    balanced: bool,
    place: TextPosition,
    hidden: Hidden,
    c: char,
    here: &'a str,
) -> Finding<'a>
{
    Finding {
        name: name_of_hidden(balanced, hidden),
        says: says_of_hidden(balanced, hidden),
        place,
        front: "",
        here,
        rest: "",
    }
}

/// Returns the short name of what hides something.
fn name_of_hidden(balanced: bool, hidden: Hidden) -> &'static str
{
    match hidden {
        Hidden::Direction if balanced => "direction-control",
        Hidden::Direction => "unbalanced-direction-control",
        Hidden::Joiner => "joining-character",
        Hidden::Invisible => "invisible-character",
        Hidden::Control => "control-character",
        Hidden::White => "odd-white-space",
    }
}

/// Returns the words about what hides something.
fn says_of_hidden(balanced: bool, hidden: Hidden) -> &'static str
{
    match hidden {
        Hidden::Direction if balanced => "a control of the text's direction",
        Hidden::Direction =>
            "a control of the text's direction, on a line where they are not balanced",
        Hidden::Joiner => "a character that joins its neighbours or keeps them apart",
        Hidden::Invisible => "a character that nobody sees",
        Hidden::Control => "a control character",
        Hidden::White => "white space that is no space, tab or line end",
    }
}
