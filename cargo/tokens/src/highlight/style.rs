// Made from crates/highlight/src/style.rt by dev/erase: change that file, not this one.
//! The styles of pieces.

use proved_tokens::proc_macro2::PieceKind;

/// How a piece is shown.
#[derive(Clone, Copy, Debug, PartialEq, Eq)]
pub enum Style {
    /// White space, or the mark U+FEFF at the start of the text.
    Bare,
    Keyword,
    Name,
    RawName,
    Lifetime,
    Str,
    RawStr,
    ByteStr,
    CStr,
    Character,
    Byte,
    Integer,
    Float,
    /// The literal `(/*ERROR*/)`.
    ErrorLiteral,
    LineComment,
    BlockComment,
    Doc,
    Mark,
    /// A delimiter of a pair, with the number of pairs around it.
    Delimiter(usize),
    /// A closer without an open opener of its kind.
    StrayCloser,
    /// An opener that is never closed.
    Unclosed,
    /// The first character of a text that begins with no piece.
    NoPiece,
    /// The text after that character.
    Unread,
}

impl Style {
    /// Returns the class of the `<span>` in a page, which for an error includes the title. White space and plain names
    /// have none.
    pub fn class(self) -> &'static str
    {
        match self {
            Style::Bare | Style::Name => "",
            Style::Keyword => "k",
            Style::RawName => "r",
            Style::Lifetime => "l",
            Style::Str => "s",
            Style::RawStr => "rs",
            Style::ByteStr => "bs",
            Style::CStr => "cs",
            Style::Character => "c",
            Style::Byte => "b",
            Style::Integer => "i",
            Style::Float => "f",
            Style::ErrorLiteral => "e",
            Style::LineComment => "lc",
            Style::BlockComment => "bc",
            Style::Doc => "dc",
            Style::Mark => "m",
            Style::Delimiter(depth) => depth_class(depth),
            Style::StrayCloser => "x title=\"this closer matches no opener\"",
            Style::Unclosed => "x title=\"this opener is never closed\"",
            Style::NoPiece => "x title=\"no token stands here\"",
            Style::Unread => "u",
        }
    }

    /// Returns the numbers of the colours on a terminal. White space and plain names have none.
    pub fn colour(self) -> &'static str
    {
        match self {
            Style::Bare | Style::Name => "",
            Style::Keyword => "1;35",
            Style::RawName => "4",
            Style::Lifetime => "36",
            Style::Str | Style::RawStr | Style::ByteStr | Style::CStr => "32",
            Style::Character | Style::Byte => "92",
            Style::Integer | Style::Float => "33",
            Style::ErrorLiteral => "31",
            Style::LineComment | Style::BlockComment => "90",
            Style::Doc => "3;90",
            Style::Mark => "39",
            Style::Delimiter(depth) => depth_colour(depth),
            Style::StrayCloser | Style::Unclosed | Style::NoPiece => "1;97;41",
            Style::Unread => "2",
        }
    }
}

/// Returns the class of a delimiter, which repeats every six levels.
fn depth_class(depth: usize) -> &'static str
{
    match depth % 6 {
        0 => "d0",
        1 => "d1",
        2 => "d2",
        3 => "d3",
        4 => "d4",
        _ => "d5",
    }
}

/// Returns the colour of a delimiter, which repeats every six levels.
fn depth_colour(depth: usize) -> &'static str
{
    match depth % 6 {
        0 => "33",
        1 => "35",
        2 => "34",
        3 => "36",
        4 => "32",
        _ => "31",
    }
}

/// Returns the style of a piece that is not a delimiter.
pub fn style_of(kind: PieceKind<'_>, text: &str) -> Style
{
    match kind {
        PieceKind::FrontMark => Style::Bare,
        PieceKind::Gap => gap_style(text),
        PieceKind::Doc { .. } => Style::Doc,
        PieceKind::Literal => literal_style(text),
        PieceKind::Mark { mark: '\'', .. } => Style::Lifetime,
        PieceKind::Mark { .. } => Style::Mark,
        PieceKind::Name { raw: true, .. } => Style::RawName,
        PieceKind::Name { raw: false, .. } if is_keyword(text) => Style::Keyword,
        PieceKind::Name { .. } => Style::Name,
        PieceKind::Opener(_) => Style::Unclosed,
        PieceKind::Closer(_) => Style::StrayCloser,
    }
}

/// Returns the style of a gap. A comment begins with a slash, which white space does not.
fn gap_style(text: &str) -> Style
{
    match text.as_bytes() {
        [b'/', b'/', ..] => Style::LineComment,
        [b'/', ..] => Style::BlockComment,
        _ => Style::Bare,
    }
}

fn literal_style(text: &str) -> Style
{
    match text.as_bytes() {
        [b'"', ..] => Style::Str,
        [b'r', ..] => Style::RawStr,
        [b'b', b'\'', ..] => Style::Byte,
        [b'b', ..] => Style::ByteStr,
        [b'c', ..] => Style::CStr,
        [b'\'', ..] => Style::Character,
        [b'(', ..] => Style::ErrorLiteral,
        _ if is_float(text) => Style::Float,
        _ => Style::Integer,
    }
}

/// Whether the digits of a number are followed by a dot or by an exponent, which is not a suffix.
fn is_float(number: &str) -> bool
{
    let mut after_e = false;
    for byte in number.bytes() {
        match byte {
            b'0'..=b'9' if after_e => return true,
            b'+' | b'-' if after_e => {}
            b'0'..=b'9' | b'_' => {}
            b'.' if !after_e => return true,
            b'e' | b'E' if !after_e => after_e = true,
            _ => return false,
        }
    }
    false
}

/// Whether the text is a name only if it is raw: a keyword of the edition 2024, or a reserved word. It is compared only
/// with the keywords that begin with the same letter.
fn is_keyword(text: &str) -> bool
{
    match text.as_bytes() {
        [b'S', ..] => ["Self"].contains(&text),
        [b'a', ..] => ["abstract", "as", "async", "await"].contains(&text),
        [b'b', ..] => ["become", "box", "break"].contains(&text),
        [b'c', ..] => ["const", "continue", "crate"].contains(&text),
        [b'd', ..] => ["do", "dyn"].contains(&text),
        [b'e', ..] => ["else", "enum", "extern"].contains(&text),
        [b'f', ..] => ["false", "final", "fn", "for"].contains(&text),
        [b'g', ..] => ["gen"].contains(&text),
        [b'i', ..] => ["if", "impl", "in"].contains(&text),
        [b'l', ..] => ["let", "loop"].contains(&text),
        [b'm', ..] => ["macro", "match", "mod", "move", "mut"].contains(&text),
        [b'o', ..] => ["override"].contains(&text),
        [b'p', ..] => ["priv", "pub"].contains(&text),
        [b'r', ..] => ["ref", "return"].contains(&text),
        [b's', ..] => ["self", "static", "struct", "super"].contains(&text),
        [b't', ..] => ["trait", "true", "try", "type", "typeof"].contains(&text),
        [b'u', ..] => ["unsafe", "unsized", "use"].contains(&text),
        [b'v', ..] => ["virtual"].contains(&text),
        [b'w', ..] => ["where", "while"].contains(&text),
        [b'y', ..] => ["yield"].contains(&text),
        _ => false,
    }
}
