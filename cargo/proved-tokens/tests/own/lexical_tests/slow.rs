// Made from crates/lexical_tests/src/slow.rt by dev/erase: change that file, not this one.
//! A second, plain lexer: it reads character by character and tries each rule in turn.
//!
//! It is compared with the lexer, of which it uses only the types of the results. The marks, the reserved names and all
//! else on which the two must agree are written here again. Its functions have no contract. The public ones return what
//! those of the same names in `lexical` return. Each other one returns the text after a match of its rule at the start
//! of the text, or `None` if there is no match.

use proved_tokens::lexical::{Piece, PieceKind};

/// Returns the piece at the start of the text, with its length in bytes and in characters, or `None` if none begins
/// there. `at_front` says whether the text begins at byte offset 0 of a source.
///
/// For `+=` it returns the mark `+`, Joint, of 1 byte and 1 character. For `/* /* */` it returns `None`.
pub fn piece_at(text: &str, at_front: bool) -> Option<Piece<'_>> {
    let (kind, rest) = kind_at(text, at_front)?;
    let piece = text.strip_suffix(rest)?;
    Some(Piece {
        kind,
        bytes: piece.len(),
        chars: piece.chars().count(),
    })
}

/// Returns how many bytes the literal at the start of the text has, including its suffix, or `None` if there is none.
///
/// For `b"a"b+` it returns 5.
pub fn literal_at(text: &str) -> Option<usize> {
    Some(text.len() - literal(text)?.len().min(text.len()))
}

/// Returns how many bytes the name at the start of the text has, or `None` if there is none.
///
/// For `r#a` it returns 1, because `r` is a name.
pub fn name_at(text: &str) -> Option<usize> {
    Some(text.len() - name(text)?.len().min(text.len()))
}

fn kind_at(text: &str, at_front: bool) -> Option<(PieceKind<'_>, &str)> {
    if let Some(rest) = text.strip_prefix('\u{FEFF}') {
        return if at_front {
            Some((PieceKind::FrontMark, rest))
        } else {
            None
        };
    }
    if let Some(rest) = text.strip_prefix(is_white) {
        return Some((PieceKind::Gap, rest));
    }
    if text.starts_with("//") || text.starts_with("/*") {
        return comment_kind(text);
    }
    if let Some(rest) = text.strip_prefix("(/*ERROR*/)") {
        return Some((PieceKind::Literal, rest));
    }
    if let Some(rest) = literal(text) {
        return Some((PieceKind::Literal, rest));
    }
    if begins_literal(text) {
        return None;
    }
    if let Some(rest) = raw_name(text) {
        let name = text.strip_suffix(rest)?.strip_prefix("r#")?;
        return Some((PieceKind::Name { raw: true, name }, rest));
    }
    if text.starts_with("r#") {
        return None;
    }
    if let Some(rest) = name(text) {
        let name = text.strip_suffix(rest)?;
        return Some((PieceKind::Name { raw: false, name }, rest));
    }
    let (first, rest) = first(text)?;
    match first {
        '(' | '[' | '{' => Some((PieceKind::Opener(first), rest)),
        ')' | ']' | '}' => Some((PieceKind::Closer(first), rest)),
        '\'' => {
            if !is_lifetime(rest) {
                return None;
            }
            let kind = PieceKind::Mark {
                joint: true,
                mark: first,
            };
            Some((kind, rest))
        }
        mark if is_mark(mark) => {
            let is_comment = rest.starts_with("//") || rest.starts_with("/*");
            let joint = rest.starts_with(is_mark) && !is_comment;
            Some((PieceKind::Mark { joint, mark }, rest))
        }
        _ => None,
    }
}

fn first(text: &str) -> Option<(char, &str)> {
    let mut characters = text.chars();
    let first = characters.next()?;
    Some((first, characters.as_str()))
}

// ---- characters

fn is_white(c: char) -> bool {
    c.is_whitespace() || c == '\u{200E}' || c == '\u{200F}'
}

fn starts_name(c: char) -> bool {
    c == '_' || crate::shim::unicode_ident::is_xid_start(c)
}

fn is_mark(c: char) -> bool {
    matches!(c, '!' | '#'..='\'' | '*'..='/' | ':'..='@' | '^' | '|' | '~')
}

// ---- comments

fn comment_kind(text: &str) -> Option<(PieceKind<'_>, &str)> {
    let rest = comment(text)?;
    let whole = text.strip_suffix(rest)?;
    let inner = whole.starts_with("//!") || whole.starts_with("/*!");
    let outer = whole.starts_with("///") || whole.starts_with("/**");
    let plain = whole.starts_with("////") || whole.starts_with("/***") || whole.starts_with("/**/");
    if !inner && (!outer || plain) {
        return Some((PieceKind::Gap, rest));
    }
    let doc_body = doc_body_of(whole, rest)?;
    // Each CR in the comment must have an LF after it.
    for part in doc_body.split('\r').skip(1) {
        if !part.starts_with('\n') {
            return None;
        }
    }
    Some((
        PieceKind::Doc {
            inner,
            text: doc_body,
        },
        rest,
    ))
}

fn doc_body_of<'a>(doc: &'a str, rest: &str) -> Option<&'a str> {
    if let Some(body) = doc.strip_prefix("/*") {
        return Some(first(body)?.1.strip_suffix("*/")?);
    }
    let line = first(doc.strip_prefix("//")?)?.1;
    match line.strip_suffix('\r') {
        Some(doc_body) if rest.starts_with('\n') => Some(doc_body),
        _ => Some(line),
    }
}

fn comment(text: &str) -> Option<&str> {
    if let Some(line) = text.strip_prefix("//") {
        return Some(line.trim_start_matches(|c| c != '\n'));
    }
    let mut rest = text.strip_prefix("/*")?.chars();
    let mut open: usize = 1;
    for _ in text.chars() {
        if let Some(after) = rest.as_str().strip_prefix("*/") {
            rest = after.chars();
            open = open.saturating_sub(1);
        } else if let Some(after) = rest.as_str().strip_prefix("/*") {
            rest = after.chars();
            open = open.saturating_add(1);
        } else {
            rest.next()?;
        }
        if open == 0 {
            return Some(rest.as_str());
        }
    }
    None
}

// ---- names

fn name(text: &str) -> Option<&str> {
    let rest = text.strip_prefix(starts_name)?;
    Some(rest.trim_start_matches(crate::shim::unicode_ident::is_xid_continue))
}

fn raw_name(text: &str) -> Option<&str> {
    let inside = text.strip_prefix("r#")?;
    let rest = name(inside)?;
    match inside.strip_suffix(rest)? {
        "_" | "crate" | "self" | "Self" | "super" => None,
        _ => Some(rest),
    }
}

fn begins_literal(text: &str) -> bool {
    let fronts = [
        "r\"", "r#\"", "r##", "b\"", "b'", "br\"", "br#", "c\"", "cr\"", "cr#",
    ];
    fronts.iter().any(|front| text.starts_with(*front))
}

fn is_lifetime(text: &str) -> bool {
    if text.starts_with("r#") {
        return match raw_name(text) {
            Some(rest) => !rest.starts_with('\''),
            None => false,
        };
    }
    match name(text) {
        Some(rest) => !rest.starts_with('\'') && !rest.starts_with('#'),
        None => false,
    }
}

// ---- literals

fn literal(text: &str) -> Option<&str> {
    if let Some(rest) = number(text) {
        return Some(rest);
    }
    if let Some(rest) = single(text, "'", false).or(single(text, "b'", true)) {
        return Some(rest);
    }
    for kind in [Kind::Plain, Kind::Byte, Kind::C] {
        if let Some(rest) = string(text, kind).or(raw_string(text, kind)) {
            return Some(rest);
        }
    }
    None
}

fn suffix(text: &str) -> &str {
    name(text).unwrap_or(text)
}

#[derive(Clone, Copy)]
enum Kind {
    Plain,
    Byte,
    C,
}

fn may_stand(c: char, kind: Kind) -> bool {
    match kind {
        Kind::Plain => true,
        Kind::Byte => c.is_ascii(),
        Kind::C => c != '\0',
    }
}

fn string(text: &str, kind: Kind) -> Option<&str> {
    let front = match kind {
        Kind::Plain => "\"",
        Kind::Byte => "b\"",
        Kind::C => "c\"",
    };
    let mut rest = text.strip_prefix(front)?.chars();
    for _ in text.chars() {
        if let Some(after) = rest.as_str().strip_prefix('"') {
            return Some(suffix(after));
        }
        rest = unit(rest.as_str(), kind)?.chars();
    }
    None
}

fn unit(text: &str, kind: Kind) -> Option<&str> {
    if let Some(after) = text.strip_prefix("\r\n") {
        return Some(after);
    }
    if let Some(after) = text.strip_prefix('\\') {
        return match after.strip_prefix("\n").or(after.strip_prefix("\r\n")) {
            Some(line) => Some(line),
            None => escape(after, kind),
        };
    }
    let (c, after) = first(text)?;
    if c != '\r' && may_stand(c, kind) {
        Some(after)
    } else {
        None
    }
}

fn escape(text: &str, kind: Kind) -> Option<&str> {
    let (letter, after) = first(text)?;
    match letter {
        'n' | 'r' | 't' | '\\' | '\'' | '"' => Some(after),
        '0' => match kind {
            Kind::C => None,
            _ => Some(after),
        },
        'x' => hex_pair(after, kind),
        'u' => unicode(after, kind),
        _ => None,
    }
}

fn hex_pair(text: &str, kind: Kind) -> Option<&str> {
    let (high, after) = first(text)?;
    let (low, rest) = first(after)?;
    let value = high
        .to_digit(16)?
        .saturating_mul(16)
        .saturating_add(low.to_digit(16)?);
    let is_allowed = match kind {
        Kind::Plain => value < 128,
        Kind::Byte => true,
        Kind::C => value > 0,
    };
    if is_allowed { Some(rest) } else { None }
}

fn unicode(text: &str, kind: Kind) -> Option<&str> {
    let digits = text.strip_prefix('{')?;
    if !digits.starts_with(|c: char| c.is_ascii_hexdigit()) {
        return None;
    }
    let rest = digits.trim_start_matches(|c: char| c.is_ascii_hexdigit() || c == '_');
    let mut value: u32 = 0;
    let mut count: u32 = 0;
    for c in digits.strip_suffix(rest)?.chars() {
        if c != '_' {
            count = count.saturating_add(1);
            value = value.saturating_mul(16).saturating_add(c.to_digit(16)?);
        }
    }
    let is_allowed = match kind {
        Kind::Plain => true,
        Kind::Byte => false,
        Kind::C => value > 0,
    };
    if count > 6 || char::from_u32(value).is_none() || !is_allowed {
        return None;
    }
    rest.strip_prefix('}')
}

fn raw_string(text: &str, kind: Kind) -> Option<&str> {
    let front = match kind {
        Kind::Plain => "r",
        Kind::Byte => "br",
        Kind::C => "cr",
    };
    let hashed = text.strip_prefix(front)?;
    let quoted = hashed.trim_start_matches('#');
    let hashes = hashed.strip_suffix(quoted)?;
    if hashes.len() > 255 {
        return None;
    }
    Some(suffix(raw_end(quoted.strip_prefix('"')?, hashes, kind)?))
}

fn raw_end<'a>(text: &'a str, hashes: &str, kind: Kind) -> Option<&'a str> {
    let mut rest = text.chars();
    for _ in text.chars() {
        let c = rest.next()?;
        if c == '"' && rest.as_str().starts_with(hashes) {
            return rest.as_str().strip_prefix(hashes);
        }
        if !may_stand(c, kind) || c == '\r' && !rest.as_str().starts_with('\n') {
            return None;
        }
    }
    None
}

fn single<'a>(text: &'a str, front: &str, is_byte: bool) -> Option<&'a str> {
    let inside = text.strip_prefix(front)?;
    let (c, after) = first(inside)?;
    let end = match c {
        '\\' => escape(after, if is_byte { Kind::Byte } else { Kind::Plain })?,
        '\'' | '\n' | '\r' | '\t' => return None,
        _ if is_byte && !c.is_ascii() => return None,
        _ => after,
    };
    Some(suffix(end.strip_prefix('\'')?))
}

// ---- numbers

fn number(text: &str) -> Option<&str> {
    if let Some(digits) = text.strip_prefix("0x") {
        return based_end(digits, 16);
    }
    if let Some(digits) = text.strip_prefix("0o") {
        return based_end(digits, 8);
    }
    if let Some(digits) = text.strip_prefix("0b") {
        return based_end(digits, 2);
    }
    decimal(text)
}

fn based_end(text: &str, base: u32) -> Option<&str> {
    let digits = text.trim_start_matches('_');
    if !digits.starts_with(|c: char| is_digit(c, base)) {
        return None;
    }
    let rest = digits.trim_start_matches(|c: char| is_digit(c, base) || c == '_');
    if rest.starts_with(|c: char| c.is_ascii_digit()) {
        None
    } else {
        number_end(rest)
    }
}

fn is_digit(c: char, base: u32) -> bool {
    match c.to_digit(16) {
        Some(value) => value < base,
        None => false,
    }
}

fn decimal(text: &str) -> Option<&str> {
    let rest = digits(text)?;
    match float_tail(rest) {
        Some(end) => Some(end),
        None => number_end(rest),
    }
}

fn digits(text: &str) -> Option<&str> {
    if !text.starts_with(|c: char| c.is_ascii_digit()) {
        return None;
    }
    Some(text.trim_start_matches(|c: char| c.is_ascii_digit() || c == '_'))
}

fn float_tail(text: &str) -> Option<&str> {
    if let Some(after) = text.strip_prefix('.') {
        if !after.starts_with('.') && !after.starts_with(starts_name) {
            let rest = after.trim_start_matches(|c: char| c.is_ascii_digit() || c == '_');
            return number_end(exponent(rest).unwrap_or(rest));
        }
    }
    number_end(exponent(text)?)
}

fn exponent(text: &str) -> Option<&str> {
    let letter = text.strip_prefix(|c| c == 'e' || c == 'E')?;
    let sign = letter.trim_start_matches('_');
    let after = sign.strip_prefix(|c| c == '+' || c == '-').unwrap_or(sign);
    digits(after.trim_start_matches('_'))
}

fn number_end(text: &str) -> Option<&str> {
    let rest = suffix(text);
    if rest.starts_with(crate::shim::unicode_ident::is_xid_continue) {
        None
    } else {
        Some(rest)
    }
}
