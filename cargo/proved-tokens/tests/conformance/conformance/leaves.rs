// Made from crates/conformance/src/leaves.rt by dev/erase: change that file, not this one.
//! Reads the trees that are no groups from the lines of a list of trees.

use proved_tokens::proc_macro2::{
    Ident, IdentError, Literal, ParseError, Punct, SourceMap, Spacing, Span, TokenTree,
};
use proved_tokens::shim::alloc::AllocError;

/// Returns the tree that the line describes, or `None` if it describes none.
///
/// `raw fn` is the identifier `r#fn`, and `integer -3i32` the literal `-3i32`.
pub fn leaf(line: &str) -> Result<Option<TokenTree>, ParseError> {
    let Some((word, text)) = line.split_once(' ') else {
        return Ok(None);
    };
    match word {
        "ident" => identifier(Ident::new(text, Span::call_site())),
        "raw" => identifier(Ident::new_raw(text, Span::call_site())),
        "alone" => Ok(mark(text, Spacing::Alone)),
        "joint" => Ok(mark(text, Spacing::Joint)),
        "literal" => literal(text),
        "integer" => integer(text),
        _ => Ok(None),
    }
}

/// Returns the identifier, or `None` if the name is wrong.
fn identifier(ident: Result<Ident, IdentError>) -> Result<Option<TokenTree>, ParseError> {
    match ident {
        Ok(ident) => Ok(Some(TokenTree::Ident(ident))),
        Err(IdentError::Memory(error)) => Err(ParseError::Memory(error)),
        Err(_) => Ok(None),
    }
}

/// Returns the mark that is the only character of the text.
fn mark(text: &str, spacing: Spacing) -> Option<TokenTree> {
    let mut chars = text.chars();
    let (Some(mark), None) = (chars.next(), chars.next()) else {
        return None;
    };
    if !Punct::is_punct_char(mark) {
        return None;
    }
    Some(TokenTree::Punct(Punct::new(mark, spacing)))
}

/// Returns the literal that the text is.
fn literal(text: &str) -> Result<Option<TokenTree>, ParseError> {
    match Literal::from_str(text, &mut SourceMap::new()) {
        Ok(literal) => Ok(Some(TokenTree::Literal(literal))),
        Err(ParseError::Lex(_)) => Ok(None),
        Err(error) => Err(error),
    }
}

/// Returns the literal that the constructor of the suffix makes of the number before it.
fn integer(text: &str) -> Result<Option<TokenTree>, ParseError> {
    let (number, suffix) = match text.find('i') {
        Some(at) => text.split_at(at),
        None => (text, ""),
    };
    let Ok(number) = number.parse::<i8>() else {
        return Ok(None);
    };
    match suffixed_literal(number, suffix) {
        Some(literal) => Ok(Some(TokenTree::Literal(literal?))),
        None => Ok(None),
    }
}

/// Returns the literal that the constructor of the suffix makes of the number, or `None` if there is no such suffix.
fn suffixed_literal(
    number: i8,
    suffix: &str,
) -> Option<Result<Literal, AllocError>> {
    match suffix {
        "" => Some(Literal::i8_unsuffixed(number)),
        "i8" => Some(Literal::i8_suffixed(number)),
        "i16" => Some(Literal::i16_suffixed(i16::from(number))),
        "i32" => Some(Literal::i32_suffixed(i32::from(number))),
        "i64" => Some(Literal::i64_suffixed(i64::from(number))),
        "i128" => Some(Literal::i128_suffixed(i128::from(number))),
        "isize" => Some(Literal::isize_suffixed(isize::from(number))),
        _ => None,
    }
}
