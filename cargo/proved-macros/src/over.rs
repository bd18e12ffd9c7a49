//! From the caller's tokens to proved ones.
use crate::spans::{NoToken, Spans};
use proc_macro2::{token_stream, Delimiter, Spacing};
use proved_tokens::pm_span::Span;
use proved_tokens::pm_stream::parts::{put_group, put_ident, put_literal, put_punct};
use proved_tokens::pm_stream::{Group, TokenStream};
use proved_tokens::pm_token::{Delimiter as OwnDelimiter, Ident, Literal, Punct, Spacing as OwnSpacing};
use std::fmt::Write;
use std::mem;

/// A group whose trees are read.
struct Open {
    delimiter: Delimiter,
    span: Span,
    /// The trees before it, and those that are left after it.
    before: TokenStream,
    after: token_stream::IntoIter,
}

/// The trees of the caller's stream. Their spans stand for the caller's, which are put into the table.
///
/// The compiler's `$crate` is the identifier `crate` here, and `$crate` again when it comes back.
///
/// # Errors
///
/// The first token that isn't one of the grammar of `proved-tokens`, as a literal that only the caller's crate reads:
/// of the public crate `'''`. The table then keeps the spans of the trees before it.
pub fn to_proved(stream: &proc_macro2::TokenStream, spans: &mut Spans) -> Result<TokenStream, NoToken> {
    let mut open: Vec<Open> = Vec::new();
    let mut trees = TokenStream::new();
    let mut left = stream.clone().into_iter();
    let mut text = String::new();
    loop {
        let closed = match left.next() {
            Some(proc_macro2::TokenTree::Group(group)) => {
                open.push(Open {
                    delimiter: group.delimiter(),
                    before: mem::replace(&mut trees, TokenStream::new()),
                    after: mem::replace(&mut left, group.stream().into_iter()),
                    span: spans.place_of_group(group),
                });
                continue;
            }
            Some(token) => {
                put_token(&mut trees, token, spans, &mut text)?;
                continue;
            }
            None => {
                let Some(group) = open.pop() else {
                    return Ok(trees);
                };
                left = group.after;
                spans.close(group.span);
                let inside = mem::replace(&mut trees, group.before);
                let mut closed = Group::new(delimiter(group.delimiter), inside);
                closed.set_span(group.span);
                closed
            }
        };
        let Ok(()) = put_group(&mut trees, closed);
    }
}

/// Puts the proved token of the caller's, which is no group, after the trees. The text is room for its own.
fn put_token(
    trees: &mut TokenStream,
    token: proc_macro2::TokenTree,
    spans: &mut Spans,
    text: &mut String,
) -> Result<(), NoToken> {
    if let proc_macro2::TokenTree::Punct(mark) = &token {
        if Punct::is_punct_char(mark.as_char()) {
            let mut punct = Punct::new(mark.as_char(), spacing(mark.spacing()));
            punct.set_span(spans.place_of_token(token, None));
            let Ok(()) = put_punct(trees, punct);
            return Ok(());
        }
    }
    text.clear();
    let _ = write!(text, "{token}");
    let other = |token: &proc_macro2::TokenTree| NoToken::new(text, token.span());
    match token {
        proc_macro2::TokenTree::Ident(_) => {
            // The compiler's `$crate` is one identifier, which no text gives.
            let text = text.strip_prefix('$').filter(|name| *name == "crate").unwrap_or(text);
            let mut ident = identifier(text).ok_or_else(|| other(&token))?;
            ident.set_span(spans.place_of_token(token, Some(ident.clone().into())));
            let Ok(()) = put_ident(trees, ident);
        }
        proc_macro2::TokenTree::Literal(_) if Literal::is_whole(text) => {
            let Ok(mut literal) = Literal::from_str_unchecked(text);
            literal.set_span(spans.place_of_token(token, Some(literal.clone().into())));
            let Ok(()) = put_literal(trees, literal);
        }
        _ => return Err(other(&token)),
    }
    Ok(())
}

/// The identifier that is written so.
fn identifier(text: &str) -> Option<Ident> {
    match text.strip_prefix("r#") {
        Some(name) => Ident::new_raw(name, Span::call_site()).ok(),
        None => Ident::new(text, Span::call_site()).ok(),
    }
}

fn delimiter(delimiter: Delimiter) -> OwnDelimiter {
    match delimiter {
        Delimiter::Parenthesis => OwnDelimiter::Parenthesis,
        Delimiter::Brace => OwnDelimiter::Brace,
        Delimiter::Bracket => OwnDelimiter::Bracket,
        Delimiter::None => OwnDelimiter::None,
    }
}

fn spacing(spacing: Spacing) -> OwnSpacing {
    match spacing {
        Spacing::Alone => OwnSpacing::Alone,
        Spacing::Joint => OwnSpacing::Joint,
    }
}
