//! From proved tokens back to the caller's.
use crate::literals::made_literal;
use crate::spans::{NoToken, Spans};
use proc_macro2::{Delimiter, Group, Ident, Punct, Spacing, Span, TokenStream, TokenTree};
use proved_tokens::pm_stream::{Group as OwnGroup, TokenStream as OwnStream, TokenTree as OwnTree};
use proved_tokens::pm_token::parts::{is_raw, name_of};
use proved_tokens::pm_token::{Delimiter as OwnDelimiter, Ident as OwnIdent, Spacing as OwnSpacing};
use std::iter;
use std::mem;

/// A list of trees that is read: those of the whole stream, or of a group.
struct Level<'a> {
    group: Option<&'a OwnGroup>,
    trees: &'a [OwnTree],
    /// How many of them are read.
    done: usize,
    /// The number of the next tree if the list is a caller's group's and all trees up to it are that group's own.
    number: Option<usize>,
    /// What the trees came to be. It stays empty as long as they are the group's own.
    made: TokenStream,
}

impl<'a> Level<'a> {
    fn of_group(group: &'a OwnGroup, spans: &Spans) -> Level<'a> {
        let own = spans.group(group.span()).filter(|(own, _)| own.delimiter() == delimiter(group.delimiter()));
        Level {
            group: Some(group),
            trees: group.stream_ref().trees(),
            done: 0,
            number: own.and_then(|_| Spans::first(group.span())).map(|first| first + 3),
            made: TokenStream::new(),
        }
    }

    /// The next trees are tokens, up to a group or to one that the caller's crate can't have.
    fn put_tokens(&mut self, spans: &Spans, call_site: Span) {
        self.settle(spans);
        let mut tokens = Tokens { left: &self.trees[self.done..], spans, call_site };
        self.made.extend(&mut tokens);
        self.done = self.trees.len() - tokens.left.len();
    }

    /// The next tree is a group, which comes to be this one.
    fn put_group(&mut self, group: Group, spans: &Spans) {
        self.settle(spans);
        self.made.extend(iter::once(TokenTree::Group(group)));
        self.done += 1;
    }

    /// Whether the next tree is the next one of the caller's group, as all before it. Its number and the one after its
    /// last tree are given.
    fn keeps(&mut self, number: usize, after: usize) -> bool {
        let is_next = self.number == Some(number);
        if is_next {
            self.number = Some(after);
            self.done += 1;
        }
        is_next
    }

    /// The list isn't the group's own as a whole, so it is made.
    #[inline]
    fn settle(&mut self, spans: &Spans) {
        if self.number.take().is_some() {
            self.made.extend(self.trees[..self.done].iter().filter_map(|tree| spans.own(tree.span())));
        }
    }
}

/// The trees of a proved stream as the caller's, with the caller's spans, or the call site where they stand for none.
///
/// A token that was not changed, and a group in which nothing was, comes back as the caller's own. The delimiters of
/// any other group get the span of the whole group, where the compiler's tokens can't have spans of their own.
///
/// # Errors
///
/// The first token that the caller's crate can't have, as an identifier of characters that its tables lack.
pub fn from_proved(stream: &OwnStream, spans: &Spans) -> Result<TokenStream, NoToken> {
    let call_site = Span::call_site();
    let mut outer: Vec<Level> = Vec::new();
    let mut here = Level { group: None, trees: stream.trees(), done: 0, number: None, made: TokenStream::new() };
    loop {
        match here.trees.get(here.done) {
            Some(OwnTree::Group(group)) => outer.push(mem::replace(&mut here, Level::of_group(group, spans))),
            Some(token) => {
                if here.number.is_some() && kept(token, spans).is_some() {
                    let number = Spans::first(token.span()).unwrap_or(0);
                    if here.keeps(number, number + 1) {
                        continue;
                    }
                }
                let before = here.done;
                here.put_tokens(spans, call_site);
                if here.done == before {
                    return Err(NoToken::new(&token.to_string(), spans.span(token.span())));
                }
            }
            None => {
                let (Some(group), Some(around)) = (here.group, outer.pop()) else {
                    return Ok(here.made);
                };
                let mut closed = mem::replace(&mut here, around);
                let place = group.span();
                let first = Spans::first(place);
                match (first, spans.group(place).filter(|(_, end)| closed.number == Some(*end))) {
                    (Some(first), Some((own, end))) => {
                        if !here.keeps(first, end) {
                            here.put_group(own.clone(), spans);
                        }
                    }
                    _ => {
                        closed.settle(spans);
                        let mut made = Group::new(delimiter(group.delimiter()), closed.made);
                        if first.is_some() {
                            made.set_span(spans.span(place));
                        }
                        here.put_group(made, spans);
                    }
                }
            }
        }
    }
}

/// The caller's tokens of these trees. It ends before a group, and before what the caller's crate can't have.
struct Tokens<'a> {
    left: &'a [OwnTree],
    spans: &'a Spans,
    call_site: Span,
}

impl Iterator for &mut Tokens<'_> {
    type Item = TokenTree;

    #[inline]
    fn next(&mut self) -> Option<TokenTree> {
        let tree = self.left.first()?;
        let token = if Spans::first(tree.span()).is_none() { made(tree, self.call_site)? } else { self.placed(tree)? };
        self.left = &self.left[1..];
        Some(token)
    }
}

impl Tokens<'_> {
    /// The caller's token of a tree that stands for one of the caller's spans.
    fn placed(&self, tree: &OwnTree) -> Option<TokenTree> {
        if let Some(own) = kept(tree, self.spans) {
            return Some(own.clone());
        }
        let span = self.spans.span(tree.span());
        let mut token = made(tree, span)?;
        token.set_span(span);
        Some(token)
    }
}

/// The caller's token that this one was, if it wasn't changed.
fn kept<'a>(tree: &OwnTree, spans: &'a Spans) -> Option<&'a TokenTree> {
    let (token, was) = spans.token(tree.span())?;
    let is_same = match (token, was, tree) {
        (_, Some(OwnTree::Ident(was)), OwnTree::Ident(ident)) => {
            name_of(was) == name_of(ident) && is_raw(was) == is_raw(ident)
        }
        (_, Some(OwnTree::Literal(was)), OwnTree::Literal(literal)) => was.text() == literal.text(),
        (TokenTree::Punct(mark), _, OwnTree::Punct(punct)) => {
            mark.as_char() == punct.as_char() && mark.spacing() == spacing(punct.spacing())
        }
        _ => false,
    };
    is_same.then_some(token)
}

/// The caller's token that is made of this one, if it is no group and the caller's crate can have it. The span is that
/// of an identifier. Other tokens have the call site.
#[cfg_attr(not(debug_assertions), inline(always))]
fn made(tree: &OwnTree, span: Span) -> Option<TokenTree> {
    match tree {
        OwnTree::Punct(punct) => Some(Punct::new(punct.as_char(), spacing(punct.spacing())).into()),
        OwnTree::Ident(ident) => Some(TokenTree::Ident(identifier(ident, span)?)),
        OwnTree::Literal(literal) => Some(TokenTree::Literal(made_literal(literal.text())?)),
        OwnTree::Group(_) => None,
    }
}

/// The caller's identifier of this name. One past ASCII is read as a text by the tables of the caller's crate, which
/// would panic at its name.
fn identifier(ident: &OwnIdent, span: Span) -> Option<Ident> {
    let name = name_of(ident);
    if name.is_ascii() {
        return Some(if is_raw(ident) { Ident::new_raw(name, span) } else { Ident::new(name, span) });
    }
    let mut read = ident.to_string().parse::<TokenStream>().ok()?.into_iter();
    match (read.next(), read.next()) {
        (Some(TokenTree::Ident(mut ident)), None) => {
            ident.set_span(span);
            Some(ident)
        }
        _ => None,
    }
}

fn delimiter(delimiter: OwnDelimiter) -> Delimiter {
    match delimiter {
        OwnDelimiter::Parenthesis => Delimiter::Parenthesis,
        OwnDelimiter::Brace => Delimiter::Brace,
        OwnDelimiter::Bracket => Delimiter::Bracket,
        OwnDelimiter::None => Delimiter::None,
    }
}

fn spacing(spacing: OwnSpacing) -> Spacing {
    match spacing {
        OwnSpacing::Alone => Spacing::Alone,
        OwnSpacing::Joint => Spacing::Joint,
    }
}
