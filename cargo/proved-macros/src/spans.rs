//! The caller's spans, by number.
use proc_macro2::{Group, Span, TokenTree};
use proved_tokens::pm_span::parts::{bounds, span_of};
use proved_tokens::pm_span::Span as ProvedSpan;
use proved_tokens::pm_stream::TokenTree as OwnTree;
use std::error::Error;
use std::fmt::{self, Display};

/// The first number. The positions of texts that are read into a map of `proved-tokens` are below it, so that the spans
/// of a template's tokens stand for no token of the caller.
const FIRST: u32 = 1 << 31;

/// The caller's spans, each of which a span of a proved token stands for.
///
/// It is filled by [`to_proved`](crate::to_proved); one may take several streams. A proved span that stands for one of
/// these is no place of a source map: ask the caller's span in its place, by [`Spans::span`].
#[derive(Clone, Debug, Default)]
pub struct Spans {
    kept: Vec<Kept>,
}

/// What a number stands for.
#[derive(Clone, Debug)]
enum Kept {
    Span(Span),
    /// A token of the caller's, and what it became, if that isn't seen from the token.
    Token(TokenTree, Option<OwnTree>),
    /// A group of the caller's, and the number after those of the trees in it.
    Group(Group, usize),
}

impl Spans {
    /// No spans.
    pub fn new() -> Spans {
        Spans::default()
    }

    /// Returns the caller's span, a `proc_macro2::Span`, that a `proved_tokens::Span` stands for.
    ///
    /// Of a proved group's `span_open()` and `span_close()` it is that of the caller's delimiter. For any other span,
    /// such as that of a new token or of one that was read from a text, it is the call site.
    pub fn span(&self, place: ProvedSpan) -> Span {
        match self.kept(place) {
            Some(Kept::Span(span)) => *span,
            Some(Kept::Token(token, _)) => token.span(),
            Some(Kept::Group(group, _)) => group.span(),
            None => Span::call_site(),
        }
    }

    /// Returns a `proved_tokens::Span` that stands for this `proc_macro2::Span` of the caller.
    ///
    /// Set it on new tokens by `set_span`. `from_proved` gives them the caller's span.
    pub fn place(&mut self, span: Span) -> ProvedSpan {
        self.keep(Kept::Span(span))
    }

    /// A span that stands for a token's, which became this tree.
    pub(crate) fn place_of_token(&mut self, token: TokenTree, tree: Option<OwnTree>) -> ProvedSpan {
        self.keep(Kept::Token(token, tree))
    }

    /// A span that stands for a group's: its first number for that of the opener, its last for that of the closer.
    /// The numbers of its trees follow, up to a call of `close`.
    pub(crate) fn place_of_group(&mut self, group: Group) -> ProvedSpan {
        let (open, close) = (group.span_open(), group.span_close());
        let (open, _, close) =
            (self.keep(Kept::Span(open)), self.keep(Kept::Group(group, 0)), self.keep(Kept::Span(close)));
        match (bounds(open), bounds(close)) {
            ((lo, _), (last, hi)) if lo >= FIRST && last >= FIRST => span_of(lo, hi),
            _ => ProvedSpan::call_site(),
        }
    }

    /// All trees of the group have their numbers.
    pub(crate) fn close(&mut self, group: ProvedSpan) {
        let after = self.kept.len();
        if let Some(Kept::Group(_, end)) = self.middle(group).and_then(|index| self.kept.get_mut(index)) {
            *end = after;
        }
    }

    /// The caller's token that a proved span stands for, and what it became.
    pub(crate) fn token(&self, place: ProvedSpan) -> Option<(&TokenTree, Option<&OwnTree>)> {
        match self.kept(place) {
            Some(Kept::Token(token, tree)) => Some((token, tree.as_ref())),
            _ => None,
        }
    }

    /// The caller's group that a proved span stands for, and the number after those of the trees in it.
    pub(crate) fn group(&self, place: ProvedSpan) -> Option<(&Group, usize)> {
        match self.kept(place) {
            Some(Kept::Group(group, end)) => Some((group, *end)),
            _ => None,
        }
    }

    /// The caller's tree that a proved span stands for.
    pub(crate) fn own(&self, place: ProvedSpan) -> Option<TokenTree> {
        match self.kept(place)? {
            Kept::Span(_) => None,
            Kept::Token(token, _) => Some(token.clone()),
            Kept::Group(group, _) => Some(TokenTree::Group(group.clone())),
        }
    }

    /// The first number of a span that stands for one of the caller's.
    pub(crate) fn first(place: ProvedSpan) -> Option<usize> {
        let (lo, _) = bounds(place);
        if lo < FIRST {
            return None;
        }
        Some((lo - FIRST) as usize)
    }

    /// Numbers an entry. Past the last number it is the call site.
    fn keep(&mut self, kept: Kept) -> ProvedSpan {
        let index = u32::try_from(self.kept.len()).ok();
        let lo = index.and_then(|index| FIRST.checked_add(index));
        let Some((lo, hi)) = lo.and_then(|lo| Some((lo, lo.checked_add(1)?))) else {
            return ProvedSpan::call_site();
        };
        self.kept.push(kept);
        span_of(lo, hi)
    }

    /// The number in the middle of a span that stands for one of the caller's.
    fn middle(&self, place: ProvedSpan) -> Option<usize> {
        let (lo, hi) = bounds(place);
        Some(Spans::first(place)? + (hi - lo) as usize / 2)
    }

    fn kept(&self, place: ProvedSpan) -> Option<&Kept> {
        self.kept.get(self.middle(place)?)
    }
}

/// A token that one side has and the other can't have, as a character literal that only one of them reads.
#[derive(Clone, Debug)]
pub struct NoToken {
    text: String,
    span: Span,
}

impl NoToken {
    pub(crate) fn new(text: &str, span: Span) -> NoToken {
        let text = text.to_owned();
        NoToken { text, span }
    }

    /// The token's text.
    pub fn text(&self) -> &str {
        &self.text
    }

    /// The caller's span of the token.
    pub fn span(&self) -> Span {
        self.span
    }
}

impl Display for NoToken {
    fn fmt(&self, f: &mut fmt::Formatter) -> fmt::Result {
        write!(f, "no token on the other side: `{}`", self.text)
    }
}

impl Error for NoToken {}
