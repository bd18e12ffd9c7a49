// Made from crates/token_buffer/src/trees.rt by dev/erase: change that file, not this one.
//! Makes trees of what a cursor has left.

use crate::shim::prelude::Grow;

use crate::token_buffer::cursor::{Cursor, LiteralText, TokenText};
use crate::pm_span::Span;
use crate::pm_stream::parts::{group, stream};
use crate::pm_stream::{TokenStream, TokenTree};
use crate::pm_token::parts::{ident, literal, punct, string_literal};
use crate::pm_token::{Delimiter, Literal};
use crate::shim::alloc::AllocError;

/// A group whose trees are being made.
struct OpenTrees<'a> {
    /// The trees before the group, in the group around it.
    before: Vec<TokenTree>,
    /// The delimiter of the group.
    delimiter: Delimiter,
    /// The span of the group.
    span: Span,
    /// The trees after the group.
    after: Cursor<'a>,
}

/// The tree that a cursor begins with.
#[derive(Clone, Copy)]
struct FirstTree<'a> {
    /// The text of the tree.
    text: TokenText<'a>,
    /// The span of the tree.
    span: Span,
    /// The trees after it.
    after: Cursor<'a>,
}

impl<'a> Cursor<'a> {
    /// Returns the remaining trees as a stream, with their spans. Out of memory is the only error.
    ///
    /// Spans are those of [`span`](Cursor::span): positions in a new map that has the text as its first file. Time
    /// and memory are proportional to what is left, and deeply nested groups need little stack.
    ///
    /// In `a (b) c`, a cursor after the `a` gives the stream of `(b) c`.
    ///
    /// # Contract
    ///
    /// - `ensures`: <code>[IfOk] result (λ stream. stream ≡ [left] self.entry)</code>
    ///
    /// [IfOk]: crate::contracts#std.IfOk
    /// [left]: crate::contracts#token_buffer.Reads.left
    pub fn to_stream(self) -> Result<TokenStream, AllocError>
    {
        let mut groups = Vec::new();
        let mut trees = Vec::new();
        let mut here = self;
        loop {
            let Some(first) = here.first() else {
                let inside = stream(trees)?;
                let Some(
                    OpenTrees {
                        before,
                        delimiter,
                        span,
                        after,
                    },
                ) = groups.pop()
                else {
                    return Ok(inside);
                };
                trees = before;
                trees.push_fallibly(TokenTree::Group(group(delimiter, inside, span)))?;
                here = after;
                continue;
            };
            match first.text {
                TokenText::Group(delimiter, inside) => {
                    groups.push_fallibly(OpenTrees {
                        before: trees,
                        delimiter,
                        span: first.span,
                        after: first.after,
                    })?;
                    trees = Vec::new();
                    here = inside;
                }
                TokenText::Ident(name) => {
                    let name = ident(name.text, name.raw, first.span)?;
                    trees.push_fallibly(TokenTree::Ident(name))?;
                    here = first.after;
                }
                TokenText::Punct(mark, spacing) => {
                    trees.push_fallibly(TokenTree::Punct(punct(mark, spacing, first.span)))?;
                    here = first.after;
                }
                TokenText::Literal(text) => {
                    let literal = literal_at(text, first.span)?;
                    trees.push_fallibly(TokenTree::Literal(literal))?;
                    here = first.after;
                }
            }
        }
    }

    /// Returns the remaining trees without most of those inside groups, for readers that need only the outer ones.
    /// Out of memory is the only error.
    ///
    /// A group in braces or brackets has no trees. A group in parentheses keeps its trees only if they are one
    /// identifier or begin with `in`, as all restrictions of `pub` do. A group without delimiters keeps its trees.
    /// Spans are those of [`to_stream`](Cursor::to_stream). Time and memory are proportional to the returned trees,
    /// whatever is left out.
    ///
    /// `pub(crate) fn f(a: u8) {}` gives `pub`, the group of `crate`, `fn`, `f` and two empty groups.
    ///
    /// # Contract
    ///
    /// - `ensures`: <code>[IfOk] result (λ trees. [forest] trees.items ≡ [outer] ([left] self.entry))</code>
    ///
    /// [IfOk]: crate::contracts#std.IfOk
    /// [forest]: crate::contracts#pm_stream.Trees.forest
    /// [outer]: crate::contracts#token_buffer.Outer.outer
    /// [left]: crate::contracts#token_buffer.Reads.left
    pub fn outer_trees(self) -> Result<Vec<TokenTree>, AllocError>
    {
        let mut trees = Vec::new();
        let mut here = self;
        while let Some(first) = here.first() {
            trees.push_fallibly(outer_tree(first.text, first.span)?)?;
            here = first.after;
        }
        Ok(trees)
    }

    /// Returns the first tree, its span and the trees after it, or `None` at the end.
    fn first(self) -> Option<FirstTree<'a>>
    {
        let (text, after) = self.next()?;
        let span = self.span()?;
        Some(FirstTree { text, span, after })
    }
}

/// Makes the tree of this text with this span. If it is a group, it keeps few of its trees.
fn outer_tree(text: TokenText<'_>, span: Span) -> Result<TokenTree, AllocError>
{
    match text {
        TokenText::Ident(name) => Ok(TokenTree::Ident(ident(name.text, name.raw, span)?)),
        TokenText::Punct(mark, spacing) => Ok(TokenTree::Punct(punct(mark, spacing, span))),
        TokenText::Literal(text) => Ok(TokenTree::Literal(literal_at(text, span)?)),
        TokenText::Group(delimiter, inside) => {
            let stream = outer_stream(delimiter, inside)?;
            Ok(TokenTree::Group(group(delimiter, stream, span)))
        }
    }
}

/// Returns the stream of the trees that a group keeps.
fn outer_stream(
    delimiter: Delimiter,
    inside: Cursor<'_>,
) -> Result<TokenStream, AllocError>
{
    match delimiter {
        Delimiter::Parenthesis if !may_restrict(inside) => Ok(TokenStream::new()),
        Delimiter::Bracket | Delimiter::Brace => Ok(TokenStream::new()),
        Delimiter::Parenthesis | Delimiter::None => inside.to_stream(),
    }
}

/// Returns whether the trees are one identifier, or begin with `in`.
fn may_restrict(inside: Cursor<'_>) -> bool
{
    match inside.ident() {
        Some((name, rest)) => rest.eof() || is_text(name.text, "in"),
        None => false,
    }
}

/// Returns whether both texts are the same.
fn is_text(text: &str, other: &str) -> bool
{
    text == other
}

/// Makes the literal of this text. Out of memory is the only error.
fn literal_at(text: LiteralText<'_>, span: Span) -> Result<Literal, AllocError>
{
    match text {
        LiteralText::Source(text) => literal(text, span),
        LiteralText::Doc(text) => string_literal(text, span),
    }
}
