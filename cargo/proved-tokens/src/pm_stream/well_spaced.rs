// Made from crates/pm_stream/src/well_spaced.rt by dev/erase: change that file, not this one.
//! Whether parsing the printed text of a stream gives the stream again.
//!
//! If memory for the list of open groups runs out, the function calls itself for the group. So it returns an answer
//! anyway.

use crate::pm_stream::steps::{Step, Steps};
use crate::pm_stream::stream::{TokenStream, TokenTree};
use crate::lexical::parts::begins;
use crate::pm_token::{Delimiter, Punct, Spacing};

impl TokenStream {
    /// Returns whether the stream is `well-spaced`: whether parsing its printed text gives the same stream, up to
    /// spans. Every stream that was parsed from a text is well spaced.
    ///
    /// The answer is right even if memory runs out. The time is proportional to the number of trees. The contract also
    /// says that every stream is `built`.
    ///
    /// The stream of `+` Joint and the identifier `a` is not well spaced. It is printed as `+a`, which parses to `+`
    /// Alone and `a`.
    ///
    /// # Contract
    ///
    /// - `ensures value`: <code>[IsTrue] result ↔ [IsWellSpaced] self.now</code>
    /// - `ensures built`: <code>[IsBuilt] self.now</code>
    ///
    /// [IsTrue]: crate::contracts#std.IsTrue
    /// [IsWellSpaced]: crate::contracts#pm_stream.WellSpaced.IsWellSpaced
    /// [IsBuilt]: crate::contracts#pm_stream.Forest.IsBuilt
    pub fn is_well_spaced(&self) -> bool
    {
        are_well_spaced(self.trees())
    }
}

/// Whether these trees and all trees inside them are well spaced.
fn are_well_spaced(trees: &[TokenTree]) -> bool
{
    let mut steps = Steps::new(trees);
    loop {
        match steps.try_next() {
            Ok(None) => return true,
            Ok(Some(step)) => {
                if !step_fits(step) {
                    return false;
                }
            }
            Err(_) => {
                let Some((group, _)) = steps.pass_over() else {
                    unreachable!();
                };
                if !is_shown(group.delimiter()) {
                    return false;
                }
                if !are_well_spaced(group.stream_ref().trees()) {
                    return false;
                }
            }
        }
    }
}

/// Whether the step fits: the group that it enters has delimiters, or its token may come before the trees after it.
fn step_fits(step: Step<'_>) -> bool
{
    match step {
        Step::Enter(group, _) => is_shown(group.delimiter()),
        Step::Leave(..) => true,
        Step::Token(tree, after) => fits(tree, after),
    }
}

/// Whether the printed text shows where a group with this delimiter begins and ends.
fn is_shown(delimiter: Delimiter) -> bool
{
    delimiter != Delimiter::None
}

/// Whether the tree may come before these trees, whatever is inside it.
fn fits(tree: &TokenTree, after: &[TokenTree]) -> bool
{
    match tree {
        TokenTree::Group(group) => is_shown(group.delimiter()),
        TokenTree::Punct(punct) => mark_fits(punct, after),
        TokenTree::Ident(_) | TokenTree::Literal(_) => true,
    }
}

/// Whether the mark may come before these trees.
fn mark_fits(punct: &Punct, after: &[TokenTree]) -> bool
{
    let mark = punct.as_char();
    match punct.spacing() {
        Spacing::Joint => may_be_joint(mark, after),
        Spacing::Alone => mark != '\'',
    }
}

/// Returns whether this mark may come before these trees with the spacing Joint, in a stream that is `well-spaced`.
///
/// The mark `'` may come before an identifier, or a literal that begins with `b"`, `c"`, `r"`, `br"` or `cr"`. Any
/// other mark may come before a mark with which it begins no comment, or a literal that begins with `'`. With the
/// spacing Alone each mark may come before any tree, except that `'` is never Alone.
///
/// `+` may be Joint before `=`, but not before `a` or at the end.
///
/// # Contract
///
/// - `ensures`: <code>result ≡ [fits] ([Mark] mark [true]) ([next_token] ([forest] after.now))</code>
///
/// [fits]: crate::contracts#pm_stream.WellSpaced.fits
/// [Mark]: crate::contracts#lexical.Token.Mark
/// [true]: crate::contracts#std.true
/// [next_token]: crate::contracts#pm_stream.WellSpaced.next_token
/// [forest]: crate::contracts#pm_stream.Trees.forest
pub fn may_be_joint(mark: char, after: &[TokenTree]) -> bool
{
    if mark == '\'' {
        follows_quote(after)
    } else {
        follows_joint(mark, after)
    }
}

/// Whether the first tree may come right after `'`.
fn follows_quote(trees: &[TokenTree]) -> bool
{
    match trees.first() {
        Some(TokenTree::Ident(_)) => true,
        Some(TokenTree::Literal(literal)) => is_quotable(literal.text()),
        _ => false,
    }
}

/// Whether the first tree may come right after this Joint mark, which isn't `'`.
fn follows_joint(mark: char, trees: &[TokenTree]) -> bool
{
    match trees.first() {
        Some(TokenTree::Punct(punct)) => mark != '/' || !matches!(punct.as_char(), '/' | '*'),
        Some(TokenTree::Literal(literal)) => begins_with_quote(literal.text()),
        _ => false,
    }
}

/// Whether the text begins as a literal does that may come right after `'`.
fn is_quotable(text: &str) -> bool
{
    begins(text, "b\"")
        || begins(text, "c\"")
        || begins(text, "r\"")
        || begins(text, "br\"")
        || begins(text, "cr\"")
}

/// Whether the text begins with `'`.
fn begins_with_quote(text: &str) -> bool
{
    text.chars().next() == Some('\'')
}
