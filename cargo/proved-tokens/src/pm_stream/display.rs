// Made from crates/pm_stream/src/display.rt by dev/erase: change that file, not this one.
//! How streams are printed.
//!
//! If memory for the list of open groups runs out, the function calls itself for the group. So it prints the group
//! anyway.

use crate::pm_stream::steps::{Step, Steps};
use crate::pm_stream::stream::{Group, TokenStream, TokenTree};
use crate::pm_token::{Delimiter, Spacing};
use crate::shim::fmt;
use crate::shim::fmt::Display;

/// Prints the trees, with a space before them if `within`.
fn print_trees<W: fmt::Write>(
    trees: &[TokenTree],
    within: bool,
    f: &mut fmt::Formatter<W>,
) -> fmt::Result
{
    let mut steps = Steps::new(trees);
    let mut gap = within;
    loop {
        match steps.try_next() {
            Ok(None) => return Ok(()),
            Ok(Some(step)) => {
                print_step(step, &mut gap, f)?;
            }
            Err(_) => {
                let Some((group, _)) = steps.pass_over() else {
                    unreachable!();
                };
                let around = group.delimiter();
                print_space(gap, f)?;
                print_opening(around, f)?;
                let inside = group.stream_ref().trees();
                print_trees(inside, is_brace(around), f)?;
                print_ending(around, f)?;
                gap = true;
            }
        }
    }
}

/// Prints one step, with a space before it if `gap`. Then sets `gap` to whether a space goes before what is printed
/// next.
#[cfg_attr(not(debug_assertions), inline(always))]
fn print_step<W: fmt::Write>(
    step: Step<'_>,
    gap: &mut bool,
    f: &mut fmt::Formatter<W>,
) -> fmt::Result
{
    match step {
        Step::Enter(group, _) => {
            let delimiter = group.delimiter();
            print_space(*gap, f)?;
            *gap = is_brace(delimiter);
            print_opening(delimiter, f)
        }
        Step::Leave(group, _) => {
            *gap = true;
            print_ending(group.delimiter(), f)
        }
        Step::Token(tree, _) => {
            print_space(*gap, f)?;
            *gap = gap_within(tree);
            print_front(tree, f)
        }
    }
}

/// Prints a space if `gap`.
fn print_space<W: fmt::Write>(gap: bool, f: &mut fmt::Formatter<W>) -> fmt::Result
{
    if gap { f.write_str(" ") } else { Ok(()) }
}

/// Prints a token, or the opener of a group.
fn print_front<W: fmt::Write>(tree: &TokenTree, f: &mut fmt::Formatter<W>) -> fmt::Result
{
    match tree {
        TokenTree::Group(group) => print_opening(group.delimiter(), f),
        TokenTree::Ident(ident) => ident.fmt(f),
        TokenTree::Punct(punct) => punct.fmt(f),
        TokenTree::Literal(literal) => literal.fmt(f),
    }
}

/// Prints the opener of a group.
fn print_opening<W: fmt::Write>(delimiter: Delimiter, f: &mut fmt::Formatter<W>) -> fmt::Result
{
    f.write_str(opener(delimiter))
}

/// Prints the closer of a group, with a space before `}`.
fn print_ending<W: fmt::Write>(delimiter: Delimiter, f: &mut fmt::Formatter<W>) -> fmt::Result
{
    f.write_str(closer(delimiter))
}

/// Returns the opener of a group with this delimiter.
pub(crate) fn opener(delimiter: Delimiter) -> &'static str
{
    match delimiter {
        Delimiter::Parenthesis => "(",
        Delimiter::Brace => "{",
        Delimiter::Bracket => "[",
        Delimiter::None => "",
    }
}

/// Returns the closer of a group with this delimiter, with a space before `}`.
pub(crate) fn closer(delimiter: Delimiter) -> &'static str
{
    match delimiter {
        Delimiter::Parenthesis => ")",
        Delimiter::Brace => " }",
        Delimiter::Bracket => "]",
        Delimiter::None => "",
    }
}

/// Whether the delimiter is `Brace`.
pub(crate) fn is_brace(delimiter: Delimiter) -> bool
{
    delimiter == Delimiter::Brace
}

/// Whether a space goes before what is printed next: the first tree inside a group, or the tree after a token.
fn gap_within(tree: &TokenTree) -> bool
{
    match tree {
        TokenTree::Group(group) => is_brace(group.delimiter()),
        TokenTree::Punct(punct) => punct.spacing() == Spacing::Alone,
        _ => true,
    }
}

/// Prints the trees by the rule `printed`: one space between two trees, but none after a Joint mark. Groups are printed
/// with their delimiters. Braces have spaces inside, so `{x}` is printed `{ x }` and `{}` is printed `{ }`. Fails only
/// if the writer fails; a part of the text may be written then. If memory runs out, all trees are printed anyway.
impl Display for TokenStream {
    fn fmt<W: fmt::Write>(&self, f: &mut fmt::Formatter<W>) -> fmt::Result {
        print_trees(self.trees(), false, f)
    }
}

crate::shim::display!(TokenStream);

/// Prints a token, or a group with its delimiters, by the rule `printed`. Fails only if the writer fails.
impl Display for TokenTree {
    fn fmt<W: fmt::Write>(&self, f: &mut fmt::Formatter<W>) -> fmt::Result {
        match self {
            TokenTree::Group(group) => group.fmt(f),
            TokenTree::Ident(ident) => ident.fmt(f),
            TokenTree::Punct(punct) => punct.fmt(f),
            TokenTree::Literal(literal) => literal.fmt(f),
        }
    }
}

crate::shim::display!(TokenTree);

/// Prints the trees between the delimiters, by the rule `printed`. Of a group without delimiters only the trees are
/// printed. Fails only if the writer fails.
impl Display for Group {
    fn fmt<W: fmt::Write>(&self, f: &mut fmt::Formatter<W>) -> fmt::Result {
        let delimiter = self.delimiter();
        let stream = self.stream_ref();
        print_opening(delimiter, f)?;
        print_trees(stream.trees(), is_brace(delimiter), f)?;
        print_ending(delimiter, f)
    }
}

crate::shim::display!(Group);
