// Made from crates/quoting/src/join.rt by dev/erase: change that file, not this one.
//! Makes Alone marks Joint that are to be written close to the next mark.

use crate::shim::prelude::Grow;

use crate::quoting::open_list::OpenList;
use crate::quoting::respace::mark_as;
use crate::proc_macro2::{Punct, Spacing, TokenStream, TokenTree};
use crate::shim::alloc::AllocError;

/// A tree of a stream that [`join_marks`] visits: a group whose trees are visited next, or a mark that is to be joined.
#[derive(Clone, Copy)]
pub struct Visit {
    /// The number of groups around the tree.
    pub depth: usize,
    /// The number of trees before it in its list.
    pub index: usize,
}

/// Returns the stream in which each visited mark is Joint, if it may be joined with the next token of its list.
///
/// The visits are in reading order, and each group around a mark is visited before the mark. The first visit of which
/// this is not true changes nothing, and neither do the visits after it (`visited-marks`). Only the lists in which
/// marks are joined and the lists around these are copied. The others stay shared.
///
/// Fails if memory runs out.
///
/// # Contract
///
/// - `ensures`: <code>[IfOk] result (λ new. new ≡ [joined] ([visited_marks] 0 0 stream.now visits.now)
///   stream.now)</code>
///
/// [IfOk]: crate::contracts#std.IfOk
/// [joined]: crate::contracts#quoting.Joined.joined
/// [visited_marks]: crate::contracts#quoting.Visited.visited_marks
pub fn join_marks(
    stream: &TokenStream,
    visits: &[Visit],
) -> Result<TokenStream, AllocError>
{
    let mut outer: Vec<OpenList<'_>> = Vec::new();
    let mut here = OpenList::new(stream);
    for visit in visits {
        here = closed_to(&mut outer, here, visit.depth)?;
        here.keep_before(visit.index);
        let Some((tree, after)) = visited_tree(&here, outer.len(), visit) else {
            return close_all(outer, here);
        };
        if let TokenTree::Group(group) = tree {
            outer.push_fallibly(here)?;
            here = OpenList::new(group.stream_ref());
        } else {
            join_next(&mut here, tree, after)?;
        }
    }
    close_all(outer, here)
}

/// Returns the first tree that is left of the list, and the trees after it, if it is visited. The list is in this
/// number of groups.
fn visited_tree<'a>(
    list: &OpenList<'a>,
    depth: usize,
    visit: &Visit,
) -> Option<(&'a TokenTree, &'a [TokenTree])>
{
    if visit.depth != depth || visit.index != list.count() {
        return None;
    }
    list.next()
}

/// Joins the first tree that is left of the list, if it is a mark that may be joined. It must not be a group.
fn join_next(
    list: &mut OpenList<'_>,
    tree: &TokenTree,
    after: &[TokenTree],
) -> Result<(), AllocError>
{
    if let TokenTree::Punct(mark) = tree {
        let spacing = joined_spacing(mark, after);
        if spacing != mark.spacing() {
            return list.replace(TokenTree::Punct(mark_as(mark, spacing)));
        }
    }
    list.keep();
    Ok(())
}

/// Returns the spacing of the joined mark before these trees: Joint if it was or may be joined.
fn joined_spacing(mark: &Punct, after: &[TokenTree]) -> Spacing
{
    if mark.spacing() == Spacing::Joint || may_join(mark.as_char(), after) {
        Spacing::Joint
    } else {
        Spacing::Alone
    }
}

/// Closes all lists that are open. All trees that are left are kept.
fn close_all<'a>(
    outer: Vec<OpenList<'a>>,
    innermost: OpenList<'a>,
) -> Result<TokenStream, AllocError>
{
    let mut outer = outer;
    let mut here = closed_to(&mut outer, innermost, 0)?;
    here.keep_rest();
    here.finish()
}

/// Closes the innermost open lists until this number of lists is open around the innermost one. All trees that are left
/// in the closed lists are kept.
fn closed_to<'a>(
    outer: &mut Vec<OpenList<'a>>,
    innermost: OpenList<'a>,
    depth: usize,
) -> Result<OpenList<'a>, AllocError>
{
    let mut here = innermost;
    while let Some(mut around) = pop_above(outer, depth) {
        here.keep_rest();
        around.close(here)?;
        here = around;
    }
    Ok(here)
}

/// Takes off the last list, if more than `depth` lists are open.
fn pop_above<'a>(outer: &mut Vec<OpenList<'a>>, depth: usize) -> Option<OpenList<'a>>
{
    if outer.len() > depth {
        outer.pop()
    } else {
        None
    }
}

/// Returns whether the mark may be joined with the first of the trees after it. This must be a mark.
fn may_join(mark: char, after: &[TokenTree]) -> bool
{
    match after.first() {
        Some(TokenTree::Punct(next)) => mark != '\'' && !begins_operator(mark, next.as_char()),
        _ => false,
    }
}

/// Returns whether these marks begin an operator or a comment if they are written close.
///
/// # Contract
///
/// - `ensures`: <code>result ≡ [begins_operator] mark next</code>
///
/// [begins_operator]: crate::contracts#quoting.Joined.begins_operator
pub fn begins_operator(mark: char, next: char) -> bool
{
    match next {
        '=' => matches!(
            mark,
            '=' | '!' | '<' | '>' | '+' | '-' | '*' | '/' | '%' | '^' | '&' | '|' | '.'
        ),
        ':' | '&' | '.' => mark == next,
        '>' => mark == '-' || mark == '=',
        '-' => mark == '<',
        '/' | '*' => mark == '/',
        _ => false,
    }
}
