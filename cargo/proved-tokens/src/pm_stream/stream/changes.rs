// Made from crates/pm_stream/src/stream/changes.rt by dev/erase: change that file, not this one.
//! Calls that change the list of a stream, which other streams may share.

use crate::shim::prelude::{Grow, GrowList};

use super::owned::unwrap_list;
use super::{Group, TokenStream, TokenTree};
use crate::pm_token::parts::split_minus;
use crate::pm_token::{Ident, Literal, Punct};
use crate::shim::alloc::AllocError;
use crate::shim::rc::Rc;

/// How many trees the first list of a stream has room for.
const FIRST_ROOM: usize = 4;

// Each kind of tree has functions of its own, down to the position in the list. A function for all kinds would first
// build the tree on the stack.
impl TokenStream {
    /// Appends the tree by the rule `split`. If memory runs out, the stream does not change.
    #[cfg_attr(not(debug_assertions), inline(always))]
    pub(crate) fn put(&mut self, tree: TokenTree) -> Result<(), AllocError>
    {
        match tree {
            TokenTree::Group(group) => self.put_group(group),
            TokenTree::Ident(ident) => self.put_ident(ident),
            TokenTree::Punct(punct) => self.put_punct(punct),
            TokenTree::Literal(literal) => self.put_literal(literal),
        }
    }

    /// Appends the group. If memory runs out, the stream does not change.
    #[cfg_attr(not(debug_assertions), inline(always))]
    pub(crate) fn put_group(&mut self, group: Group) -> Result<(), AllocError>
    {
        // This call computes nothing: its contract tells proofs what is true of every group.
        group.span();
        push(&mut self.trees, TokenTree::Group(group))
    }

    /// Appends the identifier. If memory runs out, the stream does not change.
    #[cfg_attr(not(debug_assertions), inline(always))]
    pub(crate) fn put_ident(&mut self, ident: Ident) -> Result<(), AllocError>
    {
        // This call computes nothing: its contract tells proofs what is true of every identifier.
        ident.span();
        push(&mut self.trees, TokenTree::Ident(ident))
    }

    /// Appends the mark. If memory runs out, the stream does not change.
    #[cfg_attr(not(debug_assertions), inline(always))]
    pub(crate) fn put_punct(&mut self, punct: Punct) -> Result<(), AllocError>
    {
        // This call computes nothing: its contract tells proofs what is true of every mark.
        punct.span();
        push(&mut self.trees, TokenTree::Punct(punct))
    }

    /// Appends the literal; a negative one gives its `-` and the rest. If memory runs out, the stream does not change.
    #[cfg_attr(not(debug_assertions), inline(always))]
    pub(crate) fn put_literal(&mut self, literal: Literal) -> Result<(), AllocError>
    {
        // This call computes nothing: its contract tells proofs what is true of every literal.
        literal.span();
        let (minus, literal) = split_minus(literal);
        match minus {
            None => push(&mut self.trees, TokenTree::Literal(literal)),
            Some(minus) => push_negative(&mut self.trees, minus, literal),
        }
    }

    /// Appends all trees of the other stream, or none if memory runs out.
    pub(crate) fn append(&mut self, more: TokenStream) -> Result<(), AllocError>
    {
        let trees = { let mut whole = more; whole.trees.take() };
        match trees {
            Some(more) => append_shared(&mut self.trees, more),
            None => Ok(()),
        }
    }
}

/// Appends the tree to a list. A shared list is copied first.
#[cfg_attr(not(debug_assertions), inline(always))]
fn push(
    trees: &mut Option<Rc<Vec<TokenTree>>>,
    tree: TokenTree,
) -> Result<(), AllocError>
{
    make_list(trees)?;
    match trees {
        Some(shared) => push_onto(Rc::make_mut(shared)?, tree),
        None => unreachable!(),
    }
}

/// Appends both trees of a negative literal to a list, or neither if memory runs out.
#[inline(never)]
fn push_negative(
    trees: &mut Option<Rc<Vec<TokenTree>>>,
    minus: Punct,
    literal: Literal,
) -> Result<(), AllocError>
{
    make_list(trees)?;
    match trees {
        Some(shared) => push_two(Rc::make_mut(shared)?, minus, literal),
        None => unreachable!(),
    }
}

/// Creates an empty list if there is no list.
#[cfg_attr(not(debug_assertions), inline(always))]
fn make_list(trees: &mut Option<Rc<Vec<TokenTree>>>) -> Result<(), AllocError>
{
    if trees.is_none() {
        *trees = Some(first_list()?);
    }
    Ok(())
}

/// Returns an empty list.
#[inline(never)]
fn first_list() -> Result<Rc<Vec<TokenTree>>, AllocError>
{
    Ok(Rc::new(Vec::with_capacity_fallibly(FIRST_ROOM)?)?)
}

/// Appends the tree to a list of one owner.
#[cfg_attr(not(debug_assertions), inline(always))]
fn push_onto(trees: &mut Vec<TokenTree>, tree: TokenTree) -> Result<(), AllocError>
{
    trees.push_fallibly(tree)?;
    Ok(())
}

/// Appends both trees, or neither: room for both is reserved before the first is appended.
fn push_two(trees: &mut Vec<TokenTree>, minus: Punct, literal: Literal) -> Result<(), AllocError>
{
    trees.reserve_fallibly(2)?;
    trees.push_fallibly(TokenTree::Punct(minus))?;
    trees.push_fallibly(TokenTree::Literal(literal))?;
    Ok(())
}

/// Appends the trees of `more` to the list. They are moved if no stream shares them, and copied otherwise.
fn append_shared(
    trees: &mut Option<Rc<Vec<TokenTree>>>,
    more: Rc<Vec<TokenTree>>,
) -> Result<(), AllocError>
{
    if let Some(shared) = trees {
        let own = unwrap_list(more)?;
        return push_all(Rc::make_mut(shared)?, own);
    }
    *trees = Some(more);
    Ok(())
}

/// Appends all trees of `more`, or none if memory runs out.
fn push_all(trees: &mut Vec<TokenTree>, mut more: Vec<TokenTree>) -> Result<(), AllocError>
{
    trees.append_fallibly(&mut more)?;
    Ok(())
}
