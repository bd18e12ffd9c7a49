// Made from crates/quoting/src/respace.rt by dev/erase: change that file, not this one.
//! Changes the spacings of a stream's marks so that its printed text reads back.

use crate::shim::prelude::Grow;

use crate::quoting::open_list::OpenList;
use crate::proc_macro2::token_stream::may_be_joint;
use crate::proc_macro2::{Group, Punct, Spacing, TokenStream, TokenTree};
use crate::shim::alloc::AllocError;

/// Returns the stream with its marks respaced at any depth. Fails if memory runs out.
pub(crate) fn respace_marks(stream: &TokenStream) -> Result<TokenStream, AllocError>
{
    let mut outer: Vec<OpenList<'_>> = Vec::new();
    let mut here = OpenList::new(stream);
    loop {
        let Some((tree, after)) = here.next() else {
            let Some(mut around) = outer.pop() else {
                return here.finish();
            };
            around.close(here)?;
            here = around;
            continue;
        };
        if let TokenTree::Group(group) = tree {
            outer.push_fallibly(here)?;
            here = OpenList::new(group.stream_ref());
        } else {
            respace_next(&mut here, tree, after)?;
        }
    }
}

/// Respaces the first tree that is left of the list. It must not be a group.
fn respace_next(
    list: &mut OpenList<'_>,
    tree: &TokenTree,
    after: &[TokenTree],
) -> Result<(), AllocError>
{
    if let TokenTree::Punct(mark) = tree {
        let spacing = kept_spacing(mark, after);
        if spacing != mark.spacing() {
            return list.replace(TokenTree::Punct(mark_as(mark, spacing)));
        }
    }
    list.keep();
    Ok(())
}

/// Returns the spacing of the mark before these trees. A `'` is Joint. Any other mark is Joint if it was and may be.
fn kept_spacing(mark: &Punct, after: &[TokenTree]) -> Spacing
{
    let c = mark.as_char();
    if c == '\'' || mark.spacing() == Spacing::Joint && may_be_joint(c, after) {
        Spacing::Joint
    } else {
        Spacing::Alone
    }
}

/// Returns the mark with this spacing and the same span.
pub(crate) fn mark_as(mark: &Punct, spacing: Spacing) -> Punct
{
    let span = mark.span();
    let mut spaced = Punct::new(mark.as_char(), spacing);
    spaced.set_span(span);
    spaced
}

/// Returns the group with these contents, and with the same delimiters and span.
pub(crate) fn with_contents(group: &Group, stream: TokenStream) -> Group
{
    let mut regrouped = Group::new(group.delimiter(), stream);
    regrouped.set_span(group.span());
    regrouped
}
