// Made from crates/pm_stream/src/doc.rt by dev/erase: change that file, not this one.
//! The tokens of a doc comment.

use crate::shim::prelude::Grow;

use crate::pm_stream::stream::{Group, TokenStream, TokenTree};
use crate::pm_span::Span;
use crate::pm_token::parts::{ident, punct, string_literal};
use crate::pm_token::{Delimiter, Ident, Literal, Punct, Spacing};
use crate::shim::alloc::AllocError;

/// Returns the group `[doc = ".."]` for this text (`doc-tokens`). The group and each tree in it has this span.
pub(crate) fn doc_group(text: &str, span: Span) -> Result<Group, AllocError>
{
    let doc = ident("doc", false, span)?;
    let equals = punct('=', Spacing::Alone, span);
    let text = string_literal(text, span)?;
    let mut trees = Vec::with_capacity_fallibly(3)?;
    trees.push_fallibly(TokenTree::Ident(doc))?;
    trees.push_fallibly(TokenTree::Punct(equals))?;
    trees.push_fallibly(TokenTree::Literal(text))?;
    let stream = TokenStream::from_vec(trees)?;
    Ok(Group::from_parts(Delimiter::Bracket, stream, span))
}

impl Group {
    /// Returns the literal of a doc comment's group, and `None` for every other group. For `[doc = "x"]` it returns
    /// `"x"`.
    ///
    /// A doc comment is parsed to `#`, to `!` if it is inner, and to this group. The group has the identifier `doc`,
    /// the mark `=` Alone and a literal, in brackets (`doc-tokens`). The trees before the group are not checked, so the
    /// group of the attribute `#[doc = "x"]` has its literal too.
    ///
    /// # Contract
    ///
    /// - `ensures value`: <code>[option_copied] result ≡ [doc_of] self.now</code>
    /// - `ensures trees`: <code>[IfSome] result (λ text. (name : [Name]) × (mark : [Mark]) × (self.now.stream ≡
    ///   [forest] (IdentTree name ∷ PunctTree mark ∷ LiteralTree text.now ∷ \[\])))</code>
    /// - `ensures printed`: <code>[IfSome] result (λ text. [IsDocOf] self.now text.now.text)</code>
    ///
    /// [option_copied]: crate::contracts#std.option_copied
    /// [doc_of]: crate::contracts#pm_stream.DocGroup.doc_of
    /// [IfSome]: crate::contracts#std.IfSome
    /// [Name]: crate::contracts#pm_token.Leaf.Name
    /// [Mark]: crate::contracts#pm_token.Leaf.Mark
    /// [forest]: crate::contracts#pm_stream.Trees.forest
    /// [IsDocOf]: crate::contracts#pm_stream.DocGroup.IsDocOf
    pub fn doc(&self) -> Option<&Literal>

        // The group holds the three trees, and is printed as `[doc = `, the literal and `]`.
    {
        let Delimiter::Bracket = self.delimiter() else {
            return None;
        };
        doc_in(self.stream_ref().trees())
    }
}

/// Returns the literal if the trees are `doc`, `=` Alone and a literal, and otherwise `None`.
fn doc_in(trees: &[TokenTree]) -> Option<&Literal>
{
    let [
        TokenTree::Ident(name),
        TokenTree::Punct(mark),
        TokenTree::Literal(literal),
    ] = trees
    else {
        return None;
    };
    if is_doc(name) && is_equals(mark) {
        Some(literal)
    } else {
        None
    }
}

/// Whether it is the identifier `doc`.
fn is_doc(name: &Ident) -> bool
{
    name.eq_str("doc")
}

/// Whether it is the mark `=` Alone.
fn is_equals(mark: &Punct) -> bool
{
    mark.as_char() == '=' && mark.spacing() == Spacing::Alone
}
