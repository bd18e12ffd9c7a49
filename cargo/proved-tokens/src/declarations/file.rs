// Made from crates/declarations/src/file.rt by dev/erase: change that file, not this one.
//! Files, and the bodies of modules, traits, `impl`s and `extern` blocks: inner attributes, and then items.

use crate::declarations::any_item::{AnyItem, ItemKind, name_of, split_any_item};
use crate::declarations::explore::fault_by;
use crate::declarations::fault::Fault;
use crate::declarations::item_kinds::past_any_item;
use crate::declarations::item_syntax::ANY_ITEM;
use crate::declarations::part_splitting::split_inner_attributes;
use crate::pm_stream::{Group, TokenTree};
use crate::pm_token::Delimiter;

/// The content of a file, or of the braces of a module, a trait, an `impl` or an `extern` block.
#[derive(Clone, Copy)]
pub struct File<'a> {
    /// The inner attributes, perhaps none.
    pub inner: &'a [TokenTree],
    /// The items after the inner attributes.
    pub items: Items<'a>,
}

/// The remaining items of a file, in order. The iterator is `Copy`.
///
/// It gives each item as [`split_any_item`] reads it from the remaining trees. At an error it gives a `Fault`, whose
/// `at` counts from the start of the remaining trees, and then ends. It allocates nothing. The items that
/// [`parse_file`] returns have no error. For `fn f() {} struct S;` the iterator gives the function `f` and the struct
/// `S`.
#[derive(Clone, Copy, Debug)]
pub struct Items<'a> {
    /// The trees that are not yet read.
    pub left: &'a [TokenTree],
}

/// Reads all of the trees as a file: inner attributes, and then items.
///
/// If the trees are no file, the call returns a `Fault`. The error is in the inner attributes, or in the first item
/// that [`split_any_item`] cannot read. Its `at` counts from the start of the file. The call does not read the trees
/// inside the items' groups, and allocates nothing. For `#![a] fn f() {} struct S;` the inner attributes are `#![a]`,
/// and there are two items.
///
/// # Contract
///
/// - `ensures ok`: <code>[IfOk] result (λ file. [IsFile] trees.now file.inner.now file.items.left.now)</code>
/// - `ensures fault`: <code>[IfErr] result (λ fault. [FileFaultAt] trees.now fault.at fault.expected)</code>
/// - `ensures span`: <code>[IfErr] result (λ fault. fault.span ≡ [extent_at] trees.now fault.at)</code>
/// - `ensures none`: <code>[IfErr] result (λ fault. (inner : [List] Tree) → (items : [List] Tree) → [IsFile]
///   trees.now inner items → ⊥)</code>
///
/// [IfOk]: crate::contracts#std.IfOk
/// [IsFile]: crate::contracts#declarations.File.IsFile
/// [IfErr]: crate::contracts#std.IfErr
/// [FileFaultAt]: crate::contracts#declarations.File.FileFaultAt
/// [extent_at]: crate::contracts#declarations.Fault.extent_at
/// [List]: crate::contracts#std.List
pub fn parse_file(trees: &[TokenTree]) -> Result<File<'_>, Fault>
{
    let (inner, items) = split_inner_attributes(trees)?;
    let mut left = items;
    while !left.is_empty() {
        match split_any_item(left) {
            Ok((_, rest)) => left = rest,
            Err(fault) => {
                let at = trees.len() - left.len() + fault.at;
                return Err(fault.after(at));
            }
        }
    }
    Ok(File {
        inner,
        items: Items { left: items },
    })
}

/// Reads all of the trees as one item.
///
/// It returns `Ok` exactly if [`split_any_item`] reads all of the trees. Otherwise it returns a `Fault` at the first
/// tree that does not fit or is too many, or at the end if trees are missing. It allocates nothing. `fn f() {}` gives
/// the function `f`, and `fn f() {} fn g() {}` has an error at the second `fn`.
///
/// # Contract
///
/// - `ensures ok`: <code>[IfOk] result (λ item. [ReadsAll] [IsAnyItem] trees.now × (item.trees.now ≡
///   trees.now))</code>
/// - `ensures kind_and_name`: <code>[IfOk] result (λ item. (name : [Option] [Name]) × [HasKind] trees.now \[\]
///   item.kind name × [MatchOption] item.name (name ≡ [None]) (λ ident. name ≡ [Some] ident.now))</code>
/// - `ensures fault`: <code>[IfErr] result (λ fault. [FaultAt] ([IsWhole] [IsAnyItem]) trees.now
///   fault.at)</code>
/// - `ensures span`: <code>[IfErr] result (λ fault. fault.span ≡ [extent_at] trees.now fault.at)</code>
/// - `ensures expected`: <code>[IfErr] result (λ fault. [Expects] [IsAnyItem] trees.now fault.at
///   fault.expected)</code>
///
/// [IfOk]: crate::contracts#std.IfOk
/// [ReadsAll]: crate::contracts#declarations.Whole.ReadsAll
/// [IsAnyItem]: crate::contracts#declarations.Forms.IsAnyItem
/// [Option]: crate::contracts#std.Option
/// [Name]: crate::contracts#pm_token.Leaf.Name
/// [HasKind]: crate::contracts#declarations.Kind.HasKind
/// [MatchOption]: crate::contracts#std.MatchOption
/// [None]: crate::contracts#std.None
/// [Some]: crate::contracts#std.Some
/// [IfErr]: crate::contracts#std.IfErr
/// [FaultAt]: crate::contracts#declarations.Reading.FaultAt
/// [IsWhole]: crate::contracts#declarations.Whole.IsWhole
/// [extent_at]: crate::contracts#declarations.Fault.extent_at
/// [Expects]: crate::contracts#declarations.Expected.Expects
pub fn parse_item(trees: &[TokenTree]) -> Result<AnyItem<'_>, Fault>
    // The item has the keyword of its kind, and reads from its name on by the rule of its kind.
{
    match past_any_item(trees) {
        Ok(found) => {
            if found.rest.is_empty() {
                let name = name_of(found.kind, found.named);
                Ok(AnyItem {
                    kind: found.kind,
                    name,
                    trees,
                })
            } else {
                Err(fault_by(&ANY_ITEM, trees, found.rest))
            }
        }
        Err(left) => Err(fault_by(&ANY_ITEM, trees, left)),
    }
}

impl<'a> Iterator for Items<'a> {
    type Item = Result<AnyItem<'a>, Fault>;

    // At most as many items come as trees are left.

    fn next(&mut self) -> Option<Result<AnyItem<'a>, Fault>> {
        if self.left.is_empty() {
            return None;
        }
        match split_any_item(self.left) {
            Ok((item, rest)) => {
                self.left = rest;
                Some(Ok(item))
            }
            Err(fault) => {
                self.left = &[];
                Some(Err(fault))
            }
        }
    }
}

impl<'a> AnyItem<'a> {
    /// Returns the braces that hold the items of a module, a trait, an `impl` or an `extern` block.
    ///
    /// They are the last tree of the item. The result is `None` for a module that ends in `;`, and for an item of any
    /// other kind. [`parse_file`] reads the trees in the braces.
    ///
    /// # Contract
    ///
    /// - `ensures`: <code>[MatchOption] result ([body_of] self.now.kind self.now.trees.now ≡ [None]) (λ group.
    ///   [body_of] self.now.kind self.now.trees.now ≡ [Some] group.now)</code>
    ///
    /// [MatchOption]: crate::contracts#std.MatchOption
    /// [body_of]: crate::contracts#declarations.File.body_of
    /// [None]: crate::contracts#std.None
    /// [Some]: crate::contracts#std.Some
    pub fn body(&self) -> Option<&'a Group>
    {
        match self.kind {
            ItemKind::Module | ItemKind::Trait | ItemKind::Impl | ItemKind::ExternBlock =>
                last_braces(self.trees),
            _ => None,
        }
    }
}

/// The last tree, if it is a group in braces.
fn last_braces(trees: &[TokenTree]) -> Option<&Group>
{
    match trees.split_last() {
        Some((tree, _)) => braces(tree),
        None => None,
    }
}

/// The tree as a group, if it is a group in braces.
fn braces(tree: &TokenTree) -> Option<&Group>
{
    match tree {
        TokenTree::Group(group) => match group.delimiter() {
            Delimiter::Brace => Some(group),
            Delimiter::Parenthesis | Delimiter::Bracket | Delimiter::None => None,
        },
        TokenTree::Ident(_) | TokenTree::Punct(_) | TokenTree::Literal(_) => None,
    }
}
