// Made from crates/declarations/src/attribute.rt by dev/erase: change that file, not this one.
//! Attributes, one at a time.

use crate::declarations::bare::{bare_trees, has_no_delimiters, inside_of};
use crate::declarations::item::split_group;
use crate::pm_stream::{Group, TokenTree};
use crate::pm_token::{Delimiter, Literal, Punct, Spacing};

/// An attribute, such as `#[derive(Clone)]` or `#![no_std]`. A doc comment is an attribute too.
#[derive(Clone, Copy, Debug)]
pub struct Attribute<'a> {
    /// The `#` of an outer attribute, or the `#` and the `!` of an inner one.
    pub marks: &'a [TokenTree],
    /// The brackets, with the trees in them.
    pub group: &'a Group,
}

/// What comes after the path of an attribute.
#[derive(Clone, Copy, Debug)]
pub enum AttributeArgs<'a> {
    /// Nothing, as in `#[no_mangle]`.
    Nothing,
    /// A group alone, as in `#[derive(Clone)]`.
    Group(&'a Group),
    /// The trees after the `=`, as in `#[path = "a.rs"]`.
    Value(&'a [TokenTree]),
    /// A group and more trees after it. No attribute of Rust has this form.
    Other(&'a Group, &'a [TokenTree]),
}

/// The attributes at the start of trees, outer and inner, in order, such as those of an item, a field or a variant.
///
/// The iterator ends before the first trees that are no attribute, which stay in
/// `left`. It allocates nothing.
///
/// ```text
/// for attribute in Attributes::new(field.attributes) {
///     if attribute.is("serde") { .. }
/// }
/// ```
#[derive(Clone, Copy, Debug)]
pub struct Attributes<'a> {
    /// The trees that are not yet read.
    pub left: &'a [TokenTree],
}

impl<'a> Attributes<'a> {
    /// Returns an iterator over the attributes at the start of these trees.
    ///
    /// # Contract
    ///
    /// - `ensures`: <code>result.left.now ≡ trees.now</code>
    pub fn new(trees: &'a [TokenTree]) -> Attributes<'a>
    {
        Attributes { left: trees }
    }
}

impl<'a> Iterator for Attributes<'a> {
    type Item = Attribute<'a>;

    // The iterator gives the attributes at the start of the trees, each of them once.

    fn next(&mut self) -> Option<Attribute<'a>> {
        let (attribute, rest) = split_attribute(self.left)?;
        self.left = rest;
        Some(attribute)
    }
}

/// Returns the attribute at the start of the trees, outer or inner, and the trees after it.
///
/// It returns `None` if the trees begin with no attribute. For `#[a] #[b] pub x` it returns `#[a]` and `#[b] pub x`.
///
/// # Contract
///
/// - `ensures found`: <code>[MatchOption] result ([attributes_in] trees.now ≡ \[\]) (λ found. [attributes_in]
///   trees.now ≡ [parts_of] found.0 ∷ [attributes_in] found.1.now)</code>
/// - `ensures parts`: <code>[IfSome] result (λ found. [IsAttributeAt] trees.now found.0 found.1.now)</code>
///
/// [MatchOption]: crate::contracts#std.MatchOption
/// [attributes_in]: crate::contracts#declarations.Attribute.attributes_in
/// [parts_of]: crate::contracts#declarations.Attribute.parts_of
/// [IfSome]: crate::contracts#std.IfSome
/// [IsAttributeAt]: crate::contracts#declarations.Attribute.IsAttributeAt
pub fn split_attribute(trees: &[TokenTree]) -> Option<(Attribute<'_>, &[TokenTree])>
{
    let (hash, rest) = split_mark(trees)?;
    match split_group(rest) {
        Some((group, after)) if is_outer(hash, group) => {
            let (marks, _) = trees.split_at(1);
            Some((Attribute { marks, group }, after))
        }
        Some(_) => None,
        None => split_inner(trees, hash, rest),
    }
}

/// The inner attribute at the start of `trees`, and the trees after it. `rest` are the trees after `hash`.
fn split_inner<'a>(
    trees: &'a [TokenTree],
    hash: &Punct,
    rest: &'a [TokenTree],
) -> Option<(Attribute<'a>, &'a [TokenTree])>
{
    let (mark, brackets) = split_mark(rest)?;
    let (group, after) = split_group(brackets)?;
    if is_inner(hash, mark, group) {
        let (marks, _) = trees.split_at(2);
        Some((Attribute { marks, group }, after))
    } else {
        None
    }
}

/// The mark that the trees begin with, and the trees after it.
fn split_mark(trees: &[TokenTree]) -> Option<(&Punct, &[TokenTree])>
{
    match trees.split_first() {
        Some((TokenTree::Punct(mark), rest)) => Some((mark, rest)),
        _ => None,
    }
}

fn is_outer(hash: &Punct, group: &Group) -> bool
{
    hash.as_char() == '#' && is_bracket(group.delimiter())
}

fn is_inner(hash: &Punct, mark: &Punct, group: &Group) -> bool
{
    hash.as_char() == '#' && mark.as_char() == '!' && is_bracket(group.delimiter())
}

fn is_bracket(delimiter: Delimiter) -> bool
{
    match delimiter {
        Delimiter::Bracket => true,
        Delimiter::Parenthesis | Delimiter::Brace | Delimiter::None => false,
    }
}

impl<'a> Attribute<'a> {
    /// Returns whether this is an inner attribute, such as `#![a]`.
    ///
    /// # Contract
    ///
    /// - `ensures`: <code>result ≡ ([length] self.now.marks.now == 2)</code>
    ///
    /// [length]: crate::contracts#std.length
    pub fn is_inner(&self) -> bool
    {
        self.marks.len() == 2
    }

    /// Returns the path: the trees in the brackets before the first `=` or the first group with delimiters.
    ///
    /// It is `rustfmt::skip` in `#[rustfmt::skip]`, `doc` in `#[doc = "a"]`, and `unsafe` in `#[unsafe(no_mangle)]`.
    ///
    /// If the trees in the brackets are one group without delimiters, as a macro by example passes `$m:meta`, the path
    /// is that of the trees in this group, or in the innermost of several such groups. So are what
    /// [`args`](Attribute::args), [`is`](Attribute::is) and [`doc`](Attribute::doc) return. A path that is such a group
    /// itself, as in `#[$p = 1]`, is returned as it is.
    ///
    /// # Contract
    ///
    /// - `ensures`: <code>result.now ≡ [path_of] ([inside] self.now)</code>
    ///
    /// [path_of]: crate::contracts#declarations.Attribute.path_of
    /// [inside]: crate::contracts#declarations.Attribute.inside
    pub fn path(&self) -> &'a [TokenTree]
    {
        split_path(inside_of(self.group)).0
    }

    /// Returns what comes after the path. A value that is a group without delimiters, as in `#[a = $e]`, is returned as
    /// it is.
    ///
    /// # Contract
    ///
    /// - `ensures`: <code>[AreArgs] ([after_path] ([inside] self.now)) result</code>
    ///
    /// [AreArgs]: crate::contracts#declarations.Attribute.AreArgs
    /// [after_path]: crate::contracts#declarations.Attribute.after_path
    /// [inside]: crate::contracts#declarations.Attribute.inside
    pub fn args(&self) -> AttributeArgs<'a>
    {
        args_of(split_path(inside_of(self.group)).1)
    }

    /// Returns whether the path is this one identifier, perhaps in groups without delimiters. A raw identifier is
    /// compared with its `r#`.
    ///
    /// # Contract
    ///
    /// - `ensures`: <code>result ≡ [is_named] ([path_of] ([inside] self.now)) ([spelled] word.now)</code>
    ///
    /// [is_named]: crate::contracts#declarations.Attribute.is_named
    /// [path_of]: crate::contracts#declarations.Attribute.path_of
    /// [inside]: crate::contracts#declarations.Attribute.inside
    /// [spelled]: crate::contracts#pm_token.Spelling.spelled
    pub fn is(&self, word: &str) -> bool
    {
        is_named(self.path(), word)
    }

    /// Returns the literal of a doc comment or of `#[doc = "text"]`, and `None` for every other attribute. The literal
    /// may be in groups without delimiters.
    ///
    /// # Contract
    ///
    /// - `ensures`: <code>[option_copied] result ≡ [doc_of] ([inside] self.now)</code>
    ///
    /// [option_copied]: crate::contracts#std.option_copied
    /// [doc_of]: crate::contracts#declarations.Attribute.doc_of
    /// [inside]: crate::contracts#declarations.Attribute.inside
    pub fn doc(&self) -> Option<&'a Literal>
    {
        let (path, rest) = split_path(inside_of(self.group));
        if is_named(path, "doc") {
            literal_after(rest)
        } else {
            None
        }
    }
}

/// Whether the trees are this one identifier, perhaps in groups without delimiters.
pub(crate) fn is_named(trees: &[TokenTree], word: &str) -> bool
{
    is_word(bare_trees(trees), word)
}

/// Whether the trees are this one identifier.
fn is_word(trees: &[TokenTree], word: &str) -> bool
{
    match trees {
        [TokenTree::Ident(name)] => name.eq_str(word),
        _ => false,
    }
}

/// The literal after `=` Alone, perhaps in groups without delimiters, if there are no other trees.
fn literal_after(trees: &[TokenTree]) -> Option<&Literal>
{
    match trees.split_first() {
        Some((TokenTree::Punct(mark), value)) if is_equals(mark) => only_literal(bare_trees(value)),
        _ => None,
    }
}

/// Whether it is the mark `=` Alone.
fn is_equals(mark: &Punct) -> bool
{
    mark.as_char() == '=' && mark.spacing() == Spacing::Alone
}

/// The literal, if it is the only tree.
fn only_literal(trees: &[TokenTree]) -> Option<&Literal>
{
    match trees {
        [TokenTree::Literal(literal)] => Some(literal),
        _ => None,
    }
}

/// The path at the start of the trees, and the trees after it.
fn split_path(trees: &[TokenTree]) -> (&[TokenTree], &[TokenTree])
{
    trees.split_at(path_len(trees))
}

/// The number of trees in the path at the start of the trees.
fn path_len(trees: &[TokenTree]) -> usize
{
    let mut left = trees;
    while let Some((tree, rest)) = left.split_first() {
        if !goes_on(tree) {
            return trees.len() - left.len();
        }
        left = rest;
    }
    trees.len()
}

/// Whether the tree can be in a path: it is not `=`, and not a group with delimiters.
fn goes_on(tree: &TokenTree) -> bool
{
    match tree {
        TokenTree::Group(group) => has_no_delimiters(group.delimiter()),
        TokenTree::Punct(mark) => mark.as_char() != '=',
        TokenTree::Ident(_) | TokenTree::Literal(_) => true,
    }
}

/// The form of the trees after a path.
fn args_of(rest: &[TokenTree]) -> AttributeArgs<'_>
{
    match rest.split_first() {
        None => AttributeArgs::Nothing,
        Some((TokenTree::Group(group), after)) => {
            if after.is_empty() {
                AttributeArgs::Group(group)
            } else {
                AttributeArgs::Other(group, after)
            }
        }
        Some((_, value)) => AttributeArgs::Value(value),
    }
}
