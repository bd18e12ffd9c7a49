// Made from crates/quoting_tests/src/tests/trees.rt by dev/erase: change that file, not this one.
//! Trees in the form that the rows of tests use.

use crate::shim::prelude::{AllocGlobal, Grow};

use proved_tokens::proc_macro2::{Delimiter, Group, Ident, Literal, Punct, Spacing, Span, TokenStream, TokenTree};
use proved_tokens::quoting::Quote;
use crate::shim::process::Abort;

/// A tree that is not a group.
#[derive(Clone, Copy)]
pub enum Leaf {
    /// The identifier of this name.
    Name(&'static str),
    /// A mark that is Joint.
    Joint(char),
    /// A mark that is Alone.
    Alone(char),
    /// The literal of this character.
    Character(char),
    /// The literal of these bytes.
    Bytes(&'static str),
    /// The literal of this number, an `i32`.
    Number(i32),
}

/// A leaf, or a group of leaves.
#[derive(Clone, Copy)]
pub enum Inner {
    /// A leaf.
    One(Leaf),
    /// A group of these leaves.
    Of(Delimiter, &'static [Leaf]),
}

/// A leaf, or a group of leaves and of groups of leaves.
#[derive(Clone, Copy)]
pub enum Tree {
    /// A leaf.
    One(Leaf),
    /// A group of these trees.
    Of(Delimiter, &'static [Inner]),
}

/// Returns the mark with this character, which must be that of a mark.
fn mark(rt: &impl Abort, mark: char, spacing: Spacing) -> TokenTree {
    assert!(Punct::is_punct_char(mark), "{mark}");
    TokenTree::Punct(Punct::new(mark, spacing))
}

/// Returns the identifier of this name.
fn word(rt: &(impl Abort + AllocGlobal), name: &str) -> TokenTree {
    TokenTree::Ident(Ident::new(name, Span::call_site()).expect(name))
}

/// Returns the literal of this character.
fn character(rt: &(impl Abort + AllocGlobal), character: char) -> TokenTree {
    TokenTree::Literal(Literal::character(character).expect("a character"))
}

/// Returns the literal of these bytes.
fn bytes(rt: &(impl Abort + AllocGlobal), text: &str) -> TokenTree {
    TokenTree::Literal(Literal::byte_string(text.as_bytes()).expect(text))
}

/// Returns the literal of this number.
fn number(rt: &(impl Abort + AllocGlobal), number: i32) -> TokenTree {
    TokenTree::Literal(Literal::i32_suffixed(number).expect("a number"))
}

/// Returns the leaf as a tree.
fn leaf_tree(rt: &(impl Abort + AllocGlobal), leaf: Leaf) -> TokenTree {
    match leaf {
        Leaf::Name(name) => word(rt, name),
        Leaf::Joint(c) => mark(rt, c, Spacing::Joint),
        Leaf::Alone(c) => mark(rt, c, Spacing::Alone),
        Leaf::Character(c) => character(rt, c),
        Leaf::Bytes(text) => bytes(rt, text),
        Leaf::Number(value) => number(rt, value),
    }
}

/// Returns a group of the trees.
fn group(
    rt: &(impl Abort + AllocGlobal),
    delimiter: Delimiter,
    trees: Vec<TokenTree>,
) -> TokenTree {
    let inside = TokenStream::from_trees(trees).expect("a group");
    TokenTree::Group(Group::new(delimiter, inside))
}

/// Returns the leaves as trees.
fn leaves(rt: &(impl Abort + AllocGlobal), leaves: &[Leaf]) -> Vec<TokenTree> {
    let mut trees = Vec::new();
    for &leaf in leaves {
        trees.push_fallibly(leaf_tree(rt, leaf)).expect("a leaf");
    }
    trees
}

/// Returns a leaf or a group of leaves as a tree.
fn inner_tree(rt: &(impl Abort + AllocGlobal), tree: Inner) -> TokenTree {
    match tree {
        Inner::One(leaf) => leaf_tree(rt, leaf),
        Inner::Of(delimiter, inside) => group(rt, delimiter, leaves(rt, inside)),
    }
}

/// Returns leaves and groups of leaves as trees.
fn inners(rt: &(impl Abort + AllocGlobal), inside: &[Inner]) -> Vec<TokenTree> {
    let mut trees = Vec::new();
    for &inner in inside {
        trees.push_fallibly(inner_tree(rt, inner)).expect("a tree");
    }
    trees
}

/// Returns the tree of the library.
fn outer_tree(rt: &(impl Abort + AllocGlobal), tree: Tree) -> TokenTree {
    match tree {
        Tree::One(leaf) => leaf_tree(rt, leaf),
        Tree::Of(delimiter, inside) => group(rt, delimiter, inners(rt, inside)),
    }
}

/// Returns a quote of the trees.
pub fn quote_with(rt: &(impl Abort + AllocGlobal), trees: &[Tree]) -> Quote {
    let mut quote = Quote::new();
    for &tree in trees {
        quote.push(outer_tree(rt, tree)).expect("a tree");
    }
    quote
}
