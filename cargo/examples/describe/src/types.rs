//! Types and paths: which parameters they name, and how they are written if `macro_rules!` passes them on in groups
//! without delimiters.

use crate::options::plain;
use proved_macros::proved_tokens::error::CompileError;
use proved_macros::proved_tokens::items::{bare_trees, first_sign, parse_param, parse_type_path, within_generics};
use proved_macros::proved_tokens::items::{ParamKind, SignClass, TypeItem};
use proved_macros::proved_tokens::{quote, Delimiter, Group, Ident, TokenStream, TokenTree};

/// The signs of a type or a path, each with the number of angle brackets that are open before it.
fn signs(mut left: &[TokenTree]) -> impl Iterator<Item = (SignClass, usize)> + '_ {
    let mut depth = 0_usize;
    std::iter::from_fn(move || {
        let (class, rest) = first_sign(left)?;
        let before = depth;
        match class {
            SignClass::Less | SignClass::LessJoint => depth += 1,
            SignClass::Greater => depth = depth.saturating_sub(1),
            _ => {}
        }
        left = rest;
        Some((class, before))
    })
}

/// Whether the trees are a path that can stand in an expression: outside of angle brackets each `<` comes after `::`,
/// and there are no parentheses.
pub fn is_path(trees: &[TokenTree]) -> bool {
    let mut before = None;
    let mut fits = |(class, depth)| match (class, before.replace(class)) {
        _ if depth > 0 => true,
        (SignClass::Less | SignClass::LessJoint, before) => before == Some(SignClass::PathSeparator),
        (class, _) => !matches!(class, SignClass::Parentheses | SignClass::Restriction),
    };
    parse_type_path(trees).is_ok() && signs(trees).all(&mut fits)
}

/// The trees without the groups that have no delimiters. A type in such a group is put in parentheses if it has a `+`.
/// The braces of a block are made anew, because rustc warns about the caller's braces in angle brackets.
pub fn without_groups(trees: &[TokenTree]) -> TokenStream {
    let bare = |tree: &TokenTree| match tree {
        TokenTree::Group(group) if group.delimiter() == Delimiter::None => {
            let trees = bare_trees(group.stream_ref().trees());
            let inside = without_groups(trees);
            let has_plus = signs(trees).any(|sign| sign == (SignClass::Plus, 0));
            match trees {
                [TokenTree::Group(block)] if block.delimiter() == Delimiter::Brace => {
                    Group::new(Delimiter::Brace, block.stream_ref().clone()).into()
                }
                _ if has_plus => quote! { (#inside) },
                _ => inside,
            }
        }
        _ => tree.clone().into(),
    };
    trees.iter().map(bare).collect()
}

/// The type parameters of the item that one of these types names.
pub fn named_parameters<'a>(item: &TypeItem<'a>, types: &[&[TokenTree]]) -> Result<Vec<&'a Ident>, CompileError> {
    let (mut named, mut left) = (Vec::new(), within_generics(item.generics)?);
    while !left.is_empty() {
        let (parameter, rest) = parse_param(left)?;
        left = rest;
        if let (ParamKind::Type, [TokenTree::Ident(name)]) = (parameter.kind, parameter.name) {
            named.extend(types.iter().any(|trees| names(trees, name)).then_some(name));
        }
    }
    Ok(named)
}

/// Whether a type has this identifier at any depth, but not after `::`, and not as the name in `Item = u8`. A lifetime
/// is one sign, so `'T` does not count.
fn names(trees: &[TokenTree], parameter: &Ident) -> bool {
    let (mut left, mut is_in_path) = (trees, false);
    while let Some((class, rest)) = first_sign(left) {
        let is_binding = matches!(first_sign(rest), Some((SignClass::Equals | SignClass::Colon, _)));
        let found = match &left[0] {
            TokenTree::Ident(name) => !is_in_path && !is_binding && plain(name) == plain(parameter),
            TokenTree::Group(group) => names(group.stream_ref().trees(), parameter),
            _ => false,
        };
        if found {
            return true;
        }
        is_in_path = matches!(class, SignClass::PathSeparator);
        left = rest;
    }
    false
}
