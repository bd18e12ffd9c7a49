// Made from crates/declarations/src/keyword.rt by dev/erase: change that file, not this one.
//! Which identifiers are keywords of the grammar.

use crate::declarations::signs::name_class;
use crate::item_tables::class::SignClass;
use crate::pm_token::Ident;

/// Returns whether the identifier is a keyword of the grammar, and so cannot be a name.
///
/// The keywords are `_` and the strict and reserved keywords of Rust 2021, except `try`. `self`, `Self`, `super` and
/// `crate` are among them, and so are `true` and `false`. For example, `struct` is a keyword, and `union`, `r#struct`
/// and `auto` are none.
///
/// # Contract
///
/// - `ensures`: <code>result ≡ [is_keyword] ident.now</code>
///
/// [is_keyword]: crate::contracts#declarations.Item.is_keyword
pub fn is_keyword(ident: &Ident) -> bool
{
    match name_class(ident) {
        SignClass::Word(_) => false,
        _ => true,
    }
}
