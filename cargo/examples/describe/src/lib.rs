//! `#[derive(Describe)]` implements `trait Describe { fn describe(&self) -> String; }` for structs and enums.
//!
//! The text of a value is `Name { field: value, .. }`, `Name(value, ..)` or `Name`. A value in it is what `describe` of
//! the field returns. The trait is `crate::Describe`, unless the type says otherwise by `#[describe(crate = path)]`.
//!
//! Where | Entry of `#[describe(..)]` | What it does
//! ---|---|---
//! type | `crate = path` | The trait is in the module with this path.
//! type, variant, named field | `rename = "text"` | This text stands in place of the name.
//! variant | `skip` | The text of this variant is its name alone.
//! field | `skip` | The text leaves this field out.
//! field | `with = path` | The value is what this function returns for a reference to the field. It is a `String`.
//!
//! Each type parameter that a field names gets the bound `Describe`, unless the field has `skip` or `with`.

mod options;
mod types;
mod writer;

/// Implements `Describe`. The page of the crate lists the entries of `#[describe(..)]`.
#[proc_macro_derive(Describe, attributes(describe))]
pub fn derive_describe(item: proc_macro::TokenStream) -> proc_macro::TokenStream {
    proved_macros::expand(item, writer::describe_impl)
}
