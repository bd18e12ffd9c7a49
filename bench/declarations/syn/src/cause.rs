//! Why syn has a part otherwise.
use crate::every::Entry;
use crate::functions::Function;
use quote::ToTokens;
use syn::spanned::Spanned;
use syn::visit::{self, Visit};
use syn::{BoundLifetimes, DeriveInput, File, FnArg, GenericParam, ItemImpl, Type, TypeParam};

/// An item that syn has, but not as a derive would be given it.
pub const NO_DERIVE: &str = "syn has an item that it doesn't take for a derive";

/// The cause, if one explains the whole difference of the part's tokens.
pub fn of_part(name: &str, theirs: &str, ours: &str) -> Option<&'static str> {
    if name == "visibility of a variant" && theirs.is_empty() {
        return Some("syn drops a variant's visibility");
    }
    if name == "generics" && theirs.replace(' ', "") == ours.replace(':', "").replace(' ', "") {
        return Some("syn drops the colon of a parameter without bounds");
    }
    let [mut theirs, mut ours] =
        [theirs, ours].map(|tokens| tokens.split(' ').filter(|token| *token != ",").collect::<Vec<_>>());
    let is_order = theirs != ours && theirs.contains(&"'");
    theirs.sort_unstable();
    ours.sort_unstable();
    (is_order && theirs == ours).then_some("syn prints lifetimes before other arguments, with commas")
}

/// What syn reads and ours rejects, as the pages say.
#[derive(Default)]
struct Rejected {
    cause: Option<&'static str>,
}

impl<'ast> Visit<'ast> for Rejected {
    fn visit_type_param(&mut self, parameter: &'ast TypeParam) {
        if parameter.ident == "_" {
            self.cause = Some("syn reads `_` as the name of a type parameter");
        }
        visit::visit_type_param(self, parameter);
    }

    fn visit_bound_lifetimes(&mut self, lifetimes: &'ast BoundLifetimes) {
        let has_attribute = |it: &GenericParam| matches!(it, GenericParam::Lifetime(it) if !it.attrs.is_empty());
        if lifetimes.lifetimes.iter().any(has_attribute) {
            self.cause = Some("ours reads no attributes in `for<..>`");
        }
    }

    fn visit_fn_arg(&mut self, input: &'ast FnArg) {
        if let FnArg::Typed(typed) = input {
            // For a type alone syn makes a pattern and a colon that have the place of the type.
            if typed.pat.span().start() == typed.colon_token.span().start() {
                self.cause = Some("syn reads a parameter that is a type alone, as edition 2015 has in traits");
            }
        }
        visit::visit_fn_arg(self, input);
    }

    fn visit_item_impl(&mut self, item: &'ast ItemImpl) {
        if let Type::Path(path) = &*item.self_ty {
            let inner = path.qself.as_ref().map(|own| own.ty.to_token_stream().to_string());
            if inner.is_some_and(|inner| inner.starts_with('\'')) {
                self.cause = Some("ours reads generic parameters if `<` and a lifetime follow `impl`");
            }
        }
        visit::visit_item_impl(self, item);
    }
}

/// The cause, if one explains that ours rejects the text of a file.
pub fn of_rejected_text(text: &str) -> Option<&'static str> {
    text.contains("'''").then_some("syn reads the character `'''`, which rustc rejects")
}

/// The cause, if one explains that ours rejects the file.
pub fn of_rejected_file(file: &File) -> Option<&'static str> {
    let mut rejected = Rejected::default();
    rejected.visit_file(file);
    rejected.cause
}

/// The cause, if one explains that ours rejects the item.
pub fn of_refusal(item: &DeriveInput) -> Option<&'static str> {
    let mut rejected = Rejected::default();
    rejected.visit_derive_input(item);
    rejected.cause
}

/// The cause, if one explains that ours rejects the function.
pub fn of_refused_function(function: &Function) -> Option<&'static str> {
    let mut rejected = Rejected::default();
    rejected.visit_signature(&function.signature);
    rejected.cause
}

/// The cause, if one explains that an item of a file differs.
pub fn of_entry(theirs: &Entry, ours: &Entry) -> Option<&'static str> {
    let is_kept = theirs.kind.is_none() && (theirs.depth, theirs.extent) == (ours.depth, ours.extent);
    is_kept.then_some("syn keeps the item as tokens alone")
}
