//! The attribute of cargo/examples/traced over syn and quote, with the same answers.
use proc_macro2::{Span, TokenStream};
use quote::quote;
use syn::{parse_macro_input, AttrStyle, Ident, ItemFn, Path};

/// `#[traced(log)]` calls `log(name, true)` when the function begins, and `log(name, false)` when it is left.
#[proc_macro_attribute]
pub fn traced(log: proc_macro::TokenStream, item: proc_macro::TokenStream) -> proc_macro::TokenStream {
    let (log, item) = (parse_macro_input!(log as Path), parse_macro_input!(item as ItemFn));
    wrapped(&log, &item).into()
}

/// The function with its new body, whose variable has the macro's own span.
fn wrapped(log: &Path, item: &ItemFn) -> TokenStream {
    let ItemFn { attrs, vis, sig, block } = item;
    let (inner, outer): (Vec<_>, Vec<_>) = attrs.iter().partition(|entry| matches!(entry.style, AttrStyle::Inner(_)));
    let (text, guard) = (sig.ident.to_string(), Ident::new("_guard", Span::mixed_site()));
    quote! {
        #(#outer)*
        #vis #sig {
            #(#inner)*
            #log(#text, true);
            let #guard = {
                struct Left;
                impl ::core::ops::Drop for Left {
                    fn drop(&mut self) { #log(#text, false) }
                }
                Left
            };
            #block
        }
    }
}
