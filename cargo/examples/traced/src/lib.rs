//! An attribute that wraps a function's body, over `proved-macros`, which needs neither syn nor quote. What the
//! function is comes from the proved `parse_function`; all of its tokens but the braces stay as they are.
use proved_macros::expand_attribute;
use proved_macros::proved_tokens::error::CompileError;
use proved_macros::proved_tokens::items::{parse_function, Function};
use proved_macros::proved_tokens::{format_ident, quote, Delimiter, Group, Ident, Span, TokenStream};

/// `#[traced(log)]` calls `log(name, true)` when the function begins, and `log(name, false)` when it is left: at its
/// end, by `return`, by `?` or by a panic.
#[proc_macro_attribute]
pub fn traced(log: proc_macro::TokenStream, item: proc_macro::TokenStream) -> proc_macro::TokenStream {
    expand_attribute(log, item, |log, item, spans| wrapped(log, item, spans.place(proc_macro2::Span::mixed_site())))
}

/// The function with its new body, whose variable has the macro's own span. The old body stays whole in it, because
/// rustc forgets which operands `$e:expr` holds together when a macro makes the group around it anew.
fn wrapped(log: &TokenStream, item: &TokenStream, own: Span) -> Result<TokenStream, CompileError> {
    let trees = item.trees();
    let (Ok(Function { name, body: Some(body), .. }), [head @ .., _]) = (parse_function(trees), trees) else {
        return Err(CompileError::new_spanned(trees, "only a function with a body is traced"));
    };
    let prologue = prologue(log, name, own);
    let mut braces = Group::new(Delimiter::Brace, quote! { #prologue #body });
    braces.set_span(body.span());
    Ok(quote! { #[allow(unused_braces, unused_doc_comments)] #head #braces })
}

/// What comes before the old statements, which see none of its names. The guard speaks however the body is left.
fn prologue(log: &TokenStream, name: &Ident, own: Span) -> TokenStream {
    let (text, guard) = (name.to_string(), format_ident!("_guard", span = own));
    quote! {
        #log(#text, true);
        let #guard = {
            struct Left;
            impl ::core::ops::Drop for Left {
                fn drop(&mut self) { #log(#text, false) }
            }
            Left
        };
    }
}
