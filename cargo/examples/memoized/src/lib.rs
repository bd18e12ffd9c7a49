//! An attribute macro with `proved-macros` that keeps the results of a function.
use proved_macros::expand_attribute;
use proved_macros::proved_tokens::error::CompileError;
use proved_macros::proved_tokens::items::{parse_function, Function, Parameter, ParameterKind, Parameters};
use proved_macros::proved_tokens::{format_ident, quote_spanned, Group, Span, TokenStream, TokenTree};

/// Keeps the result of a function for each list of arguments, in each thread.
///
/// The types of the arguments must implement `Clone`, `Eq` and `Hash`, and the type of the result `Clone`.
#[proc_macro_attribute]
pub fn memoized(arguments: proc_macro::TokenStream, item: proc_macro::TokenStream) -> proc_macro::TokenStream {
    expand_attribute(arguments, item, |_, item, spans| memo(item, spans.place(proc_macro2::Span::mixed_site())))
}

/// Returns the function with a new body, which calls an inner function with the old body. All new tokens have the
/// macro's own span.
fn memo(item: &TokenStream, own: Span) -> Result<TokenStream, CompileError> {
    let Function { attributes, visibility, qualifiers, name, generics, parameters, return_type, where_clause, body } =
        parse_function(item.trees())?;
    let ([], [], Some(body)) = (generics, where_clause, body) else {
        return Err(CompileError::new(name.span(), "a function with generics or without a body is not memoized"));
    };
    let kinds = kinds(parameters)?;
    let arguments: Vec<_> = (0..kinds.len()).map(|index| format_ident!("argument{}", index, span = own)).collect();
    let inside = format_ident!("{}_itself", name);
    let marked = qualifiers.iter().find(|tree| tree.to_string() == "unsafe");
    Ok(quote_spanned! {own=>
        #attributes #visibility #qualifiers fn #name(#( #arguments: #kinds ),*) -> (#return_type) {
            #qualifiers fn #inside #parameters -> (#return_type) #body
            ::std::thread_local! {
                static KEPT: ::std::cell::RefCell<::std::collections::HashMap<(#( #kinds, )*), (#return_type)>> =
                    ::std::default::Default::default();
            }
            let key = (#( ::std::clone::Clone::clone(&#arguments), )*);
            KEPT.with(|kept| kept.borrow().get(&key).cloned()).unwrap_or_else(|| {
                let value = #marked { #inside(#( #arguments ),*) };
                KEPT.with(|kept| kept.borrow_mut().insert(key, ::std::clone::Clone::clone(&value)));
                value
            })
        }
    })
}

/// Returns the types of the parameters.
fn kinds(parameters: &Group) -> Result<Vec<&[TokenTree]>, CompileError> {
    let kinds = Parameters::new(parameters).map(|parameter| match parameter? {
        Parameter { kind: ParameterKind::Typed(kind), .. } => Ok(kind),
        Parameter { pattern, .. } => Err(CompileError::new_spanned(pattern, "a parameter is a pattern and a type")),
    });
    kinds.collect()
}
