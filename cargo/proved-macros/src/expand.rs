//! Macros as functions over proved streams.
use crate::{from_proved, to_proved, NoToken, Spans};
use proc_macro2::Span;
use proved_tokens::error::CompileError;
use proved_tokens::TokenStream;

/// The answer of a macro by derive, or of one that is called like a function: the code that is made of its input, or
/// the errors, which the compiler shows at the caller's tokens.
///
/// The streams are those of `proc_macro` or of the caller's `proc-macro2`. The second argument of the function has the
/// caller's spans, for tokens that need one of their own.
///
/// ```
/// use proved_macros::expand;
/// use proved_macros::proved_tokens::error::CompileError;
/// use proved_macros::proved_tokens::items::{impl_header, parse_type_item};
/// use proved_macros::proved_tokens::{Delimiter, Group, TokenStream};
///
/// // In the crate of a macro: `#[proc_macro_derive(Marked)]`, over `proc_macro::TokenStream`.
/// fn derive_marked(item: proc_macro2::TokenStream) -> proc_macro2::TokenStream {
///     expand(item, |item, _| marked(item))
/// }
///
/// fn marked(item: &TokenStream) -> Result<TokenStream, CompileError> {
///     let item = parse_type_item(item.trees())?;
///     let mut code = impl_header(&item, &"Marked".parse()?)?;
///     code.extend([Group::new(Delimiter::Brace, TokenStream::new())]);
///     Ok(code)
/// }
///
/// let code = derive_marked("struct S<T>(T);".parse()?);
/// assert_eq!(code.to_string(), "impl < T > Marked for S < T > { }");
/// let told = derive_marked("struct {}".parse()?);
/// assert_eq!(told.to_string(), r#":: core :: compile_error ! { "expected a name" }"#);
/// # Ok::<(), Box<dyn std::error::Error>>(())
/// ```
pub fn expand<S>(input: S, code: impl FnOnce(&TokenStream, &mut Spans) -> Result<TokenStream, CompileError>) -> S
where
    S: Into<proc_macro2::TokenStream> + From<proc_macro2::TokenStream>,
{
    let mut spans = Spans::new();
    let code = read(input, &mut spans).and_then(|input| code(&input, &mut spans));
    answer(code, spans)
}

/// The answer of an attribute, as [`expand`] gives that of a derive. The function gets what stands in the attribute
/// after its path, without delimiters, and the item.
///
/// ```
/// use proved_macros::expand_attribute;
/// use proved_macros::proved_tokens::error::CompileError;
///
/// // In the crate of a macro: `#[proc_macro_attribute]`, over `proc_macro::TokenStream`.
/// fn kept(arguments: proc_macro2::TokenStream, item: proc_macro2::TokenStream) -> proc_macro2::TokenStream {
///     expand_attribute(arguments, item, |arguments, item, _| match arguments.trees() {
///         [] => Ok(item.clone()),
///         trees => Err(CompileError::new_spanned(trees, "it has no arguments")),
///     })
/// }
///
/// assert_eq!(kept("".parse()?, "fn f() {}".parse()?).to_string(), "fn f () { }");
/// let told = kept("all".parse()?, "fn f() {}".parse()?);
/// assert_eq!(told.to_string(), r#":: core :: compile_error ! { "it has no arguments" }"#);
/// # Ok::<(), Box<dyn std::error::Error>>(())
/// ```
pub fn expand_attribute<S>(
    arguments: S,
    item: S,
    code: impl FnOnce(&TokenStream, &TokenStream, &mut Spans) -> Result<TokenStream, CompileError>,
) -> S
where
    S: Into<proc_macro2::TokenStream> + From<proc_macro2::TokenStream>,
{
    let mut spans = Spans::new();
    let code = read(arguments, &mut spans).and_then(|arguments| {
        let item = read(item, &mut spans)?;
        code(&arguments, &item, &mut spans)
    });
    answer(code, spans)
}

/// The caller's stream as a proved one.
fn read<S: Into<proc_macro2::TokenStream>>(stream: S, spans: &mut Spans) -> Result<TokenStream, CompileError> {
    to_proved(&stream.into(), spans).map_err(|error| note(error, spans))
}

/// The code, or the errors, as the caller's stream.
fn answer<S: From<proc_macro2::TokenStream>>(code: Result<TokenStream, CompileError>, mut spans: Spans) -> S {
    let answer = match code {
        Ok(code) => from_proved(&code, &spans),
        Err(error) => error_stream(&error, &spans),
    };
    let answer = answer.or_else(|error| {
        let note = note(error, &mut spans);
        error_stream(&note, &spans)
    });
    S::from(answer.expect("each crate has the tokens of an error"))
}

/// The errors as the caller's stream. Its paths `::core` are resolved at the call site, and only placed at the caller's
/// tokens, since in edition 2015 a path with the caller's spans begins in the caller's crate.
fn error_stream(error: &CompileError, spans: &Spans) -> Result<proc_macro2::TokenStream, NoToken> {
    let code = from_proved(&error.to_compile_error(), spans)?;
    let call_site = Span::call_site();
    Ok(code
        .into_iter()
        .map(|mut tree| {
            tree.set_span(call_site.located_at(tree.span()));
            tree
        })
        .collect())
}

/// The error of a token, at its place.
fn note(error: NoToken, spans: &mut Spans) -> CompileError {
    CompileError::new(spans.place(error.span()), error)
}
