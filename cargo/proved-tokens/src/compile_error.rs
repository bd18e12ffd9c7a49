//! What a macro answers for what it can't use.
use crate::declarations::compile_error;
use crate::pm_span::Span;
use crate::pm_stream::{TokenStream, TokenTree};
use crate::pm_token::Delimiter;
use core::fmt;
use std::string::{String, ToString};
use std::vec::Vec;

/// What is wrong with what a macro was given: one message or several, each at a place, which the compiler shows there.
///
/// It is what `syn::Error` is over syn. The errors and faults of this library become one by `?`, each at the place that
/// it knows, or else at the call site.
///
/// ```
/// use proved_tokens::error::CompileError;
/// use proved_tokens::items::{parse_type_item, Body};
/// use proved_tokens::TokenStream;
///
/// fn names(item: &TokenStream) -> Result<TokenStream, CompileError> {
///     let item = parse_type_item(item.trees())?; // a fault of the grammar, where it is
///     let Body::Enum(_) = item.body else {
///         return Err(CompileError::new(item.keyword.span(), "names are for enums"));
///     };
///     Ok(TokenStream::new())
/// }
///
/// let error = names(&"struct S;".parse()?).unwrap_err();
/// assert_eq!(error.to_string(), "names are for enums");
/// assert_eq!(error.to_compile_error().to_string(), r#":: core :: compile_error ! { "names are for enums" }"#);
/// # Ok::<(), Box<dyn std::error::Error>>(())
/// ```
#[derive(Clone, Debug)]
pub struct CompileError {
    first: Message,
    others: Vec<Message>,
}

/// A text, and the first and the last token that it is about.
#[derive(Clone, Debug)]
struct Message {
    text: String,
    start: Span,
    end: Span,
}

impl CompileError {
    /// This text at the token with this span.
    ///
    /// ```
    /// use proved_tokens::error::CompileError;
    /// use proved_tokens::Span;
    ///
    /// let error = CompileError::new(Span::call_site(), format!("no field is named `{}`", "sise"));
    /// assert_eq!(error.to_string(), "no field is named `sise`");
    /// ```
    pub fn new(span: Span, text: impl fmt::Display) -> CompileError {
        CompileError { first: Message { text: text.to_string(), start: span, end: span }, others: Vec::new() }
    }

    /// This text at all of these trees: the compiler underlines from the first to the last. Without trees it is at the
    /// call site.
    ///
    /// A `macro_rules!` macro passes a fragment such as `$t` in a group without delimiters, whose own span is in that
    /// macro. So the trees in such a group count, not the group: the error is at the tokens of the macro's caller.
    ///
    /// ```
    /// use proved_tokens::error::CompileError;
    /// use proved_tokens::{SourceMap, TokenStream};
    ///
    /// let mut map = SourceMap::new();
    /// let stream = TokenStream::from_str("&'static str", &mut map)?;
    /// let error = CompileError::new_spanned(stream.trees(), "no reference").to_compile_error();
    /// let ends = [&error.trees()[0], &error.trees()[7]].map(|tree| tree.span().source_str(&map));
    /// assert_eq!(ends, [Some("&"), Some("str")]);
    /// # Ok::<(), Box<dyn std::error::Error>>(())
    /// ```
    pub fn new_spanned(trees: &[TokenTree], text: impl fmt::Display) -> CompileError {
        let mut error = CompileError::new(Span::call_site(), text);
        if let (Some(first), Some(last)) = (end_tree(trees, <[_]>::first), end_tree(trees, <[_]>::last)) {
            (error.first.start, error.first.end) = (first.span(), last.span());
        }
        error
    }

    /// The span of the first message: of its first token.
    ///
    /// ```
    /// use proved_tokens::error::CompileError;
    /// use proved_tokens::{SourceMap, TokenStream};
    ///
    /// let mut map = SourceMap::new();
    /// let stream = TokenStream::from_str("a b", &mut map)?;
    /// let error = CompileError::new(stream.trees()[1].span(), "no name is wanted");
    /// assert_eq!(error.span().source_str(&map), Some("b"));
    /// # Ok::<(), Box<dyn std::error::Error>>(())
    /// ```
    pub fn span(&self) -> Span {
        self.first.start
    }

    /// Adds the messages of the other error after its own. The compiler shows each.
    ///
    /// ```
    /// use proved_tokens::error::CompileError;
    /// use proved_tokens::Span;
    ///
    /// let mut error = CompileError::new(Span::call_site(), "no name");
    /// error.combine(CompileError::new(Span::call_site(), "no type"));
    /// let stream = error.to_compile_error().to_string();
    /// assert_eq!(stream, r#":: core :: compile_error ! { "no name" } :: core :: compile_error ! { "no type" }"#);
    /// ```
    pub fn combine(&mut self, other: CompileError) {
        self.others.push(other.first);
        self.others.extend(other.others);
    }

    /// The code that makes the compiler show each message at its place.
    ///
    /// ```
    /// use proved_tokens::error::CompileError;
    /// use proved_tokens::items::parse_type_item;
    /// use proved_tokens::TokenStream;
    ///
    /// let parsed: TokenStream = "struct {}".parse()?;
    /// let error = CompileError::from(parse_type_item(parsed.trees()).unwrap_err());
    /// let stream = error.to_compile_error();
    /// assert_eq!(stream.to_string(), r#":: core :: compile_error ! { "expected a name" }"#);
    /// # Ok::<(), Box<dyn std::error::Error>>(())
    /// ```
    pub fn to_compile_error(&self) -> TokenStream {
        let streams = core::iter::once(&self.first).chain(&self.others).map(|message| {
            let Ok(stream) = compile_error(&message.text, message.start);
            stream.into_iter().map(|mut tree| {
                if matches!(tree, TokenTree::Group(_)) {
                    tree.set_span(message.end);
                }
                tree
            })
        });
        streams.flatten().collect()
    }
}

/// The first or the last of the trees, at any depth in groups without delimiters that hold trees.
fn end_tree(trees: &[TokenTree], end: fn(&[TokenTree]) -> Option<&TokenTree>) -> Option<&TokenTree> {
    let mut tree = end(trees)?;
    while let TokenTree::Group(group) = tree {
        match end(group.stream_ref().trees()) {
            Some(inner) if group.delimiter() == Delimiter::None => tree = inner,
            _ => break,
        }
    }
    Some(tree)
}

/// The texts of all messages, each on a line of its own.
impl fmt::Display for CompileError {
    fn fmt(&self, f: &mut fmt::Formatter<'_>) -> fmt::Result {
        f.write_str(&self.first.text)?;
        self.others.iter().try_for_each(|message| write!(f, "\n{}", message.text))
    }
}

impl core::error::Error for CompileError {}

/// Errors that know a place, and those that know none.
macro_rules! errors {
    ($($(#[$attribute:meta])* $name:ty $(, $error:ident => $span:expr)?;)*) => {
        $(
            $(#[$attribute])*
            impl From<$name> for CompileError {
                #[inline]
                fn from(error: $name) -> CompileError {
                    let span: Option<Span> = None$(.or({
                        let $error = &error;
                        $span
                    }))?;
                    CompileError::new(span.unwrap_or_else(Span::call_site), error)
                }
            }
        )*
    };
}

errors! {
    crate::alloc_error::AllocError;
    crate::literal_escaper::EscapeError;
    crate::pm_token::ConversionErrorKind;
    crate::pm_token::IdentError;
    crate::pm_token::LexError, error => Some(error.span());
    crate::pm_token::ParseError, error => error.span();
    crate::declarations::Fault, error => error.span();
    crate::declarations::EntryError<'_>, error => error.span();
    #[cfg(feature = "item_headers")]
    crate::item_headers::HeaderError, error => error.span();
    #[cfg(feature = "quoting")]
    crate::quoting::QuoteError;
    #[cfg(feature = "quoting")]
    crate::quoting::TemplateError, error => error.span();
    #[cfg(feature = "quoting")]
    crate::quote::TemplateFault;
    #[cfg(feature = "token_buffer")]
    crate::token_buffer::BufferError, error => error.span();
    #[cfg(feature = "explain")]
    crate::explain::ExplainError;
    #[cfg(feature = "layout")]
    crate::layout::LayoutError;
    #[cfg(feature = "relayout")]
    crate::relayout::RelayoutError;
}
