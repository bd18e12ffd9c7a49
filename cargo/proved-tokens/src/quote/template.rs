//! Templates that are parsed once and filled often.
use crate::pm_span::parts::{bounds, span_of};
use crate::pm_span::{SourceMap, Span};
use crate::pm_stream::{Group, TokenStream, TokenTree};
use crate::pm_token::{Delimiter, Punct, Spacing};
use crate::quote::{Holes, TemplateFault};
use crate::quoting::{Quote, TemplateError};
use std::string::String;
use std::vec::Vec;

/// A template that is parsed once and can be filled any number of times.
///
/// Its memory does not grow when it is filled. In a template `#name` is a hole. `#( .. )*` and `#( .. ),*` repeat the
/// trees inside for each value of the lists that are named there, with the mark between two turns. A list is used up by
/// the outermost repetition that names it. Any other `#` is an ordinary token.
///
/// ```
/// use proved_tokens::quote::{Holes, Template};
/// use proved_tokens::Ident;
///
/// let template = Template::parse("
///     fn #name() {
///         #field
///     }")?;
/// for name in ["x", "y"] {
///     let holes = Holes::new().with("name", name).with("field", &1u8);
///     assert_eq!(template.fill(&holes)?.to_string(), format!("fn {name:?} () {{ 1u8 }}"));
/// }
/// let fault = template.fill(&Holes::new().with("name", "x").with("feild", &1u8)).unwrap_err();
/// let told = "template, line 3, column 10: no hole is named `field`; did you mean `feild`?";
/// assert_eq!(fault.to_string(), told);
/// # Ok::<(), Box<dyn std::error::Error>>(())
/// ```
#[derive(Clone)]
pub struct Template {
    /// The trees, which have the span of the call site.
    stream: TokenStream,
    /// The text, if the template was parsed from one.
    text: Option<String>,
    /// The separators of repetitions that are not a single mark, which `Quote::fill` does not know. In the trees a
    /// comma replaces each of them. The comma's span shows which separator it is.
    separators: Vec<TokenStream>,
}

impl Template {
    /// Parses the text of a template. Its tokens get the span of the call site.
    ///
    /// # Errors
    ///
    /// Fails if the text cannot be parsed. The error has its line and column.
    ///
    /// ```
    /// use proved_tokens::quote::Template;
    ///
    /// let fault = Template::parse("fn f() {\n    x )").err().ok_or("it has a fault")?;
    /// assert_eq!(fault.to_string(), "template, line 2, column 7: cannot parse string into token stream");
    /// # Ok::<(), Box<dyn std::error::Error>>(())
    /// ```
    pub fn parse(text: &str) -> Result<Template, TemplateFault> {
        let mut map = SourceMap::new();
        match TokenStream::from_str(text, &mut map) {
            Ok(stream) => {
                let (stream, text) = (respanned(&stream, &mut |_| Span::call_site()), Some(text.into()));
                Ok(Template { stream, text, separators: Vec::new() })
            }
            Err(error) => Err(TemplateFault::of_text(error, &map)),
        }
    }

    /// Returns the template with its holes filled.
    ///
    /// The template's own tokens have the span of the call site. The tokens of holes keep their spans.
    ///
    /// # Errors
    ///
    /// Fails with the first error, which has its line, its column and the name of the hole.
    ///
    /// ```
    /// use proved_tokens::quote::{Holes, Template};
    ///
    /// let template = Template::parse("[ #( #a = #b ),* ]")?;
    /// let holes = Holes::new().with("a", &[1u8, 2, 3]).with("b", &["x", "y"]);
    /// let told = "template, line 1, column 12: `a` has 3 values and `b` has 2";
    /// assert_eq!(template.fill(&holes).unwrap_err().to_string(), told);
    /// # Ok::<(), Box<dyn std::error::Error>>(())
    /// ```
    pub fn fill(&self, holes: &Holes<'_>) -> Result<TokenStream, TemplateFault> {
        match filled(&self.stream, holes) {
            Ok(stream) if self.separators.is_empty() => Ok(stream),
            Ok(stream) => Ok(separated(&stream, &self.separators)),
            Err(error) => Err(self.located(error, holes)),
        }
    }

    /// Returns the template with its holes filled, and with the given span on the template's own tokens.
    ///
    /// ```
    /// use proved_tokens::quote::{Holes, Template};
    /// use proved_tokens::{SourceMap, TokenStream};
    ///
    /// let mut map = SourceMap::new();
    /// let kind = TokenStream::from_str("Vec<u8>", &mut map)?;
    /// let template = Template::parse("is_sync::<#kind>")?;
    /// let made = template.fill_at(kind.trees()[0].span(), &Holes::new().with("kind", &kind))?;
    /// let texts: Vec<_> = made.trees().iter().map(|tree| tree.span().source_str(&map).unwrap_or("")).collect();
    /// assert_eq!(texts, ["Vec", "Vec", "Vec", "Vec", "Vec", "<", "u8", ">", "Vec"]);
    /// # Ok::<(), Box<dyn std::error::Error>>(())
    /// ```
    pub fn fill_at(&self, span: Span, holes: &Holes<'_>) -> Result<TokenStream, TemplateFault> {
        self.at(span).fill(holes)
    }

    /// Returns the template with this span on its tokens.
    #[doc(hidden)]
    pub fn at(&self, span: Span) -> Template {
        let separators = self.separators.iter().map(|separator| respanned(separator, &mut |_| span)).collect();
        let stream = respanned(&self.stream, &mut |was| separator_of(was).map_or(span, |_| was));
        Template { stream, text: self.text.clone(), separators }
    }

    /// Returns the template of these pieces, which `quote!` makes from its tokens.
    #[doc(hidden)]
    pub fn of(pieces: &[Piece<'_>]) -> Template {
        let mut separators = Vec::new();
        Template { stream: joined(pieces, &mut separators), text: None, separators }
    }

    /// Returns the error of filling the template, with its position and its name. To find them, the template is filled
    /// again with a different span on each token.
    #[cold]
    fn located(&self, error: TemplateError, holes: &Holes<'_>) -> TemplateFault {
        let mut map = SourceMap::new();
        let placed = match &self.text {
            Some(text) => TokenStream::from_str(text, &mut map).ok(),
            None => {
                let mut number = 0;
                Some(respanned(&self.stream, &mut |_| {
                    number += 1;
                    span_of(number, number + 1)
                }))
            }
        };
        let placed = placed.unwrap_or_default();
        let error = filled(&placed, holes).err().unwrap_or(error);
        TemplateFault::of_filling(error, &placed, holes, self.text.is_some().then_some(&map))
    }
}

/// Returns the trees with their holes filled.
fn filled(stream: &TokenStream, holes: &Holes<'_>) -> Result<TokenStream, TemplateError> {
    let mut quote = Quote::new();
    quote.fill(stream, &holes.as_list())?;
    Ok(quote.into_stream())
}

/// Returns the trees with other spans, which the function makes from the old ones.
fn respanned(stream: &TokenStream, span: &mut impl FnMut(Span) -> Span) -> TokenStream {
    let each = stream.trees().iter().map(|tree| {
        let place = span(tree.span());
        let mut tree = match tree {
            TokenTree::Group(group) => Group::new(group.delimiter(), respanned(group.stream_ref(), span)).into(),
            token => token.clone(),
        };
        tree.set_span(place);
        tree
    });
    each.collect()
}

/// Returns the span of the comma that replaces this separator. It is an empty one near the last position of a map.
fn span_of_separator(index: usize) -> Span {
    let at = u32::MAX - u32::try_from(index).expect("a template has fewer repetitions");
    span_of(at, at)
}

/// Returns the index of the separator that is replaced by the comma with this span.
fn separator_of(span: Span) -> Option<usize> {
    let (lo, hi) = bounds(span);
    (lo == hi && lo > u32::MAX / 2).then_some((u32::MAX - lo) as usize)
}

/// Returns the trees with the separators instead of the commas that replaced them.
fn separated(stream: &TokenStream, separators: &[TokenStream]) -> TokenStream {
    let mut out = TokenStream::new();
    for tree in stream.trees() {
        match (tree, separator_of(tree.span()).and_then(|index| separators.get(index))) {
            (TokenTree::Punct(_), Some(separator)) => out.extend([separator.clone()]),
            (TokenTree::Group(group), _) => {
                let mut made = Group::new(group.delimiter(), separated(group.stream_ref(), separators));
                made.set_span(group.span());
                out.extend([made]);
            }
            (token, _) => out.extend([token.clone()]),
        }
    }
    out
}

/// A tree of the tokens that `quote!` gets.
#[doc(hidden)]
pub enum Piece<'a> {
    /// The text of a token, or of the tokens that a `macro_rules!` macro passes as one.
    Token(&'a str),
    Group(Delimiter, &'a [Piece<'a>]),
}

/// Returns the trees of the pieces, and adds the separators that are not a single mark to the list. Marks of different
/// pieces do not join.
fn joined(pieces: &[Piece<'_>], separators: &mut Vec<TokenStream>) -> TokenStream {
    let mut stream = TokenStream::new();
    for (index, piece) in pieces.iter().enumerate() {
        match piece {
            Piece::Group(delimiter, inside) => {
                stream.extend([Group::new(*delimiter, joined(inside, separators))]);
            }
            Piece::Token(text) => {
                let read = TokenStream::parse_unmapped(text).expect("the compiler read it as a token");
                let read = respanned(&read, &mut |_| Span::call_site());
                let is_mark = matches!(read.trees(), [TokenTree::Punct(_)]);
                if is_mark || !is_separator(&pieces[..index], pieces.get(index + 1)) {
                    stream.extend([read]);
                    continue;
                }
                let mut comma = Punct::new(',', Spacing::Alone);
                comma.set_span(span_of_separator(separators.len()));
                stream.extend([comma]);
                separators.push(read);
            }
        }
    }
    stream
}

/// Returns whether the piece between these pieces is the separator of a repetition.
fn is_separator(before: &[Piece<'_>], after: Option<&Piece<'_>>) -> bool {
    matches!(before, [.., Piece::Token("#"), Piece::Group(Delimiter::Parenthesis, _)])
        && matches!(after, Some(Piece::Token("*")))
}
