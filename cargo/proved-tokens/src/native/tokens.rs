//! Tokens and streams: how they are made of other values, and compared with them.
use crate::pm_span::{SourceMap, Span};
use crate::pm_stream::{Group, TokenStream, TokenTree};
use crate::pm_token::{Ident, IdentError, Literal, ParseError, Punct};
use core::str::FromStr;

/// The stream that the text parses to. Its spans belong to no map: [`TokenStream::from_str`] with a map gives such.
impl FromStr for TokenStream {
    type Err = ParseError;

    fn from_str(text: &str) -> Result<TokenStream, ParseError> {
        TokenStream::parse_unmapped(text)
    }
}

/// The literal that the whole text is. Its span belongs to no map: [`Literal::from_str`] with a map gives such.
impl FromStr for Literal {
    type Err = ParseError;

    fn from_str(text: &str) -> Result<Literal, ParseError> {
        Literal::from_str(text, &mut SourceMap::new())
    }
}

/// No trees.
impl Default for TokenStream {
    fn default() -> TokenStream {
        TokenStream::new()
    }
}

/// No files.
impl Default for SourceMap {
    fn default() -> SourceMap {
        SourceMap::new()
    }
}

/// The stream of this tree alone. A negative literal is its `-` and the rest.
impl From<TokenTree> for TokenStream {
    fn from(tree: TokenTree) -> TokenStream {
        let Ok(stream) = TokenStream::from_tree(tree);
        stream
    }
}

/// The stream of copies of these trees.
impl From<&[TokenTree]> for TokenStream {
    fn from(trees: &[TokenTree]) -> TokenStream {
        trees.iter().cloned().collect()
    }
}

/// The stream of one token.
macro_rules! streams {
    ($($token:ident)*) => {
        $(
            /// The stream of this token alone.
            impl From<$token> for TokenStream {
                #[inline]
                fn from(token: $token) -> TokenStream {
                    TokenTree::from(token).into()
                }
            }
        )*
    };
}

streams! { Group Ident Punct Literal }

/// The string literal of a text.
impl From<&str> for Literal {
    fn from(text: &str) -> Literal {
        let Ok(literal) = Literal::string(text);
        literal
    }
}

/// The identifier with this name, at no place.
impl TryFrom<&str> for Ident {
    type Error = IdentError;

    fn try_from(name: &str) -> Result<Ident, IdentError> {
        Ident::new(name, Span::call_site())
    }
}

/// Whether the identifier is written so: [`eq_str`](Ident::eq_str).
impl PartialEq<str> for Ident {
    fn eq(&self, name: &str) -> bool {
        self.eq_str(name)
    }
}

/// Whether the identifier is written so: [`eq_str`](Ident::eq_str).
impl PartialEq<&str> for Ident {
    fn eq(&self, name: &&str) -> bool {
        self.eq_str(name)
    }
}

#[cfg(feature = "quoting")]
/// A builder with no trees.
impl Default for crate::quoting::Quote {
    fn default() -> crate::quoting::Quote {
        crate::quoting::Quote::new()
    }
}
