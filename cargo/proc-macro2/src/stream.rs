//! Streams of token trees.
use crate::compiler::{self, inside_alone};
use crate::map::{self, sure};
use crate::print::ShownStream;
use crate::repr::{show, Repr};
use crate::{Group, Ident, LexError, Literal, Punct, TokenStream, TokenTree};
use proved_tokens::pm_stream::{parts, token_stream::IntoIter as OwnIter, TokenStream as Own, TokenTree as OwnTree};
use std::fmt::{self, Debug, Display};
use std::str::FromStr;

impl TokenStream {
    /// A stream with no trees.
    #[inline]
    pub fn new() -> TokenStream {
        if compiler::inside() {
            return TokenStream::compiler(proc_macro::TokenStream::new());
        }
        TokenStream::own(Own::new())
    }

    pub(crate) fn compiler(stream: proc_macro::TokenStream) -> TokenStream {
        TokenStream { repr: Repr::Compiler(compiler::Stream::new(stream)) }
    }

    #[inline]
    pub(crate) fn own(stream: Own) -> TokenStream {
        TokenStream { repr: Repr::Own(stream) }
    }

    /// Puts a tree at the end. Each kind goes its own way, so that a tree of any kind need not be put together between.
    // Inlined, so that where the tree's kind is known the way of that kind alone is left.
    #[inline(always)]
    fn push(&mut self, tree: TokenTree) {
        let own = match &mut self.repr {
            Repr::Compiler(stream) => return inside_alone(|| stream.push(tree)),
            Repr::Own(own) => own,
        };
        sure(match tree {
            TokenTree::Group(group) => parts::put_group(own, group.repr.into_own()),
            TokenTree::Ident(ident) => parts::put_ident(own, ident.repr.into_own()),
            TokenTree::Punct(punct) => parts::put_punct(own, punct.repr.into_own()),
            TokenTree::Literal(literal) => parts::put_literal(own, literal.repr.into_own()),
        });
    }

    /// Puts a tree and what follows it at the end.
    // One function for iterators of all kinds, so that a caller has no loop of its own to compile.
    #[inline(never)]
    fn push_all(&mut self, tree: TokenTree, more: &mut dyn Iterator<Item = TokenTree>) {
        self.push(tree);
        more.for_each(|tree| self.push(tree));
    }

    /// Whether it has no trees.
    pub fn is_empty(&self) -> bool {
        match &self.repr {
            Repr::Compiler(stream) => stream.is_empty(),
            Repr::Own(stream) => stream.is_empty(),
        }
    }
}

impl Default for TokenStream {
    fn default() -> TokenStream {
        TokenStream::new()
    }
}

impl FromStr for TokenStream {
    type Err = LexError;

    /// The trees of a text. It is read by the proved functions, and inside a macro then by the compiler.
    ///
    /// ```
    /// use proc_macro2::TokenStream;
    ///
    /// assert!("(]".parse::<TokenStream>().is_err());
    /// assert!("\"no end".parse::<TokenStream>().is_err());
    /// ```
    fn from_str(src: &str) -> Result<TokenStream, LexError> {
        if compiler::inside() {
            return compiler::read(src, map::is_readable(src)).map(TokenStream::compiler);
        }
        map::read(src).map(TokenStream::own).map_err(|error| LexError::own(map::place_of(error)))
    }
}

#[cfg(feature = "proc-macro")]
impl From<proc_macro::TokenStream> for TokenStream {
    fn from(stream: proc_macro::TokenStream) -> TokenStream {
        if cfg!(procmacro2_semver_exempt) {
            return stream.to_string().parse().expect("the compiler prints what can be read");
        }
        TokenStream::compiler(stream)
    }
}

#[cfg(feature = "proc-macro")]
impl From<TokenStream> for proc_macro::TokenStream {
    fn from(stream: TokenStream) -> proc_macro::TokenStream {
        match stream.repr {
            Repr::Compiler(stream) => stream.finish(),
            Repr::Own(_) => stream.to_string().parse().expect("the compiler reads what is printed"),
        }
    }
}

impl From<TokenTree> for TokenStream {
    #[inline]
    fn from(tree: TokenTree) -> TokenStream {
        TokenStream::from_iter(Some(tree))
    }
}

impl FromIterator<TokenTree> for TokenStream {
    fn from_iter<I: IntoIterator<Item = TokenTree>>(trees: I) -> TokenStream {
        let mut stream = TokenStream::new();
        stream.extend(trees);
        stream
    }
}

impl FromIterator<TokenStream> for TokenStream {
    fn from_iter<I: IntoIterator<Item = TokenStream>>(streams: I) -> TokenStream {
        let mut streams = streams.into_iter();
        // What was asked to the end is not asked again: that of `collect::<Result<TokenStream, _>>()` would go on
        // after an error.
        streams.next().map_or_else(TokenStream::new, |mut stream| {
            stream.extend(streams);
            stream
        })
    }
}

/// Puts the trees at the end. A negative number stands there as the mark `-` and the rest.
///
/// ```
/// use proc_macro2::{Literal, Punct, Spacing, TokenStream, TokenTree};
///
/// let mut stream: TokenStream = "x =".parse()?;
/// let one = TokenTree::Literal(Literal::u8_suffixed(1));
/// stream.extend([one, TokenTree::Punct(Punct::new(';', Spacing::Alone))]);
/// assert_eq!(stream.to_string(), "x = 1u8 ;");
/// # Ok::<(), proc_macro2::LexError>(())
/// ```
impl Extend<TokenTree> for TokenStream {
    // `quote!` puts in most trees one at a time, so of one tree nothing is left but to push it.
    #[inline(always)]
    fn extend<I: IntoIterator<Item = TokenTree>>(&mut self, trees: I) {
        let mut trees = trees.into_iter();
        let Some(first) = trees.next() else { return };
        self.push(first);
        let Some(second) = trees.next() else { return };
        self.push_all(second, &mut trees);
    }
}

impl Extend<TokenStream> for TokenStream {
    fn extend<I: IntoIterator<Item = TokenStream>>(&mut self, streams: I) {
        let streams = streams.into_iter();
        match &mut self.repr {
            Repr::Compiler(stream) => stream.append(&mut { streams }),
            Repr::Own(own) => sure(own.extend_streams(streams.map(|more| more.repr.into_own()))),
        }
    }
}

macro_rules! extend {
    ($($token:ident)*) => {$(
        impl Extend<$token> for TokenStream {
            fn extend<I: IntoIterator<Item = $token>>(&mut self, tokens: I) {
                self.extend(tokens.into_iter().map(TokenTree::$token));
            }
        }
    )*};
}

extend!(Group Ident Punct Literal);

/// Prints the trees with a space between two, but none after a mark that is joint to what follows.
///
/// ```
/// use proc_macro2::TokenStream;
///
/// let stream: TokenStream = "a+=b.c::<D>()".parse()?;
/// assert_eq!(stream.to_string(), "a += b . c ::< D > ()"); // the second `:` is joint to `<`
/// # Ok::<(), proc_macro2::LexError>(())
/// ```
impl Display for TokenStream {
    fn fmt(&self, f: &mut fmt::Formatter) -> fmt::Result {
        match &self.repr {
            Repr::Compiler(stream) => Display::fmt(&stream.clone().finish(), f),
            Repr::Own(stream) => Display::fmt(stream, f),
        }
    }
}

show!(Debug for TokenStream: stream, f => Debug::fmt(&ShownStream(stream), f));

/// The trees of a stream that are left, in order. A group comes whole.
///
/// ```
/// use proc_macro2::{TokenStream, TokenTree};
///
/// let stream: TokenStream = "f(x, y)".parse()?;
/// let mut trees = stream.into_iter();
/// assert!(matches!(trees.next(), Some(TokenTree::Ident(name)) if name == "f"));
/// assert!(matches!(trees.next(), Some(TokenTree::Group(_))));
/// assert!(trees.next().is_none());
/// # Ok::<(), proc_macro2::LexError>(())
/// ```
#[derive(Clone)]
pub struct IntoIter {
    left: Repr<proc_macro::token_stream::IntoIter, OwnIter>,
}

impl IntoIterator for TokenStream {
    type Item = TokenTree;
    type IntoIter = IntoIter;

    #[inline]
    fn into_iter(self) -> IntoIter {
        let left = match self.repr {
            Repr::Compiler(stream) => Repr::Compiler(stream.finish().into_iter()),
            Repr::Own(stream) => Repr::Own(stream.into_iter()),
        };
        IntoIter { left }
    }
}

impl Iterator for IntoIter {
    type Item = TokenTree;

    #[inline]
    fn next(&mut self) -> Option<TokenTree> {
        match &mut self.left {
            Repr::Own(trees) => trees.next().map(of_own),
            Repr::Compiler(trees) => next_inside(trees),
        }
    }

    fn size_hint(&self) -> (usize, Option<usize>) {
        match &self.left {
            Repr::Own(trees) => trees.size_hint(),
            Repr::Compiler(trees) => trees.size_hint(),
        }
    }
}

/// The next tree of the compiler's.
#[cold]
fn next_inside(trees: &mut proc_macro::token_stream::IntoIter) -> Option<TokenTree> {
    Some(match trees.next()? {
        proc_macro::TokenTree::Group(group) => TokenTree::Group(Group::compiler(group)),
        proc_macro::TokenTree::Ident(ident) => TokenTree::Ident(Ident::compiler(ident)),
        proc_macro::TokenTree::Literal(literal) => TokenTree::Literal(Literal::compiler(literal)),
        proc_macro::TokenTree::Punct(punct) => TokenTree::Punct(Punct::compiler(punct)),
    })
}

/// A tree of the proved functions.
#[inline]
fn of_own(tree: OwnTree) -> TokenTree {
    match tree {
        OwnTree::Group(group) => TokenTree::Group(Group::own(group)),
        OwnTree::Ident(ident) => TokenTree::Ident(Ident::own(ident)),
        OwnTree::Punct(punct) => TokenTree::Punct(Punct::own(punct)),
        OwnTree::Literal(literal) => TokenTree::Literal(Literal::own(literal)),
    }
}

impl Debug for IntoIter {
    fn fmt(&self, f: &mut fmt::Formatter) -> fmt::Result {
        f.write_str("TokenStream ")?;
        f.debug_list().entries(self.clone()).finish()
    }
}
