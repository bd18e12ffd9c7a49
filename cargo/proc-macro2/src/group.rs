//! Groups of trees.
use crate::extra::DelimSpan;
use crate::map::sure;
use crate::repr::{show, token, Repr};
use crate::span::Repr as SpanRepr;
use crate::{compiler, print, Delimiter, Group, Span, TokenStream};
use proc_macro::Delimiter as CompilerDelimiter;
use proved_tokens::pm_stream::Group as Own;
use std::fmt::{self, Debug, Display};

token!(Group, Own);

impl Group {
    /// A group of these trees, with the span of the macro's call.
    pub fn new(delimiter: Delimiter, stream: TokenStream) -> Group {
        match stream.repr {
            Repr::Compiler(stream) => {
                let delimiter = match delimiter {
                    Delimiter::Parenthesis => CompilerDelimiter::Parenthesis,
                    Delimiter::Brace => CompilerDelimiter::Brace,
                    Delimiter::Bracket => CompilerDelimiter::Bracket,
                    Delimiter::None => CompilerDelimiter::None,
                };
                Group::compiler(proc_macro::Group::new(delimiter, stream.finish()))
            }
            Repr::Own(stream) => Group::own(Own::new(delimiter, stream)),
        }
    }

    /// What stands around its trees.
    pub fn delimiter(&self) -> Delimiter {
        match &self.repr {
            Repr::Compiler(group) => match group.delimiter() {
                CompilerDelimiter::Parenthesis => Delimiter::Parenthesis,
                CompilerDelimiter::Brace => Delimiter::Brace,
                CompilerDelimiter::Bracket => Delimiter::Bracket,
                CompilerDelimiter::None => Delimiter::None,
            },
            Repr::Own(group) => group.delimiter(),
        }
    }

    /// Its trees, without the delimiters.
    pub fn stream(&self) -> TokenStream {
        match &self.repr {
            Repr::Compiler(group) => TokenStream::compiler(group.stream()),
            Repr::Own(group) => TokenStream::own(sure(group.stream())),
        }
    }

    /// Where its opening delimiter stands.
    pub fn span_open(&self) -> Span {
        match &self.repr {
            Repr::Compiler(group) => Span::compiler(group.span_open()),
            Repr::Own(group) => Span::own(group.span_open()),
        }
    }

    /// Where its closing delimiter stands.
    pub fn span_close(&self) -> Span {
        match &self.repr {
            Repr::Compiler(group) => Span::compiler(group.span_close()),
            Repr::Own(group) => Span::own(group.span_close()),
        }
    }

    /// Its span, together with those of its delimiters.
    pub fn delim_span(&self) -> DelimSpan {
        let (join, open, close) = (self.span(), self.span_open(), self.span_close());
        DelimSpan { join, open, close }
    }
}

show! {
    /// Prints it with its delimiters, braces with a space inside each.
    Display for Group: group, f => Display::fmt(group, f)
}
show!(Debug for Group: group, f => print::show_group(group, f));
