//! Parts of items as both sides name and print them.
use crate::ours::Piece;
use proc_macro2::{Delimiter, TokenStream, TokenTree};
use proved_tokens::pm_stream::TokenTree as OwnTree;
use proved_tokens::pm_token::Delimiter as OwnDelimiter;
use std::fmt::{Display, Write};

/// What a part is, and its tokens with a space after each. A part that is left out has none.
#[derive(PartialEq)]
pub struct Part {
    pub name: &'static str,
    pub tokens: String,
}

impl Part {
    /// A part as syn prints it.
    pub fn of_stream(name: &'static str, tokens: TokenStream) -> Part {
        let mut part = Part { name, tokens: String::new() };
        part.push_stream(tokens);
        part
    }

    /// A part that ours finds.
    pub fn of_piece(name: &'static str, piece: Piece) -> Part {
        let mut part = Part { name, tokens: String::new() };
        match piece {
            Piece::Trees(trees) => part.push_trees(trees),
            Piece::Name(ident) => part.push(ident),
            Piece::Delimiters(Some(delimiter)) => delimiters(delimiter).into_iter().for_each(|mark| part.push(mark)),
            Piece::Delimiters(None) => {}
            Piece::Dots => (0..3).for_each(|_| part.push('.')),
        }
        part
    }

    fn push_stream(&mut self, stream: TokenStream) {
        for tree in stream {
            match tree {
                TokenTree::Group(group) => {
                    let [open, close] = delimiters(match group.delimiter() {
                        Delimiter::Parenthesis => OwnDelimiter::Parenthesis,
                        Delimiter::Brace => OwnDelimiter::Brace,
                        Delimiter::Bracket => OwnDelimiter::Bracket,
                        Delimiter::None => OwnDelimiter::None,
                    });
                    self.push(open);
                    self.push_stream(group.stream());
                    self.push(close);
                }
                token => self.push(token),
            }
        }
    }

    fn push_trees(&mut self, trees: &[OwnTree]) {
        for tree in trees {
            match tree {
                OwnTree::Group(group) => {
                    let [open, close] = delimiters(group.delimiter());
                    self.push(open);
                    self.push_trees(group.stream_ref().trees());
                    self.push(close);
                }
                OwnTree::Ident(ident) => self.push(ident),
                OwnTree::Punct(punct) => self.push(punct.as_char()),
                OwnTree::Literal(literal) => self.push(literal.text()),
            }
        }
    }

    fn push(&mut self, token: impl Display) {
        write!(self.tokens, "{token} ").expect("a string takes all text");
    }
}

fn delimiters(delimiter: OwnDelimiter) -> [char; 2] {
    match delimiter {
        OwnDelimiter::Parenthesis => ['(', ')'],
        OwnDelimiter::Brace => ['{', '}'],
        OwnDelimiter::Bracket => ['[', ']'],
        OwnDelimiter::None => ['«', '»'],
    }
}
