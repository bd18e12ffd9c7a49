//! Lists of trees: how they are noted, and what the crate makes of them.
//!
//! A tree of a list stands on a line of its own, as a word, a space and its text. A group stands on several: its
//! opener, the trees inside, and its closer.
//!
//! | Line | Tree |
//! |---|---|
//! | `ident a`, `raw a` | the identifier, and the raw one |
//! | `alone +`, `joint +` | the mark |
//! | `literal "a"` | the literal of that text |
//! | `integer -3i32`, `integer -3` | what the constructor of that suffix makes of a number from -128 to 127 |
//! | `(` .. `)`, `[` .. `]`, `{` .. `}`, `<` .. `>` | a group, in the last case without delimiters |
use proc_macro2::{Delimiter, Group, Ident, Literal, Punct, Spacing, Span, TokenStream, TokenTree};
use std::str::Lines;

/// What the crate prints for the trees of a list, and after a tab what its text parses to: the `same` trees up to
/// spans, `other` ones, or a `fault`. `None` where the text notes no list.
pub fn list_answer(text: &str) -> Option<String> {
    let stream: TokenStream = trees(&mut text.lines(), None)?.into_iter().collect();
    let printed = stream.to_string();
    let back = match printed.parse::<TokenStream>() {
        Ok(back) => {
            if are_same(back, stream) {
                "same"
            } else {
                "other"
            }
        }
        Err(_) => "fault",
    };
    Some(format!("{printed}\t{back}"))
}

/// The trees that are noted up to this closer, or up to the end.
fn trees(lines: &mut Lines, closer: Option<&str>) -> Option<Vec<TokenTree>> {
    let mut trees = Vec::new();
    loop {
        let line = lines.next();
        if line == closer {
            return Some(trees);
        }
        trees.push(tree(line?, lines)?);
    }
}

/// The tree whose notation begins with the line.
fn tree(line: &str, lines: &mut Lines) -> Option<TokenTree> {
    let (delimiter, closer) = match line {
        "(" => (Delimiter::Parenthesis, ")"),
        "[" => (Delimiter::Bracket, "]"),
        "{" => (Delimiter::Brace, "}"),
        "<" => (Delimiter::None, ">"),
        _ => return leaf(line),
    };
    let inside = trees(lines, Some(closer))?;
    Some(Group::new(delimiter, inside.into_iter().collect()).into())
}

/// The tree of a line that begins no group.
fn leaf(line: &str) -> Option<TokenTree> {
    let (word, text) = line.split_once(' ')?;
    Some(match word {
        "ident" => Ident::new(text, Span::call_site()).into(),
        "raw" => Ident::new_raw(text, Span::call_site()).into(),
        "alone" => Punct::new(text.parse().ok()?, Spacing::Alone).into(),
        "joint" => Punct::new(text.parse().ok()?, Spacing::Joint).into(),
        "literal" => text.parse::<Literal>().ok()?.into(),
        "integer" => integer(text)?.into(),
        _ => return None,
    })
}

/// The literal that the constructor of this suffix makes of the number before it.
fn integer(text: &str) -> Option<Literal> {
    let (number, suffix) = text.split_at(text.find('i').unwrap_or(text.len()));
    let number: i8 = number.parse().ok()?;
    Some(match suffix {
        "" => Literal::i8_unsuffixed(number),
        "i8" => Literal::i8_suffixed(number),
        "i16" => Literal::i16_suffixed(number.into()),
        "i32" => Literal::i32_suffixed(number.into()),
        "i64" => Literal::i64_suffixed(number.into()),
        "i128" => Literal::i128_suffixed(number.into()),
        "isize" => Literal::isize_suffixed(number.into()),
        _ => return None,
    })
}

/// Whether the streams have the same trees, wherever they stand.
fn are_same(left: TokenStream, right: TokenStream) -> bool {
    let (left, right): (Vec<_>, Vec<_>) = (left.into_iter().collect(), right.into_iter().collect());
    left.len() == right.len() && left.into_iter().zip(right).all(|(left, right)| is_same(left, right))
}

/// Whether the trees are the same, wherever they stand.
fn is_same(left: TokenTree, right: TokenTree) -> bool {
    match (left, right) {
        (TokenTree::Group(left), TokenTree::Group(right)) => {
            left.delimiter() == right.delimiter() && are_same(left.stream(), right.stream())
        }
        (TokenTree::Ident(left), TokenTree::Ident(right)) => left == right,
        (TokenTree::Punct(left), TokenTree::Punct(right)) => {
            (left.as_char(), left.spacing()) == (right.as_char(), right.spacing())
        }
        (TokenTree::Literal(left), TokenTree::Literal(right)) => left.to_string() == right.to_string(),
        _ => false,
    }
}
