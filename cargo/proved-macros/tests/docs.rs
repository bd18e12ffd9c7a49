//! Doc attributes that are written as doc comments: the public crate reads each comment as the attribute's text.
#![cfg(feature = "pretty_printer")]

use proc_macro2::{Delimiter, Group, Ident, Literal, Punct, Spacing, Span, TokenStream, TokenTree};

/// The characters of the texts.
const CHARACTERS: [char; 6] = [' ', '\n', '*', '/', '!', 'a'];

/// Returns the attribute with this literal, an inner or an outer one.
fn attribute(inner: bool, literal: Literal) -> TokenStream {
    let mut trees: Vec<TokenTree> = vec![Punct::new('#', Spacing::Alone).into()];
    if inner {
        trees.push(Punct::new('!', Spacing::Alone).into());
    }
    let inside: [TokenTree; 3] = [
        Ident::new("doc", Span::call_site()).into(),
        Punct::new('=', Spacing::Alone).into(),
        literal.into(),
    ];
    trees.push(Group::new(Delimiter::Bracket, inside.into_iter().collect()).into());
    trees.into_iter().collect()
}

/// Returns the literals that spell the text: the one of `Literal::string`, and a raw one as rustc makes of a comment.
fn spellings(text: &str) -> [Literal; 2] {
    [Literal::string(text), format!("r\"{text}\"").parse().unwrap()]
}

/// Whether the public crate reads the comment and a line end as the text's attribute and nothing else.
fn reads_back(inner: bool, comment: &str, text: &str) -> bool {
    let wanted = attribute(inner, Literal::string(text)).to_string();
    format!("{comment}\n").parse::<TokenStream>().is_ok_and(|read| read.to_string() == wanted)
}

/// Asserts that the attribute becomes the comment of one line if that reads back, and otherwise the block if that
/// does, and otherwise stays.
fn check(inner: bool, text: &str) {
    let line = format!("{}{text}", if inner { "//!" } else { "///" });
    let block = format!("{}{text}*/", if inner { "/*!" } else { "/**" });
    let comment = [line, block].into_iter().find(|comment| reads_back(inner, comment, text));
    for literal in spellings(text) {
        let front = if inner { "# ![doc = " } else { "#[doc = " };
        let kept = format!("{front}{literal}]");
        let wanted = format!("{}\n", comment.as_deref().unwrap_or(&kept));
        assert_eq!(proved_macros::pretty(&attribute(inner, literal)).unwrap(), wanted, "of {text:?}");
    }
}

#[test]
fn each_short_text_becomes_a_comment_exactly_if_it_reads_back() {
    let mut texts = vec![String::new()];
    let mut from = 0;
    for _ in 0..5 {
        let to = texts.len();
        for index in from..to {
            for c in CHARACTERS {
                let text = format!("{}{c}", texts[index]);
                texts.push(text);
            }
        }
        from = to;
    }
    assert_eq!(texts.len(), 9331);
    for text in &texts {
        check(false, text);
        check(true, text);
    }
}
