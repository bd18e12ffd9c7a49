//! Macros for the tests of `proved-macros`: they run inside the compiler, and so on the compiler's tokens.
use proc_macro2::{Delimiter, Group, Literal, Span, TokenStream, TokenTree};
use proved_macros::proved_tokens::pm_stream::{Group as OwnGroup, TokenStream as OwnStream, TokenTree as OwnTree};
use proved_macros::proved_tokens::pm_token::Delimiter as OwnDelimiter;
use proved_macros::{from_proved, pretty, to_proved, Spans};

/// Leaves an item as it is, after it went over to a proved stream and came back.
#[proc_macro_attribute]
pub fn there_and_back(_: proc_macro::TokenStream, item: proc_macro::TokenStream) -> proc_macro::TokenStream {
    let item = TokenStream::from(item);
    let mut spans = Spans::new();
    let own = to_proved(&item, &mut spans).expect("the compiler's tokens are of the grammar");
    let back = from_proved(&own, &spans).expect("they were the compiler's");
    assert_eq!(shown(back.clone()), shown(item));
    back.into()
}

/// The trees in order, each with what can be asked of it.
fn shown(stream: TokenStream) -> String {
    let each = stream.into_iter().map(|tree| match tree {
        TokenTree::Group(group) => {
            format!("{:?} {:?} {{ {}}} ", group.span(), group.delimiter(), shown(group.stream()))
        }
        TokenTree::Punct(punct) => format!("{:?} {punct} {:?} ", punct.span(), punct.spacing()),
        token => format!("{:?} {token} ", token.span()),
    });
    each.collect()
}

/// Puts a constant in front of all that is in each pair of braces, which are those of modules and blocks.
#[proc_macro_attribute]
pub fn more(_: proc_macro::TokenStream, item: proc_macro::TokenStream) -> proc_macro::TokenStream {
    let mut spans = Spans::new();
    let own = to_proved(&item.into(), &mut spans).expect("the compiler's tokens are of the grammar");
    let constant = OwnStream::parse_unmapped("const _: &str = \"more\";").expect("it is a text");
    from_proved(&with_more(&own, &constant), &spans).expect("they were the compiler's").into()
}

fn with_more(stream: &OwnStream, constant: &OwnStream) -> OwnStream {
    let mut out = OwnStream::new();
    for tree in stream.trees() {
        let mut tree = tree.clone();
        if let OwnTree::Group(group) = &tree {
            let inside = with_more(group.stream_ref(), constant);
            let mut front = constant.clone();
            let mut made = match group.delimiter() {
                OwnDelimiter::Brace => {
                    front.extend([inside]);
                    OwnGroup::new(OwnDelimiter::Brace, front)
                }
                other => OwnGroup::new(other, inside),
            };
            made.set_span(group.span());
            tree = OwnTree::Group(made);
        }
        out.extend([tree]);
    }
    out
}

/// The line and the column of each token and delimiter, as the compiler tells them of code with its span.
#[proc_macro]
pub fn lines_and_columns(input: proc_macro::TokenStream) -> proc_macro::TokenStream {
    let mut spans = Spans::new();
    let own = to_proved(&input.into(), &mut spans).expect("the compiler's tokens are of the grammar");
    let mut note = TokenStream::new();
    for tree in own.trees() {
        let ends = match tree {
            OwnTree::Group(group) => vec![group.span_open(), group.span_close()],
            token => vec![token.span()],
        };
        for end in ends {
            let code = "(line!(), column!()),".parse().expect("it is a text");
            note.extend(with_span(code, spans.span(end)));
        }
    }
    TokenStream::from(TokenTree::Group(Group::new(Delimiter::Bracket, note))).into()
}

fn with_span(stream: TokenStream, span: Span) -> TokenStream {
    let trees = stream.into_iter().map(|mut tree| {
        if let TokenTree::Group(group) = &tree {
            tree = Group::new(group.delimiter(), with_span(group.stream(), span)).into();
        }
        tree.set_span(span);
        tree
    });
    trees.collect()
}

/// Compares each literal that is made of a new one with what the compiler reads from its text, in all that `Debug`
/// shows, and answers how many there were.
#[proc_macro]
pub fn literals_as_read(input: proc_macro::TokenStream) -> proc_macro::TokenStream {
    let mut count = 0;
    for tree in TokenStream::from(input) {
        let text = tree.to_string();
        let own = OwnStream::parse_unmapped(&text).expect("the compiler read it");
        let made = from_proved(&own, &Spans::new()).expect("the compiler has it").into_iter();
        let read = text.parse::<TokenStream>().expect("the compiler read it").into_iter();
        let all_shown = |trees: proc_macro2::token_stream::IntoIter| {
            trees.map(|mut tree| {
                tree.set_span(Span::call_site());
                format!("{tree:?} {tree}")
            })
        };
        assert!(all_shown(made).eq(all_shown(read)), "{text}");
        count += 1;
    }
    TokenStream::from(TokenTree::from(Literal::usize_unsuffixed(count))).into()
}

/// Compares what the compiler reads of each doc comment that `pretty` writes with the text of its attribute, for all
/// texts of up to five of some characters, and answers how many comments there were.
#[proc_macro]
pub fn docs_as_read(_: proc_macro::TokenStream) -> proc_macro::TokenStream {
    let mut texts = vec![String::new()];
    let mut from = 0;
    for _ in 0..5 {
        let to = texts.len();
        for index in from..to {
            texts.extend([' ', '\n', '*', '/', '!', 'a'].map(|c| format!("{}{c}", texts[index])));
        }
        from = to;
    }
    let mut count = 0;
    for text in &texts {
        for front in ["#", "# !"] {
            let attribute = format!("{front} [doc = r\"{text}\"]").parse().expect("it is an attribute");
            let written = pretty(&attribute).expect("it is spaced well");
            if written.starts_with('/') {
                let read: TokenStream = written.parse().expect("it is a comment");
                let own = to_proved(&read, &mut Spans::new()).expect("the compiler's tokens are of the grammar");
                assert_eq!(own.trees().len(), front.len() / 2 + 2, "of {written:?}");
                let value = own.trees().last().and_then(doc_value);
                assert_eq!(value.as_deref(), Some(text.as_str()), "of {written:?}");
                count += 1;
            }
        }
    }
    TokenStream::from(TokenTree::from(Literal::usize_unsuffixed(count))).into()
}

/// The text of a doc attribute's group.
fn doc_value(tree: &OwnTree) -> Option<String> {
    match tree {
        OwnTree::Group(group) => group.doc()?.str_value().ok(),
        _ => None,
    }
}
