//! Compares the tokens of `quote!` with those of the crate `quote`, on the templates of `build.rs`.
#![cfg(test)]

/// One of the two sides: a name and a stream for the templates, and a text of a stream's trees that shows their kinds
/// and spacings.
macro_rules! side {
    ($side:ident, $types:path, |$group:ident| $inside:expr) => {
        mod $side {
            use $types::*;

            pub fn name(text: &str) -> Ident {
                match stream(text).into_iter().next() {
                    Some(TokenTree::Ident(name)) => name,
                    _ => panic!("it is no name"),
                }
            }

            pub fn stream(text: &str) -> TokenStream {
                text.parse().expect("it is a text")
            }

            pub fn shape(stream: TokenStream) -> String {
                let mut shown = String::new();
                for tree in stream {
                    shown += &match tree {
                        TokenTree::Group($group) => format!("{:?}{{ {}}} ", $group.delimiter(), shape($inside)),
                        TokenTree::Ident(name) => format!("name {name} "),
                        TokenTree::Punct(mark) => format!("{}{:?} ", mark.as_char(), mark.spacing()),
                        TokenTree::Literal(literal) => format!("literal {literal} "),
                    };
                }
                shown
            }
        }
    };
}

side!(public, proc_macro2, |group| group.stream());
side!(own, proved_tokens, |group| group.stream_ref().clone());

/// The templates. Each function adds the shapes of its templates to a list.
#[allow(unused_variables, clippy::all)]
mod templates {
    type Made = fn(&mut Vec<String>);

    include!(concat!(env!("OUT_DIR"), "/templates.rs"));
}

#[test]
fn both_macros_give_the_same_tokens() {
    let shapes = |made: &[fn(&mut Vec<String>)]| {
        let mut shapes = Vec::new();
        made.iter().for_each(|made| made(&mut shapes));
        shapes
    };
    let (public, own) = (shapes(templates::PUBLIC), shapes(templates::OWN));
    assert_eq!((public.len(), own.len()), (templates::TEXTS.len(), templates::TEXTS.len()));
    let mut failed = 0;
    for ((text, public), own) in templates::TEXTS.iter().zip(&public).zip(&own) {
        if public != own {
            eprintln!("{text}\n    public: {public}\n    own:    {own}");
            failed += 1;
        }
    }
    assert_eq!(failed, 0, "of {} templates", templates::TEXTS.len());
}
