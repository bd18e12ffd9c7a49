//! Two impls of 75 tokens, one with lists and one with a list of lists too, each made in several ways.
use proc_macro2::{Delimiter, Group, Ident, Punct, Spacing, Span, TokenStream, TokenTree};
use proved_macros::proved_tokens::quote::{Holes, Template};
use proved_macros::proved_tokens::{quote as own_quote, Ident as OwnIdent, Span as OwnSpan, TokenStream as Own};
use proved_macros::{from_proved, Spans};
use std::fmt::Debug;
use std::hint::black_box;
use std::str::FromStr;

/// The variants of the first impl, each with its text.
const VARIANTS: [(&str, &str); 5] =
    [("Red", "red"), ("Green", "green"), ("Blue", "blue"), ("Other", "another color"), ("Unknown", "?")];
/// The arms of the second impl: a variant, the others beside it, and the text that they are matched to.
const ARMS: [(&str, &[&str], &str); 4] = [
    ("Red", &["Scarlet"], "red"),
    ("Green", &["Olive", "Lime"], "green"),
    ("Blue", &[], "blue"),
    ("Other", &["Unknown", "Mixed"], "another color"),
];

/// Two functions that fill one template: by the public macro, and by the macro of this library. A third function
/// returns the text of the template.
macro_rules! made {
    ([$($name:ident)*] $public:ident $own:ident $text:ident $($template:tt)*) => {
        fn $public(parts: &Parts<TokenStream, Ident>) -> TokenStream {
            let Parts { $($name,)* .. } = parts;
            quote::quote! { $($template)* }
        }

        fn $own(parts: &Parts<Own, OwnIdent>) -> Own {
            let Parts { $($name,)* .. } = parts;
            own_quote! { $($template)* }
        }

        fn $text() -> Template {
            Template::parse(stringify!($($template)*)).expect("it is a template")
        }
    };
}

made! {
    [parameters name arguments clause variants texts] public_list own_list list_template
    impl #parameters #name #arguments #clause {
        /// The text of the color.
        pub fn text(&self) -> & 'static str {
            match self { #( Self::#variants => #texts ),* }
        }
    }
}

made! {
    [name variants others texts] public_lists own_lists lists_template
    impl #name {
        pub fn text(&self) -> & 'static str {
            match self { #( #name::#variants #( | #name::#others )* => #texts ),* }
        }
    }
}

/// What the holes of both impls hold, as the streams and identifiers of one library.
struct Parts<S, I> {
    parameters: S,
    name: I,
    arguments: S,
    clause: S,
    variants: Vec<I>,
    others: Vec<Vec<I>>,
    texts: Vec<&'static str>,
}

impl<S: FromStr<Err: Debug>, I> Parts<S, I> {
    fn list(ident: impl Fn(&str) -> I) -> Parts<S, I> {
        Parts {
            parameters: "<T: Copy>".parse().expect("these are tokens"),
            name: ident("Color"),
            arguments: "<T>".parse().expect("these are tokens"),
            clause: "where T: Copy".parse().expect("these are tokens"),
            variants: VARIANTS.iter().map(|variant| ident(variant.0)).collect(),
            others: Vec::new(),
            texts: VARIANTS.iter().map(|variant| variant.1).collect(),
        }
    }

    fn lists(ident: impl Fn(&str) -> I) -> Parts<S, I> {
        Parts {
            variants: ARMS.iter().map(|arm| ident(arm.0)).collect(),
            others: ARMS.iter().map(|arm| arm.1.iter().map(|name| ident(name)).collect()).collect(),
            texts: ARMS.iter().map(|arm| arm.2).collect(),
            ..Parts::list(ident)
        }
    }
}

fn ident(name: &str) -> Ident {
    Ident::new(name, Span::call_site())
}

fn own_ident(name: &str) -> OwnIdent {
    OwnIdent::new(name, OwnSpan::call_site()).expect("it is a name")
}

/// Fills the template of the first impl.
fn fill_list(template: &Template, parts: &Parts<Own, OwnIdent>) -> Own {
    let Parts { parameters, name, arguments, clause, variants, texts, .. } = parts;
    let holes = Holes::new().with("parameters", parameters).with("name", name).with("arguments", arguments);
    let holes = holes.with("clause", clause).with("variants", variants).with("texts", texts);
    template.fill(&holes).expect("the holes are those of the template")
}

/// Fills the template of the second impl.
fn fill_lists(template: &Template, parts: &Parts<Own, OwnIdent>) -> Own {
    let Parts { name, variants, others, texts, .. } = parts;
    let holes = Holes::new().with("name", name).with("variants", variants).with("others", others).with("texts", texts);
    template.fill(&holes).expect("the holes are those of the template")
}

fn repeat(calls: u32, mut call: impl FnMut()) {
    for _ in 0..calls {
        call();
    }
}

/// A row: its name, and what makes its call so many times. The answers of `proc-macro2` are given to the last function.
pub type Row = (&'static str, fn(u32, fn(TokenStream)));

/// The rows. What a call needs is made before the calls are counted.
pub const ROWS: &[Row] = &[
    ("list_public_quote", |calls, used| {
        let parts = Parts::list(ident);
        repeat(calls, || used(public_list(black_box(&parts))));
    }),
    ("list_fill", |calls, _| {
        let (template, parts) = (list_template(), Parts::list(own_ident));
        repeat(calls, || drop(black_box(fill_list(black_box(&template), black_box(&parts)))));
    }),
    ("list_own_quote", |calls, _| {
        let parts = Parts::list(own_ident);
        repeat(calls, || drop(black_box(own_list(black_box(&parts)))));
    }),
    ("list_fill_back", |calls, used| {
        let (template, parts) = (list_template(), Parts::list(own_ident));
        repeat(calls, || used(back(&fill_list(black_box(&template), black_box(&parts)))));
    }),
    ("list_own_quote_back", |calls, used| {
        let parts = Parts::list(own_ident);
        repeat(calls, || used(back(&own_list(black_box(&parts)))));
    }),
    ("list_by_hand", |calls, used| {
        let known = known(public_list(&Parts::list(ident)));
        repeat(calls, || used(by_hand(black_box(&known))));
    }),
    ("list_back", |calls, used| {
        let made = own_list(&Parts::list(own_ident));
        repeat(calls, || used(back(black_box(&made))));
    }),
    ("lists_public_quote", |calls, used| {
        let parts = Parts::lists(ident);
        repeat(calls, || used(public_lists(black_box(&parts))));
    }),
    ("lists_fill", |calls, _| {
        let (template, parts) = (lists_template(), Parts::lists(own_ident));
        repeat(calls, || drop(black_box(fill_lists(black_box(&template), black_box(&parts)))));
    }),
    ("lists_own_quote", |calls, _| {
        let parts = Parts::lists(own_ident);
        repeat(calls, || drop(black_box(own_lists(black_box(&parts)))));
    }),
    ("lists_fill_back", |calls, used| {
        let (template, parts) = (lists_template(), Parts::lists(own_ident));
        repeat(calls, || used(back(&fill_lists(black_box(&template), black_box(&parts)))));
    }),
    ("lists_own_quote_back", |calls, used| {
        let parts = Parts::lists(own_ident);
        repeat(calls, || used(back(&own_lists(black_box(&parts)))));
    }),
    ("lists_by_hand", |calls, used| {
        let known = known(public_lists(&Parts::lists(ident)));
        repeat(calls, || used(by_hand(black_box(&known))));
    }),
    ("lists_back", |calls, used| {
        let made = own_lists(&Parts::lists(own_ident));
        repeat(calls, || used(back(black_box(&made))));
    }),
    ("words_back", |calls, used| {
        let made = words();
        repeat(calls, || used(back(black_box(&made))));
    }),
    ("literals_back", |calls, used| {
        let made = literals();
        repeat(calls, || used(back(black_box(&made))));
    }),
    ("marks_back", |calls, used| {
        let made = marks();
        repeat(calls, || used(back(black_box(&made))));
    }),
];

/// What is known of a token before it is made: the least that any way to make it starts from.
enum Known {
    Identifier(String),
    Mark(char, Spacing),
    Literal(String),
    Group(Delimiter, Vec<Known>),
}

fn known(stream: TokenStream) -> Vec<Known> {
    let each = stream.into_iter().map(|tree| match tree {
        TokenTree::Ident(name) => Known::Identifier(name.to_string()),
        TokenTree::Punct(mark) => Known::Mark(mark.as_char(), mark.spacing()),
        TokenTree::Literal(literal) => Known::Literal(literal.to_string()),
        TokenTree::Group(group) => Known::Group(group.delimiter(), known(group.stream())),
    });
    each.collect()
}

/// The tokens by the calls of `proc-macro2` alone, each list by one call.
fn by_hand(known: &[Known]) -> TokenStream {
    let each = known.iter().map(|token| match token {
        Known::Identifier(name) => TokenTree::Ident(ident(name)),
        Known::Mark(mark, spacing) => TokenTree::Punct(Punct::new(*mark, *spacing)),
        Known::Literal(text) => TokenTree::Literal(text.parse().expect("it is a literal")),
        Known::Group(delimiter, inside) => TokenTree::Group(Group::new(*delimiter, by_hand(inside))),
    });
    each.collect()
}

fn back(stream: &Own) -> TokenStream {
    from_proved(stream, &Spans::new()).expect("the public crate has these tokens")
}

/// 75 names that differ.
fn words() -> Own {
    let names: Vec<_> = (0..75).map(|index| format!("name_{index}")).collect();
    names.join(" ").parse().expect("these are names")
}

/// 75 literals of 15 kinds.
fn literals() -> Own {
    const KINDS: &str = r##"1 2u8 0x1F 1_000u64 1.5 1e-3f64 2f32 'c' '\n' b'c' "text" "a\n\"b\"" b"\xFF" r"raw" c"c""##;
    KINDS.parse::<Own>().map(|kinds| (0..5).map(|_| kinds.clone()).collect()).expect("these are literals")
}

/// 75 marks.
fn marks() -> Own {
    "+ = ; - > ".repeat(15).parse().expect("these are marks")
}

/// Panics unless all ways give the same 75 tokens.
pub fn check() {
    let public = [public_list(&Parts::list(ident)), public_lists(&Parts::lists(ident))];
    let (list, lists) = (Parts::list(own_ident), Parts::lists(own_ident));
    let own = [own_list(&list), own_lists(&lists)];
    let filled = [fill_list(&list_template(), &list), fill_lists(&lists_template(), &lists)];
    for (public, made) in public.iter().zip(&own).chain(public.iter().zip(&filled)) {
        assert_eq!((made.walk().count(), written(&back(made))), (75, written(public)));
    }
    for made in [words(), literals(), marks()] {
        let text = made.to_string().replace(char::is_whitespace, "");
        assert_eq!((made.trees().len(), written(&back(&made))), (75, text));
    }
}

/// The text of a stream without white space, which the compiler writes in other places.
fn written(stream: &TokenStream) -> String {
    stream.to_string().replace(char::is_whitespace, "")
}
