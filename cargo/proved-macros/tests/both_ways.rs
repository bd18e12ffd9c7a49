//! Streams go over to proved ones and come back, over whichever `proc-macro2` this is built with.
use proc_macro2::{Delimiter, Group, Ident, Literal, Punct, Spacing, Span, TokenStream, TokenTree};
use proved_macros::{from_proved, proved_tokens, to_proved, NoToken, Spans};
use proved_tokens::pm_stream::{TokenStream as Own, TokenTree as OwnTree};
use proved_tokens::pm_token::Ident as OwnIdent;
use proved_tokens::proc_macro2::SourceMap;
use std::error::Error;

const TEXTS: [&str; 12] = [
    "",
    "fn f<'a>(x: &'a [u8; 3]) -> u8 { x[0] + 1 }",
    "r#fn r#a _ __ a1 é ünï",
    "a += b <<= c ..= d && !e",
    "0x1F 1_000u64 1.5 1e-3f64 2f32 0b11 'c' b'c' '\\'' 'static",
    r####""" "a\"\n\u{1F600}" b"\xFF" r"\" r##"a"#b"## br"x" "long enough to take memory of its own""####,
    "- 1 -1 x-1",
    "/// a doc\n//! another\n/** and one\n more */ struct S;",
    "#[derive(Clone)] #![allow(x)]",
    "(((a) [b {c}]) ()) {} []",
    "macro_rules! m { ($($x:tt)*) => { $crate::n!($($x)*) } }",
    "a /* b */ // c\n  d\u{A0}e",
];

/// All that can be asked of each tree, a group before the trees in it.
fn facts(stream: &TokenStream) -> Vec<String> {
    let mut out = Vec::new();
    let mut left = vec![stream.clone().into_iter()];
    while let Some(trees) = left.last_mut() {
        let Some(tree) = trees.next() else {
            left.pop();
            out.push("end".to_owned());
            continue;
        };
        let span = format!("{:?}", tree.span());
        out.push(match tree {
            TokenTree::Group(group) => {
                left.push(group.stream().into_iter());
                format!("{:?} {span} {:?} {:?}", group.delimiter(), group.span_open(), group.span_close())
            }
            TokenTree::Punct(punct) => format!("{} {:?} {span}", punct.as_char(), punct.spacing()),
            TokenTree::Ident(ident) => format!("{ident} {span}"),
            TokenTree::Literal(literal) => format!("{literal} {span}"),
        });
    }
    out
}

#[test]
fn a_stream_comes_back_with_its_spans() -> Result<(), Box<dyn Error>> {
    let mut spans = Spans::new();
    for text in TEXTS {
        let stream: TokenStream = text.parse()?;
        let own = to_proved(&stream, &mut spans)?;
        assert!(own.same_tokens(&Own::parse_unmapped(text)?), "{text}");
        assert_eq!(own.to_string(), Own::parse_unmapped(text)?.to_string());
        assert_eq!(facts(&from_proved(&own, &spans)?), facts(&stream), "{text}");
        assert_eq!(from_proved(&own, &Spans::new())?.to_string(), stream.to_string());
    }
    Ok(())
}

#[test]
fn a_stream_that_no_text_gives_comes_back() -> Result<(), Box<dyn Error>> {
    let mut minus = Literal::i8_suffixed(-3);
    minus.set_span(" (a) ".parse::<TokenStream>()?.into_iter().next().expect("a group").span());
    let inside = TokenStream::from_iter([
        TokenTree::from(Punct::new('\'', Spacing::Joint)),
        Ident::new("a", Span::call_site()).into(),
        Punct::new('+', Spacing::Joint).into(),
        minus.into(),
        Literal::f64_unsuffixed(1e40).into(),
        Literal::string("\u{0}\t\"é").into(),
        Literal::byte_string(b"\xFFa").into(),
    ]);
    let stream = TokenStream::from(TokenTree::from(Group::new(Delimiter::None, inside)));
    let mut spans = Spans::new();
    let own = to_proved(&stream, &mut spans)?;
    assert!(!own.is_well_spaced());
    assert_eq!(facts(&from_proved(&own, &spans)?), facts(&stream));
    Ok(())
}

#[test]
fn spans_stand_for_those_of_the_caller() -> Result<(), Box<dyn Error>> {
    let stream: TokenStream = "a\n  (\n b)".parse()?;
    let mut spans = Spans::new();
    let own = to_proved(&stream, &mut spans)?;
    let [OwnTree::Ident(ident), OwnTree::Group(group)] = own.trees() else {
        panic!("two trees");
    };
    let line_column = |span| (spans.span(span).start().line, spans.span(span).start().column);
    assert_eq!(line_column(ident.span()), (1, 0));
    assert_eq!([group.span_open(), group.span(), group.span_close()].map(line_column), [(2, 2), (2, 2), (3, 2)]);
    assert_eq!(line_column(group.stream_ref().trees()[0].span()), (3, 1));
    assert_eq!(spans.span(group.span()).end().column, 3);
    Ok(())
}

#[test]
fn new_tokens_get_the_spans_that_they_bear() -> Result<(), Box<dyn Error>> {
    let stream: TokenStream = "name 'c' (x)".parse()?;
    let mut spans = Spans::new();
    let mut own = to_proved(&stream, &mut spans)?;
    let [name, _, group] = own.trees() else {
        panic!("three trees");
    };
    let (name, group) = (name.span(), group.span());
    let third = spans.place(stream.clone().into_iter().nth(2).expect("three trees").span());
    let mut map = SourceMap::new();
    let read = Own::from_str("template", &mut map)?;
    let renamed = |span| OwnIdent::new("renamed", span).map(OwnTree::Ident);
    let Ok(()) = own.extend_trees([renamed(name)?, renamed(group)?, renamed(third)?]);
    let Ok(()) = own.extend_streams([read]);
    let back: Vec<_> = from_proved(&own, &spans)?.into_iter().map(|tree| format!("{:?}", tree.span())).collect();
    let wanted = [&back[0], &back[2], &back[2], &format!("{:?}", Span::call_site())];
    assert_eq!(back[3..].iter().collect::<Vec<_>>(), wanted);
    Ok(())
}

#[test]
fn a_group_in_which_something_was_changed_keeps_its_span() -> Result<(), Box<dyn Error>> {
    let stream: TokenStream = "a [(b) + c]".parse()?;
    let mut spans = Spans::new();
    let own = to_proved(&stream, &mut spans)?;
    let [_, OwnTree::Group(group)] = own.trees() else {
        panic!("two trees");
    };
    let Ok(mut inside) = group.stream();
    let Ok(()) = inside.extend_streams([Own::parse_unmapped("d")?]);
    let mut changed = proved_tokens::pm_stream::Group::new(group.delimiter(), inside);
    changed.set_span(group.span());
    let Ok(changed) = Own::from_tree(changed.into());
    let (back, was) = (facts(&from_proved(&changed, &spans)?), facts(&stream));
    assert_eq!(back[..6], was[1..7]);
    assert_eq!(back[6], format!("d {:?}", Span::call_site()));
    Ok(())
}

#[test]
fn changed_tokens_come_back_changed() -> Result<(), Box<dyn Error>> {
    let mut spans = Spans::new();
    let stream: TokenStream = "'c' a".parse()?;
    let own = to_proved(&stream, &mut spans)?;
    let [literal, ident] = own.trees() else {
        panic!("two trees");
    };
    let swapped = "b\"x\" 1u8 r#a ö".parse::<TokenStream>()?;
    let mut other = Spans::new();
    let new = to_proved(&swapped, &mut other)?;
    let mut changed = Own::new();
    for (tree, span) in new.trees().iter().zip([literal.span(), literal.span(), ident.span(), ident.span()]) {
        let mut tree = tree.clone();
        tree.set_span(span);
        changed.extend([tree]);
    }
    let back = from_proved(&changed, &spans)?;
    assert_eq!(back.to_string(), swapped.to_string());
    let places: Vec<_> = back.into_iter().map(|tree| tree.span().start().column).collect();
    assert_eq!(places, [0, 0, 4, 4]);
    Ok(())
}

/// Neither way takes more stack for deeper groups.
#[test]
fn groups_nest_as_deep_as_a_text_is_long() -> Result<(), Box<dyn Error>> {
    const DEPTH: usize = 50_000;
    let stream: TokenStream = format!("{}x{}", "(a ".repeat(DEPTH), " b)".repeat(DEPTH)).parse()?;
    let mut spans = Spans::new();
    let own = to_proved(&stream, &mut spans)?;
    for spans in [spans, Spans::new()] {
        assert_eq!(facts(&from_proved(&own, &spans)?).len(), 4 * DEPTH + 2);
    }
    assert!(own.is_well_spaced());
    Ok(())
}

#[test]
fn a_token_that_only_the_caller_has_is_an_error() -> Result<(), Box<dyn Error>> {
    // Read by the public crate alone.
    let Ok(stream) = "a ''' b".parse::<TokenStream>() else {
        return Ok(());
    };
    let error = to_proved(&stream, &mut Spans::new()).err().ok_or("there is no such token here")?;
    assert_eq!((error.text(), error.span().start().column), ("'''", 2));
    assert_eq!(error.to_string(), "no token on the other side: `'''`");
    Ok(())
}

#[test]
fn a_token_that_the_caller_lacks_is_an_error() -> Result<(), Box<dyn Error>> {
    // An identifier by Unicode 15 and later, and a literal by later Rust.
    for text in ["\u{11F04}", "c\"a\"u8"] {
        let own = Own::parse_unmapped(text)?;
        let back: Result<_, NoToken> = from_proved(&own, &Spans::new());
        match text.parse::<TokenStream>().map(|stream| stream.into_iter().count()) {
            Ok(1) => assert_eq!(back?.to_string(), text),
            _ => assert_eq!(back.err().ok_or("the caller lacks it")?.text(), text),
        }
    }
    Ok(())
}

/// What the public crate lacks.
#[test]
#[cfg(feature = "quoting")]
fn a_template_takes_tokens_of_the_caller() -> Result<(), Box<dyn Error>> {
    use proved_tokens::quoting::{Hole, Quote};
    let name: TokenStream = "\n\n name".parse()?;
    let mut spans = Spans::new();
    let name = to_proved(&name, &mut spans)?;
    let mut quote = Quote::new();
    let filled = quote.parse("fn #name() {}", &mut SourceMap::new(), &[Hole::one("name", &name)]);
    filled.map_err(|error| error.to_string())?;
    let made = quote.finish().map_err(|error| error.to_string())?;
    assert!(made.is_well_spaced());
    let back = from_proved(&made, &spans)?;
    assert_eq!(back.to_string(), "fn name () { }");
    let lines: Vec<_> = back.into_iter().map(|tree| tree.span().start().line).collect();
    assert_eq!(lines[1], 3);
    assert_ne!(lines[0], 3);
    Ok(())
}

#[test]
#[cfg(feature = "pretty_printer")]
fn a_stream_is_printed_for_people_where_it_comes_back_from_a_text() {
    use proved_macros::{pretty, PrettyError};

    // `+` can't be joined with a name, and is printed apart from it.
    let plus = TokenTree::Punct(Punct::new('+', Spacing::Joint));
    let name = TokenTree::Ident(Ident::new("a", Span::call_site()));
    assert_eq!(pretty(&[name.clone(), plus, name.clone()].into_iter().collect()).unwrap(), "a + a\n");

    let group = TokenTree::Group(Group::new(Delimiter::None, name.into()));
    assert!(matches!(pretty(&group.into()), Err(PrettyError::Quote(_))));
}
