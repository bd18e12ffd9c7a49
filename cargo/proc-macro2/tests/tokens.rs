//! Reading, building, printing and showing tokens.
use proc_macro2::{Delimiter, Group, Ident, Literal, Punct, Spacing, Span, TokenStream, TokenTree};
use std::ffi::CStr;
use std::panic;

fn parse(text: &str) -> TokenStream {
    text.parse().expect("the text is one")
}

fn ident(name: &str) -> Ident {
    Ident::new(name, Span::call_site())
}

#[test]
fn texts_are_read_and_printed() {
    for (text, printed) in [
        ("", ""),
        ("a+=b", "a += b"),
        ("{x}", "{ x }"),
        ("{}", "{ }"),
        ("f(a , [ 1 ])", "f (a , [1])"),
        ("&'a str", "&'a str"),
        ("/// x", "# [doc = \" x\"]"),
        ("r#fn 0x1Fu8 'c' b\"\\0\"", "r#fn 0x1Fu8 'c' b\"\\0\""),
        ("é // gone", "é"),
    ] {
        assert_eq!(parse(text).to_string(), printed, "{text}");
    }
    for text in ["(", "a)", "'", "\"", "/*", "r##", "1_f\u{301}32\u{0}"] {
        assert!(text.parse::<TokenStream>().is_err(), "{text}");
    }
}

#[test]
fn types_have_the_names_of_the_public_crates() {
    let names = [
        std::any::type_name::<TokenStream>(),
        std::any::type_name::<TokenTree>(),
        std::any::type_name::<Group>(),
        std::any::type_name::<Ident>(),
        std::any::type_name::<Punct>(),
        std::any::type_name::<Literal>(),
        std::any::type_name::<Span>(),
        std::any::type_name::<proc_macro2::LexError>(),
    ];
    let wanted = ["TokenStream", "TokenTree", "Group", "Ident", "Punct", "Literal", "Span", "LexError"];
    assert_eq!(names, wanted.map(|name| format!("proc_macro2::{name}")));
}

#[test]
fn trees_are_walked() {
    let mut trees = parse("a (b {c}) + 1").into_iter();
    assert_eq!(trees.size_hint(), (4, Some(4)));
    assert!(matches!(trees.next(), Some(TokenTree::Ident(name)) if name == "a"));
    let Some(TokenTree::Group(group)) = trees.next() else {
        panic!("a group follows");
    };
    assert_eq!(group.delimiter(), Delimiter::Parenthesis);
    assert_eq!(group.to_string(), "(b { c })");
    assert_eq!(group.stream().into_iter().count(), 2);
    let rest = trees.clone();
    assert!(matches!(trees.next(), Some(TokenTree::Punct(mark)) if mark.as_char() == '+'));
    assert!(matches!(trees.next(), Some(TokenTree::Literal(number)) if number.to_string() == "1"));
    assert!(trees.next().is_none());
    assert_eq!(rest.count(), 2);
}

#[test]
fn streams_are_built() {
    let mut stream = TokenStream::new();
    assert!(stream.is_empty());
    stream.extend([ident("x")]);
    stream.extend([Punct::new('=', Spacing::Alone)]);
    stream.extend([Literal::i32_suffixed(-3)]);
    assert_eq!(stream.to_string(), "x = - 3i32");
    assert_eq!(stream.clone().into_iter().count(), 4);
    let shared = stream.clone();
    stream.extend([parse("; y"), TokenStream::new(), parse("(z)")]);
    stream.extend([Group::new(Delimiter::None, parse("p q"))]);
    assert_eq!(stream.to_string(), "x = - 3i32 ; y (z) p q");
    assert_eq!(shared.to_string(), "x = - 3i32");
    let again: TokenStream = stream.into_iter().collect();
    assert_eq!(again.to_string(), "x = - 3i32 ; y (z) p q");
    let read: TokenStream = parse("a (b) c").into_iter().skip(1).collect();
    assert_eq!(read.to_string(), "(b) c");
}

/// Gives what it is asked to, and panics where it is asked again after its end.
struct EndsOnce<T>(Option<std::vec::IntoIter<T>>);

impl<T> EndsOnce<T> {
    fn new(items: Vec<T>) -> EndsOnce<T> {
        EndsOnce(Some(items.into_iter()))
    }
}

impl<T> Iterator for EndsOnce<T> {
    type Item = T;

    fn next(&mut self) -> Option<T> {
        let item = self.0.as_mut().expect("it is not asked again after its end").next();
        if item.is_none() {
            self.0 = None;
        }
        item
    }
}

#[test]
fn the_first_error_is_that_of_the_whole() {
    let printed = |streams: &[Result<&str, &'static str>]| {
        let streams = streams.iter().map(|stream| stream.map(parse));
        streams.collect::<Result<TokenStream, _>>().map(|stream| stream.to_string())
    };
    assert_eq!(printed(&[Err("first"), Err("second")]), Err("first"));
    assert_eq!(printed(&[Err("first"), Ok("x"), Err("third")]), Err("first"));
    assert_eq!(printed(&[Ok("x"), Err("second"), Err("third")]), Err("second"));
    assert_eq!(printed(&[Ok("x"), Err("second"), Ok("y"), Err("fourth")]), Err("second"));
    assert_eq!(printed(&[Ok("x"), Ok("y z")]), Ok("x y z".to_owned()));
    let trees = |trees: &[Result<TokenTree, &'static str>]| {
        trees.iter().cloned().collect::<Result<TokenStream, _>>().map(|stream| stream.to_string())
    };
    assert_eq!(trees(&[Err("first"), Err("second")]), Err("first"));
    assert_eq!(trees(&[Ok(ident("x").into()), Err("second"), Err("third")]), Err("second"));
}

#[test]
fn no_iterator_is_asked_again_after_its_end() {
    for count in 0..3 {
        let name = TokenTree::from(ident("x"));
        let want = ["", "x", "x x"][count];
        let streams = || EndsOnce::new(vec![parse("x"); count]);
        let trees = || EndsOnce::new(vec![name.clone(); count]);
        assert_eq!(streams().collect::<TokenStream>().to_string(), want);
        assert_eq!(trees().collect::<TokenStream>().to_string(), want);
        let mut stream = TokenStream::new();
        stream.extend(streams());
        stream.extend(trees());
        stream.extend(EndsOnce::new(vec![ident("y"); count]));
        stream.extend(EndsOnce::new(vec![Punct::new('+', Spacing::Alone); count]));
        stream.extend(EndsOnce::new(vec![Literal::u8_unsuffixed(1); count]));
        stream.extend(EndsOnce::new(vec![Group::new(Delimiter::Brace, parse("z")); count]));
        assert_eq!(stream.into_iter().count(), 6 * count);
    }
}

#[test]
fn what_the_library_refuses_is_printed_all_the_same() {
    // SAFETY: the wrapper relies on no literal being one: this is how streams come to be that the library refuses.
    let text = unsafe { Literal::from_str_unchecked("no literal") };
    let stream = TokenStream::from(TokenTree::Group(Group::new(Delimiter::Brace, TokenTree::from(text).into())));
    assert_eq!(stream.to_string(), "{ no literal }");
}

#[test]
fn identifiers_are_checked_and_compared() {
    assert_eq!(ident("a"), "a");
    let raw = Ident::new_raw("fn", Span::call_site());
    assert_eq!(raw, "r#fn");
    assert_ne!(raw, "fn");
    assert_ne!(raw, ident("fn"));
    assert!(ident("a") < ident("b"));
    for name in ["", "1", "a b", "a#", "'a", "r#a"] {
        assert!(panic::catch_unwind(|| ident(name)).is_err(), "{name}");
    }
    assert!(panic::catch_unwind(|| Ident::new_raw("self", Span::call_site())).is_err());
    assert!(panic::catch_unwind(|| Punct::new('_', Spacing::Alone)).is_err());
}

#[test]
fn literals_are_made() {
    for (literal, text) in [
        (Literal::string("a\"b\n'"), r#""a\"b\n'""#),
        (Literal::character('\''), r"'\''"),
        (Literal::byte_character(0x1f), r"b'\x1F'"),
        (Literal::byte_string(b"\x007"), r#"b"\x007""#),
        (Literal::c_string(c"a\xff"), r#"c"a\xFF""#),
        (Literal::u8_unsuffixed(255), "255"),
        (Literal::i128_suffixed(-1), "-1i128"),
        (Literal::f64_unsuffixed(10.0), "10.0"),
        (Literal::f32_suffixed(0.5), "0.5f32"),
    ] {
        assert_eq!(literal.to_string(), text);
    }
    assert_eq!("-1u8".parse::<Literal>().expect("it is a number").to_string(), "-1u8");
    for text in ["", "- 1", "a", "1 ", "-\"\"", "(1)"] {
        assert!(text.parse::<Literal>().is_err(), "{text}");
    }
    let end: &CStr = c"";
    assert_eq!(Literal::c_string(end).to_string(), "c\"\"");
    assert!(panic::catch_unwind(|| Literal::f64_unsuffixed(f64::NAN)).is_err());
}

/// Tenths below 100,000 are not written by Rust: all were compared once, and some are each time.
#[test]
fn floats_are_written_as_rust_writes_them_and_have_a_dot() {
    let wanted = |text: String| if text.contains('.') { text } else { text + ".0" };
    for tenths in (0..2_000u32).chain((2_000..1_000_100).step_by(71)).chain([999_999, 1_000_000, u32::MAX]) {
        let (single, double) = (tenths as f32 / 10.0, f64::from(tenths) / 10.0);
        for number in [single, -single, f32::from_bits(single.to_bits() + 1)] {
            assert_eq!(Literal::f32_unsuffixed(number).to_string(), wanted(number.to_string()));
        }
        for number in [double, -double, f64::from_bits(double.to_bits() + 1)] {
            assert_eq!(Literal::f64_unsuffixed(number).to_string(), wanted(number.to_string()));
        }
    }
    for number in [f64::MAX, f64::MIN, f64::MIN_POSITIVE, f64::EPSILON, 1e17, 0.25] {
        assert_eq!(Literal::f64_unsuffixed(number).to_string(), wanted(number.to_string()));
    }
}

#[test]
fn groups_may_nest_deep() {
    let depth = 200_000;
    let text = "(".repeat(depth) + &")".repeat(depth);
    let read = parse(&text);
    assert_eq!(read.to_string(), text);
    let mut built = TokenStream::new();
    for _ in 0..depth {
        built = TokenStream::from(TokenTree::Group(Group::new(Delimiter::Parenthesis, built)));
    }
    assert_eq!(built.to_string(), text);
}

#[test]
fn each_thread_has_a_map() {
    let threads: Vec<_> = (0..4)
        .map(|n| std::thread::spawn(move || parse(&format!("x{n}")).to_string()))
        .collect();
    for (n, thread) in threads.into_iter().enumerate() {
        assert_eq!(thread.join().expect("the thread ends"), format!("x{n}"));
    }
}

#[cfg(not(span_locations))]
#[test]
fn tokens_are_shown() {
    let shown = format!("{:?}", parse("a + (r#b 1)"));
    assert_eq!(
        shown,
        "TokenStream [Ident { sym: a }, Punct { char: '+', spacing: Alone }, Group { delimiter: Parenthesis, \
         stream: TokenStream [Ident { sym: r#b }, Literal { lit: 1 }] }]"
    );
    assert_eq!(format!("{:?}", ident("a")), "Ident(a)");
    assert_eq!(format!("{:?}", Span::call_site()), "Span");
}
