//! What Rust's users expect of the types: the traits of std, and `?` on every call that docs/GUIDE.md and the READMEs
//! show.
#![cfg(all(feature = "explain", feature = "relayout", feature = "pretty_printer", feature = "item_headers"))]
use proved_tokens::check::explain;
use proved_tokens::cursor::TokenBuffer;
use proved_tokens::error::{CompileError, HeaderError};
use proved_tokens::items::{
    check_entries, compile_error, impl_generics, impl_header, impl_header_where, parse_file, parse_param,
    parse_type_item, type_generics, where_clause, where_clause_with_bound, Attributes, Body, Fields,
};
use proved_tokens::print::{to_pretty_string, with_doc_comments};
use proved_tokens::quote::{Hole, Holes, Quote, Template};
use proved_tokens::text::{pieces, place_trees, reprint, unescape_str};
use proved_tokens::walk::Step;
use proved_tokens::{Delimiter, Group, Ident, Literal, Punct, SourceMap, Spacing, Span, TokenStream, TokenTree};
use std::error::Error;

type Outcome = Result<(), Box<dyn Error>>;

const TEXT: &str = "fn f(x: u8) -> u8 { x + 1 }";

#[test]
fn calls_in_place_of_proc_macro2s_have_a_question_mark() -> Outcome {
    let mut map = SourceMap::new();
    let stream = TokenStream::from_str(TEXT, &mut map)?;
    let literal = Literal::from_str("1u8", &mut map)?;
    assert_eq!(reprint(TEXT)?, stream.to_string());
    let string = Literal::string("a")?;
    let mut built = TokenStream::from_trees(stream.clone())?;
    built.extend_trees([TokenTree::Literal(literal.clone()), TokenTree::Literal(string)])?;
    let TokenTree::Group(group) = built.trees()[6].clone() else { panic!("it is the body") };
    assert!(group.stream()?.same_tokens(group.stream_ref()));
    let span = stream.trees()[1].span();
    assert_eq!((span.start(&map).column, span.end(&map).column), (3, 4));
    let file: String = span.file(&map)?;
    let text: Option<String> = span.source_text(&mut map)?;
    assert_eq!((file.as_str(), text.as_deref()), ("<parsed string 1>", Some("f")));
    assert_eq!(span.source_str(&map), Some("f"));
    assert!(span.join(stream.trees()[2].span(), &map).is_some());
    assert_eq!(span.byte_range(&mut map), 3..4);
    let value: String = Literal::string("a\n")?.str_value()?;
    assert_eq!(value, "a\n");
    let places: Vec<_> = place_trees(TEXT)?;
    assert_eq!(places.len(), built.walk().count() - 2);
    map.invalidate();
    Ok(())
}

#[test]
fn calls_in_place_of_quotes_and_syns_have_a_question_mark() -> Outcome {
    let mut map = SourceMap::new();
    let name = TokenStream::from(Ident::new("g", Span::call_site())?);
    let mut quote = Quote::new();
    quote.parse("fn #name() {}", &mut map, &[Hole::one("name", &name)])?;
    assert_eq!(quote.finish()?.to_string(), "fn g () { }");
    let buffer = TokenBuffer::new(TEXT)?;
    let (keyword, after) = buffer.begin().ident().ok_or("no keyword")?;
    assert_eq!(keyword.text, "fn");
    let (_, after) = after.ident().ok_or("no name")?;
    assert!(after.group(Delimiter::Parenthesis).is_some());
    let stream = TokenStream::from_str("#[a] struct S<T: A> where T: B { x: u8, y: T }", &mut map)?;
    let item = parse_type_item(stream.trees())?;
    assert_eq!(item.name.to_string(), "S");
    assert_eq!(Attributes::new(item.attributes).count(), 1);
    let Body::Struct(fields) = item.body else { panic!("it is a struct") };
    assert!(matches!(fields, Fields::Named(_)));
    for field in fields.list() {
        assert!(field?.name.is_some());
    }
    let (param, _) = parse_param(&item.generics[1..item.generics.len() - 1])?;
    assert_eq!(param.name.len(), 1);
    let path = TokenStream::from_str("C", &mut map)?;
    let clause = where_clause_with_bound(&item, &path)?;
    let header = impl_header_where(&item, &path, &clause)?;
    assert_eq!(header.to_string(), "impl < T : A > C for S < T > where T : B , T : C");
    assert_eq!(impl_header(&item, &path)?.to_string(), "impl < T : A > C for S < T > where T : B");
    assert_eq!((impl_generics(&item)?.is_empty(), type_generics(&item)?.is_empty()), (false, false));
    assert_eq!(where_clause(&item)?.to_string(), "where T : B");
    assert_eq!(compile_error("a", item.name.span())?.trees().len(), 8);
    if let Err(fault) = parse_type_item(path.trees()) {
        assert_eq!(fault.to_compile_error()?.trees().len(), 8);
    }
    let file = TokenStream::from_str(TEXT, &mut map)?;
    for item in parse_file(file.trees())?.items {
        assert_eq!(item?.name.map(|name| name.to_string()), Some("f".into()));
    }
    Ok(())
}

#[test]
fn calls_in_place_of_the_lexers_and_prettypleases_have_a_question_mark() -> Outcome {
    let texts: Vec<&str> = pieces("a + b").map(|placed| placed.text).collect();
    assert_eq!(texts, ["a", " ", "+", " ", "b"]);
    let units: Result<String, _> = unescape_str(r"a\tb").map(|(_, unit)| unit).collect();
    assert_eq!(units?, "a\tb");
    let stream: TokenStream = TEXT.parse()?;
    let text: String = to_pretty_string(&stream)?;
    assert_eq!(text, "fn f(x: u8) -> u8 {\n    x + 1\n}\n");
    assert_eq!(with_doc_comments("#[doc = \" a\"]\nfn f() {}\n")?, "/// a\nfn f() {}\n");
    assert!(explain("f(x)")?.is_none());
    Ok(())
}

#[test]
fn the_traits_of_std_are_there() -> Outcome {
    #[derive(Clone, Debug, Default)]
    struct Holder {
        stream: TokenStream,
    }
    let stream: TokenStream = TEXT.parse()?;
    let holder = Holder { stream: stream.clone() };
    assert!(holder.clone().stream.same_tokens(&stream) && Holder::default().stream.is_empty());
    let trees: Vec<TokenTree> = stream.trees().to_vec();
    assert_eq!(TokenStream::from(&trees[..]).to_string(), stream.to_string());
    let mut made: TokenStream = trees.into_iter().filter(|tree| !matches!(tree, TokenTree::Group(_))).collect();
    made.extend(stream.trees().iter().cloned());
    made.extend([Punct::new(';', Spacing::Alone)]);
    made.extend([Ident::new("a", Span::call_site())?]);
    made.extend([Literal::string("a")?]);
    made.extend([Group::new(Delimiter::Bracket, TokenStream::default())]);
    made.extend([stream.clone(), stream]);
    assert_eq!((&made).into_iter().count(), 30);
    let mut names = 0;
    for tree in made.walk() {
        if let TokenTree::Ident(name) = tree {
            names += usize::from(*name == "u8");
        }
    }
    assert_eq!(names, 7);
    assert_eq!(made.steps().filter(|step| matches!(step, Step::Enter(..))).count(), 7);
    assert_eq!(made.clone().into_iter().len(), 30);
    for tree in made {
        assert!(!tree.to_string().is_empty());
    }
    let literal: Literal = "1u8".parse()?;
    assert_eq!((literal.to_string(), Literal::from("a\t").to_string()), ("1u8".into(), "\"a\\t\"".into()));
    let name: Ident = "größe".try_into()?;
    assert!(name == *"größe" && TokenStream::from(name).to_string() == "größe");
    let streams: TokenStream = ["a", "b"].iter().map(|text| text.parse::<TokenStream>()).collect::<Result<_, _>>()?;
    assert_eq!(streams.to_string(), "a b");
    Ok(())
}

#[test]
fn errors_have_texts_sources_spans_and_are_compared() -> Outcome {
    fn is_error<E: Error + PartialEq + Send + Sync + 'static>() {}
    is_error::<proved_tokens::shim::alloc::AllocError>();
    is_error::<proved_tokens::literal_escaper::EscapeError>();
    is_error::<proved_tokens::proc_macro2::LexError>();
    is_error::<proved_tokens::proc_macro2::ParseError>();
    is_error::<proved_tokens::proc_macro2::IdentError>();
    is_error::<proved_tokens::proc_macro2::ConversionErrorKind>();
    is_error::<proved_tokens::token_buffer::BufferError>();
    is_error::<proved_tokens::quoting::QuoteError>();
    is_error::<proved_tokens::quoting::TemplateError>();
    is_error::<proved_tokens::explain::ExplainError>();
    is_error::<proved_tokens::layout::LayoutError>();
    is_error::<proved_tokens::relayout::RelayoutError>();
    is_error::<proved_tokens::declarations::Fault>();
    is_error::<proved_tokens::item_headers::HeaderError>();
    fn fails<E: Error + PartialEq>(error: Option<E>, text: &str, has_source: bool) {
        let error = error.expect("it fails");
        assert_eq!((error.to_string().as_str(), error.source().is_some()), (text, has_source));
        assert!(error == error);
    }
    let mut map = SourceMap::new();
    let fault = TokenStream::from_str("a (", &mut map).err();
    assert_eq!(fault.as_ref().and_then(|fault| fault.span()).map(|span| span.byte_range(&mut map)), Some(2..2));
    fails(fault, "cannot parse string into token stream", true);
    fails(TokenBuffer::new("(").err(), "cannot parse string into token stream", true);
    fails(Ident::new("2", Span::call_site()).err(), "a number is no identifier", false);
    fails(Literal::string("a")?.cstr_value().err(), "the literal is of another kind or has a suffix", false);
    fails(with_doc_comments("'").err(), "cannot split the text into tokens", false);
    let fault = Quote::new().parse("#a", &mut map, &[]).err();
    assert!(fault.as_ref().is_some_and(|fault| fault.span().is_some()));
    fails(fault, "no hole of this name", false);
    let stream: TokenStream = "struct S {".replace('{', ";;").parse()?;
    let fault = parse_type_item(stream.trees()).err();
    assert!(fault.is_some_and(|fault| fault.span().is_some()));
    fails(fault, &fault.map(|fault| fault.to_string()).unwrap_or_default(), false);
    Ok(())
}

#[test]
fn every_error_becomes_a_compile_error_at_its_place() -> Outcome {
    let mut map = SourceMap::new();
    let stream = TokenStream::from_str("struct\n{} enum", &mut map)?;
    let fault = parse_type_item(stream.trees()).unwrap_err();
    assert_eq!(CompileError::from(fault).span().source_str(&map), Some("{}"));
    let ends = parse_type_item(&stream.trees()[..1]).unwrap_err();
    let mut error = CompileError::from(ends);
    error.combine(HeaderError::Fault(fault).into());
    error.combine(TokenStream::from_str("a b)", &mut map).unwrap_err().into());
    let entries = TokenStream::from_str("skip, renam", &mut map)?;
    error.combine(check_entries(entries.trees(), &["skip"]).unwrap_err().into());
    let texts = error.to_string();
    let texts: Vec<&str> = texts.lines().collect();
    assert_eq!(texts[..3], [ends.to_string(), fault.to_string(), "cannot parse string into token stream".into()]);
    let note = error.to_compile_error();
    let starts = note.trees().chunks(8).map(|trees| trees[0].span().start(&map));
    let starts: Vec<_> = starts.map(|start| (start.line, start.column)).collect();
    assert_eq!(starts, [(1, 0), (2, 0), (1, 3), (1, 6)]);
    // Those without a place.
    fn in_a_macro(row: usize) -> Result<TokenStream, CompileError> {
        match row {
            0 => drop(Ident::new("1", Span::call_site())?),
            1 => drop(Literal::from_str_unchecked("1")?.str_value()?),
            2 => drop(with_doc_comments("'")?),
            3 => drop(TokenBuffer::new("(")?),
            4 => drop(to_pretty_string(&Punct::new('\'', Spacing::Joint).into())?),
            5 => drop("(".parse::<TokenStream>()?),
            6 => drop(Template::parse("#a")?.fill(&Holes::new())?),
            _ => drop(unescape_str("\\").next().expect("a unit").1?),
        }
        Ok(TokenStream::new())
    }
    for row in 0..8 {
        let note = in_a_macro(row).expect_err("it is an error").to_compile_error();
        assert_eq!(note.trees().len(), 8, "row {row}");
    }
    Ok(())
}
