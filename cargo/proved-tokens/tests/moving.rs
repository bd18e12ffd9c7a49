//! Each call that `docs/GUIDE.md` and the READMEs of the packages show, made as they show it, with `?`. The last test
//! reads the pages, so that a page shows no other call. Blocks of code on the pages are compiled as their examples.
#![cfg(feature = "item_headers")]
#![cfg(feature = "token_buffer")]
#![cfg(feature = "quoting")]
#![cfg(feature = "pretty_printer")]
#![cfg(feature = "explain")]
use proved_tokens::check::{advice, explain, Hint};
use proved_tokens::cursor::TokenBuffer;
use proved_tokens::error::{CompileError, Fault};
use proved_tokens::items::{
    bare_trees, check_entries, compile_error, impl_generics, impl_header, impl_header_where, parse_entry, parse_file,
    parse_function, parse_generic_argument, parse_impl, parse_param, parse_parameter, parse_type_item, parse_type_path,
    split_any_item, split_attribute, split_attributes, split_type, split_visibility, type_generics, where_clause,
    where_clause_with_bound, within_generics, ArgumentKind, Attributes, Body, Entries, EntryKind, FieldList,
    GenericArguments, ItemKind, Keyword, ParamKind, ParameterKind, Parameters, PathArguments, SignClass, VariantList,
};
use proved_tokens::print::to_pretty_string;
use proved_tokens::quote::{Hole, Holes, Quote, Template};
use proved_tokens::text::{pieces, reprint, unescape_str, PieceKind};
use proved_tokens::{format_ident, quote, Delimiter, Ident, Literal, SourceMap, Span, TokenStream, TokenTree};
use std::error::Error;

type Outcome = Result<(), Box<dyn Error>>;

const TEXT: &str = "fn f(x: u8) -> u8 { x + 1 }";

#[test]
fn calls_in_place_of_proc_macro2s_on_streams() -> Outcome {
    let text = TEXT;
    let mut map = SourceMap::new();
    let mut stream = TokenStream::from_str(text, &mut map)?;
    assert!(text.parse::<TokenStream>()?.same_tokens(&stream));
    assert_eq!(text.parse::<TokenStream>()?.to_string(), reprint(text)?);
    let trees = stream.clone();
    let collected = trees.into_iter();
    let trees = collected.clone();
    assert!(trees.collect::<TokenStream>().same_tokens(&stream));
    let trees = collected.clone();
    let mut built = TokenStream::from_trees(trees)?;
    let Ok(x) = TokenStream::from_trees([]);
    assert!(x.same_tokens(&TokenStream::new()) && built.same_tokens(&stream));

    let trees = collected.clone();
    stream.extend(trees);
    let trees = collected;
    stream.extend_trees(trees)?;
    assert_eq!(stream.trees().len(), 21);
    let mut count = 0;
    for tree in &stream {
        count += usize::from(tree.clone().to_string() == tree.to_string());
    }
    for tree in stream {
        count += usize::from(!tree.to_string().is_empty());
    }
    assert_eq!(count, 42);

    let stream = TokenStream::from_str(text, &mut map)?;
    let mut names = Vec::new();
    for tree in stream.walk() {
        if let TokenTree::Ident(ident) = tree.clone() {
            assert!((ident == "fn") == ident.eq_str("fn"));
            names.push(ident.to_string());
        }
    }
    assert_eq!(names, ["fn", "f", "x", "u8", "u8", "x"]);
    built.extend(stream);
    let TokenTree::Group(group) = &built.trees()[6] else { panic!("it is the body") };
    assert!(group.stream()?.same_tokens(group.stream_ref()));
    Ok(())
}

#[test]
fn calls_in_place_of_proc_macro2s_on_spans_and_literals() -> Outcome {
    let text = TEXT;
    let mut map = SourceMap::new();
    let stream = TokenStream::from_str(text, &mut map)?;
    let (span, other) = (stream.trees()[0].span(), stream.trees()[6].span());
    assert!(map.holds(span) && map.holds(other));
    let one = span;
    assert!(!one.eq(&other) && other.eq(&other));
    assert_eq!(span.start(&map).line, 1);
    assert_eq!(span.end(&map).column, 2);
    let TokenTree::Group(group) = &stream.trees()[6] else { panic!("it is the body") };
    assert_eq!(group.span_open().byte_range(&mut map), 18..19);
    assert_eq!(group.span_close().byte_range(&mut map), 26..27);
    assert_eq!(span.file(&map)?, "<parsed string 1>");
    let span = span.join(other, &map).ok_or("both are in one text")?;
    assert_eq!(span.source_str(&map), Some(text));
    assert_eq!(span.source_text(&mut map)?.as_deref(), Some(text));
    assert_eq!(span.byte_range(&mut map), 0..text.len());
    map.invalidate();
    assert!(!map.holds(span));

    let literal = Literal::from_str("\"a\"", &mut map)?;
    assert_eq!(literal.text(), literal.to_string());
    assert_eq!("\"a\"".parse::<Literal>()?.to_string(), "\"a\"");
    let text = literal.str_value()?;
    assert_eq!(text, "a");
    assert_eq!(Literal::string(&text)?.text(), literal.text());
    let text = "b";
    assert_eq!(Literal::string(text)?.text(), "\"b\"");
    assert_eq!(Literal::from(text).text(), "\"b\"");
    assert_eq!(Literal::u8_suffixed(1)?.text(), "1u8");
    Ok(())
}

#[test]
fn calls_in_place_of_quotes() -> Outcome {
    let text = TEXT;
    let mut map = SourceMap::new();
    let name = TokenStream::from(Ident::new("g", Span::call_site())?);
    let mut quote = Quote::new();
    quote.parse("fn #name() {}", &mut map, &[Hole::one("name", &name)])?;
    assert_eq!(quote.finish()?.to_string(), "fn g () { }");
    assert_eq!(quote.into_stream().to_string(), "fn g () { }");
    assert_eq!(quote! { fn #name() {} }.to_string(), "fn g () { }");
    let (template, ident) = ("fn #name() {}", format_ident!("{}", "g"));
    let mut stream = {
        let text = template;
        Template::parse(text)?.fill(&Holes::new().with("name", &name))?
    };
    stream.extend([ident]);
    assert_eq!(stream.to_string(), "fn g () { } g");

    assert!(TokenBuffer::new(text)?.begin().ident().is_some());
    let buffer = TokenBuffer::new(text)?;
    let (keyword, after) = buffer.begin().ident().ok_or("no keyword")?;
    assert_eq!(keyword.text, "fn");
    let (_, cursor) = after.ident().ok_or("no name")?;
    let delimiter = Delimiter::Parenthesis;
    assert!(cursor.ident().is_none() && cursor.group(delimiter).is_some());
    Ok(())
}

#[test]
fn calls_in_place_of_syns() -> Outcome {
    let mut map = SourceMap::new();
    let stream = TokenStream::from_str("#[a] struct S<T: A = B>(T) where T: C;", &mut map)?;
    assert_eq!(parse_file(stream.trees())?.items.count(), 1);
    let item = parse_type_item(stream.trees())?;
    let Body::Struct(fields) = item.body else { panic!("it is a struct") };
    assert_eq!(fields.list().count(), 1);
    assert!(Attributes::new(item.attributes).all(|attribute| attribute.is("a")));
    let params = within_generics(item.generics)?;
    assert_eq!(parse_param(params)?.0.kind, ParamKind::Type);

    let path = TokenStream::from_str("Clone", &mut map)?;
    assert_eq!(impl_generics(&item)?.to_string(), "< T : A >");
    let header = impl_header(&item, &path)?;
    assert_eq!(header.to_string(), "impl < T : A > Clone for S < T > where T : C");
    assert_eq!(type_generics(&item)?.to_string(), "< T >");
    assert_eq!(where_clause(&item)?.to_string(), "where T : C");
    let header = impl_header_where(&item, &path, &where_clause_with_bound(&item, &path)?)?;
    assert_eq!(header.to_string(), "impl < T : A > Clone for S < T > where T : C , T : Clone");
    let (text, span) = ("a", item.name.span());
    assert_eq!(compile_error(text, span)?.to_string(), ":: core :: compile_error ! { \"a\" }");
    let error = parse_type_item(path.trees()).err().ok_or("it is no item")?;
    assert!(error.expected().contains(SignClass::Keyword(Keyword::Struct)) && !error.expected().has_end());
    let wanted = ":: core :: compile_error ! { \"expected a struct, an enum or a union\" }";
    assert_eq!(error.to_compile_error()?.to_string(), wanted);
    Ok(())
}

#[test]
fn calls_in_place_of_syns_on_attributes_parameters_and_errors() -> Outcome {
    let stream: TokenStream = "#[a = 1] #[b(skip, c = 2)]".parse()?;
    let mut attributes = Attributes::new(stream.trees());
    let attribute = attributes.next().ok_or("no attribute")?;
    assert!(matches!(attribute.entry()?.kind, EntryKind::Value([TokenTree::Literal(_)])));
    let attribute = attributes.next().ok_or("no second attribute")?;
    let EntryKind::List(group) = attribute.entry()?.kind else { panic!("it is a list") };
    let (trees, known) = (group.stream_ref().trees(), &["skip", "d"]);
    for entry in Entries::new(group) {
        let entry = entry?;
        assert_ne!(entry.is("skip"), entry.is("c"));
        assert_eq!(entry.name().is_some_and(|name| *name == "c"), entry.is("c"));
    }
    let list: TokenStream = "clippy::all".parse()?;
    let (entry, _) = parse_entry(list.trees())?;
    assert_eq!(TokenStream::from(entry.path).to_string(), "clippy :: all");
    let list: TokenStream = "crate = a::b".parse()?;
    let (entry, _) = parse_entry(list.trees())?;
    assert!(entry.is("crate"));
    let checked = || -> Result<(), CompileError> { Ok(check_entries(trees, known)?) };
    let mut error = checked().err().ok_or("it is known")?;
    assert_eq!(error.to_string(), "unknown entry `c`; known are `skip`, `d`");
    let stream: TokenStream = "(skip =)".parse()?;
    let [TokenTree::Group(list)] = stream.trees() else { panic!("it is a group") };
    let missing = check_entries(list.stream_ref().trees(), known).err().ok_or("it is an entry")?;
    assert!(missing.span().is_none() && missing.within(list).span().is_some());
    let body = list;
    let fault = parse_entry(body.stream_ref().trees()).err().ok_or("it is an entry")?;
    assert_eq!(format!("expected {} here", fault.expected()), "expected an expression here");
    assert!(fault.span().is_none() && fault.within(body).span().is_some());

    let stream: TokenStream = "pub const fn f(&self, x: u8) -> u8 { x }".parse()?;
    let function = parse_function(stream.trees())?;
    assert_eq!(Parameters::new(function.parameters).count(), 2);
    let trees = function.parameters.stream_ref().trees();
    assert!(matches!(parse_parameter(trees)?.0.kind, ParameterKind::Receiver));

    let stream: TokenStream = "impl<T> From<T> for S<T> { fn f() {} }".parse()?;
    {
        let item = parse_impl(stream.trees())?;
        let path = item.trait_path.map(|path| TokenStream::from(path).to_string());
        assert_eq!((path.as_deref(), item.self_type.len()), (Some("From < T >"), 4));
        assert_eq!(parse_file(item.body.stream_ref().trees())?.items.count(), 1);
    }

    let stream: TokenStream = "std::option::Option<Vec<T>, Item = A>".parse()?;
    {
        let trees = stream.trees();
        let path = parse_type_path(trees)?;
        assert_eq!((path.name.to_string().as_str(), path.prefix.len()), ("Option", 6));
        let PathArguments::AngleBracketed(trees) = path.arguments else { panic!("it has arguments") };
        assert!(matches!(parse_generic_argument(trees)?.0.kind, ArgumentKind::Type));
        let kinds: Result<Vec<_>, Fault> = GenericArguments::new(trees).map(|argument| Ok(argument?.kind)).collect();
        assert!(matches!(kinds?[..], [ArgumentKind::Type, ArgumentKind::Binding(_)]));
    }

    let (text, span) = ("a", trees[0].span());
    let mut other = CompileError::new(span, text);
    other.combine(CompileError::new_spanned(trees, text));
    error.combine(other);
    assert_eq!(error.to_string().lines().count(), 3);
    assert_eq!(error.to_compile_error().trees().len(), 24);
    Ok(())
}

#[test]
fn calls_for_lints_and_editors() -> Outcome {
    let stream: TokenStream = "/// A.\npub struct S { #[a] x: u8 }".parse()?;
    let item = parse_file(stream.trees())?.items.next().ok_or("no item")??;
    let attribute = Attributes::new(item.trees).next().ok_or("no attribute")?;
    assert_eq!(attribute.doc().map(Literal::text), Some("\" A.\""));
    let (_, rest) = split_attributes(item.trees)?;
    let (visibility, _) = split_visibility(rest)?;
    assert_eq!(TokenStream::from(visibility).to_string(), "pub");
    let Body::Struct(fields) = parse_type_item(item.trees)?.body else { panic!("it is a struct") };
    for field in fields.list() {
        let field = field?;
        assert!(Attributes::new(field.attributes).all(|attribute| attribute.is("a")));
        assert_eq!(TokenStream::from(field.field_type).to_string(), "u8");
        assert!(bare_trees(field.field_type)[0].span().eq(&field.field_type[0].span()));
    }
    let mut walk = stream.walk();
    while let Some(tree) = walk.next() {
        if let TokenTree::Group(group) = tree {
            walk.pass_over(group);
        }
        assert_ne!(tree.to_string(), "x");
    }
    let stream: TokenStream = "Map<K, V>, x: u8".parse()?;
    let trees = stream.trees();
    let (found, rest) = split_type(trees)?;
    assert_eq!((found.len(), rest.len()), (6, 4));
    let text = "/* a /* b */ c";
    let error = explain(text)?.ok_or("it has no error")?;
    assert!(matches!(advice(text, &error)?, Some(Hint::Comments { depth: 1, closed: Some(_) })));
    let mut map = SourceMap::new();
    assert!(TokenStream::from_str(text, &mut map).is_err());
    assert_eq!((error.at.span.start(&map).line, error.at.span.start(&map).column), (1, 0));

    let literal = "\"a\\\r\n b\r\n\"".parse::<Literal>()?;
    assert!(literal.str_value().is_err());
    assert_eq!(literal.text().replace("\r\n", "\n").parse::<Literal>()?.str_value()?, "ab\n");
    let stream = TokenStream::from_str("/// a\n#[doc = \" a\"] fn f(self::A(x): A) {}", &mut map)?;
    let docs: Vec<_> = Attributes::new(stream.trees()).filter_map(|attribute| attribute.doc()).collect();
    let texts: Vec<_> = docs.iter().map(|doc| (doc.text(), doc.span().source_str(&map))).collect();
    assert_eq!(texts, [("\" a\"", Some("/// a")), ("\" a\"", Some("\" a\""))]);

    let function = parse_function(stream.trees())?;
    assert_eq!(Parameters::new(function.parameters).next().ok_or("no parameter")?.unwrap_err().at, 1);
    let (receiver, rest) = parse_parameter(function.parameters.stream_ref().trees())?;
    assert!(matches!(receiver.kind, ParameterKind::Receiver) && rest.len() == 6);
    let text = "enum E { A = x as (u8) < 3, B = y as (u8) > (1), C }";
    let stream: TokenStream = text.parse()?;
    let Body::Enum(variants) = parse_type_item(stream.trees())?.body else { return Err("it is an enum".into()) };
    let list = VariantList::new(variants);
    let names: Vec<_> = list.map(|variant| Ok(variant?.name.to_string())).collect::<Result<_, Box<dyn Error>>>()?;
    assert_eq!(names, ["A", "B", "C"]);
    Ok(())
}

#[test]
fn calls_for_lints_in_bodies() -> Outcome {
    let stream: TokenStream = "#[a] fn f() {} x".parse()?;
    let trees = stream.trees();
    let (item, rest) = split_any_item(trees)?;
    assert!(item.kind == ItemKind::Function && rest.len() == 1);
    assert!(split_any_item(rest).is_err());
    let (attribute, rest) = split_attribute(trees).ok_or("no attribute")?;
    assert!(attribute.is("a") && rest.len() == 5);
    Ok(())
}

#[test]
fn calls_for_fields_and_attributes_of_files() -> Outcome {
    let file: TokenStream = "#![no_std] impl A for fn(u8) {} enum E { B } union U { c: Fn(u8) }".parse()?;
    let file = parse_file(file.trees())?;
    assert!(Attributes::new(file.inner).all(|attribute| attribute.is_inner()));
    let mut names = Vec::new();
    for item in file.items {
        let item = item?;
        match item.kind {
            ItemKind::Impl => assert!(parse_impl(item.trees)?.trait_path.is_some()),
            _ => match parse_type_item(item.trees)?.body {
                Body::Enum(group) => names.push(VariantList::new(group).next().ok_or("no variant")??.name.to_string()),
                Body::Union(group) => {
                    let field = FieldList::named(group).next().ok_or("no field")??;
                    names.push(field.name.ok_or("no name")?.to_string());
                }
                Body::Struct(_) => return Err("it is no struct".into()),
            },
        }
    }
    assert_eq!(names, ["B", "c"]);
    let i = 1;
    let Ok(index) = Literal::usize_unsuffixed(i);
    assert_eq!(quote! { self.#index }.to_string(), "self . 1");
    Ok(())
}

#[test]
fn calls_in_place_of_rustc_lexers_and_prettypleases() -> Outcome {
    let text = "a+=1";
    let mut walk = pieces(text);
    let placed = walk.next_piece().ok_or("no piece")?;
    assert_eq!((placed.text, placed.piece.bytes), ("a", 1));
    let placed = walk.next_piece().ok_or("no piece")?;
    assert_eq!(placed.piece.kind, PieceKind::Mark { mark: '+', joint: true });
    assert!(unescape_str(text).map(|(_, read)| read).eq(text.chars().map(Ok)));

    let stream = TokenStream::from_str(TEXT, &mut SourceMap::new())?;
    assert_eq!(to_pretty_string(&stream)?, "fn f(x: u8) -> u8 {\n    x + 1\n}\n");
    Ok(())
}

/// The pages that show calls to users of Cargo. The blocks of code on them are compiled as the examples of
/// `src/lib.rs` here and in the bridge.
const PAGES: [(&str, &str); 7] = [
    ("docs/GUIDE.md", include_str!("../../../docs/GUIDE.md")),
    ("README.md", include_str!("../../../README.md")),
    ("cargo/README.md", include_str!("../../README.md")),
    ("cargo/proved-tokens/README.md", include_str!("../README.md")),
    ("cargo/proved-macros/README.md", include_str!("../../proved-macros/README.md")),
    ("cargo/proc-macro2/README.md", include_str!("../../proc-macro2/README.md")),
    ("cargo/tokens/README.md", include_str!("../../tokens/README.md")),
];

/// The page without its chapter on programs in Rattle, whose calls are not those of Cargo.
fn for_cargo(page: &str) -> String {
    const HEADING: &str = "\n## Write a program in Rattle\n";
    let Some((before, chapter)) = page.split_once(HEADING) else {
        return page.to_string();
    };
    let (_, after) = chapter.split_once("\n## ").expect("it is not the last chapter");
    format!("{before}\n## {after}")
}

/// The blocks of Rust on a page, and the rest of it without any blocks.
fn blocks(page: &str) -> (String, String) {
    let (mut code, mut rest, mut fence) = (String::new(), String::new(), None);
    for line in page.lines() {
        match (fence, line.strip_prefix("```")) {
            (None, Some(kind)) => fence = Some(kind),
            (Some(_), Some(_)) => fence = None,
            (Some("rust"), None) => code += &format!("{line}\n"),
            (Some(_), None) => {}
            (None, None) => rest += &format!("{line}\n"),
        }
    }
    assert!(fence.is_none(), "a block that nothing closes");
    (code, rest)
}

/// The text without comments and white space, as a page may break lines otherwise.
fn squeezed(code: &str) -> String {
    code.lines().flat_map(|line| line.split("// ").next()).flat_map(str::chars).filter(|c| !c.is_whitespace()).collect()
}

/// The pieces of code in a line of text, or of the parts of it that show our calls: of a table's row that is the last
/// cell, and the first too where the last says that the call is the same.
fn shown(line: &str) -> Vec<&str> {
    let cells: Vec<&str> = line.split(" | ").collect();
    let skipped = match cells[..] {
        [_, last] => usize::from(!last.starts_with("the same")),
        _ => 0,
    };
    cells[skipped..].iter().flat_map(|cell| cell.split('`').skip(1).step_by(2)).collect()
}

/// Whether a piece of code is a call or another expression, and no name, path, attribute, command or text of a program.
fn is_expression(code: &str) -> bool {
    let call = code.split_once('(').is_some_and(|(name, _)| {
        !name.is_empty() && name.chars().all(|c| c.is_alphanumeric() || "_:.<>& ".contains(c)) && !name.contains("  ")
    });
    call || code.contains(" == ") || code.starts_with("for ") || code.contains('.') && code.contains("piece.")
}

/// Whether the code has this piece, of which a page leaves open what it writes as `..`.
fn has(code: &str, piece: &str) -> bool {
    let Some((front, back)) = piece.split_once("..") else {
        return code.contains(piece);
    };
    code.match_indices(front)
        .any(|(at, _)| code[at + front.len()..].split(';').next().is_some_and(|rest| has(rest, back)))
}

#[test]
fn each_call_that_a_page_shows_is_made_above() {
    let own = include_str!("moving.rs");
    let end = own.find("const PAGES").expect("it is above");
    let mut code = squeezed(&own[..end]);
    let pages = PAGES.map(|(name, page)| (name, for_cargo(page)));
    assert!(pages[0].1.len() < PAGES[0].1.len(), "the guide has no chapter on Rattle");
    for (_, page) in &pages {
        code += &squeezed(&blocks(page).0);
    }
    let (mut count, mut missing) = (0, Vec::new());
    for (name, page) in &pages {
        let allocator = page.split(|c: char| !c.is_alphanumeric()).any(|word| word == "Global");
        assert!(!allocator, "{name} names an allocator, which no call in Cargo takes");
        let text = blocks(page).1;
        let calls = text.lines().flat_map(shown).filter(|call| is_expression(call));
        for call in calls {
            count += 1;
            if !has(&code, &squeezed(call)) {
                missing.push(format!("{name}: `{call}`"));
            }
        }
    }
    assert!(missing.is_empty(), "calls that pages show, and that no test makes:\n{}", missing.join("\n"));
    assert!(count > 40, "the pages show {count} calls alone");
}
