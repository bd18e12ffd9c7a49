// Made from crates/quoting_tests/src/tests/templates.rt by dev/erase: change that file, not this one.

use crate::shim::prelude::{AllocGlobal, Grow, GrowText, HostRuntime};

// Templates, as a program that generates code uses them.
use crate::quoting_tests::tests::checks::{check_answer, display_text, displays, finished, parse_text};
use crate::quoting_tests::tests::rows::check_quote;
use proved_tokens::proc_macro2::{SourceMap, Span, TokenStream, TokenTree};
use proved_tokens::quoting::{Hole, Quote, TemplateError};
use crate::shim::process::Abort;
use crate::test_helpers::release;

/// The holes of a template: the name and the text of each hole of one stream, and the name and the texts of each hole
/// of a list.
#[derive(Clone, Copy)]
struct Given {
    ones: &'static [(&'static str, &'static str)],
    lists: &'static [(&'static str, &'static [&'static str])],
}

/// The streams that the texts of the holes parse to.
struct Fillings {
    ones: Vec<TokenStream>,
    lists: Vec<Vec<TokenStream>>,
}

fn parsed_list(rt: &(impl Abort + AllocGlobal), texts: &[&str]) -> Vec<TokenStream> {
    let mut streams = Vec::new();
    for &text in texts {
        streams.push_fallibly(parse_text(rt, text)).expect(text);
    }
    streams
}

fn parsed_ones(rt: &(impl Abort + AllocGlobal), ones: &[(&str, &str)]) -> Vec<TokenStream> {
    let mut streams = Vec::new();
    for &(_, text) in ones {
        streams.push_fallibly(parse_text(rt, text)).expect(text);
    }
    streams
}

fn parsed_lists(
    rt: &(impl Abort + AllocGlobal),
    lists: &[(&str, &[&str])],
) -> Vec<Vec<TokenStream>> {
    let mut parsed = Vec::new();
    for &(name, texts) in lists {
        parsed.push_fallibly(parsed_list(rt, texts)).expect(name);
    }
    parsed
}

fn parsed_holes(rt: &(impl Abort + AllocGlobal), given: Given) -> Fillings {
    let ones = parsed_ones(rt, given.ones);
    let lists = parsed_lists(rt, given.lists);
    Fillings { ones, lists }
}

/// Returns the holes with these names and with the parsed streams.
fn holes<'a>(
    rt: &(impl Abort + AllocGlobal),
    given: Given,
    fillings: &'a Fillings,
) -> Vec<Hole<'a>> {
    let mut holes = Vec::new();
    for (&(name, _), stream) in given.ones.iter().zip(fillings.ones.iter()) {
        holes.push_fallibly(Hole::one(name, stream)).expect(name);
    }
    for (&(name, _), streams) in given.lists.iter().zip(fillings.lists.iter()) {
        let hole = Hole::each(name, streams.as_slice());
        holes.push_fallibly(hole).expect(name);
    }
    holes
}

/// Returns the stream of the template, filled with these holes.
fn filled_by(rt: &(impl Abort + AllocGlobal), template: &str, holes: &[Hole<'_>]) -> TokenStream {
    let mut quote = Quote::new();
    let mut map = SourceMap::new();
    quote.parse(template, &mut map, holes).expect(template);
    let stream = finished(rt, &quote, template);
    release((quote, map));
    stream
}

/// Asserts the printed text of the filled template.
fn check_filled(rt: &(impl Abort + AllocGlobal), template: &str, given: Given, want: &str) {
    let fillings = parsed_holes(rt, given);
    let holes = holes(rt, given, &fillings);
    let stream = filled_by(rt, template, holes.as_slice());
    displays(rt, &stream, template, want);
    release((holes, stream));
    release(fillings);
}

/// Returns the columns of the start and end of the error's span, if the map holds it.
fn columns_of(error: &TemplateError, map: &SourceMap) -> Option<(usize, usize)> {
    match span_of(error) {
        Some(span) if map.holds(span) => Some((span.start(map).column, span.end(map).column)),
        _ => None,
    }
}

/// Asserts the message of the template's error, and the columns of its start and end.
fn check_error(
    rt: &(impl Abort + AllocGlobal),
    template: &str,
    (error, map): (&TemplateError, &SourceMap),
    (message, start, end): (&str, usize, usize),
) {
    displays(rt, error, template, message);
    check_answer(rt, template, &columns_of(error, map), &Some((start, end)));
}

fn span_of(error: &TemplateError) -> Option<Span> {
    match error {
        TemplateError::NoHole(span)
        | TemplateError::LoneList(span)
        | TemplateError::NoList(span)
        | TemplateError::UnequalLists(span)
        | TemplateError::NotIdent(span)
        | TemplateError::NotFinite(span)
        | TemplateError::TooDeep(span) => Some(*span),
        TemplateError::Parse(_) | TemplateError::Memory(_) => None,
    _ => unreachable!("each case is above"),
}
}

/// Returns the source text of the tree.
fn text_of<'m>(tree: &TokenTree, map: &'m SourceMap) -> Option<&'m str> {
    let span = tree.span();
    if map.holds(span) {
        span.source_str(map)
    } else {
        None
    }
}

/// Asserts that the template, filled with these holes, has this error.
fn check_fault(
    rt: &(impl Abort + AllocGlobal),
    template: &str,
    holes: &[Hole<'_>],
    want: (&str, usize, usize),
) {
    let mut map = SourceMap::new();
    let mut quote = Quote::new();
    let found = quote.parse(template, &mut map, holes);
    match &found {
        Err(error) => check_error(rt, template, (error, &map), want),
        Ok(()) => assert!(false, "no fault of {template:?}"),
    }
    release((map, quote, found));
}

/// Asserts the error of each template, filled with the same holes.
fn check_faults(
    rt: &(impl Abort + AllocGlobal),
    given: Given,
    rows: &[(&str, (&str, usize, usize))],
) {
    let fillings = parsed_holes(rt, given);
    let holes = holes(rt, given, &fillings);
    for &(template, want) in rows {
        check_fault(rt, template, holes.as_slice(), want);
    }
    release(holes);
    release(fillings);
}

/// Templates, their holes, and the printed text.
const FILLED: &[(&str, Given, &str)] = &[
    // The getters of a struct are one repetition.
    (
        "impl #name { #( pub fn #field(&self) -> &#kind { &self.#field } )* }",
        Given {
            ones: &[("name", "Point")],
            lists: &[("field", &["x", "label"]), ("kind", &["u32", "Vec<u8>"])],
        },
        "impl Point { pub fn x (& self) -> & u32 { & self . x } \
         pub fn label (& self) -> & Vec < u8 > { & self . label } }",
    ),
    // A comma is between arguments and not after the last one.
    (
        "f(#(#argument),*);",
        Given {
            ones: &[],
            lists: &[("argument", &[])],
        },
        "f () ;",
    ),
    (
        "f(#(#argument),*);",
        Given {
            ones: &[],
            lists: &[("argument", &["1"])],
        },
        "f (1) ;",
    ),
    (
        "f(#(#argument),*);",
        Given {
            ones: &[],
            lists: &[("argument", &["1", "a + b", "'c'"])],
        },
        "f (1 , a + b , 'c') ;",
    ),
    // A hole can be inside groups, and its name can be a number.
    (
        "vec![(#0, [#1]), (# r#in, #0)]",
        Given {
            ones: &[("0", "\"k\""), ("1", "{ 7 }"), ("r#in", "\"k\"")],
            lists: &[],
        },
        "vec ! [(\"k\" , [{ 7 }]) , (\"k\" , \"k\")]",
    ),
    // A mark does not join with the trees that replace a hole.
    ("a &#x && #x &&#x", BORROWED, "a & & b && & b && & b"),
    ("&#(#xs)*", BORROWED, "& & b & b"),
    ("&#(#xs)&*", BORROWED, "& & b & & b"),
    // Any other hash sign is kept.
    (
        "#![allow(x)] #[derive(Debug)] struct #name; m!(# #(#name) + #1u8 #\"s\" #)",
        Given {
            ones: &[("name", "S")],
            lists: &[],
        },
        "#! [allow (x)] # [derive (Debug)] struct S ; m ! (# # (S) + # 1u8 # \"s\" #)",
    ),
];

const BORROWED: Given = Given {
    ones: &[("x", "&b")],
    lists: &[("xs", &["&b", "&b"])],
};

#[test]
fn templates_are_filled() {
    let rt = HostRuntime;
    for &(template, given, want) in FILLED {
        check_filled(&rt, template, given, want);
    }
}

/// Returns the stream of the template, with this stream for the hole `name`.
fn name_filled(
    rt: &(impl Abort + AllocGlobal),
    template: &str,
    map: &mut SourceMap,
    name: &TokenStream,
) -> TokenStream {
    let mut quote = Quote::new();
    let holes = [Hole::one("name", name)];
    quote.parse(template, map, &holes).expect(template);
    let stream = finished(rt, &quote, template);
    release(quote);
    stream
}

/// Asserts the source text of each tree.
fn check_texts(rt: &impl Abort, trees: &[TokenTree], map: &SourceMap, wants: &[&str]) {
    check_answer(rt, "the trees", &trees.len(), &wants.len());
    for (tree, &want) in trees.iter().zip(wants.iter()) {
        check_answer(rt, want, &text_of(tree, map), &Some(want));
    }
}

#[test]
fn tokens_of_the_template_and_of_the_holes_keep_their_spans() {
    let rt = HostRuntime;
    let mut map = SourceMap::new();
    let name = TokenStream::from_str("point", &mut map).expect("point");
    let stream = name_filled(&rt, "let #name = (1);", &mut map, &name);
    let wants = &["let", "point", "=", "(1)", ";"];
    check_texts(&rt, stream.trees(), &map, wants);
    release((name, stream, map));
}

/// A hole of one stream, and holes of lists of two, three and no streams.
const HOLES: Given = Given {
    ones: &[("x", "a")],
    lists: &[
        ("two", &["a", "a"]),
        ("three", &["a", "a", "a"]),
        ("none", &[]),
    ],
};

#[test]
fn each_fault_has_its_span() {
    let rt = HostRuntime;
    let rows = &[
        ("#x + #y", ("no hole of this name", 6, 7)),
        ("#r#x", ("no hole of this name", 1, 4)),
        ("f(#two)", ("a list outside of a repetition", 3, 6)),
        ("a #( #x )*", ("a repetition that names no list", 3, 9)),
        (
            "#( #two [#three] )*",
            ("lists of different lengths", 10, 15),
        ),
        (
            "#( #two #( #three ),* )*",
            ("lists of different lengths", 12, 17),
        ),
        ("#( #two #z #three )*", ("no hole of this name", 9, 10)),
    ];
    check_faults(&rt, HOLES, rows);
}

#[test]
fn parentheses_come_before_what_is_wrong_inside() {
    let rt = HostRuntime;
    let no_hole = "no hole of this name";
    let no_list = "a repetition that names no list";
    let rows = &[
        // No list is named. This error comes before any error inside.
        ("#( #missing )*", (no_list, 1, 13)),
        ("#( [#missing] )*", (no_list, 1, 15)),
        ("#( #missing #x ),*", (no_list, 1, 16)),
        ("#( #( #x )* )*", (no_list, 1, 13)),
        ("#( #( #missing )* )*", (no_list, 1, 19)),
        ("#( )*", (no_list, 1, 4)),
        // A list is named at some depth, so the first error is one inside.
        ("#( #missing #two )*", (no_hole, 4, 11)),
        ("#( #two #missing )*", (no_hole, 9, 16)),
        ("#( #missing [(#two)] )*", (no_hole, 4, 11)),
        ("#( [#two] #missing )*", (no_hole, 11, 18)),
        ("#( #none #missing )*", (no_hole, 10, 17)),
        // The outer repetition uses up the list.
        ("#( #( #two )* )*", (no_list, 4, 12)),
        ("#( #( #missing #two )* )*", (no_hole, 7, 14)),
        (
            "#( #three #two #missing )*",
            ("lists of different lengths", 11, 14),
        ),
        ("#( #two #( #x )* )*", (no_list, 9, 15)),
        // Without a turn, the errors of turns do not occur.
        ("#( #none #( #x )* )* #missing", (no_hole, 22, 29)),
        // Errors come in reading order.
        ("#missing #( #x )*", (no_hole, 1, 8)),
        ("#( #x )* #missing", (no_list, 1, 7)),
        ("(#two) #( #x )*", ("a list outside of a repetition", 2, 5)),
    ];
    check_faults(&rt, HOLES, rows);
}

/// Returns a text in nested parentheses, between two others.
fn deep(
    rt: &(impl Abort + AllocGlobal),
    (before, inside, after): (&str, &str, &str),
    levels: usize,
) -> String {
    let mut text = String::from_str_fallibly(before).expect(before);
    for _ in 0..levels {
        text.push_fallibly('(').expect("(");
    }
    text.push_str_fallibly(inside).expect(inside);
    for _ in 0..levels {
        text.push_fallibly(')').expect(")");
    }
    text.push_str_fallibly(after).expect(after);
    text
}

/// Asserts the error of a template whose middle part is in nested parentheses.
fn check_deep(
    rt: &(impl Abort + AllocGlobal),
    parts: (&str, &str, &str),
    levels: usize,
    want: (&str, usize, usize),
) {
    let template = deep(rt, parts, levels);
    check_faults(rt, HOLES, &[(template.as_str(), want)]);
}

#[test]
fn a_list_is_found_deeper_than_groups_may_nest() {
    let rt = HostRuntime;
    let too_deep = "groups nested too deep";
    let no_list = "a repetition that names no list";
    let rows = &[
        (("#( ", "#two", " )*"), 64, (too_deep, 66, 72)),
        (("#( ", "#x", " )*"), 64, (no_list, 1, 135)),
        // At one pair of parentheses `TooDeep` comes before `NoList`.
        (("", "#( #x )*", ""), 64, (too_deep, 65, 71)),
        (("", "#( #two #( #x )* )*", ""), 63, (too_deep, 72, 78)),
        (("", "#( #two [#x] )*", ""), 63, (too_deep, 71, 75)),
    ];
    for &(parts, levels, want) in rows {
        check_deep(&rt, parts, levels, want);
    }
}

#[test]
fn groups_nest_64_deep() {
    let rt = HostRuntime;
    let template = deep(&rt, ("", "x", ""), 64);
    let stream = filled_by(&rt, template.as_str(), &[]);
    let code = display_text(&rt, &stream);
    check_answer(&rt, "64 pairs", &code.len(), &129);
    release((template, stream, code));
    check_deep(&rt, ("", "x", ""), 65, ("groups nested too deep", 64, 67));
}

/// Returns whether the template is rejected, and whether for a syntax error of its text.
fn refusal(rt: &impl AllocGlobal, quote: &mut Quote, template: &str) -> (bool, bool) {
    let mut map = SourceMap::new();
    let found = quote.parse(template, &mut map, &[]);
    let answer = (
        found.is_err(),
        matches!(&found, Err(TemplateError::Parse(_))),
    );
    release((map, found));
    answer
}

/// Asserts that a missing hole and a syntax error of the text are rejected.
fn check_refused(rt: &(impl Abort + AllocGlobal), quote: &mut Quote) {
    let (is_refused, _) = refusal(rt, quote, "b #y");
    check_answer(rt, "b #y", &is_refused, &true);
    let answer = refusal(rt, quote, "b (");
    check_answer(rt, "b (", &answer, &(true, true));
}

/// Adds the template `#x;` to the quote, with `a` for its hole.
fn fill(rt: &(impl Abort + AllocGlobal), quote: &mut Quote) {
    let one = parse_text(rt, "a");
    let template = parse_text(rt, "#x;");
    let holes = [Hole::one("x", &one)];
    quote.fill(&template, &holes).expect("#x;");
    release((one, template));
}

/// Asserts that the first tree of the quote's stream is an identifier.
fn begins_with_a_word(rt: &impl Abort, quote: &Quote, row: &str) {
    let stream = finished(rt, quote, row);
    let is_word = matches!(stream.trees().first(), Some(TokenTree::Ident(_)));
    release(stream);
    check_answer(rt, row, &is_word, &true);
}

#[test]
fn a_fault_leaves_the_quote_as_it_was() {
    let rt = HostRuntime;
    let mut quote = Quote::new();
    fill(&rt, &mut quote);
    check_refused(&rt, &mut quote);
    check_quote(&rt, &quote, "a ;");
    begins_with_a_word(&rt, &quote, "a ;");
    release(quote);
}
