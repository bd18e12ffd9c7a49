//! `quote!`, `quote_spanned!`, `format_ident!` and templates of texts.
#![cfg(feature = "quote")]
use proved_tokens::error::TemplateError;
use proved_tokens::quote::{Holes, Template, ToTokens};
use proved_tokens::{format_ident, quote, quote_spanned};
use proved_tokens::{Delimiter, Group, Ident, Literal, Punct, SourceMap, Spacing, Span, TokenStream, TokenTree};
use std::borrow::Cow;
use std::panic::catch_unwind;
use std::rc::Rc;

fn name(text: &str) -> Ident {
    text.try_into().expect("it is a name")
}

#[test]
fn values_of_every_kind_are_put_in() {
    let (ident, literal) = (name("a"), Literal::from("x"));
    let stream: TokenStream = "<'a, T>".parse().expect("it is a text");
    let tree = TokenTree::from(Group::new(Delimiter::None, stream.clone()));
    let group = Group::new(Delimiter::Bracket, stream.clone());
    let mark = Punct::new('+', Spacing::Joint);
    assert_eq!(quote!(#ident #literal #stream #group #mark).to_string(), "a \"x\" <'a , T > [<'a , T >] +");
    assert!(quote!(#tree).same_tokens(&tree.clone().into()));
    let (text, string, letter, yes) = ("a\n", String::from("é"), '\'', true);
    assert_eq!(quote!(#text #string #letter #yes).to_string(), r#""a\n" "é" '\'' true"#);
    let (small, long, signed, size) = (1u8, u128::MAX, i64::MIN, 2usize);
    let wanted = "1u8 340282366920938463463374607431768211455u128 - 9223372036854775808i64 2usize";
    assert_eq!(quote!(#small #long #signed #size).to_string(), wanted);
    let (float, double) = (-0.5f32, 1e30f64);
    assert_eq!(quote!(#float #double).to_string(), "- 0.5f32 1000000000000000000000000000000f64");
    let (some, none, inner) = (Some(1u8), None::<Ident>, Some(Some(&ident)));
    assert_eq!(quote!(#some #none #inner).to_string(), "1u8 a");
    let (boxed, shared, cow, borrowed) = (Box::new(1u8), Rc::new(&ident), Cow::Borrowed("c"), &&string);
    assert_eq!(quote!(#boxed #shared #cow #borrowed).to_string(), "1u8 a \"c\" \"é\"");
    let (dynamic, list): (&dyn ToTokens, _) = (&ident, [1u8, 2]);
    assert_eq!(quote!(#dynamic #([#dynamic #inner #list])*).to_string(), "a [a a 1u8] [a a 2u8]");
}

#[test]
fn lists_of_every_kind_are_repeated() {
    let idents = vec![name("a"), name("b")];
    let wanted = "a , b";
    let (slice, references, owned) = (&idents[..], idents.iter().collect::<Vec<_>>(), [name("a"), name("b")]);
    let streams = idents.iter().map(|ident| quote!(#ident)).collect::<Vec<_>>();
    let trees = idents.iter().cloned().map(TokenTree::from).collect::<Vec<_>>();
    let iterator = idents.iter().rev().rev();
    let (borrowed, twice) = (&idents, &&idents);
    let made = [
        quote!(#(#idents),*),
        quote!(#(#slice),*),
        quote!(#(#references),*),
        quote!(#(#owned),*),
        quote!(#(#streams),*),
        quote!(#(#trees),*),
        quote!(#(#iterator),*),
        quote!(#(#borrowed),*),
        quote!(#(#twice),*),
    ];
    assert_eq!(made.map(|made| made.to_string()), [wanted; 9]);
    let literals = [Literal::from("a"), Literal::i8_suffixed(-1).expect("memory")];
    let (strings, numbers, options) = (vec!["x", "y"], [1.5f64, -2.0], [Some('a'), None]);
    let made = quote!(#(#literals #strings #numbers #options),*);
    assert_eq!(made.to_string(), "\"a\" \"x\" 1.5f64 'a' , - 1i8 \"y\" - 2f64");
    // A value that is no list comes in each turn, and lists can be used several times.
    let mut iterated = strings.iter().map(|text| format_ident!("f_{}", text));
    let by_reference = iterated.by_ref();
    let made = quote!(#(#by_reference(#literals, #by_reference);)* #(#literals)*);
    assert_eq!(made.to_string(), "f_x (\"a\" , f_x) ; f_y (- 1i8 , f_y) ; \"a\" - 1i8");
}

#[test]
fn turns_are_separated_by_any_token() {
    let (list, lists) = ([1u8, 2, 3], [vec!["a", "b"], vec!["c"]]);
    let made = [
        quote!(#(#list)&&*),
        quote!(#(#list)||* #(#list)..=*),
        quote!(f(#( x #( #lists )=>* )or*; #(#list)'a*)),
        quote!(@#(#list)**),
        quote!((@ #(#list)+*)),
    ];
    let wanted = [
        "1u8 && 2u8 && 3u8",
        "1u8 || 2u8 || 3u8 1u8 ..= 2u8 ..= 3u8",
        "f (x \"a\" => \"b\" or x \"c\" ; 1u8 'a 2u8 'a 3u8)",
        "@ 1u8 2u8 3u8 *",
        "(@ 1u8 + 2u8 + 3u8)",
    ];
    assert_eq!(made.map(|made| made.to_string()), wanted);
    let mut map = SourceMap::new();
    let stream = TokenStream::from_str("here", &mut map).expect("it is a text");
    let made = quote_spanned!(stream.trees()[0].span()=> [#(#list)&&*]);
    let places: Vec<_> = made.walk().map(|tree| tree.span().source_str(&map).unwrap_or("")).collect();
    assert_eq!(places, ["here", "", "here", "here", "", "here", "here", ""]);
}

#[test]
fn slices_of_trees_are_put_in_whole_unless_they_are_repeated() {
    let stream: TokenStream = "pub(crate) Vec<u8>".parse().expect("it is a text");
    let (visibility, kind) = (&stream.trees()[..2], stream.trees()[2..].to_vec());
    let (kinds, repeated) = ([&kind[..], visibility, &[]], visibility);
    let made = quote!(#visibility #kind #( [ #kinds ] )* #( #repeated ),*);
    assert_eq!(made.to_string(), "pub (crate) Vec < u8 > [Vec < u8 >] [pub (crate)] [] pub , (crate)");
}

#[test]
fn repetitions_stand_inside_of_others() {
    let names = [name("a"), name("b")];
    let kinds = vec![vec![name("x"), name("y")], vec![]];
    let deep = [vec![vec![1u8], vec![2, 3]], vec![]];
    let made = quote!(#( #names: [ #( #names #kinds ),* ] #( ( #( #deep )+* ) )* );*);
    assert_eq!(made.to_string(), "a : [a x , a y] (1u8) (2u8 + 3u8) ; b : []");
    let iterators = kinds.iter().map(|kinds| kinds.iter().map(|kind| format_ident!("Is{}", kind)).collect::<Vec<_>>());
    assert_eq!(quote!(#( { #( #iterators )* } )*).to_string(), "{ Isx Isy } { }");
}

#[test]
fn tokens_have_the_span_of_the_call_or_the_given_one_or_their_own() {
    let mut map = SourceMap::new();
    let stream = TokenStream::from_str("here there", &mut map).expect("it is a text");
    let place = |tree: &TokenTree| tree.span().source_str(&map).unwrap_or("").to_string();
    let TokenTree::Ident(there) = &stream.trees()[1] else { panic!("it is a name") };
    let list = [there];
    let made = quote!(fn #there() { a..=#there #(#list),* });
    let places: Vec<_> = made.walk().map(place).collect();
    assert_eq!(places, ["", "there", "", "", "", "", "", "", "there", "there"]);
    let made = quote_spanned!(stream.trees()[0].span()=> fn #there() { a #there #(#list),* });
    let places: Vec<_> = made.walk().map(place).collect();
    assert_eq!(places, ["here", "there", "here", "here", "here", "there", "there"]);
    assert!(quote_spanned!(there.span()=>).is_empty());
    assert_eq!(format_ident!("{}_{}", "x", there).span().source_str(&map), Some("there"));
    assert_eq!(format_ident!("{}", there, span = Span::call_site()).span().source_str(&map), None);
}

#[test]
fn faults_are_reported_by_name_and_place() {
    let note = |template: &str, holes: Holes| {
        let template = Template::parse(template).expect("it is a text");
        let fault = template.fill(&holes).expect_err("it has a fault");
        assert_eq!(template.fill(&holes).expect_err("it has a fault"), fault);
        fault.to_string()
    };
    let one = || Holes::new().with("field", &1u8);
    let wanted = "template, line 2, column 6: no hole is named `feild`; did you mean `field`?";
    assert_eq!(note("fn f() {\n    #feild\n}", one()), wanted);
    assert_eq!(note("#other", one()), "template, line 1, column 2: no hole is named `other`");
    assert_eq!(note("#other", Holes::new()), "template, line 1, column 2: no hole is named `other`");
    assert_eq!(note("{#0}", one()), "template, line 1, column 3: no hole is named `0`");
    let lists = || Holes::new().with("a", &[1u8, 2, 3]).with("b", &["x", "y"]).with("c", &[[1u8, 2], [3, 4]]);
    let wanted = "template, line 1, column 4: `a` is a list: repeat it, as in `#(#a),*`";
    assert_eq!(note("f(#a)", lists()), wanted);
    let wanted = "template, line 1, column 11: `c` is a list: repeat it, as in `#(#c),*`";
    assert_eq!(note("f(#( a = #c );*)", lists()), wanted);
    let wanted = "template, line 1, column 8: `a` has 3 values and `b` has 2";
    assert_eq!(note("#( #a #b )*", lists()), wanted);
    let wanted = "template, line 1, column 12: `c` has 2 values and `a` has 3";
    assert_eq!(note("#( [#( #c #a ),*] )*", lists()), wanted);
    assert_eq!(note("  #( f(); )*", lists()), "template, line 1, column 4: this repetition names no list");
    let floats = Holes::new().with("x", &[1.0, f64::NAN]);
    assert_eq!(note("#(#x),*", floats), "template, line 1, column 4: `x` is infinite or no number");
    let ragged = [vec![vec![1u8], vec![2]], vec![vec![3]]];
    let nested = || Holes::new().with("x", &ragged).with("y", &[[1u8, 2], [3, 4]]);
    let wanted = "template, line 1, column 15: `x` and `y` have lists of different lengths";
    assert_eq!(note("#( #( #(#x)* #y )* )*", nested()), wanted);
    let fault = Template::parse("fn f() {\n    x )").err().expect("it has a fault");
    assert_eq!(fault.start().map(|start| (start.line, start.column)), Some((2, 6)));
    assert!(matches!(fault.error(), TemplateError::Parse(_)));
}

#[test]
fn a_template_is_filled_many_times_and_stays_as_it_was() {
    let template = Template::parse("#( #a = #b ),*").expect("it is a text");
    let good = Holes::new().with("a", &[1u8, 2]).with("b", &["x", "y"]);
    let bad = Holes::new().with("a", &[1u8, 2]).with("b", &["x"]);
    for _ in 0..3 {
        assert!(template.fill(&bad).is_err());
        assert_eq!(template.fill(&good).expect("it is filled").to_string(), "1u8 = \"x\" , 2u8 = \"y\"");
    }
    assert_eq!(template.clone().fill(&good).expect("it is filled").to_string(), "1u8 = \"x\" , 2u8 = \"y\"");
}

#[test]
fn quote_panics_with_the_names_at_the_callers_line() {
    let panicked = |call: fn()| {
        let note = catch_unwind(call).expect_err("it panics");
        note.downcast_ref::<String>().cloned().unwrap_or_default()
    };
    let note = panicked(|| {
        let (a, b) = ([1u8, 2, 3], ["x"]);
        quote!(f(#( #a #b ),*));
    });
    assert_eq!(note, "template: `a` has 3 values and `b` has 1");
    let note = panicked(|| {
        let a = f32::INFINITY;
        quote!(#a);
    });
    assert_eq!(note, "template: `a` is infinite or no number");
    let note = panicked(|| drop(format_ident!("{}", "a b")));
    assert_eq!(note, "`a b` is no identifier: not a valid identifier");
}
