//! Groups without delimiters, one in another, a million times: the calls that look through them take linear time and a
//! constant part of the stack.
use proved_tokens::error::CompileError;
use proved_tokens::items::{
    bare_trees, first_sign, parse_entry, parse_function, parse_parameter, Attributes, EntryKind, SignClass,
};
use proved_tokens::{Delimiter, Group, SourceMap, TokenStream, TokenTree};

fn parsed(text: &str) -> TokenStream {
    text.parse().expect("it is a text")
}

fn tree(delimiter: Delimiter, inside: TokenStream) -> TokenStream {
    TokenStream::from(TokenTree::Group(Group::new(delimiter, inside)))
}

/// The text in so many groups without delimiters.
fn held(text: &str, groups: usize) -> TokenStream {
    (0..groups).fold(parsed(text), |inside, _| tree(Delimiter::None, inside))
}

fn joined<const N: usize>(parts: [TokenStream; N]) -> TokenStream {
    let mut all = TokenStream::new();
    all.extend(parts);
    all
}

fn looks_through(groups: usize) {
    let attribute = joined([parsed("#"), tree(Delimiter::Bracket, held("doc = \"a\"", groups))]);
    let attribute = Attributes::new(attribute.trees()).next().expect("it is an attribute");
    assert!(attribute.is("doc") && attribute.doc().is_some());
    assert!(matches!(attribute.entry().expect("it is an entry").kind, EntryKind::Value([_])));
    let list = joined([held("a::b", groups), parsed("(c), d")]);
    let (entry, rest) = parse_entry(list.trees()).expect("it is an entry");
    assert_eq!((entry.path.len(), rest.len()), (4, 2));
    for (text, class) in [
        ("'a", SignClass::Lifetime),
        ("1", SignClass::Literal),
        ("pub", SignClass::Visibility),
        ("{ x }", SignClass::Block),
        ("1 + 1", SignClass::Invisible),
    ] {
        assert_eq!(first_sign(held(text, groups).trees()).map(|(class, _)| class), Some(class));
    }
    let receiver = joined([parsed("&"), held("'a", groups), parsed("self")]);
    let (parameter, _) = parse_parameter(receiver.trees()).expect("it is a receiver");
    assert_eq!(parameter.pattern.len(), 3);
    let function = joined([parsed("fn f() -> u8"), held("{ 1 }", groups)]);
    let body = parse_function(function.trees()).expect("it is a function").body;
    assert_eq!(body.map(Group::delimiter), Some(Delimiter::None));
    assert_eq!(bare_trees(held("Vec<u8>", groups).trees()).len(), 4);
    assert_eq!(bare_trees(function.trees()).len(), 7);
}

/// The texts at which the error of these trees begins and ends.
fn ends(trees: &[TokenTree], map: &SourceMap) -> [Option<String>; 2] {
    let error = CompileError::new_spanned(trees, "no").to_compile_error();
    [&error.trees()[0], &error.trees()[7]].map(|tree| tree.span().source_str(map).map(String::from))
}

#[test]
fn an_error_is_at_the_tokens_in_such_groups() {
    let mut map = SourceMap::new();
    let mut read = |text| TokenStream::from_str(text, &mut map).expect("it is a text");
    let (operand, mark, sum, list) = (read("a"), read("+"), read("b + c"), read("(d) [e]"));
    let hold = |inside, groups| (0..groups).fold(inside, |inside, _| tree(Delimiter::None, inside));
    let trees = joined([hold(operand, 0), mark, hold(sum, 1_000_000)]);
    assert_eq!(ends(trees.trees(), &map), [Some("a"), Some("c")].map(|text| text.map(String::from)));
    assert_eq!(ends(hold(list, 2).trees(), &map), [Some("(d)"), Some("[e]")].map(|text| text.map(String::from)));
    assert_eq!(ends(hold(TokenStream::new(), 2).trees(), &map), [None, None]);
}

#[test]
fn a_million_groups_are_looked_through() {
    let thread = std::thread::Builder::new().stack_size(1 << 18).spawn(|| looks_through(1_000_000));
    thread.expect("a thread begins").join().expect("all are looked through");
}
