//! Which braces are bodies of `match`, and which last arms are reported.
use arms::{idle_arms, match_bodies};
use proved_tokens::{Delimiter, TokenStream, TokenTree};

/// Texts whose bodies of `match` are `{ yes }`. All other braces hold something else.
const TEXTS: &[&str] = &[
    "match x { yes }",
    "match x { yes } { no }",
    "match { no } { yes }",
    "match (A { x }) { yes }",
    "match a.b(c)[0]? { yes }",
    "match -x { yes }",
    "match !{ no } { yes }",
    "match if a { no } else { no } { yes }",
    "match if let A { no } = b { no } else { no } { yes }",
    "match if let A { no } = match c { yes } { no } else { no } { yes }",
    "match loop { no } { yes }",
    "match 'a: loop { no } { yes }",
    "match while a { no } { yes }",
    "match for A { no } in b { no } { yes }",
    "match for a in match b { yes } { no } { yes }",
    "match unsafe { no } { yes }",
    "match async move { no } { yes }",
    "match const { no } { yes }",
    "match m! { no } { yes }",
    "match a::m! { no } { yes }",
    "match x as &'a ! { yes }",
    "match |A { no }| b { yes }",
    "match || a { yes }",
    "match |a| -> B { no } { yes }",
    "match move || { no } { yes }",
    "match for<'a> |x: &'a A| x { yes }",
    "match a || b { yes }",
    "match a || { no } { yes }",
    "match a | { no } { yes }",
    "match a < b { yes }",
    "match a << b { yes }",
    "match f::<{ no }>() { yes }",
    "match <A as B<{ no }>>::C { yes }",
    "match x as A<{ no }> { yes }",
    "match x as u8 + { no } { yes }",
    "match x as fn(A) -> B<C> { yes }",
    "match a.. { yes }",
    "match ..b { yes }",
    "match a..=b { yes }",
    "match &mut a { yes }",
    "match return { no } { yes }",
    "match break { yes }",
    "match break 'a { yes }",
    "match a = { no } { yes }",
    "match a == b { yes }",
    "match #[a] { no } { yes }",
    "match match a { yes } { yes }",
    "match a { yes } match b { yes }",
    "if match a { yes } { no }",
    "let A { no } = match b { yes };",
    "'match: loop { no }",
    "r#match x { no }",
    "m! { no }",
    "match $x { yes }",
    "$match { no }",
    "match $a { yes } $b { no }",
    "match x, { no }",
    "match x; { no }",
    "match",
];

#[test]
fn each_body_is_found() {
    for text in TEXTS {
        let stream: TokenStream = text.parse().expect(text);
        let holds_yes = |tree: &TokenTree| match tree {
            TokenTree::Group(group) => group.delimiter() == Delimiter::Brace && group.to_string() == "{ yes }",
            _ => false,
        };
        let trees = stream.trees().iter().enumerate();
        let wanted: Vec<usize> = trees.filter(|(_, tree)| holds_yes(tree)).map(|(index, _)| index).collect();
        assert_eq!(match_bodies(stream.trees()), wanted, "{text}");
    }
}

#[test]
fn idle_arms_are_reported() {
    let places =
        |text: &str| idle_arms(text).expect(text).iter().map(|place| (place.line, place.column)).collect::<Vec<_>>();
    assert_eq!(places("fn f() { match a { A => 1, _ => {} } }"), [(1, 27)]);
    assert_eq!(places("match a { A => {}\n_ => {}, }"), [(2, 0)]);
    assert_eq!(places("match a { A => { b }\n| _ => {} }"), [(2, 2)]);
    assert_eq!(places("match a { #[b] _ => {} }"), [(1, 15)]);
    assert_eq!(places("match match a { _ => {} } { _ => {} }"), [(1, 16), (1, 28)]);
    assert_eq!(places("match a { A | _ => {} }"), []);
    assert_eq!(places("match a { A(_) => {} }"), []);
    assert_eq!(places("match a { _ if b => {} }"), []);
    assert_eq!(places("match a { _ => { b } }"), []);
    assert_eq!(places("m! { _ => {} }"), []);
    assert_eq!(places("match a {}"), []);
    assert!(idle_arms("match a {").is_err());
}
