// Made from crates/pm_token_tests/src/tests/identifiers.rt by dev/erase: change that file, not this one.

use crate::shim::prelude::{Grow, GrowList, HostRuntime};

use crate::pm_token_tests::tests::checks::{check_answer, displays, make_ident, shows};
use proved_tokens::pm_span::parts::{bounds, span_of};
use proved_tokens::pm_token::{Ident, IdentError};
use crate::shim::collections::{BTreeMap, HashMap};
use crate::shim::process::Abort;
use crate::test_helpers::release;

fn refusal(outcome: &Result<Ident, IdentError>) -> &'static str {
    match outcome {
        Ok(_) => "made",
        Err(IdentError::Empty) => "empty",
        Err(IdentError::Number) => "number",
        Err(IdentError::Invalid) => "invalid",
        Err(IdentError::Reserved) => "reserved",
        Err(IdentError::Memory(_)) => "memory",
    _ => unreachable!("each case is above"),
}
}

/// Returns the results for the name, as a plain identifier and as a raw one.
fn answers(name: &str) -> (&'static str, &'static str) {
    let (plain, raw) = (
        make_ident(name, false),
        make_ident(name, true),
    );
    let answers = (refusal(&plain), refusal(&raw));
    release((plain, raw));
    answers
}

/// Asserts the result for each name, as a plain identifier and as a raw one.
fn are_answered(rt: &impl Abort, rows: &[(&str, &str, &str)]) {
    for &(name, plain, raw) in rows {
        check_answer(rt, name, &answers(name), &(plain, raw));
    }
}

/// Asserts the `Display` text of the identifier with the name, and returns the identifier.
fn check_display(rt: &impl Abort, name: &str, raw: bool, want: &str) -> Ident {
    let ident = make_ident(name, raw).expect(name);
    displays(rt, &ident, want);
    ident
}

/// Asserts that the identifier is equal to the plain one of the name, which has the span 0..0.
fn is_equal(rt: &impl Abort, ident: &Ident, name: &str) {
    let other = make_ident(name, false).expect(name);
    check_answer(rt, name, ident, &other);
    release(other);
}

/// Asserts for each text whether the raw identifier and the plain one are written like it.
fn stand_for(rt: &impl Abort, raw: &Ident, plain: &Ident, rows: &[(&str, bool, bool)]) {
    for &(text, is_raw, is_plain) in rows {
        let answers = (raw.eq_str(text), plain.eq_str(text));
        check_answer(rt, text, &answers, &(is_raw, is_plain));
    }
}

/// Returns the identifiers of the names in their order.
fn sort_names(rt: &impl Abort, rows: &[(&str, bool)]) -> Vec<Ident> {
    let mut idents = Vec::new();
    for &(name, raw) in rows {
        let ident = make_ident(name, raw).expect(name);
        idents.push_fallibly(ident).expect(name);
    }
    idents.sort_fallibly().expect("the names");
    idents
}

/// Asserts that the identifiers are written as these texts.
fn are_written(rt: &impl Abort, idents: &[Ident], texts: &[&str]) {
    check_answer(rt, "the number", &idents.len(), &texts.len());
    for (ident, text) in idents.iter().zip(texts) {
        check_answer(rt, text, &ident.eq_str(text), &true);
    }
}

/// Puts the values of the rows into both maps.
fn fill(
    rt: &impl Abort,
    hashed: &mut HashMap<Ident, i32>,
    ordered: &mut BTreeMap<Ident, i32>,
    rows: &[(&str, bool, i32)],
) {
    for &(name, raw, value) in rows {
        let key = make_ident(name, raw).expect(name);
        let inserted: Result<_, _> = hashed.insert(key, value);
        let _ = inserted.expect(name);
        let key = make_ident(name, raw).expect(name);
        let inserted: Result<_, _> = ordered.insert(key, value);
        let _ = inserted.expect(name);
    }
}

/// Asserts what both maps, first the hashed one, have at these keys, which are raw or not.
fn values_are(
    rt: &impl Abort,
    hashed: &HashMap<Ident, i32>,
    ordered: &BTreeMap<Ident, i32>,
    rows: &[(&str, bool, Option<i32>)],
) {
    for &(name, raw, want) in rows {
        let key = make_ident(name, raw).expect(name);
        let values = (raw, hashed.get(&key).copied(), ordered.get(&key).copied());
        check_answer(rt, name, &values, &(raw, want, want));
        release(key);
    }
}

#[test]
fn the_first_fault_of_a_name_is_answered() {
    let rt = HostRuntime;
    let rows = &[
        ("", "empty", "empty"),
        ("7", "number", "number"),
        ("255", "number", "number"),
        ("a#", "invalid", "invalid"),
        ("r#a", "invalid", "invalid"),
        ("1a", "invalid", "invalid"),
        ("a b", "invalid", "invalid"),
        ("\u{661}", "invalid", "invalid"),
        ("_", "made", "reserved"),
        ("super", "made", "reserved"),
        ("self", "made", "reserved"),
        ("Self", "made", "reserved"),
        ("crate", "made", "reserved"),
        ("selfish", "made", "made"),
        ("_1", "made", "made"),
        ("fn", "made", "made"),
        ("\u{E9}t\u{E9}", "made", "made"),
    ];
    are_answered(&rt, rows);
}

/// No contract can say that memory suffices for a long name, which is not kept in place.
#[test]
fn a_long_name_is_made_where_memory_suffices() {
    let rt = HostRuntime;
    let mut name = String::new();
    for _ in 0..300 {
        name.push_fallibly('a').expect("a long name");
    }
    are_answered(&rt, &[(name.as_str(), "made", "made")]);
}

#[test]
fn an_identifier_is_written_with_its_front() {
    let rt = HostRuntime;
    let raw = check_display(&rt, "fn", true, "r#fn");
    let plain = check_display(&rt, "fn", false, "fn");
    let rows = &[
        ("r#fn", true, false),
        ("fn", false, true),
        ("r#", false, false),
        ("r#fnn", false, false),
        ("", false, false),
    ];
    stand_for(&rt, &raw, &plain, rows);
    release((raw, plain));
}

#[test]
fn identifiers_are_ordered_as_they_are_written() {
    let rt = HostRuntime;
    let rows = &[("a", true), ("ra", false), ("r", false)];
    let idents = sort_names(&rt, rows);
    are_written(&rt, idents.as_slice(), &["r", "r#a", "ra"]);
    release(idents);
}

#[test]
fn a_map_keeps_raw_and_plain_keys_apart() {
    let rt = HostRuntime;
    let mut hashed = HashMap::new();
    let mut ordered = BTreeMap::new();
    let rows = &[
        ("a", false, 1),
        ("a", true, 2),
        ("b", false, 3),
        ("a", false, 4),
    ];
    fill(&rt, &mut hashed, &mut ordered, rows);
    let rows = &[
        ("a", false, Some(4)),
        ("a", true, Some(2)),
        ("b", false, Some(3)),
        ("b", true, None),
    ];
    values_are(&rt, &hashed, &ordered, rows);
    release((hashed, ordered));
}

#[test]
fn a_span_is_set_and_does_not_count() {
    let rt = HostRuntime;
    let mut ident = Ident::new("a", span_of(1, 2)).expect("a");
    let want = "Ident { sym: a, span: bytes(1..2) }";
    shows(&rt, &ident, want);
    ident.set_span(span_of(3, 5));
    check_answer(&rt, want, &bounds(ident.span()), &(3, 5));
    is_equal(&rt, &ident, "a");
    release(ident);
}
