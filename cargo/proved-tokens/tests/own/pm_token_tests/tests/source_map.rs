// Made from crates/pm_token_tests/src/tests/source_map.rt by dev/erase: change that file, not this one.

use crate::shim::prelude::HostRuntime;

use crate::pm_token_tests::tests::checks::{check_answer, shows};
use proved_tokens::pm_span::parts::{add_file, fits, span_of};
use proved_tokens::pm_span::{LineColumn, SourceMap, Span};
use crate::shim::alloc::AllocError;
use crate::shim::process::Abort;
use crate::test_helpers::release;

/// Adds the text if it fits, and returns the position at which it begins.
fn add(map: &mut SourceMap, text: &str) -> Result<Option<u32>, AllocError> {
    match fits(map, text) {
        None => Ok(None),
        Some(lo) => match add_file(map, text) {
            Ok(_) => Ok(Some(lo)),
            Err(error) => Err(error),
        },
    }
}

/// Asserts that the text begins at `lo` when it is added.
fn is_added(rt: &impl Abort, map: &mut SourceMap, text: &str, lo: u32) {
    check_answer(rt, text, &add(map, text), &Ok(Some(lo)));
}

/// Asserts where an empty text begins if it is added after `abcd`, with this limit.
fn second_is(rt: &impl Abort, limit: u32, second: Option<u32>) {
    let mut map = SourceMap::with_limit(limit);
    is_added(rt, &mut map, "abcd", 1);
    let added = (limit, add(&mut map, ""));
    check_answer(rt, "limit and start", &added, &(limit, Ok(second)));
    release(map);
}

/// Returns where the span starts, if the map holds it.
fn start(map: &SourceMap, span: Span) -> Option<LineColumn> {
    if map.holds(span) {
        Some(span.start(map))
    } else {
        None
    }
}

/// Asserts that the map holds the empty span at each `lo`, and that it starts at this line and column.
fn start_at(rt: &impl Abort, map: &SourceMap, rows: &[(u32, usize, usize)]) {
    for &(lo, line, column) in rows {
        let answers = (lo, start(map, span_of(lo, lo)));
        let want = (lo, Some(LineColumn { line, column }));
        check_answer(rt, "an empty span", &answers, &want);
    }
}

/// Asserts whether the map holds each span from `lo` to `hi`.
fn are_held(rt: &impl Abort, map: &SourceMap, rows: &[(u32, u32, bool)]) {
    for &(lo, hi, held) in rows {
        let answers = (lo, hi, lo <= hi && map.holds(span_of(lo, hi)));
        check_answer(rt, "a span", &answers, &(lo, hi, held));
    }
}

#[test]
fn a_file_fits_up_to_the_limit() {
    let rt = HostRuntime;
    for (limit, second) in [(5, None), (6, Some(6))] {
        second_is(&rt, limit, second);
    }
}

#[test]
fn a_span_starts_at_a_line_and_a_column() {
    let rt = HostRuntime;
    let mut map = SourceMap::new();
    is_added(&rt, &mut map, "aaa\nbbb", 1);
    is_added(&rt, &mut map, "é\r𓀕\nz\n", 9);
    let rows = &[
        (0, 1, 0),
        (1, 1, 0),
        (4, 1, 3),
        (5, 2, 0),
        (8, 2, 3),
        (9, 1, 0),
        (11, 1, 2),
        (12, 1, 3),
        (13, 2, 0),
        (14, 2, 1),
        (15, 3, 0),
    ];
    start_at(&rt, &map, rows);
    release(map);
}

#[test]
fn a_held_span_lies_in_one_file() {
    let rt = HostRuntime;
    let mut map = SourceMap::new();
    is_added(&rt, &mut map, "aaa\nbbb", 1);
    is_added(&rt, &mut map, "ccc\nddd", 9);
    let rows = &[
        (0, 0, true),
        (0, 1, false),
        (1, 8, true),
        (8, 8, true),
        (8, 9, false),
        (1, 16, false),
        (9, 16, true),
        (16, 17, false),
        (17, 17, false),
    ];
    are_held(&rt, &map, rows);
    release(map);
}

#[test]
fn a_call_site_starts_at_the_first_line() {
    let rt = HostRuntime;
    let map = SourceMap::new();
    let want = LineColumn { line: 1, column: 0 };
    check_answer(
        &rt,
        "call site",
        &start(&map, Span::call_site()),
        &Some(want),
    );
    release(map);
}

#[test]
fn a_span_shows_its_positions() {
    let rt = HostRuntime;
    shows(&rt, &span_of(1, 2), "bytes(1..2)");
}
