// Made from crates/pm_stream_tests/src/tests/streams.rt by dev/erase: change that file, not this one.

use crate::shim::prelude::HostRuntime;

// Tests of groups that nest deep.
use crate::pm_stream_tests::tests::checks::{
    check_answer, check_same, count_trees, parses_well_spaced, printed_text, repeat_parts,
};

/// Brackets inside one another, around a plus sign.
const DEEP: &[(&str, u32)] = &[("[", 100_000), ("+", 1), ("]", 100_000)];

const DEEPER: &[(&str, u32)] = &[("[", 100_001), ("+", 1), ("]", 100_001)];

#[test]
fn deep_groups_are_read_without_stack() {
    let rt = HostRuntime;
    let text = repeat_parts(&rt, DEEP);
    let trees = count_trees(&rt, text.as_str());
    check_answer(&rt, "all stands in one group", &trees, &1);
    let printed = printed_text(&rt, text.as_str());
    let is_same = printed.as_str() == text.as_str();
    check_answer(&rt, "no level has a space", &is_same, &true);
}

#[test]
fn deep_groups_are_compared_without_stack() {
    let rt = HostRuntime;
    let text = repeat_parts(&rt, DEEP);
    let other = repeat_parts(&rt, DEEPER);
    check_same(&rt, text.as_str(), text.as_str(), true);
    check_same(&rt, text.as_str(), other.as_str(), false);
    let spaced = parses_well_spaced(&rt, text.as_str());
    check_answer(&rt, "each level is one group", &spaced, &true);
}
