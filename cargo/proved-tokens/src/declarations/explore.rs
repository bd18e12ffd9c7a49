// Made from crates/declarations/src/explore.rt by dev/erase: change that file, not this one.
//! How far a rule reads, and with what signs it can go on. This is for trees that do not fit the grammar.

use crate::declarations::expected::{CLASSES, Expected};
use crate::declarations::fault::Fault;
use crate::declarations::goal_syntax::{NamedRule, reader_of, rule_of};
use crate::declarations::item_syntax::{MARKED_CALL, USE_END, USE_LIST};
use crate::declarations::reader::is;
use crate::declarations::signs::first_sign;
use crate::declarations::syntax::{Goal, Guard, Label, Syntax, Table, Test, admits, passes, start_of, table_of};
use crate::declarations::walk::{steps_from, walk_from};
use crate::item_tables::class::SignClass;
use crate::pm_stream::TokenTree;

/// The trees after what a rule reads, and the signs with which the rule could go on.
#[derive(Clone, Copy)]
pub struct Seen<'a> {
    /// The trees that are left.
    pub left: &'a [TokenTree],
    /// The signs that could be next. The end is among them if the rule may end there.
    pub next: Expected,
}

/// Nothing is read, and nothing more need come.
fn seen_nothing(trees: &[TokenTree]) -> Seen<'_>
{
    Seen {
        left: trees,
        next: Expected::nothing().with_end(),
    }
}

/// Reads by the rule that reads nothing.
fn see_nothing(trees: &[TokenTree]) -> Seen<'_>
{
    seen_nothing(trees)
}

/// Reads by a label.
pub(crate) fn see_mark(label: Label, trees: &[TokenTree]) -> Seen<'_>
{
    seen_nothing(trees)
}

/// Those of the classes that pass the test.
fn passing(test: Test, classes: &[SignClass]) -> Expected
{
    let mut found = Expected::nothing();
    for class in classes {
        if passes(test, *class) {
            found = found.with(*class);
        }
    }
    found
}

/// The signs that pass the test.
fn all_passing(test: Test) -> Expected
{
    match test {
        Test::Is(class) => Expected::nothing().with(class),
        _ => passing(test, &CLASSES),
    }
}

/// No sign is read, and one that passes the test could come.
pub(crate) fn no_sign(test: Test, trees: &[TokenTree]) -> Seen<'_>
{
    Seen {
        left: trees,
        next: all_passing(test),
    }
}

/// Reads a sign that passes the test.
fn see_sign(test: Test, trees: &[TokenTree]) -> Seen<'_>
{
    match first_sign(trees) {
        Some((class, rest)) => {
            if passes(test, class) {
                seen_nothing(rest)
            } else {
                no_sign(test, trees)
            }
        }
        None => no_sign(test, trees),
    }
}

/// The trees after the first sign if it passes the test, or else what is seen there.
fn first_that_passes(test: Test, trees: &[TokenTree]) -> Result<&[TokenTree], Seen<'_>>
{
    match first_sign(trees) {
        Some((class, rest)) => {
            if passes(test, class) {
                Ok(rest)
            } else {
                Err(no_sign(test, trees))
            }
        }
        None => Err(no_sign(test, trees)),
    }
}

/// The trees after `::` and a segment of the path of a macro call, or else what is seen there.
fn past_separated(trees: &[TokenTree]) -> Result<&[TokenTree], Seen<'_>>
{
    match first_that_passes(Test::Is(SignClass::PathSeparator), trees) {
        Ok(rest) => first_that_passes(Test::ItemSegment, rest),
        Err(seen) => Err(seen),
    }
}

/// Reads what the table reads.
fn see_table(table: Table, trees: &[TokenTree]) -> Seen<'_>
{
    let stop = walk_from(trees, start_of(table));
    Seen {
        left: stop.left,
        next: steps_from(stop.place),
    }
}

/// Those of the classes that are in the set and with which the guarded rule can begin.
fn admitted(guard: Guard, set: Expected, classes: &[SignClass]) -> Expected
{
    let mut found = Expected::nothing();
    for class in classes {
        if admits(guard, *class) && set.contains(*class) {
            found = found.with(*class);
        }
    }
    found
}

/// The signs with which the guarded rule can begin.
fn first_of(guard: Guard) -> Expected
{
    let first = steps_from(start_of(table_of(guard)));
    admitted(guard, first, &CLASSES)
}

/// Reads what the table reads, if the guarded rule can begin with the first sign.
fn see_guarded(guard: Guard, trees: &[TokenTree]) -> Seen<'_>
{
    let first = first_of(guard);
    let none = Seen {
        left: trees,
        next: first,
    };
    match first_sign(trees) {
        Some((class, _)) => {
            if first.contains(class) {
                see_table(table_of(guard), trees)
            } else {
                none
            }
        }
        None => none,
    }
}

/// What two rules see, one after the other. The first may end where the second begins.
pub(crate) fn joined<'a>(first: Seen<'a>, second: Seen<'a>) -> Seen<'a>
{
    if second.left.len() < first.left.len() {
        second
    } else {
        Seen {
            left: second.left,
            next: first.next.without_end().both(second.next),
        }
    }
}

/// What two rules see, one after the other. The first may not end where it goes no further.
pub(crate) fn stopped(first: Seen<'_>) -> Seen<'_>
{
    first
}

/// What one of two rules sees. The first reads a sign.
pub(crate) fn begun(first: Seen<'_>) -> Seen<'_>
{
    first
}

/// What one of two rules sees. The first reads no sign.
pub(crate) fn choose<'a>(first: Seen<'a>, second: Seen<'a>) -> Seen<'a>
{
    if second.left.len() < first.left.len() {
        second
    } else {
        Seen {
            left: second.left,
            next: first.next.both(second.next),
        }
    }
}

/// Reads by the rule as far as it goes.
pub(crate) fn explore<'a>(syntax: &Syntax<'_>, trees: &'a [TokenTree]) -> Seen<'a>
{
    match syntax {
        Syntax::Nothing => see_nothing(trees),
        Syntax::Mark(label) => see_mark(*label, trees),
        Syntax::Sign(test) => see_sign(*test, trees),
        Syntax::Table(table) => see_table(*table, trees),
        Syntax::Guarded(guard) => see_guarded(*guard, trees),
        Syntax::To(test, goal) => match first_that_passes(*test, trees) {
            Ok(rest) => explore_goal(*goal, rest),
            Err(seen) => seen,
        },
        Syntax::Then(first, second) => {
            let before = explore(first, trees);
            if before.next.has_end() {
                joined(before, explore(second, before.left))
            } else {
                stopped(before)
            }
        }
        Syntax::Either(first, second) => {
            let one = explore(first, trees);
            if one.left.len() < trees.len() {
                begun(one)
            } else {
                choose(one, explore(second, trees))
            }
        }
        Syntax::Many(item) => explore_many(item, trees),
        Syntax::List(item) => explore_list(item, trees),
        Syntax::Nonterminal(nonterminal) => explore(rule_of(*nonterminal), trees),
    }
}

/// Reads by the named rule.
fn explore_goal(goal: Goal, trees: &[TokenTree]) -> Seen<'_>
{
    match reader_of(goal) {
        NamedRule::Data(syntax) => explore(syntax, trees),
        NamedRule::Call => explore_call(trees),
        NamedRule::UsePath => explore_use_path(trees),
    }
}

/// Reads the rest of a macro call after a segment of its path.
fn explore_call(trees: &[TokenTree]) -> Seen<'_>
{
    let mut left = trees;
    loop {
        let one = explore(&MARKED_CALL, left);
        if one.left.len() < left.len() {
            return begun(one);
        }
        match past_separated(left) {
            Ok(rest) => left = rest,
            Err(two) => return choose(one, two),
        }
    }
}

/// Reads the rest of an import from a segment of its path, `*` or braces on.
fn explore_use_path(trees: &[TokenTree]) -> Seen<'_>
{
    let mut left = trees;
    loop {
        match first_that_passes(Test::ItemSegment, left) {
            Ok(rest) => match first_that_passes(Test::Is(SignClass::PathSeparator), rest) {
                Ok(after) => left = after,
                Err(one) => return choose(one, explore(&USE_END, rest)),
            },
            Err(one) => return choose(one, explore(&USE_LIST, left)),
        }
    }
}

/// Reads by the rule any number of times.
fn explore_many<'a>(item: &Syntax<'_>, trees: &'a [TokenTree]) -> Seen<'a>
{
    let mut seen = seen_nothing(trees);
    loop {
        let one = explore(item, seen.left);
        if one.left.len() == seen.left.len() {
            return Seen {
                left: seen.left,
                next: seen.next.both(one.next).with_end(),
            };
        }
        if one.next.has_end() {
            seen = one;
        } else {
            return one;
        }
    }
}

/// The trees after the `,` that they begin with.
fn past_comma(trees: &[TokenTree]) -> Option<&[TokenTree]>
{
    match first_sign(trees) {
        Some((class, rest)) => {
            if is(SignClass::Comma, class) {
                Some(rest)
            } else {
                None
            }
        }
        None => None,
    }
}

/// Reads by the rule any number of times, with `,` between two and perhaps after the last.
fn explore_list<'a>(item: &Syntax<'_>, trees: &'a [TokenTree]) -> Seen<'a>
{
    let mut left = trees;
    loop {
        let one = explore(item, left);
        if one.left.len() == left.len() {
            return Seen {
                left,
                next: one.next.with_end(),
            };
        }
        if one.next.has_end() {
            match past_comma(one.left) {
                Some(rest) => left = rest,
                None => {
                    return Seen {
                        left: one.left,
                        next: one.next.with(SignClass::Comma),
                    };
                }
            }
        } else {
            return one;
        }
    }
}

/// The signs that could come next where the trees do not fit the rule.
#[cold]
pub(crate) fn expected_by(syntax: &Syntax<'_>, trees: &[TokenTree]) -> Expected
{
    explore(syntax, trees).next
}

/// The error of trees that the rule reads as far as the left ones.
#[cold]
pub(crate) fn fault_by(syntax: &Syntax<'_>, trees: &[TokenTree], left: &[TokenTree]) -> Fault
{
    Fault::ahead_of(trees.len() - left.len(), left).expecting(expected_by(syntax, trees))
}

/// The error after `at` trees, where a sign that passes the test is missing.
#[cold]
pub(crate) fn fault_at_sign(test: Test, at: usize, left: &[TokenTree]) -> Fault
{
    Fault::ahead_of(at, left).expecting(no_sign(test, left).next)
}

/// The error of trees that begin with a part by the rule, after which neither `,` nor the end comes.
#[cold]
pub(crate) fn fault_at_comma(syntax: &Syntax<'_>, trees: &[TokenTree], rest: &[TokenTree]) -> Fault
{
    let onward = expected_by(syntax, trees);
    let fault = Fault::ahead_of(trees.len() - rest.len(), rest);
    fault.expecting(onward.with(SignClass::Comma).with_end())
}
