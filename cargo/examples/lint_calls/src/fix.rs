//! Takes out calls of `dbg!`.

use crate::source::{Columns, Source};
use crate::trees::{all_lists, debug_calls, is_mark, is_named, DebugCall};
use proved_tokens::items::split_expression;
use proved_tokens::{Delimiter, TokenTree};
use std::ops::Range;

/// A text in which calls of `dbg!` were rewritten.
#[derive(Debug, PartialEq, Eq)]
pub struct Fixed {
    /// The text after the change.
    pub text: String,
    /// How many calls were rewritten.
    pub calls: usize,
}

/// Writes `(x)` in place of each `dbg!(x)` with exactly one argument.
///
/// The tokens of the path, the name, the `!` and a `,` after the argument are left out. All other bytes stay, also
/// white space and comments between these tokens. Calls with other delimiters stay, because a statement that is
/// `dbg! { x }` needs no `;` after it. If the text does not parse, the result is the message that says where and why.
pub fn fix(file: &str, text: &str, columns: Columns) -> Result<Fixed, String> {
    let mut source = Source::read(file, text, columns)?;
    let (mut spans, mut calls) = (Vec::new(), 0);
    let lists = all_lists(source.stream.trees());
    for call in lists.into_iter().flat_map(|(list, _)| debug_calls(list)).filter(is_fixable) {
        let comma = call.arguments.stream_ref().trees().last().filter(|tree| is_mark(tree, ','));
        spans.extend(call.head.iter().chain(comma).map(TokenTree::span));
        calls += 1;
    }
    let mut ranges: Vec<_> = spans.into_iter().map(|span| source.byte_range(span)).collect();
    ranges.sort_by_key(|range| range.start);
    Ok(Fixed { text: without(text, &ranges), calls })
}

/// Whether the call is `dbg!(x)` with exactly one argument.
fn is_fixable(call: &DebugCall) -> bool {
    let arguments = call.arguments.stream_ref().trees();
    is_named(call.name, "dbg") && call.arguments.delimiter() == Delimiter::Parenthesis && is_one_argument(arguments)
}

/// Whether the trees are one expression, perhaps with a `,` after it.
///
/// In the body of a macro, a variable `$x` stands for an operand. A fragment `$x:expr` is no expression.
fn is_one_argument(trees: &[TokenTree]) -> bool {
    let is_fragment = |trees: &[TokenTree]| match trees {
        [sign, TokenTree::Ident(_), colon, TokenTree::Ident(_)] => is_mark(sign, '$') && is_mark(colon, ':'),
        _ => false,
    };
    let without_signs: Vec<_> = trees.iter().filter(|tree| !is_mark(tree, '$')).cloned().collect();
    let is_end = |rest: &[TokenTree]| rest.is_empty() || matches!(rest, [comma] if is_mark(comma, ','));
    split_expression(&without_signs).is_ok_and(|(_, rest)| is_end(rest)) && !trees.windows(4).any(is_fragment)
}

/// Returns the text without these parts, which are in order. A space keeps a `/` and a comment apart.
fn without(text: &str, parts: &[Range<usize>]) -> String {
    let (mut kept, mut done) = (String::new(), 0);
    for part in parts {
        kept += &text[done..part.start];
        done = part.end;
        if kept.ends_with('/') && text[done..].starts_with('/') {
            kept.push(' ');
        }
    }
    kept + &text[done..]
}
