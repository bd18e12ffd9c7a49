//! A lint that reports each `match` whose last arm is `_ => {}`, which hides variants that are added later.
mod heads;

pub use heads::match_bodies;

use heads::is_mark;
use proved_tokens::error::ParseError;
use proved_tokens::{Delimiter, Group, LineColumn, SourceMap, Span, TokenStream, TokenTree};

/// Returns the positions of the `_` of such arms in a text, in order.
pub fn idle_arms(text: &str) -> Result<Vec<LineColumn>, ParseError> {
    let mut map = SourceMap::new();
    let stream = TokenStream::from_str(text, &mut map)?;
    let (mut lists, mut found) = (vec![stream.trees()], Vec::new());
    while let Some(trees) = lists.pop() {
        let bodies = match_bodies(trees);
        for (index, tree) in trees.iter().enumerate() {
            let TokenTree::Group(group) = tree else { continue };
            lists.push(group.stream_ref().trees());
            if bodies.contains(&index) {
                found.extend(idle_arm(group));
            }
        }
    }
    let mut places: Vec<LineColumn> = found.iter().map(|span| span.start(&map)).collect();
    places.sort();
    Ok(places)
}

/// Returns the span of the `_` if the last arm in these braces is `_ => {}`.
fn idle_arm(body: &Group) -> Option<Span> {
    let trees = match body.stream_ref().trees() {
        [trees @ .., comma] if is_mark(comma, ',') => trees,
        trees => trees,
    };
    let [front @ .., TokenTree::Ident(name), equals, greater, TokenTree::Group(group)] = trees else { return None };
    let is_empty = group.delimiter() == Delimiter::Brace && group.stream_ref().is_empty();
    let is_arm = *name == "_" && is_mark(equals, '=') && is_mark(greater, '>') && is_empty;
    (is_arm && begins_arm(front)).then(|| name.span())
}

/// Returns whether an arm begins after these trees: after a `,`, after braces, after an attribute, or at the front.
fn begins_arm(front: &[TokenTree]) -> bool {
    match front {
        [] => true,
        [.., TokenTree::Group(group)] => group.delimiter() != Delimiter::Parenthesis,
        [front @ .., bar] if is_mark(bar, '|') => begins_arm(front), // an arm may begin with `|`
        [.., last] => is_mark(last, ','),
    }
}
