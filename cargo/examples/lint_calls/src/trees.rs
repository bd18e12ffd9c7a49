//! Lists of token trees, and the calls of debug macros in them.

use proved_tokens::items::is_keyword;
use proved_tokens::{Group, Ident, TokenTree};

/// The macros whose calls are reported.
const DEBUG_MACROS: [&str; 3] = ["dbg", "todo", "unimplemented"];

/// Returns the trees, and the trees of each group in them at any depth, each with whether it is code.
///
/// The trees of a macro call or of a macro's definition are no code, and neither are those of the groups in them.
pub fn all_lists(trees: &[TokenTree]) -> Vec<(&[TokenTree], bool)> {
    let (mut lists, mut next) = (vec![(trees, true)], 0);
    while let Some((list, is_code)) = lists.get(next).copied() {
        lists.extend(list.iter().enumerate().filter_map(|(at, tree)| match tree {
            TokenTree::Group(group) => Some((group.stream_ref().trees(), is_code && !is_macro_head(&list[..at]))),
            _ => None,
        }));
        next += 1;
    }
    lists
}

/// Whether the group after these trees is that of a macro call, or is in the definition of a macro.
fn is_macro_head(before: &[TokenTree]) -> bool {
    match before {
        [.., quote, TokenTree::Ident(_), _] if is_mark(quote, '\'') => false,
        [.., TokenTree::Ident(name), mark] if is_mark(mark, '!') => !is_keyword(name),
        [.., TokenTree::Ident(name), mark, TokenTree::Ident(_)] => *name == "macro_rules" && is_mark(mark, '!'),
        [.., TokenTree::Ident(keyword), TokenTree::Ident(_)] => *keyword == "macro",
        [.., TokenTree::Ident(keyword), TokenTree::Ident(_), TokenTree::Group(_)] => *keyword == "macro",
        _ => false,
    }
}

/// A call of one of the macros for debugging, split into its parts.
pub struct DebugCall<'a> {
    /// The name of the macro, perhaps with `r#`.
    pub name: &'a Ident,
    /// All trees before the arguments: a path such as `std::` or nothing, the name and the `!`.
    pub head: &'a [TokenTree],
    /// The arguments with their delimiters.
    pub arguments: &'a Group,
}

/// Returns the calls in a list, but not those inside of its groups.
pub fn debug_calls(list: &[TokenTree]) -> impl Iterator<Item = DebugCall<'_>> {
    (0..list.len()).filter_map(|at| debug_call(list, at))
}

/// Returns the call whose name is the tree at this index, if there is one.
fn debug_call(list: &[TokenTree], at: usize) -> Option<DebugCall<'_>> {
    let [TokenTree::Ident(name), mark, TokenTree::Group(arguments), ..] = &list[at..] else { return None };
    // In `&'dbg ! {}` the name is that of a lifetime, and in `$dbg!()` that of a variable.
    let has_sign = list[..at].last().is_some_and(|tree| is_mark(tree, '\'') || is_mark(tree, '$'));
    let is_call = is_mark(mark, '!') && !has_sign && DEBUG_MACROS.iter().any(|word| is_named(name, word));
    is_call.then(|| DebugCall { name, head: &list[path_start(list, at)..at + 2], arguments })
}

/// Returns the index at which the path begins whose last name is the tree at this index.
fn path_start(list: &[TokenTree], name: usize) -> usize {
    let mut start = name;
    while let [before @ .., first, second] = &list[..start] {
        if !is_mark(first, ':') || !is_mark(second, ':') {
            break;
        }
        start = before.len() - segment_size(before);
    }
    start
}

/// Returns how many trees at the end are a segment of a path: `std`, `$crate`, or none.
fn segment_size(trees: &[TokenTree]) -> usize {
    match trees {
        [.., sign, TokenTree::Ident(_)] if is_mark(sign, '$') => 2,
        [.., sign, TokenTree::Ident(_)] if is_mark(sign, '\'') => 0,
        [.., TokenTree::Ident(name)] => {
            usize::from(!is_keyword(name) || ["crate", "self", "super"].iter().any(|word| *name == **word))
        }
        _ => 0,
    }
}

/// Whether the identifier is this word, perhaps with `r#`.
pub fn is_named(name: &Ident, word: &str) -> bool {
    let text = name.to_string();
    text.strip_prefix("r#").unwrap_or(&text) == word
}

/// Whether the tree is this punctuation mark.
pub fn is_mark(tree: &TokenTree, character: char) -> bool {
    matches!(tree, TokenTree::Punct(mark) if mark.as_char() == character)
}
