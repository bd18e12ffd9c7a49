//! Where the trees of a stream stand.
use proc_macro2::{TokenStream, TokenTree};
use std::fmt::{self, Write};

/// A line for each tree, each group before those inside it: where it begins and ends, and its kind.
pub fn span_lines(stream: TokenStream) -> Result<String, fmt::Error> {
    let mut lines = String::new();
    push_lines(&mut lines, stream)?;
    Ok(lines)
}

/// Adds the lines of these trees.
fn push_lines(lines: &mut String, stream: TokenStream) -> fmt::Result {
    for tree in stream {
        let (start, end) = (tree.span().start(), tree.span().end());
        let kind = match tree {
            TokenTree::Group(_) => "group",
            TokenTree::Ident(_) => "ident",
            TokenTree::Punct(_) => "punct",
            TokenTree::Literal(_) => "literal",
        };
        writeln!(
            lines,
            "{}:{}-{}:{} {kind}",
            start.line, start.column, end.line, end.column
        )?;
        if let TokenTree::Group(group) = tree {
            push_lines(lines, group.stream())?;
        }
    }
    Ok(())
}
