// Made from crates/conformance/src/spans.rt by dev/erase: change that file, not this one.
//! The spans of the trees of a stream.

use proved_tokens::shim::prelude::GrowText;

use proved_tokens::proc_macro2::{SourceMap, TokenStream, TokenTree};
use proved_tokens::shim::alloc::AllocError;

/// Returns a line for each tree of the stream, each group before the trees inside it: where the tree begins and ends,
/// and its kind.
///
/// For `a (b)` the lines are `1:0-1:1 ident`, `1:2-1:5 group` and `1:3-1:4 ident`.
pub fn span_lines(
    stream: &TokenStream,
    map: &SourceMap,
) -> Result<String, AllocError>
{
    let mut lines = String::new();
    let mut walk = stream.walk();
    while let Some(tree) = walk.try_next()? {
        let span = tree.span();
        let (start, end) = (span.start(map), span.end(map));
        let kind = match tree {
            TokenTree::Group(_) => "group",
            TokenTree::Ident(_) => "ident",
            TokenTree::Punct(_) => "punct",
            TokenTree::Literal(_) => "literal",
        };
        writeln!(
            lines,
            "{}:{}-{}:{} {kind}",
            start.line, start.column, end.line, end.column
        )?;
    }
    Ok(lines)
}
