//! How streams and tokens are shown without spans.
use proved_tokens::pm_stream::{Group, TokenStream, TokenTree};
use proved_tokens::pm_token::{Ident, Literal};
use std::fmt::{Debug, Formatter, Result};

/// Shows a value with its spans, where there are span locations, and else without, by `show`.
fn shown<T: Debug>(value: &T, f: &mut Formatter, show: impl FnOnce(&mut Formatter) -> Result) -> Result {
    if cfg!(span_locations) {
        Debug::fmt(value, f)
    } else {
        show(f)
    }
}

/// Shows a stream.
pub(crate) struct ShownStream<'a>(pub(crate) &'a TokenStream);

struct ShownTree<'a>(&'a TokenTree);

impl Debug for ShownStream<'_> {
    fn fmt(&self, f: &mut Formatter) -> Result {
        shown(self.0, f, |f| {
            f.write_str("TokenStream ")?;
            f.debug_list().entries(self.0.trees().iter().map(ShownTree)).finish()
        })
    }
}

impl Debug for ShownTree<'_> {
    fn fmt(&self, f: &mut Formatter) -> Result {
        match self.0 {
            TokenTree::Group(group) => show_group(group, f),
            TokenTree::Ident(ident) => show_ident(ident, f),
            TokenTree::Literal(literal) => show_literal(literal, f),
            TokenTree::Punct(punct) => {
                let mut debug = f.debug_struct("Punct");
                debug.field("char", &punct.as_char()).field("spacing", &punct.spacing()).finish()
            }
        }
    }
}

pub(crate) fn show_group(group: &Group, f: &mut Formatter) -> Result {
    shown(group, f, |f| {
        let mut debug = f.debug_struct("Group");
        debug.field("delimiter", &group.delimiter()).field("stream", &ShownStream(group.stream_ref())).finish()
    })
}

pub(crate) fn show_ident(ident: &Ident, f: &mut Formatter) -> Result {
    shown(ident, f, |f| f.debug_struct("Ident").field("sym", &format_args!("{ident}")).finish())
}

pub(crate) fn show_literal(literal: &Literal, f: &mut Formatter) -> Result {
    shown(literal, f, |f| f.debug_struct("Literal").field("lit", &format_args!("{literal}")).finish())
}
