// Made from crates/declarations/src/message.rt by dev/erase: change that file, not this one.
//! Code that makes the compiler report an error.

use crate::shim::prelude::format;

use crate::declarations::fault::Fault;
use crate::pm_span::Span;
use crate::pm_stream::{Group, TokenStream, TokenTree};
use crate::pm_token::parts::{ident, punct, string_literal};
use crate::pm_token::{Delimiter, Spacing};
use crate::shim::alloc::AllocError;

impl Fault {
    /// Returns code that makes the compiler report this error: `::core::compile_error! { "expected a name" }`.
    ///
    /// The text is that of `Display`, which is "expected a name" for `struct {}`. Each tree of the code has the span of
    /// the error, or the call site if trees are missing. Fails if it runs out of memory.
    ///
    /// # Contract
    ///
    /// - `ensures`: <code>[IfOk] result (λ stream. stream ≡ [forest] ([compile_error] ([chars] ([fault_text]
    ///   self.now)) ([span_or_call_site] self.now.span)))</code>
    ///
    /// [IfOk]: crate::contracts#std.IfOk
    /// [forest]: crate::contracts#pm_stream.Trees.forest
    /// [compile_error]: crate::contracts#declarations.CompileError.compile_error
    /// [chars]: crate::contracts#std.chars
    /// [fault_text]: crate::contracts#declarations.Fault.fault_text
    /// [span_or_call_site]: crate::contracts#declarations.CompileError.span_or_call_site
    pub fn to_compile_error(&self) -> Result<TokenStream, AllocError>
    {
        let text = format!("{self}")?;
        compile_error(&text, or_call_site(self.span))
    }
}

/// The span, or the call site if there is none.
fn or_call_site(span: Option<Span>) -> Span
{
    match span {
        Some(span) => span,
        None => Span::call_site(),
    }
}

/// Returns code that makes the compiler report this text: `::core::compile_error! { "text" }`.
///
/// Each tree of the code has the given span, so a macro can reject its input at the token that is wrong. Fails if it
/// runs out of memory.
///
/// # Contract
///
/// - `ensures`: <code>[IfOk] result (λ stream. stream ≡ [forest] ([compile_error] ([chars] text.now)
///   span))</code>
///
/// [IfOk]: crate::contracts#std.IfOk
/// [forest]: crate::contracts#pm_stream.Trees.forest
/// [compile_error]: crate::contracts#declarations.CompileError.compile_error
/// [chars]: crate::contracts#std.chars
pub fn compile_error(text: &str, span: Span) -> Result<TokenStream, AllocError>
{
    let core = ident("core", false, span)?;
    let name = ident("compile_error", false, span)?;
    let text = TokenTree::Literal(string_literal(text, span)?);
    let mut braces = Group::new(Delimiter::Brace, TokenStream::from_tree(text)?);
    braces.set_span(span);
    TokenStream::from_trees(
        [
            TokenTree::Punct(punct(':', Spacing::Joint, span)),
            TokenTree::Punct(punct(':', Spacing::Alone, span)),
            TokenTree::Ident(core),
            TokenTree::Punct(punct(':', Spacing::Joint, span)),
            TokenTree::Punct(punct(':', Spacing::Alone, span)),
            TokenTree::Ident(name),
            TokenTree::Punct(punct('!', Spacing::Alone, span)),
            TokenTree::Group(braces),
        ],
    )
}
