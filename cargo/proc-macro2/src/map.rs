//! The source map of the thread, and answers that can't be errors.
pub(crate) use proved_tokens::pm_span::SourceMap;
use proved_tokens::pm_span::Span;
use proved_tokens::pm_stream::TokenStream;
use proved_tokens::pm_token::ParseError;
use proved_tokens::shim::alloc::AllocError;
use std::cell::RefCell;

thread_local! {
    static MAP: RefCell<SourceMap> = RefCell::new(SourceMap::new());
}

/// What a call answers that can only run out of memory, which ends the process here.
#[inline(always)]
pub(crate) fn sure<T>(answer: Result<T, AllocError>) -> T {
    match answer {
        Ok(answer) => answer,
        Err(never) => match never {},
    }
}

/// Where the fault of a text stands; no place for a text that doesn't fit into the map.
pub(crate) fn place_of(error: ParseError) -> Span {
    match error {
        ParseError::Lex(fault) if cfg!(span_locations) => fault.span(),
        ParseError::Lex(_) | ParseError::MapFull => Span::call_site(),
        ParseError::Memory(never) => match never {},
        _ => unreachable!("each case is above"),
    }
}

/// Whether a text can be read. It becomes no file of the map.
pub(crate) fn is_readable(text: &str) -> bool {
    TokenStream::parse_unmapped(text).is_ok()
}

/// The trees of a text, which with span locations becomes the next file of the thread's map.
pub(crate) fn read(text: &str) -> Result<TokenStream, ParseError> {
    if cfg!(span_locations) {
        with(|map| TokenStream::from_str(text, map))
    } else {
        TokenStream::parse_unmapped(text)
    }
}

/// Does something with the thread's map. Nothing that is done calls back.
pub(crate) fn with<T>(act: impl FnOnce(&mut SourceMap) -> T) -> T {
    MAP.with(|map| act(&mut map.borrow_mut()))
}

/// Asks the thread's map of a span.
///
/// # Panics
///
/// Where no file of the map has the span.
#[track_caller]
pub(crate) fn ask<T>(span: Span, act: impl FnOnce(&mut SourceMap) -> T) -> T {
    let answer = with(|map| map.holds(span).then(|| act(map)));
    answer.expect("Invalid span with no related FileInfo!")
}
