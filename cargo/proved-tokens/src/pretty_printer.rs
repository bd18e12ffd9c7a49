// Made from crates/pretty_printer/src/lib.rt by dev/erase: change that file, not this one.
//! Prints streams on lines for people.
//!
//! [`to_pretty_string`] writes a stream's tokens on lines of at most 100 columns where that is possible. The text reads
//! back to the stream with its marks respaced, whatever gaps the rules here choose. The crate `layout` promises this
//! for every layout.

use crate::shim::prelude::TryClone;

mod atoms;
mod chosen;
mod expressions;
mod groups;
pub mod laws;
mod limits;
mod lines;
mod parts;
mod printer;
mod reading;
mod roles;
mod sides;
mod signs;
mod tree;

use crate::layout::{LayoutError, text_with};
use printer::Printer;
use crate::proc_macro2::TokenStream;
use crate::quoting::join::join_marks;
use crate::quoting::{Quote, QuoteError};

/// Returns the stream's tokens as text for people: each statement or item begins a line, and blocks and long lists take
/// several lines.
///
/// The marks are respaced first, as `Quote::finish` does: a Joint mark becomes Alone if it can't be joined with the
/// next token. A stream that is `well-spaced` is respaced to itself. Then some Alone marks become Joint, so that they
/// are written close to the next mark: those after which the layout wants no space, if the two marks begin no operator.
/// `>` and `,` are written `>,`, but `&` and `&` are written `& &`. The text is a layout of this stream, which is
/// `joined`, so it reads back to it, up to spans. No contract says which marks these are, and where the lines break.
///
/// `NoneGroup` and `LoneQuote` are returned for the first tree that no spacing of the marks allows (`first-fault`), and
/// `Memory` if memory runs out. The call takes time in proportion to the length of the text.
///
/// `fn f(){g(1)}` is written over three lines, the second of which is `    g(1)`.
///
/// # Contract
///
/// - `ensures text`: <code>[IfOk] result (λ text. [IsPrettyText] stream.now ([chars] ([string_bytes]
///   text)))</code>
/// - `ensures fault`: <code>[IfErr] result ([IsFaultOf] stream.now)</code>
/// - `ensures hopeless`: <code>[IfErr] result ([HopelessIfNamed] stream.now)</code>
///
/// [IfOk]: crate::contracts#std.IfOk
/// [IsPrettyText]: crate::contracts#pretty_printer.PrettyText.IsPrettyText
/// [chars]: crate::contracts#std.chars
/// [string_bytes]: crate::contracts#std.string_bytes
/// [IfErr]: crate::contracts#std.IfErr
/// [IsFaultOf]: crate::contracts#quoting.Fault.IsFaultOf
/// [HopelessIfNamed]: crate::contracts#quoting.Choice.HopelessIfNamed
pub fn to_pretty_string(stream: &TokenStream) -> Result<String, QuoteError>
{
    crate::quoting::laws::respacing();
    match lay_out(stream) {
        Ok(text) => return Ok(text),
        Err(LayoutError::Memory(error)) => return Err(QuoteError::Memory(error)),
        Err(LayoutError::NotWellSpaced) => {}
        Err(LayoutError::Write(_)) => unreachable!(),
    }
    let mut quote = Quote::new();
    quote.push_stream(stream.try_clone()?)?;
    let stream = quote.finish()?;
    match lay_out(&stream) {
        Ok(text) => Ok(text),
        Err(LayoutError::Memory(error)) => Err(QuoteError::Memory(error)),
        Err(LayoutError::NotWellSpaced | LayoutError::Write(_)) => unreachable!(),
    }
}

/// Returns the tokens of the stream as text for people, in which some marks are joined, or `NotWellSpaced` if the
/// stream is not well spaced.
fn lay_out(stream: &TokenStream) -> Result<String, LayoutError>
{
    laws::joining();
    let mut chosen = Printer::new(stream)?.choose()?;
    let joined = join_marks(stream, &chosen.visits)?;
    let text = text_with(&joined, &mut chosen)?;
    Ok(text)
}
