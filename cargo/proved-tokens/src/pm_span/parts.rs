// Made from crates/pm_span/src/parts.rt by dev/erase: change that file, not this one.
//! Calls for the crates that use `pm_span`. Users of the library do not need them.

use crate::pm_span::source_map::SourceMap;
use crate::pm_span::spans::Span;
pub use crate::pm_span::text::char_count;
use crate::pm_span::text::has_fewer_chars;
use crate::shim::alloc::AllocError;

/// Makes the span of the positions from `lo` to `hi`, in characters.
///
/// # Contract
///
/// - `requires`: <code>lo ≤ hi</code>
/// - `ensures`: <code>result ≡ record { lo = lo; hi = hi }</code>
pub fn span_of(lo: u32, hi: u32) -> Span
{
    Span::new(lo, hi)
}

/// Returns the positions where the span begins and ends, in characters.
///
/// # Contract
///
/// - `ensures value`: <code>result ≡ (span.lo, span.hi)</code>
/// - `ensures ordered`: <code>span.lo ≤ span.hi</code>
pub fn bounds(span: Span) -> (u32, u32)
{
    span.bounds()
}

/// Returns the position at which the file of this text would begin (`next-position`), or `None` if it doesn't fit
/// (`fits`).
///
/// Positions count characters. The text doesn't fit if its file would end past the map's limit: in a new map with
/// the limit 5, `abcd` would begin at 1, and `abcde` doesn't fit.
///
/// # Contract
///
/// - `ensures found`: <code>[SomeIff] result ([Fits] map.now ([length] ([chars] text.now))) ([next_lo]
///   map.now)</code>
/// - `ensures within`: <code>[IfSome] result (λ lo. lo + [length] ([chars] text.now) &lt; 2 ^ 32)</code>
///
/// [SomeIff]: crate::contracts#std.SomeIff
/// [Fits]: crate::contracts#pm_span.Files.Fits
/// [length]: crate::contracts#std.length
/// [chars]: crate::contracts#std.chars
/// [next_lo]: crate::contracts#pm_span.Files.next_lo
/// [IfSome]: crate::contracts#std.IfSome
pub fn fits(map: &SourceMap, text: &str) -> Option<u32>
{
    map.fits(text)
}

/// Returns the position 1, at which the file of this text would begin in a new map, or `None` if it doesn't fit
/// (`fits`).
///
/// No map is made.
///
/// # Contract
///
/// - `ensures found`: <code>[SomeIff] result ([Fits] [new_map] ([length] ([chars] text.now))) ([next_lo]
///   [new_map])</code>
/// - `ensures within`: <code>[IfSome] result (λ lo. lo + [length] ([chars] text.now) &lt; 2 ^ 32)</code>
///
/// [SomeIff]: crate::contracts#std.SomeIff
/// [Fits]: crate::contracts#pm_span.Files.Fits
/// [new_map]: crate::contracts#pm_span.Files.new_map
/// [length]: crate::contracts#std.length
/// [chars]: crate::contracts#std.chars
/// [next_lo]: crate::contracts#pm_span.Files.next_lo
/// [IfSome]: crate::contracts#std.IfSome
pub fn fits_new(text: &str) -> Option<u32>
{
    if has_fewer_chars(text, u32::MAX as usize) {
        Some(1)
    } else {
        None
    }
}

/// Adds the text as the map's next file. The text must fit (`fits`).
///
/// Out of memory is the only error, and then the map does not change.
///
/// # Contract
///
/// - `requires`: <code>[Fits] map.old ([length] ([chars] text.now))</code>
/// - `ensures ok`: <code>[OnOk] result (map.new ≡ [with_file] map.old ([chars] text.now))</code>
/// - `ensures kept`: <code>[OnErr] result (map.new ≡ map.old)</code>
///
/// [Fits]: crate::contracts#pm_span.Files.Fits
/// [length]: crate::contracts#std.length
/// [chars]: crate::contracts#std.chars
/// [OnOk]: crate::contracts#std.OnOk
/// [with_file]: crate::contracts#pm_span.Files.with_file
/// [OnErr]: crate::contracts#std.OnErr
pub fn add_file(map: &mut SourceMap, text: &str) -> Result<(), AllocError>
{
    map.add_file(text)
}
