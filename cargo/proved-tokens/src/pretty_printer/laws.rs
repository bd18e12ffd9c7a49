// Made from crates/pretty_printer/src/laws.rt by dev/erase: change that file, not this one.
//! Laws of the definitions that the contracts cite. Their functions compute nothing.

/// States that joining marks changes only spacings, changes nothing the second time, and that the joined
/// stream is well spaced exactly if the stream is.
///
/// So the text of [`to_pretty_string`](crate::pretty_printer::to_pretty_string) is that of a well spaced stream,
/// whatever the rules of the layout want. If the marks of a stream are spaced as in its text, the text is a layout of
/// the stream itself.
///
/// # Contract
///
/// - `ensures spacing`: <code>[OnlySpacing]</code>
/// - `ensures once`: <code>[JoinsOnce]</code>
/// - `ensures spaced`: <code>[StaysWellSpaced]</code>
/// - `ensures before`: <code>[WasWellSpaced]</code>
/// - `ensures nothing`: <code>[NothingWanted]</code>
/// - `ensures same`: <code>[SpacedAsInItsText]</code>
///
/// [OnlySpacing]: crate::contracts#pretty_printer.Laws.OnlySpacing
/// [JoinsOnce]: crate::contracts#pretty_printer.Laws.JoinsOnce
/// [StaysWellSpaced]: crate::contracts#pretty_printer.Laws.StaysWellSpaced
/// [WasWellSpaced]: crate::contracts#pretty_printer.Laws.WasWellSpaced
/// [NothingWanted]: crate::contracts#pretty_printer.Laws.NothingWanted
/// [SpacedAsInItsText]: crate::contracts#pretty_printer.Laws.SpacedAsInItsText
pub fn joining()
{}
