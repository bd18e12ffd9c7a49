// Made from crates/layout/src/laws.rt by dev/erase: change that file, not this one.
//! The laws about layouts. The functions compute nothing: their contracts are the laws, which `specs/Laws.antt` states.

/// Each layout of a built, well-spaced stream reads back to that stream, up to spans.
///
/// A layout (`layout`) has the stream's tokens, openers and closers in order, with a gap before each and one at the
/// end. A gap is white characters or nothing. After a Joint mark it is nothing. Between two neighbours that must be
/// parted (`must-part`) it is not: this depends on the first of them and on the first character of the second, and for
/// a dot after digits also on the text after the dot. So the tokens of `x.0.y`, `0..10` and `1i32.abs()` may touch. In
/// `0 . y` and `0 .(y)`, the `0` and the dot may not touch, because `0.` would be a float.
///
/// The printed text is a layout. `a+=b` is a layout of the same stream as `a += b` with a line break after `=`, but
/// `a + = b` is not.
///
/// # Contract
///
/// - `ensures back`: <code>[LayoutsComeBack]</code>
/// - `ensures printed`: <code>[PrintedIsLayout]</code>
///
/// [LayoutsComeBack]: crate::contracts#layout.Laws.LayoutsComeBack
/// [PrintedIsLayout]: crate::contracts#layout.Laws.PrintedIsLayout
pub fn layouts_come_back()
{}
