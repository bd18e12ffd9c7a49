// Made from crates/pm_span/src/laws.rt by dev/erase: change that file, not this one.
//! Laws of lines and columns. These functions compute nothing: what is proved is in their contracts.

use crate::pm_span::location::LineColumn;
use crate::shim::cmp::Ordering;
use crate::shim::hash::Hash;

/// A line and column comes before another if its line does, or its column on the same line. Two are equal exactly
/// if both their lines and their columns are equal. A hasher is fed the line and then the column.
///
/// Line 1, column 5 comes before line 2, column 0.
///
/// # Contract
///
/// - `ensures equal`: <code>(a b : LineColumn) → [IsTrue] (⟦&lt;LineColumn as PartialEq&gt;⟧.eq a b) ↔ ((a.line
///   ≡ b.line) × (a.column ≡ b.column))</code>
/// - `ensures less`: <code>(a b : LineColumn) → (⟦&lt;LineColumn as Ord&gt;⟧.cmp a b ≡ Ordering.Less) ↔
///   [IsBefore] a b</code>
/// - `ensures greater`: <code>(a b : LineColumn) → (⟦&lt;LineColumn as Ord&gt;⟧.cmp a b ≡ Ordering.Greater) ↔
///   [IsBefore] b a</code>
/// - `ensures same`: <code>(a b : LineColumn) → (⟦&lt;LineColumn as Ord&gt;⟧.cmp a b ≡ Ordering.Equal) ↔
///   ((a.line ≡ b.line) × (a.column ≡ b.column))</code>
/// - `ensures partial`: <code>(a b : LineColumn) → ⟦&lt;LineColumn as PartialOrd&gt;⟧.partial_cmp a b ≡ [Some]
///   (⟦&lt;LineColumn as Ord&gt;⟧.cmp a b)</code>
/// - `ensures hash`: <code>(a : LineColumn) → ⟦&lt;LineColumn as Hash&gt;⟧.hash_input a ≡ fed.[usize] a.line ++
///   fed.[usize] a.column</code>
///
/// [IsTrue]: crate::contracts#std.IsTrue
/// [IsBefore]: crate::contracts#pm_span.Order.IsBefore
/// [Some]: crate::contracts#std.Some
/// [usize]: crate::contracts#std.usize
pub fn ordered_line_columns()
{}
