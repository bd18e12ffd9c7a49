// Made from crates/lexical/src/laws.rt by dev/erase: change that file, not this one.
//! Laws about the pieces of a text.

/// At most one piece begins at a byte offset: the text there determines its kind, its text and what follows it.
///
/// # Contract
///
/// - `ensures`: <code>(first : [Bool]) (k l : [Kind]) (p q r s : [List] ℕ) → [IsPiece] first k p r → [IsPiece]
///   first l q s → p ++ r ≡ q ++ s → (k ≡ l) × (p ≡ q) × (r ≡ s)</code>
///
/// [Bool]: crate::contracts#std.Bool
/// [Kind]: crate::contracts#lexical.Piece.Kind
/// [List]: crate::contracts#std.List
/// [IsPiece]: crate::contracts#lexical.Piece.IsPiece
pub fn one_piece()
{}
