// Made from crates/explain/src/laws.rt by dev/erase: change that file, not this one.
//! Facts that are proved about the reasons.

use crate::explain::reason::Reason;

/// At most one reason holds of a text, whatever part of the text each reason says is wrong. The reason includes the
/// error, if the content of a literal is wrong.
///
/// # Contract
///
/// - `ensures`: <code>(x y : Reason) (f p r g q s : [List] ℕ) → [Holds] x f p r → [Holds] y g q s → f ++ (p ++
///   r) ≡ g ++ (q ++ s) → x ≡ y</code>
///
/// [List]: crate::contracts#std.List
/// [Holds]: crate::contracts#explain.Reason.Holds
pub fn one_reason()
{}

/// A reason holds of a text with one wrong part only: that part, and the text before it, are determined.
///
/// # Contract
///
/// - `ensures`: <code>(x : Reason) (f p r g q s : [List] ℕ) → [Holds] x f p r → [Holds] x g q s → f ++ (p ++ r)
///   ≡ g ++ (q ++ s) → (f ≡ g) × (p ≡ q)</code>
///
/// [List]: crate::contracts#std.List
/// [Holds]: crate::contracts#explain.Reason.Holds
pub fn one_place()
{}

/// No reason holds where a piece begins, except `MisplacedMark` at the front mark, which is U+FEFF at the start of a
/// text.
///
/// # Contract
///
/// - `ensures`: <code>(x : Reason) (first : [Bool]) (kind : [Kind]) (f p r q s : [List] ℕ) → [Holds] x f p r →
///   [IsPiece] first kind q s → f ++ (p ++ r) ≡ q ++ s → (kind ≡ [FrontMark]) × (x ≡ MisplacedMark)</code>
///
/// [Bool]: crate::contracts#std.Bool
/// [Kind]: crate::contracts#lexical.Piece.Kind
/// [List]: crate::contracts#std.List
/// [Holds]: crate::contracts#explain.Reason.Holds
/// [IsPiece]: crate::contracts#lexical.Piece.IsPiece
/// [FrontMark]: crate::contracts#lexical.Piece.FrontMark
pub fn no_piece()
{}

/// A text has at most one explanation: two explanations that fulfil the contract of `explain` have the same `reason`,
/// `before` and `at`.
///
/// # Contract
///
/// - `ensures`: <code>(base : ℕ) (source : [List] ℕ) (x y : Explained) → [IsExplained] base source x →
///   [IsExplained] base source y → (x.reason ≡ y.reason) × (x.before ≡ y.before) × (x.at ≡ y.at)</code>
///
/// [List]: crate::contracts#std.List
/// [IsExplained]: crate::contracts#explain.Explained.IsExplained
pub fn one_explanation()
{}
