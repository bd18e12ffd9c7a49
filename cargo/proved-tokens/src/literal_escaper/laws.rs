// Made from crates/literal_escaper/src/laws.rt by dev/erase: change that file, not this one.
//! Laws about errors, modes and units. The functions compute nothing: their contracts are the laws.

use crate::literal_escaper::errors::EscapeError;
use crate::literal_escaper::mixed_unit::MixedUnit;
use crate::literal_escaper::mode::Mode;
use crate::literal_escaper::num::{NonZeroChar, NonZeroU8};

/// Two errors, two modes or two units are equal exactly if they are of one kind and have the same character or byte.
/// The units are those of C strings, and characters and bytes that are not 0.
///
/// The unit of the character `a` equals no other unit. The unit of the byte 0xE9 does not equal that of `é`.
///
/// # Contract
///
/// - `ensures errors`: <code>(a b : EscapeError) → [IsTrue] (⟦&lt;EscapeError as PartialEq&gt;⟧.eq a b) ↔ (a ≡
///   b)</code>
/// - `ensures modes`: <code>(a b : Mode) → [IsTrue] (⟦&lt;Mode as PartialEq&gt;⟧.eq a b) ↔ (a ≡ b)</code>
/// - `ensures units`: <code>(a b : MixedUnit) → [IsTrue] (⟦&lt;MixedUnit as PartialEq&gt;⟧.eq a b) ↔ (a ≡
///   b)</code>
/// - `ensures characters`: <code>(a b : NonZeroChar) → [IsTrue] (⟦&lt;NonZeroChar as PartialEq&gt;⟧.eq a b) ↔
///   (a ≡ b)</code>
/// - `ensures bytes`: <code>(a b : NonZeroU8) → [IsTrue] (⟦&lt;NonZeroU8 as PartialEq&gt;⟧.eq a b) ↔ (a ≡
///   b)</code>
///
/// [IsTrue]: crate::contracts#std.IsTrue
pub fn equal_errors_modes_and_units()
{}
