// Made from crates/quoting/src/laws.rt by dev/erase: change that file, not this one.
//! Laws of the definitions that the contracts cite. Their functions compute nothing.

/// States that a respaced stream is well spaced unless it has a `first-fault`.
///
/// Respacing changes spacings only. A mark keeps its spacing if some well spaced choice of spacings keeps it, so a
/// stream that is well spaced is unchanged. A stream has a `first-fault` exactly if no choice of spacings is well
/// spaced.
///
/// # Contract
///
/// - `ensures spaced`: <code>[WellSpacedWithoutFault]</code>
/// - `ensures hopeless`: <code>[AFaultIsHopeless]</code>
/// - `ensures spacing`: <code>[OnlySpacing]</code>
/// - `ensures keeps`: <code>[KeepsWhatItMay]</code>
/// - `ensures unchanged`: <code>[NothingToDo]</code>
///
/// [WellSpacedWithoutFault]: crate::contracts#quoting.Laws.WellSpacedWithoutFault
/// [AFaultIsHopeless]: crate::contracts#quoting.Laws.AFaultIsHopeless
/// [OnlySpacing]: crate::contracts#quoting.Laws.OnlySpacing
/// [KeepsWhatItMay]: crate::contracts#quoting.Laws.KeepsWhatItMay
/// [NothingToDo]: crate::contracts#quoting.Laws.NothingToDo
pub fn respacing()
{}
