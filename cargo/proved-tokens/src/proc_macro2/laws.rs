// Made from crates/proc_macro2/src/laws.rt by dev/erase: change that file, not this one.
//! Laws of texts, streams and printed texts. These functions compute nothing: what is proved is in their contracts.
//! `specs/Laws.antt` defines the laws.
//!
//! The contracts of some calls have the words of the laws, so each law is also true of these calls:
//!
//! | A word of the laws | The call that has it |
//! |---|---|
//! | a source parses to a stream (`parses-to`), or has a fault (`fault`) | `TokenStream::from_str` |
//! | the printed text (`printed`) | the stream's `Display` |
//! | well spaced (`well-spaced`) | `TokenStream::is_well_spaced` |
//! | the same up to spans (`same`) | `TokenStream::same_tokens` |
//! | built (`built`), which every stream is | `TokenStream::trees`, `is_well_spaced` and `Group::stream_ref` |

pub use crate::literal_escaper::laws::equal_errors_modes_and_units;
pub use crate::pm_span::laws::ordered_line_columns;
pub use crate::pm_stream::laws::printed_by_the_rule;
pub use crate::pm_token::laws::{
    cooked_values, equal_delimiters_spacings_and_errors, equal_errors, made_literals, raw_values,
    single_values, values_come_back,
};

/// A source has at most one cover by pieces, and parses to at most one stream. It either parses or has a fault,
/// never both, and its fault has one position.
///
/// # Contract
///
/// - `ensures cover`: <code>[OneCover]</code>
/// - `ensures stream`: <code>[OneStream]</code>
/// - `ensures outcome`: <code>[ParsesOrFails]</code>
/// - `ensures apart`: <code>[NeverBoth]</code>
/// - `ensures fault`: <code>[OneFault]</code>
///
/// [OneCover]: crate::contracts#proc_macro2.Laws.OneCover
/// [OneStream]: crate::contracts#proc_macro2.Laws.OneStream
/// [ParsesOrFails]: crate::contracts#proc_macro2.Laws.ParsesOrFails
/// [NeverBoth]: crate::contracts#proc_macro2.Laws.NeverBoth
/// [OneFault]: crate::contracts#proc_macro2.Laws.OneFault
pub fn one_cover()
{}

/// A built stream comes back from its printed text, up to spans, exactly if it is well spaced. Every stream that a
/// text parses to is well spaced and built, and a built stream prints a text. So the built streams that are well
/// spaced are, up to spans, exactly those that some text parses to. Two of them are the same up to spans exactly if
/// they print the same text.
///
/// So `is_well_spaced` is a complete test for a faithful print. If it returns true, the printed text parses, and
/// `same_tokens` returns true for both streams. If it returns false, the printed text has a fault or gives other
/// tokens.
///
/// A `Joint` `+` before the identifier `a` does not come back: it prints `+a`, which parses to an `Alone` `+` and
/// `a`.
///
/// # Contract
///
/// - `ensures back`: <code>[ComesBack]</code>
/// - `ensures parsed`: <code>[ParsedIsWellSpaced]</code>
/// - `ensures given`: <code>[GivenIsWellSpaced]</code>
/// - `ensures built`: <code>[ParsedIsBuilt]</code>
/// - `ensures printed`: <code>[PrintedIsText]</code>
/// - `ensures exactly`: <code>[WellSpacedIsParsed]</code>
/// - `ensures text`: <code>[OneText]</code>
///
/// [ComesBack]: crate::contracts#proc_macro2.Laws.ComesBack
/// [ParsedIsWellSpaced]: crate::contracts#proc_macro2.Laws.ParsedIsWellSpaced
/// [GivenIsWellSpaced]: crate::contracts#proc_macro2.Laws.GivenIsWellSpaced
/// [ParsedIsBuilt]: crate::contracts#proc_macro2.Laws.ParsedIsBuilt
/// [PrintedIsText]: crate::contracts#proc_macro2.Laws.PrintedIsText
/// [WellSpacedIsParsed]: crate::contracts#proc_macro2.Laws.WellSpacedIsParsed
/// [OneText]: crate::contracts#proc_macro2.Laws.OneText
pub fn printed_comes_back()
{}

/// Two texts that parse, with an LF between them, parse to the two streams joined, up to spans, unless the second
/// begins with U+FEFF.
///
/// `x // c` and `y` give `x y`.
///
/// # Contract
///
/// - `ensures`: <code>[JoinedTexts]</code>
///
/// [JoinedTexts]: crate::contracts#proc_macro2.Laws.JoinedTexts
pub fn joined_texts()
{}

/// If a source parses, a line may be broken after any piece but a mark or a number. The stream stays the same up to
/// spans.
///
/// In `a+=b` a break after `a` gives `a += b`, while a break after `+` would give `a + = b`.
///
/// # Contract
///
/// - `ensures`: <code>[BrokenLine]</code>
///
/// [BrokenLine]: crate::contracts#proc_macro2.Laws.BrokenLine
pub fn broken_line()
{}

/// Each tree of a parsed stream has a run of the pieces that cover the source. A token's run is its piece, and a
/// group's run is the pieces from its opener to its closer. A tree that a doc comment gives has the comment as its
/// run. The tree's span goes from the first position of the run to the last. The text of the span is that of the
/// run (`gives-back`), in every map that extends the one after the parse.
///
/// In `a (b) // c` the text of the group's span is `(b)`.
///
/// # Contract
///
/// - `ensures each`: <code>[SpansGiveBack]</code>
/// - `ensures listed`: <code>[ListedGiveBack]</code>
///
/// [SpansGiveBack]: crate::contracts#proc_macro2.GivesBack.SpansGiveBack
/// [ListedGiveBack]: crate::contracts#proc_macro2.GivesBack.ListedGiveBack
pub fn spans_give_back()
{}

/// A tree that a stream has goes into another stream whole (`split`). Only a negative literal that was made by
/// itself becomes two trees.
///
/// The contracts of `TokenStream::trees` and `into_iter` say that each of their trees goes in whole. The literal
/// `-3i32` that `Literal::i32_suffixed` makes does not.
///
/// # Contract
///
/// - `ensures`: <code>[TreesStandWhole]</code>
///
/// [TreesStandWhole]: crate::contracts#proc_macro2.Laws.TreesStandWhole
pub fn trees_stand_whole()
{}
