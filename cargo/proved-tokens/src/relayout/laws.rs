// Made from crates/relayout/src/laws.rt by dev/erase: change that file, not this one.
//! The laws about texts with other white space or with doc comments. The functions compute nothing: their contracts are
//! the laws, which `specs/Laws.antt` and `specs/Commented.antt` state.

/// Changing white space keeps the other pieces of a text, if no run is added or removed and each run after a line
/// comment begins with LF.
///
/// No other condition is needed, since no piece depends on what follows the white space after it.
///
/// Example: `a  +b // c` and LF may become `a`, LF, `+b`, tab, `// c` and two LFs.
///
/// # Contract
///
/// - `ensures`: <code>[PiecesStay]</code>
///
/// [PiecesStay]: crate::contracts#relayout.Laws.PiecesStay
pub fn pieces_stay()
{}

/// Texts with the same pieces, except for white characters, parse to the same tokens up to spans.
///
/// # Contract
///
/// - `ensures`: <code>[TokensStay]</code>
///
/// [TokensStay]: crate::contracts#relayout.Laws.TokensStay
pub fn tokens_stay()
{}

/// If doc comments replace attributes of the same texts, the text parses to the same tokens up to spans, except that a
/// doc literal may become another spelling of its value.
///
/// Each attribute must begin its line and end it, and a comment must be able to hold its text. A one-line comment holds
/// a text that has no LF and no CR, and does not begin with a slash after `///` (`doc-line`). A block holds a text that
/// has no CR and that the block is read as (`doc-block`). If all comments have one line, and all literals are spelled
/// as `Literal::string` writes them, no spelling changes.
///
/// Example: `#[doc = " a"]` and LF may become `/// a` and LF, and `# ![doc = "/b"]` and LF may become `//!/b` and LF.
///
/// # Contract
///
/// - `ensures`: <code>[CommentsStay]</code>
///
/// [CommentsStay]: crate::contracts#relayout.Commented.CommentsStay
pub fn comments_stay()
{}
