// Made from crates/lexical/src/piece.rt by dev/erase: change that file, not this one.
//! The pieces of the grammar, as the lexer returns them.

/// The kind of a piece, by the rules of the lexical grammar.
#[derive(Clone, Copy, Debug, PartialEq, Eq)]
pub enum PieceKind<'a> {
    /// The byte order mark U+FEFF at byte offset 0 of a source, by the rule `front-mark`.
    FrontMark,
    /// One white character, or a comment that isn't a doc comment, by the rule `gap`.
    Gap,
    /// A doc comment, by the rule `doc-comment`.
    Doc {
        /// Whether it documents the item around it, as `//!` and `/*!` do.
        inner: bool,
        /// Its text, by the rule `doc-text`: all but its first three characters, the `*/` of a block comment and a CR
        /// before the LF that ends the line. The text of `/// a` is ` a`.
        text: &'a str,
    },
    /// One of `(`, `[`, `{`, by the rule `opener`.
    Opener(char),
    /// One of `)`, `]`, `}`, by the rule `closer`.
    Closer(char),
    /// A literal with its suffix, by the rule `literal` or `error-literal`.
    Literal,
    /// A punctuation mark, by the rule `mark` or `lone-quote`.
    Mark {
        /// Whether it is Joint. A mark is Joint by the rule `joint` if another mark follows at once and no comment
        /// begins there. The `'` before an identifier is always Joint, by the rule `lone-quote`.
        // This field precedes `mark`, because no variant has a pointer there. Otherwise the two would be copied byte by
        // byte.
        joint: bool,
        /// The mark's character.
        mark: char,
    },
    /// An identifier, by the rule `identifier`.
    Name {
        /// Whether it is written with `r#`.
        raw: bool,
        /// The identifier without `r#`.
        name: &'a str,
    },
}

/// A piece at the start of a text.
#[derive(Clone, Copy, Debug, PartialEq, Eq)]
pub struct Piece<'a> {
    /// What kind of piece it is.
    pub kind: PieceKind<'a>,
    /// How many bytes it has.
    pub bytes: usize,
    /// How many characters it has.
    pub chars: usize,
}
