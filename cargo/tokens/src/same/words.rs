// Made from crates/same/src/words.rt by dev/erase: change that file, not this one.
//! The words of a text that are compared: its tokens in order and, if wanted, its comments.

use crate::same::source_word::{DocStep, SourceWord, after, alone, delimiter};
use proved_tokens::lexical::parts::begins;
use proved_tokens::lexical::{PieceKind, PieceWalk, PlacedPiece, pieces};
use proved_tokens::pm_token::Delimiter;

/// The words that are left of a text.
pub struct Words<'a> {
    walk: PieceWalk<'a>,
    comments: bool,
    // The next token of a doc comment that is being read, if there is one, and the comment's text.
    step: Option<DocStep>,
    doc: &'a str,
    /// The text from the last word on.
    pub here: &'a str,
}

impl<'a> Words<'a> {
    /// Returns all words of a text: its tokens and, if `comments` is true, its comments. Without comments a doc comment
    /// counts as the attribute that it is read as.
    pub fn new(text: &'a str, comments: bool) -> Words<'a>
    {
        Words {
            walk: pieces(text),
            comments,
            step: None,
            doc: "",
            here: text,
        }
    }
    /// Returns the next word, and sets `here` to the text from that word on. Returns `None` at the end, where `here` is
    /// empty.
    #[cfg_attr(not(debug_assertions), inline(always))]
    pub fn next(&mut self) -> Option<SourceWord<'a>>
    {
        // The inlined body lets the loops of the callers keep the walk in registers, as `next_piece` does.
        if let Some(step) = self.step {
            return Some(self.take_step(step));
        }
        loop {
            let next = self.walk.next_after_white();
            self.here = next.rest;
            if let Some(source_word) = self.begin(next.piece?) {
                return Some(source_word);
            }
        }
    }

    /// Returns the first word of the piece, if it has one.
    fn begin(&mut self, next: PlacedPiece<'a>) -> Option<SourceWord<'a>>
    {
        match next.piece.kind {
            PieceKind::FrontMark => None,
            PieceKind::Gap if self.comments && begins(next.text, "/") => Some(SourceWord::Comment(
                next.text,
            )),
            PieceKind::Gap => None,
            PieceKind::Doc { .. } if self.comments => Some(SourceWord::Comment(next.text)),
            PieceKind::Doc { inner, text } => {
                self.doc = text;
                let step = if inner {
                    DocStep::InnerHash
                } else {
                    DocStep::Hash
                };
                Some(self.take_step(step))
            }
            PieceKind::Opener(c) => Some(SourceWord::Opener(delimiter(c))),
            PieceKind::Closer(c) => Some(SourceWord::Closer(delimiter(c))),
            PieceKind::Literal => Some(SourceWord::Literal(next.text)),
            PieceKind::Mark { joint, mark } => Some(SourceWord::Mark(joint, mark)),
            PieceKind::Name { raw, name } => Some(SourceWord::Name(raw, name)),
        }
    }

    /// Returns the token of this step of the doc comment.
    fn take_step(&mut self, step: DocStep) -> SourceWord<'a>
    {
        self.step = after(step);
        match step {
            DocStep::Hash | DocStep::InnerHash => alone('#'),
            DocStep::Bang => alone('!'),
            DocStep::Opener => SourceWord::Opener(Delimiter::Bracket),
            DocStep::Name => SourceWord::Name(false, "doc"),
            DocStep::Equals => alone('='),
            DocStep::Text => SourceWord::DocText(self.doc_text()),
            DocStep::Closer => SourceWord::Closer(Delimiter::Bracket),
        }
    }

    /// Returns the text of the doc comment.
    fn doc_text(&self) -> &'a str
    {
        self.doc
    }
}
