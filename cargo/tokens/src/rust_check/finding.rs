// Made from crates/rust_check/src/finding.rt by dev/erase: change that file, not this one.
//! Findings: what is reported about a text, and where.

/// A position in a text.
#[derive(Clone, Copy, Debug, PartialEq, Eq)]
pub struct TextPosition {
    /// The line, counted from 1.
    pub line: usize,
    /// The number of characters before it on its line.
    pub column: usize,
    /// The number of bytes before it in the text.
    pub begin: usize,
}

impl TextPosition {
    /// Returns the position at which a text begins.
    pub fn front() -> TextPosition
    {
        TextPosition {
            line: 1,
            column: 0,
            begin: 0,
        }
    }

    /// Returns the position after the character `c`, if `c` is at this position. A new line begins after LF.
    pub fn after(self, c: char) -> TextPosition
    {
        let begin = self.begin + c.len_utf8();
        if c == '\n' {
            TextPosition {
                line: self.line + 1,
                column: 0,
                begin,
            }
        } else {
            TextPosition {
                line: self.line,
                column: self.column + 1,
                begin,
            }
        }
    }
}

/// Something that is reported about a text, and where it is.
#[derive(Clone, Copy)]
pub struct Finding<'a> {
    /// A short name for the kind of finding.
    pub name: &'static str,
    /// What it is, in a few words.
    pub says: &'static str,
    /// Where it begins.
    pub place: TextPosition,
    /// The text before it on its line.
    pub front: &'a str,
    /// The text that it is about.
    pub here: &'a str,
    /// The text from where it begins up to the end.
    pub rest: &'a str,
}
