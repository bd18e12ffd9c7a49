// Made from crates/token_buffer/src/cursor.rt by dev/erase: change that file, not this one.
//! Cursors over the trees of a buffer.

use crate::token_buffer::entry::Entry;
use crate::pm_span::Span;
use crate::pm_span::parts::{char_count, span_of};
use crate::pm_token::{Delimiter, Spacing};

/// The remaining trees of a buffer, or of a group in it. A cursor is cheap to copy, and lends the texts of its
/// tokens.
///
/// A reader goes on with the cursors that the calls return, and backs up with an older one. Each call takes
/// constant time and allocates nothing, unless its comment says otherwise.
#[derive(Clone, Copy)]
pub struct Cursor<'a> {
    pub(crate) text: &'a str,
    pub(crate) entries: &'a [Entry],
}

/// An identifier.
#[derive(Clone, Copy)]
pub struct Name<'a> {
    /// Whether it is written with `r#`.
    pub raw: bool,
    /// The name, without `r#`.
    pub text: &'a str,
}

/// The text of a literal.
#[derive(Clone, Copy)]
pub enum LiteralText<'a> {
    /// The literal as it is written.
    Source(&'a str),
    /// The text of a doc comment. The literal is the string of this text (`string-text`), which is not in the
    /// source.
    Doc(&'a str),
}

/// A token by its text, or a group.
#[derive(Clone, Copy)]
pub enum TokenText<'a> {
    /// An identifier.
    Ident(Name<'a>),
    /// A mark.
    Punct(char, Spacing),
    /// A literal.
    Literal(LiteralText<'a>),
    /// A group, and a cursor over its trees.
    Group(Delimiter, Cursor<'a>),
}

impl<'a> Cursor<'a> {
    /// Makes the cursor over the trees of these entries.
    pub(crate) fn over(text: &'a str, entries: &'a [Entry]) -> Cursor<'a>
    {
        Cursor { text, entries }
    }

    /// Returns whether no tree is left.
    ///
    /// # Contract
    ///
    /// - `ensures`: <code>result ≡ [is_nil] ([left] self.entry)</code>
    ///
    /// [is_nil]: crate::contracts#pm_stream.Size.is_nil
    /// [left]: crate::contracts#token_buffer.Reads.left
    pub fn eof(self) -> bool
    {
        self.entries.is_empty()
    }

    /// Returns the first tree and a cursor over the trees after it, or `None` at the end.
    ///
    /// In `a (b)` the first tree is the identifier `a`, and the group is left.
    ///
    /// # Contract
    ///
    /// - `ensures`: <code>[MatchOption] result ([left] self.entry ≡ [nil]) (λ found. [Begins] found.0 self.entry
    ///   found.1)</code>
    ///
    /// [MatchOption]: crate::contracts#std.MatchOption
    /// [left]: crate::contracts#token_buffer.Reads.left
    /// [nil]: crate::contracts#pm_stream.Forest.nil
    /// [Begins]: crate::contracts#token_buffer.Reads.Begins
    #[cfg_attr(not(debug_assertions), inline(always))]
    pub fn next(self) -> Option<(TokenText<'a>, Cursor<'a>)>
    {
        let text = self.text;
        let Some((entry, entries)) = self.entries.split_first() else {
            return None;
        };
        match *entry {
            Entry::Name { raw, lo, hi, at } => {
                let _ = at;
                let name = Name {
                    raw,
                    text: &text[lo as usize..hi as usize],
                };
                Some((TokenText::Ident(name), Cursor { text, entries }))
            }
            Entry::Mark {
                joint,
                mark,
                at,
                end,
            } => {
                let _ = at;
                let _ = end;
                Some((
                    TokenText::Punct(mark, spacing(joint)),
                    Cursor { text, entries },
                ))
            }
            Entry::Literal { lo, hi, at } => {
                let _ = at;
                let literal = LiteralText::Source(&text[lo as usize..hi as usize]);
                Some((TokenText::Literal(literal), Cursor { text, entries }))
            }
            Entry::Open {
                delimiter,
                at,
                count,
            } => {
                let _ = at;
                let (inside, _) = entries.split_at(count as usize);
                let (_, after) = entries.split_at(count as usize + 1);
                let inside = Cursor {
                    text,
                    entries: inside,
                };
                let after = Cursor {
                    text,
                    entries: after,
                };
                Some((TokenText::Group(delimiter, inside), after))
            }
            Entry::Close { delimiter, end } => {
                let _ = delimiter;
                let _ = end;
                unreachable!()
            }
            Entry::DocName { at, end } => {
                let _ = at;
                let _ = end;
                let name = Name {
                    raw: false,
                    text: "doc",
                };
                Some((TokenText::Ident(name), Cursor { text, entries }))
            }
            Entry::DocText {
                closing,
                lo,
                hi,
                at,
            } => {
                let _ = closing;
                let _ = at;
                let literal = LiteralText::Doc(&text[lo as usize..hi as usize]);
                Some((TokenText::Literal(literal), Cursor { text, entries }))
            }
        }
    }

    /// Returns a cursor over the trees after the first one, or `None` at the end. The first tree may be a group.
    ///
    /// # Contract
    ///
    /// - `ensures none`: <code>[IfNone] result ([left] self.entry ≡ [nil])</code>
    /// - `ensures some`: <code>[IfSome] result (λ rest. (first : TokenText) × [Begins] first self.entry
    ///   rest)</code>
    ///
    /// [IfNone]: crate::contracts#std.IfNone
    /// [left]: crate::contracts#token_buffer.Reads.left
    /// [nil]: crate::contracts#pm_stream.Forest.nil
    /// [IfSome]: crate::contracts#std.IfSome
    /// [Begins]: crate::contracts#token_buffer.Reads.Begins
    pub fn skip(self) -> Option<Cursor<'a>>
    {
        let (_, rest) = self.next()?;
        Some(rest)
    }

    /// Returns the span of the first tree, or `None` at the end.
    ///
    /// The span is in characters, and that of a group includes its delimiters. The time is proportional to the
    /// text's length if the tree is an identifier or a literal, and else constant. In a text `(b)` the span is
    /// 1..4.
    ///
    /// # Contract
    ///
    /// - `ensures`: <code>result ≡ [first_extent] ([left] self.entry)</code>
    ///
    /// [first_extent]: crate::contracts#token_buffer.Reads.first_extent
    /// [left]: crate::contracts#token_buffer.Reads.left
    pub fn span(self) -> Option<Span>
    {
        let text = self.text;
        let Some((entry, entries)) = self.entries.split_first() else {
            return None;
        };
        match *entry {
            Entry::Name { raw, lo, hi, at } => {
                let front = if raw { 2 } else { 0 };
                let name = char_count(&text[lo as usize..hi as usize]);
                Some(span_of(at, at + (front + name) as u32))
            }
            Entry::Mark {
                joint,
                mark,
                at,
                end,
            } => {
                let _ = joint;
                let _ = mark;
                Some(span_of(at, end))
            }
            Entry::Literal { lo, hi, at } => {
                let literal = char_count(&text[lo as usize..hi as usize]);
                Some(span_of(at, at + literal as u32))
            }
            Entry::Open {
                delimiter,
                at,
                count,
            } => {
                let _ = delimiter;
                let end = closer_end(entries[count as usize]);
                Some(span_of(at, end))
            }
            Entry::Close { delimiter, end } => {
                let _ = delimiter;
                let _ = end;
                unreachable!()
            }
            Entry::DocName { at, end } => Some(span_of(at, end)),
            Entry::DocText {
                closing,
                lo,
                hi,
                at,
            } => {
                let doc_body = char_count(&text[lo as usize..hi as usize]);
                Some(span_of(at, at + (3 + doc_body + closing as usize) as u32))
            }
        }
    }

    /// Returns the identifier that comes first and the trees after it, or `None` if none comes first.
    ///
    /// # Contract
    ///
    /// - `ensures`: <code>[MatchOption] result ([name_first] ([left] self.entry) ≡ [false]) (λ found. [BeginsWith]
    ///   (tokens.[Name] found.0.raw ([chars] found.0.text.now)) self.entry found.1)</code>
    ///
    /// [MatchOption]: crate::contracts#std.MatchOption
    /// [name_first]: crate::contracts#token_buffer.Reads.name_first
    /// [left]: crate::contracts#token_buffer.Reads.left
    /// [false]: crate::contracts#std.false
    /// [BeginsWith]: crate::contracts#token_buffer.Reads.BeginsWith
    /// [Name]: crate::contracts#lexical.Token.Name
    /// [chars]: crate::contracts#std.chars
    pub fn ident(self) -> Option<(Name<'a>, Cursor<'a>)>
    {
        match self.next() {
            Some((TokenText::Ident(name), rest)) => Some((name, rest)),
            _ => None,
        }
    }

    /// Returns the mark that comes first, its spacing and the trees after it, or `None` if none comes first.
    ///
    /// # Contract
    ///
    /// - `ensures`: <code>[MatchOption] result ([mark_first] ([left] self.entry) ≡ [false]) (λ found. [BeginsWith]
    ///   (tokens.[Mark] found.0 ([is_joint] found.1)) self.entry found.2)</code>
    ///
    /// [MatchOption]: crate::contracts#std.MatchOption
    /// [mark_first]: crate::contracts#token_buffer.Reads.mark_first
    /// [left]: crate::contracts#token_buffer.Reads.left
    /// [false]: crate::contracts#std.false
    /// [BeginsWith]: crate::contracts#token_buffer.Reads.BeginsWith
    /// [Mark]: crate::contracts#lexical.Token.Mark
    /// [is_joint]: crate::contracts#pm_token.Leaf.is_joint
    pub fn punct(self) -> Option<(char, Spacing, Cursor<'a>)>
    {
        match self.next() {
            Some((TokenText::Punct(mark, spacing), rest)) => Some((mark, spacing, rest)),
            _ => None,
        }
    }

    /// Returns the literal that comes first and the trees after it, or `None` if none comes first.
    ///
    /// # Contract
    ///
    /// - `ensures`: <code>[MatchOption] result ([literal_first] ([left] self.entry) ≡ [false]) (λ found.
    ///   [BeginsWith] (tokens.[Literal] ([literal_text] found.0)) self.entry found.1)</code>
    ///
    /// [MatchOption]: crate::contracts#std.MatchOption
    /// [literal_first]: crate::contracts#token_buffer.Reads.literal_first
    /// [left]: crate::contracts#token_buffer.Reads.left
    /// [false]: crate::contracts#std.false
    /// [BeginsWith]: crate::contracts#token_buffer.Reads.BeginsWith
    /// [Literal]: crate::contracts#lexical.Token.Literal
    /// [literal_text]: crate::contracts#token_buffer.Reads.literal_text
    pub fn literal(self) -> Option<(LiteralText<'a>, Cursor<'a>)>
    {
        match self.next() {
            Some((TokenText::Literal(literal), rest)) => Some((literal, rest)),
            _ => None,
        }
    }

    /// Returns the name of the lifetime that comes first and the trees after it, or `None` if none comes first.
    ///
    /// The lifetime `'a` is the mark `'`, which is `Joint`, and the identifier `a`.
    ///
    /// # Contract
    ///
    /// - `ensures`: <code>[MatchOption] result ([lifetime_first] ([left] self.entry) ≡ [false]) (λ found. (name :
    ///   Cursor) × [BeginsWith] (tokens.[Mark] 39 [true]) self.entry name × [BeginsWith] (tokens.[Name] found.0.raw
    ///   ([chars] found.0.text.now)) name found.1)</code>
    ///
    /// [MatchOption]: crate::contracts#std.MatchOption
    /// [lifetime_first]: crate::contracts#token_buffer.Reads.lifetime_first
    /// [left]: crate::contracts#token_buffer.Reads.left
    /// [false]: crate::contracts#std.false
    /// [BeginsWith]: crate::contracts#token_buffer.Reads.BeginsWith
    /// [Mark]: crate::contracts#lexical.Token.Mark
    /// [true]: crate::contracts#std.true
    /// [Name]: crate::contracts#lexical.Token.Name
    /// [chars]: crate::contracts#std.chars
    pub fn lifetime(self) -> Option<(Name<'a>, Cursor<'a>)>
    {
        match self.punct() {
            Some(('\'', Spacing::Joint, name)) => name.ident(),
            _ => None,
        }
    }

    /// Returns the trees in the group that comes first and the trees after it, or `None` if no group with this
    /// delimiter comes first.
    ///
    /// # Contract
    ///
    /// - `ensures`: <code>[MatchOption] result ([group_first] ([left] self.entry) ≢ [Some] delimiter) (λ found.
    ///   [BeginsWithGroup] delimiter self.entry found.0 found.1)</code>
    ///
    /// [MatchOption]: crate::contracts#std.MatchOption
    /// [group_first]: crate::contracts#token_buffer.Reads.group_first
    /// [left]: crate::contracts#token_buffer.Reads.left
    /// [Some]: crate::contracts#std.Some
    /// [BeginsWithGroup]: crate::contracts#token_buffer.Reads.BeginsWithGroup
    pub fn group(self, delimiter: Delimiter) -> Option<(Cursor<'a>, Cursor<'a>)>
    {
        match self.any_group() {
            Some((found, inside, after)) if found == delimiter => Some((inside, after)),
            _ => None,
        }
    }

    /// Returns the delimiter and the trees of the group that comes first and the trees after it, or `None` if none
    /// comes first.
    ///
    /// # Contract
    ///
    /// - `ensures`: <code>[MatchOption] result ([group_first] ([left] self.entry) ≡ [None]) (λ found.
    ///   [BeginsWithGroup] found.0 self.entry found.1 found.2)</code>
    ///
    /// [MatchOption]: crate::contracts#std.MatchOption
    /// [group_first]: crate::contracts#token_buffer.Reads.group_first
    /// [left]: crate::contracts#token_buffer.Reads.left
    /// [None]: crate::contracts#std.None
    /// [BeginsWithGroup]: crate::contracts#token_buffer.Reads.BeginsWithGroup
    pub fn any_group(self) -> Option<(Delimiter, Cursor<'a>, Cursor<'a>)>
    {
        match self.next() {
            Some((TokenText::Group(delimiter, inside), after)) => Some((delimiter, inside, after)),
            _ => None,
        }
    }
}

/// Returns the position at which a closer's group ends, or 0 for any other entry.
fn closer_end(entry: Entry) -> u32
{
    match entry {
        Entry::Close { delimiter, end } => {
            let _ = delimiter;
            end
        }
        _ => 0,
    }
}

/// Returns the spacing of a mark.
fn spacing(joint: bool) -> Spacing
{
    if joint {
        Spacing::Joint
    } else {
        Spacing::Alone
    }
}
