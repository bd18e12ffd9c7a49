// Made from crates/declarations/src/entry_check.rt by dev/erase: change that file, not this one.
//! Checks that the entries of a list have known names, and no name twice.

use crate::declarations::entry::{Entry, spot_of};
use crate::declarations::entry_list::first_entry;
use crate::declarations::expected::Expected;
use crate::declarations::fault::{Fault, are_same, or_span, write_message};
use crate::pm_span::Span;
use crate::pm_stream::{Group, TokenTree};
use crate::pm_token::Ident;
use crate::shim::fmt;
use crate::shim::fmt::Display;

/// The kind of error in a list of entries.
#[derive(Clone, Copy, Debug, PartialEq, Eq)]
pub enum EntryProblem {
    /// No entry can be read here, or the entry has something after it that is no `,`. In `skip rename` the error is at
    /// `rename`, as it is in `skip, = rename` at the `=`.
    NoEntry,
    /// The entry has none of the known names. A literal, or a path of several segments, never has one.
    Unknown,
    /// The entry has the name of an earlier entry.
    Repeated,
}

/// An error in a list of entries: its kind, where it is, and the names that are known.
///
/// Where there is no entry, the text of the error is that of a [`Fault`](crate::declarations::Fault), which says what
/// was expected. Otherwise it names the entry.
#[derive(Clone, Copy, Debug)]
pub struct EntryError<'a> {
    /// The kind of error.
    pub problem: EntryProblem,
    /// The number of trees of the list before the error.
    pub at: usize,
    /// The span of the first wrong tree, or `None` if the list ends too early, to which [`within`](EntryError::within)
    /// adds the span of the closing delimiter. In a group without delimiters it is that of a tree inside, as
    /// [`parse_entry`](crate::declarations::parse_entry) says.
    pub span: Option<Span>,
    /// The name of the unknown or repeated entry. It is `None` if the entry is a literal or a path of several segments,
    /// or if there is no entry.
    pub name: Option<&'a Ident>,
    /// The names that are known.
    pub known: &'a [&'a str],
    /// The signs that can come next, if there is no entry.
    expected: Expected,
}

impl<'a> EntryError<'a> {
    /// Returns the field [`span`](EntryError::span): the span of the first wrong tree.
    ///
    /// # Contract
    ///
    /// - `ensures`: <code>result ≡ self.now.span</code>
    pub fn span(&self) -> Option<Span>
    {
        self.span
    }

    /// Returns the signs that could come where there is no entry, in place of what is there.
    ///
    /// This is the set of the [`Fault`](crate::declarations::Fault) that
    /// [`Entries`](crate::declarations::Entries) gives there. It is empty if an entry has an unknown or a
    /// repeated name. For `skip rename` it has `,`, `=` and the end, among others.
    ///
    /// # Contract
    ///
    /// - `ensures`: <code>result ≡ self.now.expected</code>
    pub fn expected(&self) -> Expected
    {
        self.expected
    }

    /// Returns the error of a list that is the trees in this group.
    ///
    /// If the error has no span, because the list ends too early, the result has the span of the group's closing
    /// delimiter. Otherwise the result is the same error. For the list in `(rename =)` it has the span of `)`.
    ///
    /// # Contract
    ///
    /// - `ensures span`: <code>result.span ≡ [or_extent] self.entry.span ([closing_of] group.now)</code>
    /// - `ensures kept`: <code>(result.problem ≡ self.entry.problem) × (result.at ≡ self.entry.at) × (result.name ≡
    ///   self.entry.name) × (result.known ≡ self.entry.known) × (result.expected ≡ self.entry.expected)</code>
    ///
    /// [or_extent]: crate::contracts#declarations.Ending.or_extent
    /// [closing_of]: crate::contracts#declarations.Ending.closing_of
    pub fn within(self, group: &Group) -> EntryError<'a>
    {
        EntryError {
            problem: self.problem,
            at: self.at,
            span: or_span(self.span, Some(group.span_close())),
            name: self.name,
            known: self.known,
            expected: self.expected,
        }
    }
}

/// Checks that each entry of the list has one of the known names, and that no two entries have the same name.
///
/// The list is the trees in a group of an attribute, such as `skip, rename = "a"` in `#[name(skip, rename = "a")]`. A
/// name is a path of one identifier. At most 128 names can be known, which is a precondition. The call returns an error
/// for the first entry with an unknown or a repeated name, or where the list goes on with no entry. It allocates
/// nothing.
///
/// If `skip` and `rename` are known, the list `skip, renam = "a"` has an error at `renam`, after 2 trees. Its text is
/// "unknown entry `renam`; known are `skip`, `rename`". For `rename = ,` it is "expected an expression".
///
/// # Contract
///
/// - `requires`: <code>[length] known.now ≤ 128</code>
/// - `ensures ok`: <code>[OnOk] result ((places : [List] ℕ) × [HasNames] known.now list.now places \[\])</code>
/// - `ensures err`: <code>[IfErr] result (λ error. [IsEntryError] known.now list.now error)</code>
///
/// [length]: crate::contracts#std.length
/// [OnOk]: crate::contracts#std.OnOk
/// [List]: crate::contracts#std.List
/// [HasNames]: crate::contracts#declarations.EntryCheck.HasNames
/// [IfErr]: crate::contracts#std.IfErr
/// [IsEntryError]: crate::contracts#declarations.EntryCheck.IsEntryError
pub fn check_entries<'a>(list: &'a [TokenTree], known: &'a [&'a str]) -> Result<(), EntryError<'a>>
{
    let mut seen = [false; 128];
    let mut left = list;
    while !left.is_empty() {
        let before = list.len() - left.len();
        match first_entry(left) {
            Ok((entry, next)) => {
                let place = place_of(&entry, known);
                if place == known.len() {
                    let span = spot_of(left, &entry);
                    return Err(wrong(EntryProblem::Unknown, before, span, entry.name(), known));
                }
                if seen[place] {
                    let span = spot_of(left, &entry);
                    return Err(wrong(EntryProblem::Repeated, before, span, entry.name(), known));
                }
                seen[place] = true;
                left = next;
            }
            Err(fault) => {
                let at = before + fault.at;
                return Err(no_entry(at, fault, known));
            }
        }
    }
    Ok(())
}

/// The error of an entry with an unknown or a repeated name.
fn wrong<'a>(
    problem: EntryProblem,
    at: usize,
    span: Option<Span>,
    name: Option<&'a Ident>,
    known: &'a [&'a str],
) -> EntryError<'a>
{
    EntryError {
        problem,
        at,
        span,
        name,
        known,
        expected: Expected::nothing(),
    }
}

/// The error after `at` trees where no entry can be read.
fn no_entry<'a>(at: usize, fault: Fault, known: &'a [&'a str]) -> EntryError<'a>
{
    EntryError {
        problem: EntryProblem::NoEntry,
        at,
        span: fault.span,
        name: None,
        known,
        expected: fault.expected(),
    }
}

/// The position of the entry's name among the known names, or their number if it is not among them.
fn place_of(entry: &Entry<'_>, known: &[&str]) -> usize
{
    let mut at = 0;
    for word in known {
        if entry.is(word) {
            return at;
        }
        at += 1;
    }
    at
}

impl<'a> PartialEq for EntryError<'a> {
    /// Whether both errors have the same kind, position and span. The known names and the expected signs do not matter.
    fn eq(&self, other: &EntryError<'a>) -> bool {
        number_of(self.problem) == number_of(other.problem)
            && (self.at == other.at && are_same(self.span, other.span))
    }
}

impl<'a> Eq for EntryError<'a> {
}

/// The number of an error's kind. No two kinds have the same number.
fn number_of(problem: EntryProblem) -> u8
{
    match problem {
        EntryProblem::NoEntry => 0,
        EntryProblem::Unknown => 1,
        EntryProblem::Repeated => 2,
    }
}

/// Writes a space and the name in backticks, if there is a name.
fn write_name<W: fmt::Write>(name: Option<&Ident>, f: &mut fmt::Formatter<W>) -> fmt::Result
{
    match name {
        Some(ident) => {
            f.write_str(" `")?;
            ident.fmt(f)?;
            f.write_str("`")
        }
        None => Ok(()),
    }
}

/// Writes the end of the message, with the names that are known.
fn write_known<W: fmt::Write>(known: &[&str], f: &mut fmt::Formatter<W>) -> fmt::Result
{
    match known.split_first() {
        Some((word, words)) => {
            f.write_str("; known are ")?;
            write_quoted(word, f)?;
            write_more(words, f)
        }
        None => f.write_str("; no names are known"),
    }
}

/// Writes more known names, each after a comma.
fn write_more<W: fmt::Write>(words: &[&str], f: &mut fmt::Formatter<W>) -> fmt::Result
{
    for word in words {
        write_next(word, f)?;
    }
    Ok(())
}

/// Writes a comma and one more known name.
fn write_next<W: fmt::Write>(word: &str, f: &mut fmt::Formatter<W>) -> fmt::Result
{
    f.write_str(", ")?;
    write_quoted(word, f)
}

/// Writes a name in backticks.
fn write_quoted<W: fmt::Write>(word: &str, f: &mut fmt::Formatter<W>) -> fmt::Result
{
    f.write_str("`")?;
    f.write_str(word)?;
    f.write_str("`")
}

impl<'a> Display for EntryError<'a> {
    fn fmt<W: fmt::Write>(&self, f: &mut fmt::Formatter<W>) -> fmt::Result {
        match self.problem {
            EntryProblem::NoEntry => write_message(self.span, self.expected, f),
            EntryProblem::Unknown => {
                f.write_str("unknown entry")?;
                write_name(self.name, f)?;
                write_known(self.known, f)
            }
            EntryProblem::Repeated => {
                f.write_str("a second entry")?;
                write_name(self.name, f)
            }
        }
    }
}

crate::shim::display!(EntryError<'a>);
