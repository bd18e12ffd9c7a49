// Made from crates/declarations/src/attribute_entry.rt by dev/erase: change that file, not this one.
//! An attribute as one entry.

use crate::declarations::attribute::Attribute;
use crate::declarations::entry::{Entry, whole_entry};
use crate::declarations::fault::Fault;

impl<'a> Attribute<'a> {
    /// Returns the trees in the brackets as one entry: a path, a path and a list, or a path, `=` and an expression.
    ///
    /// `#[name(a, b)]` gives the entry `name(a, b)`, whose list `Entries` can read, and `#[path = "a.rs"]` gives the
    /// entry `path = "a.rs"`. If the trees in the brackets are not exactly one entry, the call returns a `Fault`, whose
    /// `at` counts the trees in the brackets. If trees are missing at the end, its span is that of the closing bracket.
    /// [`args`](Attribute::args) returns trees of any other form as they are. The call allocates nothing.
    ///
    /// If a macro by example passed the entry or its path in a group without delimiters, as `$m:meta` or `$p:path`,
    /// the trees inside are read, as by [`parse_entry`](crate::declarations::parse_entry). That call also says where an
    /// error inside of such a group is.
    ///
    /// # Contract
    ///
    /// - `ensures ok`: <code>[IfOk] result (λ entry. [IsEntryAt] ([trees_of] self.now.group.now.stream) entry
    ///   \[\])</code>
    /// - `ensures err`: <code>[IfErr] result ([EndsAt] ([closing_of] self.now.group.now) ([IsEntryFault]
    ///   ([trees_of] self.now.group.now.stream)))</code>
    /// - `ensures expected`: <code>[IfErr] result (λ fault. [ExpectsEntry] ([trees_of] self.now.group.now.stream)
    ///   fault.at fault.expected)</code>
    ///
    /// [IfOk]: crate::contracts#std.IfOk
    /// [IsEntryAt]: crate::contracts#declarations.Entry.IsEntryAt
    /// [trees_of]: crate::contracts#pm_stream.DocGroup.trees_of
    /// [IfErr]: crate::contracts#std.IfErr
    /// [EndsAt]: crate::contracts#declarations.Ending.EndsAt
    /// [closing_of]: crate::contracts#declarations.Ending.closing_of
    /// [IsEntryFault]: crate::contracts#declarations.Entry.IsEntryFault
    /// [ExpectsEntry]: crate::contracts#declarations.EntryExpects.ExpectsEntry
    pub fn entry(&self) -> Result<Entry<'a>, Fault>
    {
        match whole_entry(self.group.stream_ref().trees()) {
            Ok(entry) => Ok(entry),
            Err(fault) => Err(fault.within(self.group)),
        }
    }
}
