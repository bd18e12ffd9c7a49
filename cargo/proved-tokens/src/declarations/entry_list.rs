// Made from crates/declarations/src/entry_list.rt by dev/erase: change that file, not this one.
//! The entries of an attribute's list, one at a time.

use crate::declarations::entry::{Entry, fault_without_comma, parse_entry};
use crate::declarations::fault::Fault;
use crate::declarations::list::past_comma;
use crate::pm_stream::{Group, TokenTree};

/// The entries in a group of an attribute, in order. A `,` is between two entries, and may be after the last.
///
/// The iterator gives each entry as [`parse_entry`] reads it from the remaining trees. At an error it gives a `Fault`,
/// whose `at` counts from the start of the remaining trees, and then ends. It allocates nothing. For
/// `(skip, rename = "a")` it gives `skip` and `rename = "a"`.
///
/// ```text
/// for entry in Entries::new(group) {
///     let entry = entry?;
///     if entry.is("skip") { .. }
/// }
/// ```
#[derive(Clone, Copy, Debug)]
pub struct Entries<'a> {
    /// The trees that are not yet read.
    pub left: &'a [TokenTree],
}

impl<'a> Entries<'a> {
    /// Returns an iterator over the entries in this group, such as `(a, b)` in `#[name(a, b)]`.
    ///
    /// # Contract
    ///
    /// - `ensures`: <code>[AreInside] result.left.now group.now</code>
    ///
    /// [AreInside]: crate::contracts#declarations.List.AreInside
    pub fn new(group: &'a Group) -> Entries<'a>
    {
        Entries {
            left: group.stream_ref().trees(),
        }
    }
}

impl<'a> Iterator for Entries<'a> {
    type Item = Result<Entry<'a>, Fault>;

    // At most as many elements come as trees are left.

    fn next(&mut self) -> Option<Result<Entry<'a>, Fault>> {
        if self.left.is_empty() {
            return None;
        }
        match first_entry(self.left) {
            Ok((entry, left)) => {
                self.left = left;
                Some(Ok(entry))
            }
            Err(fault) => {
                self.left = &[];
                Some(Err(fault))
            }
        }
    }
}

/// The first entry of a list, and the trees after its comma.
pub(crate) fn first_entry(trees: &[TokenTree]) -> Result<(Entry<'_>, &[TokenTree]), Fault>
{
    match parse_entry(trees) {
        Ok((entry, rest)) => match past_comma(rest) {
            Some(left) => Ok((entry, left)),
            None => Err(fault_without_comma(trees, &entry, rest)),
        },
        Err(fault) => Err(fault),
    }
}
