// Made from crates/pm_token/src/symbols/names.rt by dev/erase: change that file, not this one.
//! The names of identifiers, raw and plain.

use crate::shim::prelude::TryClone;

use super::shared::Shared;
use super::short::{ROOM, Short};
use crate::shim::alloc::AllocError;
use crate::shim::fmt;

/// A plain or raw name, short or long. With one enum for all four, a name is no larger than a text. Copies of a
/// long name share it.
enum NameText {
    Short(Short),
    Long(Shared),
    RawShort(Short),
    RawLong(Shared),
}

impl NameText {
    /// Makes a name with a copy of a short text.
    #[cfg_attr(not(debug_assertions), inline(always))]
    fn short(text: &str, raw: bool) -> NameText
    {
        if raw {
            NameText::RawShort(Short::new(text))
        } else {
            NameText::Short(Short::new(text))
        }
    }

    /// Makes a name of a long text.
    fn long(text: Shared, raw: bool) -> NameText
    {
        if raw {
            NameText::RawLong(text)
        } else {
            NameText::Long(text)
        }
    }
}

/// The name of an identifier without `r#`, and whether it is raw. Contracts speak of its characters.
pub struct Name {
    text: NameText,
}

impl Name {
    /// Copies the name. Out of memory is the only error.
    ///
    /// # Contract
    ///
    /// - `ensures ok`: <code>[IfOk] result (λ kept. kept ≡ record { name = [chars] name.now; raw = raw })</code>
    ///
    /// [IfOk]: crate::contracts#std.IfOk
    /// [chars]: crate::contracts#std.chars
    #[cfg_attr(not(debug_assertions), inline(always))]
    pub fn new(name: &str, raw: bool) -> Result<Name, AllocError>
    {
        let text = if name.len() <= ROOM {
            NameText::short(name, raw)
        } else {
            NameText::long(Shared::new(name)?, raw)
        };
        Ok(Name { text })
    }

    /// Drops the name field by field, so that a short one need not be written to memory first.
    #[cfg_attr(not(debug_assertions), inline(always))]
    pub(crate) fn discard(self) {
        match self.text {
            NameText::Short(text) | NameText::RawShort(text) => drop(text),
            NameText::Long(text) | NameText::RawLong(text) => drop(text),
        }
    }

    /// Returns the name, without `r#`.
    ///
    /// # Contract
    ///
    /// - `ensures`: <code>[chars] result.now ≡ self.now.name</code>
    ///
    /// [chars]: crate::contracts#std.chars
    #[cfg_attr(not(debug_assertions), inline(always))]
    pub fn as_str(&self) -> &str
    {
        match &self.text {
            NameText::Short(name) | NameText::RawShort(name) => name.as_str(),
            NameText::Long(name) | NameText::RawLong(name) => name.as_str(),
        }
    }

    /// Returns the bytes of the name, without `r#`. Names are compared by them.
    ///
    /// # Contract
    ///
    /// - `ensures value`: <code>[chars] result.now ≡ self.now.name</code>
    /// - `ensures utf8`: <code>[IsUtf8] result.now</code>
    ///
    /// [chars]: crate::contracts#std.chars
    /// [IsUtf8]: crate::contracts#std.IsUtf8
    #[cfg_attr(not(debug_assertions), inline(always))]
    pub fn as_bytes(&self) -> &[u8]
    {
        match &self.text {
            NameText::Short(name) | NameText::RawShort(name) => name.as_bytes(),
            NameText::Long(name) | NameText::RawLong(name) => name.as_str().as_bytes(),
        }
    }

    /// Returns the bytes of a short plain name, or `None` for any other name.
    ///
    /// # Contract
    ///
    /// - `ensures`: <code>[IfSome] result (λ bytes. ([chars] bytes.now ≡ self.now.name) × [IsUtf8] bytes.now ×
    ///   (self.now.raw ≡ [false]))</code>
    ///
    /// [IfSome]: crate::contracts#std.IfSome
    /// [chars]: crate::contracts#std.chars
    /// [IsUtf8]: crate::contracts#std.IsUtf8
    /// [false]: crate::contracts#std.false
    #[cfg_attr(not(debug_assertions), inline(always))]
    pub fn plain_bytes(&self) -> Option<&[u8]>
    {
        match &self.text {
            NameText::Short(name) => Some(name.as_bytes()),
            _ => None,
        }
    }

    /// Returns whether both names are the same, and both raw or both plain.
    ///
    /// # Contract
    ///
    /// - `ensures`: <code>[IsTrue] result ↔ (self.now ≡ other.now)</code>
    ///
    /// [IsTrue]: crate::contracts#std.IsTrue
    #[cfg_attr(not(debug_assertions), inline(always))]
    pub fn same(&self, other: &Name) -> bool
    {
        match (&self.text, &other.text) {
            (NameText::Short(name), NameText::Short(other_name)) => name.same(other_name),
            _ => self.has_same_bytes(other),
        }
    }

    /// Does what `same` does, for any names.
    #[inline(never)]
    fn has_same_bytes(&self, other: &Name) -> bool
    {
        self.is_raw() == other.is_raw() && self.as_bytes() == other.as_bytes()
    }

    /// Returns whether the name is raw.
    ///
    /// # Contract
    ///
    /// - `ensures`: <code>result ≡ self.now.raw</code>
    #[cfg_attr(not(debug_assertions), inline(always))]
    pub fn is_raw(&self) -> bool
    {
        match &self.text {
            NameText::Short(_) | NameText::Long(_) => false,
            NameText::RawShort(_) | NameText::RawLong(_) => true,
        }
    }
}

/// Copies the name; a long one is shared. The copy fails if a long name has more owners than can be counted.
impl TryClone for Name {
    #[cfg_attr(not(debug_assertions), inline(always))]
    fn try_clone(&self) -> Result<Name, AllocError> {
        let text = match &self.text {
            NameText::Short(name) => NameText::Short(name.copy()),
            NameText::RawShort(name) => NameText::RawShort(name.copy()),
            NameText::Long(name) => NameText::Long(name.share()?),
            NameText::RawLong(name) => NameText::RawLong(name.share()?),
        };
        Ok(Name { text })
    }
}

crate::shim::copied!(Name);

impl fmt::Display for Name {
    fn fmt<W: fmt::Write>(&self, f: &mut fmt::Formatter<W>) -> fmt::Result {
        f.write_str(self.as_str())
    }
}

crate::shim::display!(Name);
