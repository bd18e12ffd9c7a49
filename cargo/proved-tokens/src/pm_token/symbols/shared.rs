// Made from crates/pm_token/src/symbols/shared.rt by dev/erase: change that file, not this one.
//! Long texts, which are shared by their copies.

use crate::shim::prelude::TryClone;

use crate::shim::alloc::AllocError;
use crate::shim::rc::RcStr;

/// A text of more than 22 bytes, which its copies share.
pub(crate) struct Shared {
    text: RcStr,
}

impl Shared {
    /// Copies the text. Out of memory is the only error.
    pub(crate) fn new(text: &str) -> Result<Shared, AllocError>
    {
        Ok(Shared {
            text: RcStr::from_str(text)?,
        })
    }

    /// Takes the text without a copy. Out of memory is the only error.
    pub(crate) fn from_string(text: String) -> Result<Shared, AllocError>
    {
        Ok(Shared {
            text: RcStr::from_string(text)?,
        })
    }

    /// Returns the text.
    #[cfg_attr(not(debug_assertions), inline(always))]
    pub(crate) fn as_str(&self) -> &str
    {
        self.text.as_str()
    }

    /// Shares the text. This allocates nothing, and fails if the text has more owners than can be counted.
    #[cfg_attr(not(debug_assertions), inline(always))]
    pub(crate) fn share(&self) -> Result<Shared, AllocError>
    {
        // This computes nothing. It shows to the proof that the bytes are UTF-8.
        self.text.as_str();
        Ok(Shared {
            text: self.text.try_clone()?,
        })
    }
}

/// A text of more than 22 bytes that doesn't begin with `-`. Its copies share it.
pub(crate) struct Unsigned {
    text: Shared,
}

impl Unsigned {
    /// Makes an unsigned text of a long one, which must not begin with `-`.
    pub(crate) fn new(text: Shared) -> Unsigned
    {
        Unsigned { text }
    }

    /// Returns the text.
    #[cfg_attr(not(debug_assertions), inline(always))]
    pub(crate) fn as_str(&self) -> &str
    {
        self.text.as_str()
    }

    /// Shares the text. This allocates nothing, and fails if the text has more owners than can be counted.
    #[cfg_attr(not(debug_assertions), inline(always))]
    pub(crate) fn share(&self) -> Result<Unsigned, AllocError>
    {
        Ok(Unsigned {
            text: self.text.share()?,
        })
    }
}
