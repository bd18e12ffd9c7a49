// Made from crates/pm_token/src/symbols.rt by dev/erase: change that file, not this one.
//! The texts of tokens.

use crate::shim::prelude::{Box, Grow, GrowText, TryClone};

mod names;
mod shared;
mod short;

pub use names::Name;
use shared::{Shared, Unsigned};
use short::{ROOM, Short};
use crate::shim::alloc::AllocError;
use crate::shim::fmt;

/// A text: a short one in place, or a long one in memory that copies share. A long text that begins with `-` is
/// not shared, so that the `-` can be removed without an allocation.
enum Text {
    Short(Short),
    Long(Unsigned),
    Negative(Box<String>),
}

impl Text {
    /// Copies a long text. Out of memory is the only error.
    fn long(text: &str) -> Result<Text, AllocError>
    {
        if is_negative(text) {
            return Ok(Text::Negative(Box::new(String::from_str_fallibly(text)?)?));
        }
        Ok(Text::Long(Unsigned::new(Shared::new(text)?)))
    }

    /// Takes a long text without a copy. Out of memory is the only error.
    fn long_from_string(text: String) -> Result<Text, AllocError>
    {
        if is_negative(text.as_str()) {
            return Ok(Text::Negative(Box::new(text)?));
        }
        Ok(Text::Long(Unsigned::new(Shared::from_string(text)?)))
    }

    /// Copies the text. Out of memory is the only error.
    #[cfg_attr(not(debug_assertions), inline(always))]
    fn new(text: &str) -> Result<Text, AllocError>
    {
        if text.len() <= ROOM {
            Ok(Text::Short(Short::new(text)))
        } else {
            Ok(Text::long(text)?)
        }
    }

    /// Takes the text without a copy if it is long, and copies it if it is short. Out of memory is the only
    /// error; a short text needs no memory.
    fn from_string(text: String) -> Result<Text, AllocError>
    {
        if text.len() <= ROOM {
            Ok(Text::Short(Short::new(text.as_str())))
        } else {
            Ok(Text::long_from_string(text)?)
        }
    }
}

/// Copies the text; a long one is shared, unless it begins with `-`. The errors are those of a literal's copy.
impl TryClone for Text {
    #[cfg_attr(not(debug_assertions), inline(always))]
    fn try_clone(&self) -> Result<Text, AllocError> {
        match self {
            Text::Short(text) => Ok(Text::Short(text.copy())),
            Text::Long(text) => Ok(Text::Long(text.share()?)),
            Text::Negative(text) => Text::new(text.as_str()),
        }
    }
}

crate::shim::copied!(Text);

/// Returns whether the text begins with `-`.
fn is_negative(text: &str) -> bool
{
    match text.chars().next() {
        Some('-') => true,
        _ => false,
    }
}

/// Removes the `-` that the text begins with, and returns whether there was one.
fn strip_minus(text: &mut String) -> bool
{
    match text.as_str().chars().next() {
        Some('-') => {
            text.remove(0);
            true
        }
        _ => false,
    }
}

/// The text of a literal. Contracts speak of its characters.
pub struct Symbol {
    text: Text,
}

impl Symbol {
    /// Copies the text. Out of memory is the only error.
    ///
    /// # Contract
    ///
    /// - `ensures ok`: <code>[IfOk] result (λ symbol. symbol ≡ [chars] text.now)</code>
    ///
    /// [IfOk]: crate::contracts#std.IfOk
    /// [chars]: crate::contracts#std.chars
    #[cfg_attr(not(debug_assertions), inline(always))]
    pub fn new(text: &str) -> Result<Symbol, AllocError>
    {
        Ok(Symbol {
            text: Text::new(text)?,
        })
    }

    /// Takes the text. Out of memory is the only error.
    ///
    /// # Contract
    ///
    /// - `ensures ok`: <code>[IfOk] result (λ symbol. symbol ≡ [chars] ([string_bytes] text))</code>
    /// - `ensures text`: <code>[IfOk] result [IsText]</code>
    ///
    /// [IfOk]: crate::contracts#std.IfOk
    /// [chars]: crate::contracts#std.chars
    /// [string_bytes]: crate::contracts#std.string_bytes
    /// [IsText]: crate::contracts#pm_token.Text.IsText
    pub fn from_string(text: String) -> Result<Symbol, AllocError>
    {
        Ok(Symbol {
            text: Text::from_string(text)?,
        })
    }

    /// Returns both texts joined, if the result is short. This allocates nothing.
    ///
    /// # Contract
    ///
    /// - `ensures value`: <code>[IfSome] result (λ symbol. symbol ≡ [chars] (front.now ++ back.now))</code>
    /// - `ensures text`: <code>[IfSome] result [IsText]</code>
    ///
    /// [IfSome]: crate::contracts#std.IfSome
    /// [chars]: crate::contracts#std.chars
    /// [IsText]: crate::contracts#pm_token.Text.IsText
    #[cfg_attr(not(debug_assertions), inline(always))]
    pub fn concatenation(front: &str, back: &str) -> Option<Symbol>
    {
        if front.len() > ROOM || back.len() > ROOM - front.len() {
            return None;
        }
        Some(Symbol {
            text: Text::Short(Short::concatenation(front, back)),
        })
    }

    /// Returns a number in decimal digits, after a `-` if it is negative, joined with `suffix`, if the result
    /// is short. This allocates nothing.
    #[cfg_attr(not(debug_assertions), inline(always))]
    pub(crate) fn number(negative: bool, value: u64, suffix: &str) -> Option<Symbol>
    {
        Some(Symbol {
            text: Text::Short(Short::number(negative, value, suffix)?),
        })
    }

    /// Returns both texts joined. Out of memory is the only error; a short result needs no memory.
    ///
    /// # Contract
    ///
    /// - `ensures ok`: <code>[IfOk] result (λ symbol. symbol ≡ [chars] (front.now ++ back.now))</code>
    /// - `ensures text`: <code>[IfOk] result [IsText]</code>
    ///
    /// [IfOk]: crate::contracts#std.IfOk
    /// [chars]: crate::contracts#std.chars
    /// [IsText]: crate::contracts#pm_token.Text.IsText
    #[cfg_attr(not(debug_assertions), inline(always))]
    pub fn concat(front: &str, back: &str) -> Result<Symbol, AllocError>
    {
        match Symbol::concatenation(front, back) {
            Some(text) => Ok(text),
            None => Symbol::long_concat(front, back),
        }
    }

    /// Does what `concat` does, if the result is long.
    fn long_concat(front: &str, back: &str) -> Result<Symbol, AllocError>
    {
        let mut text = String::with_capacity_fallibly(front.len() + back.len())?;
        text.push_str_fallibly(front)?;
        text.push_str_fallibly(back)?;
        Symbol::from_string(text)
    }

    /// Removes the `-` that the text begins with, and returns whether there was one.
    ///
    /// # Contract
    ///
    /// - `ensures found`: <code>result ≡ [has_minus] self.old</code>
    /// - `ensures rest`: <code>self.new ≡ (if result then [drop] 1 self.old else self.old)</code>
    ///
    /// [has_minus]: crate::contracts#pm_token.Negative.has_minus
    /// [drop]: crate::contracts#std.drop
    pub fn strip_minus(&mut self) -> bool
    {
        match &mut self.text {
            Text::Short(text) => text.strip_minus(),
            // A shared text never begins with `-`.
            Text::Long(text) => is_negative(text.as_str()),
            Text::Negative(text) => strip_minus(text),
        }
    }

    /// Returns the text.
    ///
    /// # Contract
    ///
    /// - `ensures`: <code>[chars] result.now ≡ self.now</code>
    ///
    /// [chars]: crate::contracts#std.chars
    #[cfg_attr(not(debug_assertions), inline(always))]
    pub fn as_str(&self) -> &str
    {
        match &self.text {
            Text::Short(text) => text.as_str(),
            Text::Long(text) => text.as_str(),
            Text::Negative(text) => text.as_str(),
        }
    }
}

/// Copies the text; a long one is shared, unless it begins with `-`. The errors are those of a literal's copy.
impl TryClone for Symbol {
    #[cfg_attr(not(debug_assertions), inline(always))]
    fn try_clone(&self) -> Result<Symbol, AllocError> {
        Ok(Symbol {
            text: self.text.try_clone()?,
        })
    }
}

crate::shim::copied!(Symbol);

impl fmt::Display for Symbol {
    fn fmt<W: fmt::Write>(&self, f: &mut fmt::Formatter<W>) -> fmt::Result {
        f.write_str(self.as_str())
    }
}

crate::shim::display!(Symbol);
