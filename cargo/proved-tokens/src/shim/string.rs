//! Texts that grow: Rust's, with names of their own for what can fail in Rattle.

use super::alloc::AllocError;
use core::fmt;
pub use std::string::String;

/// What can fail of a text in Rattle alone.
pub trait GrowText: Sized {
    /// Contract: the same text.
    fn from_str_fallibly(text: &str) -> Result<Self, AllocError>;

    /// Contract: puts the text at the end.
    fn push_str_fallibly(&mut self, text: &str) -> Result<(), AllocError>;

    /// Contract: puts the text of a `write!` at the end.
    fn write_fmt(&mut self, arguments: fmt::Arguments<'_>) -> Result<(), AllocError>;
}

impl GrowText for String {
    #[inline(always)]
    fn from_str_fallibly(text: &str) -> Result<String, AllocError> {
        Ok(String::from(text))
    }

    #[inline(always)]
    fn push_str_fallibly(&mut self, text: &str) -> Result<(), AllocError> {
        self.push_str(text);
        Ok(())
    }

    fn write_fmt(&mut self, arguments: fmt::Arguments<'_>) -> Result<(), AllocError> {
        let written = fmt::Write::write_fmt(self, arguments);
        debug_assert!(written.is_ok(), "a text takes all that is written");
        Ok(())
    }
}

/// The text of a format and its arguments, as `format!("{} {}", a, b)`.
#[doc(hidden)]
#[macro_export]
macro_rules! format_by_shim {
    ($($argument:tt)*) => {
        ::core::result::Result::Ok::<_, $crate::shim::alloc::AllocError>(::std::format!($($argument)*))
    };
}

#[cfg(test)]
mod tests {
    use super::super::clone::TryClone;
    use super::super::vec::Grow;
    use super::*;

    #[test]
    fn a_text_grows_at_its_end() -> Result<(), AllocError> {
        let mut text = String::from_str_fallibly("-")?;
        text.push_fallibly('é')?;
        text.push_str_fallibly("ab")?;
        GrowText::write_fmt(&mut text, format_args!("{:02}", 7))?;
        assert_eq!(text, "-éab07");
        assert_eq!((text.try_clone()?, String::with_capacity_fallibly(3)?), (text, String::new()));
        Ok(())
    }

    #[test]
    fn what_is_reported_is_printed() -> Result<(), AllocError> {
        assert_eq!(crate::format_by_shim!("{:?} {}", "a", 1)?, "\"a\" 1");
        Ok(())
    }
}
