//! Errors of memory. Rattle's allocator has one value and no size, so the erased text does without it.

use core::convert::Infallible;
use core::error::Error;
use core::fmt;

pub use crate::alloc_error::AllocError;

/// Memory ran out for a value, which is handed back: never met, like [`AllocError`].
pub struct AllocFailed<T> {
    /// The value.
    pub value: T,
    never: Infallible,
}

impl<T> fmt::Debug for AllocFailed<T> {
    fn fmt(&self, _: &mut fmt::Formatter<'_>) -> fmt::Result {
        match self.never {}
    }
}

impl<T> fmt::Display for AllocFailed<T> {
    fn fmt(&self, _: &mut fmt::Formatter<'_>) -> fmt::Result {
        match self.never {}
    }
}

impl<T> PartialEq for AllocFailed<T> {
    fn eq(&self, _: &AllocFailed<T>) -> bool {
        match self.never {}
    }
}

impl<T> Error for AllocFailed<T> {}

#[doc(hidden)]
impl<T> From<AllocFailed<T>> for AllocError {
    #[inline(always)]
    fn from(error: AllocFailed<T>) -> AllocError {
        match error.never {}
    }
}

#[cfg(test)]
mod tests {
    use super::AllocError;
    use std::process::Command;

    /// Calls itself in a process of its own, which has to end where memory ran out.
    #[test]
    fn the_process_ends_where_memory_ran_out() -> std::io::Result<()> {
        if std::env::var_os("MEMORY_RAN_OUT").is_some() {
            AllocError::met();
        }
        let mut again = Command::new(std::env::current_exe()?);
        let ended = again.arg("the_process_ends_where_memory_ran_out").env("MEMORY_RAN_OUT", "").output()?;
        assert!(!ended.status.success());
        assert!(String::from_utf8_lossy(&ended.stderr).contains("memory allocation of 1 bytes failed"));
        Ok(())
    }
}
