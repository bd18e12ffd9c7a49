//! The error of memory, which `error` shows and the shim has too.
use core::error::Error;
use core::fmt;

/// Memory ran out: never met, as Rust's allocator ends the process then.
#[derive(Clone, Copy, Debug, PartialEq, Eq)]
pub enum AllocError {}

impl AllocError {
    /// Contract: the error. Here the process ends in its place, as where Rust's allocator meets it.
    #[cold]
    #[doc(hidden)]
    pub fn met() -> AllocError {
        std::alloc::handle_alloc_error(std::alloc::Layout::new::<u8>())
    }
}

impl fmt::Display for AllocError {
    fn fmt(&self, _: &mut fmt::Formatter<'_>) -> fmt::Result {
        match *self {}
    }
}

impl Error for AllocError {}

impl From<AllocError> for std::io::Error {
    fn from(error: AllocError) -> std::io::Error {
        match error {}
    }
}
