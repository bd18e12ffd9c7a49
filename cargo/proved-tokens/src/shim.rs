//! Rattle's `std`, as far as the erased sources name it, over Rust's.
//!
//! The proofs of the erased bodies take the contracts of Rattle's `std` for granted. So each item here has to meet the
//! contract of the item whose name it bears, and its comment says what that is. Most are a line over Rust's `std`.
//!
//! Lists and texts are Rust's. What can fail of them in Rattle alone has names of its own, as `push_fallibly`.
//!
//! In Rattle a call that takes memory can fail. Here Rust's allocator ends the process where memory runs out, so that
//! the two errors of memory have no value.
#![allow(clippy::new_without_default, clippy::should_implement_trait)]

pub mod alloc;
pub mod boxed;
#[cfg(feature = "characters")]
pub mod characters;
pub mod collections;
pub mod fmt;
pub mod hex;
pub mod io;
pub mod itoa;
pub mod memchr;
pub mod process;
pub mod rc;
pub mod string;
pub mod unicode;
pub mod vec;

pub use crate::{
    copied_by_shim as copied, display_by_shim as display, extended_by_shim as extended, gathered_by_shim as gathered,
};
#[cfg(feature = "characters")]
pub use characters::{ucd_derived, ucd_props, ucd_script, unicode_normalization, unicode_width};
#[cfg(feature = "programs")]
pub use process::{env, fs};
pub use unicode::{ucd_category, unicode_ident};

/// What is in scope in every source of Rattle, in so far as it isn't in Rust or is another there.
pub mod prelude {
    pub use super::boxed::Box;
    pub use super::clone::TryClone;
    pub use super::iter::{TryExtend, TryFromIterator};
    pub use super::process::HostRuntime;
    pub use super::string::GrowText;
    pub use super::vec::{Grow, GrowList};
    pub use crate::format_by_shim as format;
}

/// Copies that take memory.
pub mod clone {
    use super::alloc::AllocError;

    /// A value that can be copied, which takes memory. The contract of an `impl` says what the copy is.
    pub trait TryClone: Sized {
        /// A copy of the value.
        fn try_clone(&self) -> Result<Self, AllocError>;
    }

    /// Gives Rust's `Clone` to a type that has Rattle's.
    #[doc(hidden)]
    #[macro_export]
    macro_rules! copied_by_shim {
        ($name:ident) => {
            impl ::core::clone::Clone for $name {
                #[inline]
                fn clone(&self) -> $name {
                    let Ok(copy) = $crate::shim::clone::TryClone::try_clone(self);
                    copy
                }
            }
        };
    }
}

/// Collections that are made of an iterator's items, or get them.
pub mod iter {
    use super::alloc::AllocError;

    /// A collection that is made of items.
    pub trait TryFromIterator<T>: Sized {
        /// The collection of these items, in order.
        fn try_from_iter<I: IntoIterator<Item = T>>(items: I) -> Result<Self, AllocError>;
    }

    /// A collection to which items are added.
    pub trait TryExtend<T> {
        /// Adds these items, in order.
        fn try_extend<I: IntoIterator<Item = T>>(&mut self, items: I) -> Result<(), AllocError>;
    }

    /// Gives Rust's `FromIterator` to a type that has Rattle's.
    #[doc(hidden)]
    #[macro_export]
    macro_rules! gathered_by_shim {
        ($name:ident, $item:ident) => {
            impl ::core::iter::FromIterator<$item> for $name {
                fn from_iter<I: IntoIterator<Item = $item>>(items: I) -> $name {
                    let Ok(made) = $crate::shim::iter::TryFromIterator::try_from_iter(items);
                    made
                }
            }
        };
    }

    /// Gives Rust's `Extend` to a type that has Rattle's.
    #[doc(hidden)]
    #[macro_export]
    macro_rules! extended_by_shim {
        ($name:ident, $item:ident) => {
            impl ::core::iter::Extend<$item> for $name {
                fn extend<I: IntoIterator<Item = $item>>(&mut self, items: I) {
                    let Ok(()) = $crate::shim::iter::TryExtend::try_extend(self, items);
                }
            }
        };
    }
}

/// Comparisons: Rust's.
pub mod cmp {
    pub use core::cmp::Ordering;
}

/// Hashes: Rust's.
pub mod hash {
    pub use core::hash::{Hash, Hasher};
}

/// Ranges: Rust's.
pub mod ops {
    pub use core::ops::{Bound, Range};
}

/// Errors: Rust's.
pub mod error {
    pub use core::error::Error;
}

/// Texts of bytes.
pub mod str {
    /// Contract: the text of these bytes, or the error where they aren't UTF-8.
    pub use core::str::from_utf8;
    /// Contract: the bytes are UTF-8, as the proof of its one caller shows, and the text has these bytes.
    pub use core::str::from_utf8_unchecked;
}
