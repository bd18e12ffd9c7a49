//! What tests alone name of Rattle's `std`, over the shim of the package.
pub use proved_tokens::shim::*;

pub mod prelude {
    pub use super::alloc::AllocGlobal;
    pub use super::lists::{Collect, Repeat};
    pub(crate) use super::lists::vec_by_shim as vec;
    pub use proved_tokens::shim::prelude::*;
}

pub mod alloc {
    pub use proved_tokens::shim::alloc::*;

    /// What hands out the allocator in Rattle, and nothing here.
    pub trait AllocGlobal {}

    impl AllocGlobal for proved_tokens::shim::process::HostRuntime {}
}

pub mod process {
    pub use proved_tokens::shim::process::*;

    /// What lets a test end with a message.
    pub trait Abort {}

    impl Abort for HostRuntime {}
}

pub mod test {
    use super::alloc::{AllocError, AllocFailed};
    use proved_tokens::proc_macro2::{ConversionErrorKind, IdentError, ParseError};

    /// Why a test failed.
    #[derive(Debug)]
    pub struct Fail(String);

    impl<T> From<AllocFailed<T>> for Fail {
        fn from(error: AllocFailed<T>) -> Fail {
            match AllocError::from(error) {}
        }
    }

    macro_rules! from {
        ($($error:ty)*) => {$(
            impl From<$error> for Fail {
                fn from(error: $error) -> Fail {
                    Fail(format!("{error:?}"))
                }
            }
        )*};
    }

    from!(AllocError ConversionErrorKind IdentError ParseError);
    #[cfg(feature = "token_buffer")]
    from!(proved_tokens::token_buffer::BufferError);
    #[cfg(feature = "quoting")]
    from!(proved_tokens::quoting::QuoteError proved_tokens::quoting::TemplateError);
    #[cfg(feature = "declarations")]
    from!(proved_tokens::declarations::Fault);
    #[cfg(feature = "item_headers")]
    from!(proved_tokens::item_headers::HeaderError);
}

pub mod collections {
    use super::alloc::AllocFailed;
    use std::hash::Hash;

    /// A map by hashes.
    pub struct HashMap<K, V>(std::collections::HashMap<K, V>);

    impl<K: Hash + Eq, V> HashMap<K, V> {
        pub fn new() -> HashMap<K, V> {
            HashMap(std::collections::HashMap::new())
        }

        pub fn insert(&mut self, key: K, value: V) -> Result<Option<V>, AllocFailed<(K, V)>> {
            Ok(self.0.insert(key, value))
        }

        pub fn get(&self, key: &K) -> Option<&V> {
            self.0.get(key)
        }

        pub fn len(&self) -> usize {
            self.0.len()
        }
    }

    /// A map in the order of its keys.
    pub struct BTreeMap<K, V>(std::collections::BTreeMap<K, V>);

    impl<K: Ord, V> BTreeMap<K, V> {
        pub fn new() -> BTreeMap<K, V> {
            BTreeMap(std::collections::BTreeMap::new())
        }

        pub fn insert(&mut self, key: K, value: V) -> Result<Option<V>, AllocFailed<(K, V)>> {
            Ok(self.0.insert(key, value))
        }

        pub fn get(&self, key: &K) -> Option<&V> {
            self.0.get(key)
        }

        pub fn len(&self) -> usize {
            self.0.len()
        }
    }
}

pub mod ops {
    pub use std::ops::{Bound, Range};
}

mod lists {
    use super::alloc::AllocError;
    use proved_tokens::shim::iter::TryFromIterator;

    pub trait Repeat {
        fn repeated(&self, times: usize) -> Result<String, AllocError>;
    }

    impl Repeat for str {
        fn repeated(&self, times: usize) -> Result<String, AllocError> {
            Ok(self.repeat(times))
        }
    }

    pub trait Collect: Iterator + Sized {
        fn collected<C>(self) -> Result<C, AllocError>
        where
            C: TryFromIterator<Self::Item>,
        {
            C::try_from_iter(self)
        }
    }

    impl<I: Iterator> Collect for I {}

    /// The list of these items, as `vec![1, 2]`.
    macro_rules! vec_by_shim {
        ($($items:tt)*) => { Ok::<_, proved_tokens::shim::alloc::AllocError>(std::vec![$($items)*]) };
    }
    pub(crate) use vec_by_shim;
}
