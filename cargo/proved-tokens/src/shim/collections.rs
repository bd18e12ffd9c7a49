//! Maps and queues.

use super::alloc::{AllocError, AllocFailed};
use super::clone::TryClone;
use core::borrow::Borrow;
use core::fmt;
use core::hash::Hash;
use core::ops::RangeBounds;
use std::collections::btree_map::Range;

/// A map in the order of its keys. Contract: it is seen as its entries, in that order.
pub struct BTreeMap<K, V>(std::collections::BTreeMap<K, V>);

impl<K: Ord, V> BTreeMap<K, V> {
    /// Contract: no entry, and no memory taken.
    pub fn new() -> BTreeMap<K, V> {
        BTreeMap(std::collections::BTreeMap::new())
    }

    /// Contract: the key has the value then, and all others have what they had. It answers what the key had.
    pub fn insert(&mut self, key: K, value: V) -> Result<Option<V>, AllocFailed<(K, V)>> {
        Ok(self.0.insert(key, value))
    }

    /// Contract: the entries whose keys are in the range, in order, from both ends.
    pub fn range<R: RangeBounds<K>>(&self, keys: R) -> Range<'_, K, V> {
        self.0.range(keys)
    }
}

impl<K: fmt::Debug, V: fmt::Debug> fmt::Debug for BTreeMap<K, V> {
    fn fmt(&self, f: &mut fmt::Formatter<'_>) -> fmt::Result {
        self.0.fmt(f)
    }
}

/// A map in no order. Contract: it is seen as what it has at each key.
pub struct HashMap<K, V>(std::collections::HashMap<K, V>);

impl<K: Eq + Hash, V> HashMap<K, V> {
    /// Contract: no entry, and no memory taken.
    pub fn new() -> HashMap<K, V> {
        HashMap(std::collections::HashMap::new())
    }

    /// Contract: the key has the value then, and all others have what they had. It answers what the key had.
    pub fn insert(&mut self, key: K, value: V) -> Result<Option<V>, AllocFailed<(K, V)>> {
        Ok(self.0.insert(key, value))
    }

    /// Contract: what the key has, if it has something.
    pub fn get<Q: Eq + Hash + ?Sized>(&self, key: &Q) -> Option<&V>
    where
        K: Borrow<Q>,
    {
        self.0.get(key)
    }
}

/// A queue, from whose front items are taken. Contract: it is seen as its items, in order.
pub struct VecDeque<T>(std::vec::IntoIter<T>);

impl<T> VecDeque<T> {
    /// Contract: the same items, in order, and no memory taken.
    #[inline]
    pub fn from_vec(items: Vec<T>) -> VecDeque<T> {
        VecDeque(items.into_iter())
    }

    /// Contract: takes the first item away and answers it, or answers `None` where there is none.
    #[inline]
    pub fn pop_front(&mut self) -> Option<T> {
        self.0.next()
    }

    /// Contract: the number of items.
    #[inline]
    #[allow(clippy::len_without_is_empty)]
    pub fn len(&self) -> usize {
        self.0.len()
    }
}

/// Contract: copies of the items, in order.
impl<T: TryClone> TryClone for VecDeque<T> {
    fn try_clone(&self) -> Result<VecDeque<T>, AllocError> {
        let mut copies = std::vec::Vec::with_capacity(self.0.len());
        for item in self.0.as_slice() {
            copies.push(item.try_clone()?);
        }
        Ok(VecDeque(copies.into_iter()))
    }
}

impl<T: fmt::Debug> fmt::Debug for VecDeque<T> {
    fn fmt(&self, f: &mut fmt::Formatter<'_>) -> fmt::Result {
        self.0.as_slice().fmt(f)
    }
}

#[cfg(test)]
mod tests {
    use super::*;

    #[test]
    fn a_map_has_the_last_value_of_each_key_in_order() {
        let mut map = BTreeMap::new();
        for (key, value) in [(3, 'c'), (1, 'a'), (3, 'd')] {
            let _ = map.insert(key, value);
        }
        let entries: std::vec::Vec<_> = map.range(..).collect();
        assert_eq!(entries, [(&1, &'a'), (&3, &'d')]);
        assert_eq!(map.range(..=2).next_back(), Some((&1, &'a')));
        assert_eq!(map.range(2..).next(), Some((&3, &'d')));
        assert_eq!(format!("{map:?}"), "{1: 'a', 3: 'd'}");
    }

    #[test]
    fn a_queue_gives_its_items_from_the_front() {
        let mut queue = VecDeque::from_vec(vec![1, 2]);
        assert_eq!(format!("{queue:?}"), "[1, 2]");
        assert_eq!((queue.pop_front(), queue.len()), (Some(1), 1));
        assert_eq!((queue.pop_front(), queue.pop_front()), (Some(2), None));
    }
}
