//! Lists: Rust's, with names of their own for what can fail in Rattle.

use super::alloc::{AllocError, AllocFailed};
use super::clone::TryClone;
pub use std::vec::Vec;

/// What can fail of a list or of a text in Rattle alone.
pub trait Grow: Sized {
    /// What is put at the end.
    type Item;
    /// Why it can't be.
    type Failed;

    /// Contract: nothing, with room for so many items or bytes.
    fn with_capacity_fallibly(room: usize) -> Result<Self, AllocError>;

    /// Contract: puts the item at the end.
    fn push_fallibly(&mut self, item: Self::Item) -> Result<(), Self::Failed>;

    /// Contract: the same items or bytes, with room for so many more.
    fn reserve_fallibly(&mut self, more: usize) -> Result<(), AllocError>;
}

impl<T> Grow for Vec<T> {
    type Item = T;
    type Failed = AllocFailed<T>;

    #[inline(always)]
    fn with_capacity_fallibly(room: usize) -> Result<Vec<T>, AllocError> {
        Ok(Vec::with_capacity(room))
    }

    #[inline(always)]
    fn push_fallibly(&mut self, item: T) -> Result<(), AllocFailed<T>> {
        self.push(item);
        Ok(())
    }

    #[inline(always)]
    fn reserve_fallibly(&mut self, more: usize) -> Result<(), AllocError> {
        self.reserve(more);
        Ok(())
    }
}

impl Grow for String {
    type Item = char;
    type Failed = AllocError;

    #[inline(always)]
    fn with_capacity_fallibly(room: usize) -> Result<String, AllocError> {
        Ok(String::with_capacity(room))
    }

    #[inline(always)]
    fn push_fallibly(&mut self, c: char) -> Result<(), AllocError> {
        self.push(c);
        Ok(())
    }

    #[inline(always)]
    fn reserve_fallibly(&mut self, more: usize) -> Result<(), AllocError> {
        self.reserve(more);
        Ok(())
    }
}

/// What can fail of a list in Rattle alone.
pub trait GrowList<T>: Sized {
    /// Contract: puts the other list's items at the end, in order, and leaves none there.
    fn append_fallibly(&mut self, other: &mut Self) -> Result<(), AllocError>;

    /// Contract: takes the items from this index on away, of which there are at least so many, and answers them.
    fn split_off_fallibly(&mut self, index: usize) -> Result<Self, AllocError>;

    /// Contract: puts these items at the end, in order.
    fn extend_from_slice_fallibly(&mut self, items: &[T]) -> Result<(), AllocError>
    where
        T: Copy;

    /// Contract: the first so many items, followed by this one as often as there are fewer.
    fn resize_fallibly(&mut self, items: usize, item: T) -> Result<(), AllocError>
    where
        T: Copy;

    /// Contract: the same items, in order, those that are equal as they stood.
    fn sort_fallibly(&mut self) -> Result<(), AllocError>
    where
        T: Ord;
}

impl<T> GrowList<T> for Vec<T> {
    #[inline(always)]
    fn append_fallibly(&mut self, other: &mut Vec<T>) -> Result<(), AllocError> {
        self.append(other);
        Ok(())
    }

    #[inline(always)]
    fn split_off_fallibly(&mut self, index: usize) -> Result<Vec<T>, AllocError> {
        Ok(self.split_off(index))
    }

    #[inline(always)]
    fn extend_from_slice_fallibly(&mut self, items: &[T]) -> Result<(), AllocError>
    where
        T: Copy,
    {
        self.extend_from_slice(items);
        Ok(())
    }

    #[inline]
    fn resize_fallibly(&mut self, items: usize, item: T) -> Result<(), AllocError>
    where
        T: Copy,
    {
        self.resize(items, item);
        Ok(())
    }

    fn sort_fallibly(&mut self) -> Result<(), AllocError>
    where
        T: Ord,
    {
        self.sort();
        Ok(())
    }
}

/// Contract: copies of the items, in order.
impl<T: TryClone> TryClone for Vec<T> {
    fn try_clone(&self) -> Result<Vec<T>, AllocError> {
        // No copy fails, so that Rust knows how many there will be, and asks for room once.
        let copies = self.iter().map(|item| {
            let Ok(copy) = item.try_clone();
            copy
        });
        Ok(copies.collect())
    }
}

/// Contract: the same text.
impl TryClone for String {
    fn try_clone(&self) -> Result<String, AllocError> {
        Ok(self.clone())
    }
}

#[cfg(test)]
mod tests {
    use super::*;

    #[test]
    fn a_list_grows_at_its_end() -> Result<(), AllocError> {
        let mut items = Vec::with_capacity_fallibly(2)?;
        items.push_fallibly(1)?;
        items.extend_from_slice_fallibly(&[2, 3])?;
        items.reserve_fallibly(1)?;
        assert!(items.capacity() > 3);
        assert_eq!(items, [1, 2, 3]);
        items.resize_fallibly(4, 0)?;
        items.sort_fallibly()?;
        assert_eq!(items, [0, 1, 2, 3]);
        items.resize_fallibly(1, 7)?;
        assert_eq!(items, [0]);
        Ok(())
    }

    #[test]
    fn lists_are_joined_and_split_in_order() -> Result<(), AllocError> {
        let (mut items, mut more) = (vec![1, 2], vec![3, 4]);
        items.append_fallibly(&mut more)?;
        assert!(more.is_empty());
        let end = items.split_off_fallibly(3)?;
        assert_eq!((items, end), (vec![1, 2, 3], vec![4]));
        Ok(())
    }

    #[test]
    fn a_copy_has_copies_of_the_items() -> Result<(), AllocError> {
        let items = vec![String::from("a"), String::new()];
        assert_eq!(items.try_clone()?, items);
        Ok(())
    }
}
