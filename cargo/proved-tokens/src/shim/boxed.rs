//! A value behind a pointer.

use super::alloc::AllocError;
use core::ops::{Deref, DerefMut};

/// A value behind a pointer of its own. Contract: it is seen as the value.
pub struct Box<T>(std::boxed::Box<T>);

impl<T> Box<T> {
    /// Contract: the box has the value.
    #[inline(always)]
    pub fn new(value: T) -> Result<Box<T>, AllocError> {
        Ok(Box(std::boxed::Box::new(value)))
    }

    /// Contract: the value.
    #[inline(always)]
    pub fn into_inner(this: Box<T>) -> T {
        *this.0
    }
}

impl<T> Deref for Box<T> {
    type Target = T;

    #[inline(always)]
    fn deref(&self) -> &T {
        &self.0
    }
}

impl<T> DerefMut for Box<T> {
    #[inline(always)]
    fn deref_mut(&mut self) -> &mut T {
        &mut self.0
    }
}

#[cfg(test)]
mod tests {
    use super::*;

    #[test]
    fn a_box_has_its_value() -> Result<(), AllocError> {
        let mut boxed = Box::new(1)?;
        *boxed += 1;
        assert_eq!(*boxed, 2);
        assert_eq!(Box::into_inner(boxed), 2);
        Ok(())
    }
}
