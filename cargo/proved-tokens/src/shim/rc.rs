//! A value with several owners.

use super::alloc::AllocError;
use super::clone::TryClone;
use core::ops::Deref;

/// A value with several owners, in one thread. Contract: it is seen as the value.
pub struct Rc<T>(std::rc::Rc<T>);

impl<T> Rc<T> {
    /// Contract: the value, with one owner.
    #[inline(always)]
    pub fn new(value: T) -> Result<Rc<T>, AllocError> {
        Ok(Rc(std::rc::Rc::new(value)))
    }

    /// Contract: the value, to be changed, where there is no other owner, and else `None`.
    #[inline(always)]
    pub fn get_mut(this: &mut Rc<T>) -> Option<&mut T> {
        std::rc::Rc::get_mut(&mut this.0)
    }
}

impl<T: TryClone> Rc<T> {
    /// Contract: the value, to be changed. Where there are other owners it is a copy, which this one owns from then on.
    #[inline(always)]
    pub fn make_mut(this: &mut Rc<T>) -> Result<&mut T, AllocError> {
        if std::rc::Rc::get_mut(&mut this.0).is_none() {
            this.unshare()?;
        }
        match std::rc::Rc::get_mut(&mut this.0) {
            Some(value) => Ok(value),
            None => unreachable!("a new value has one owner"),
        }
    }

    /// A copy in place of the value, with no other owner.
    #[cold]
    fn unshare(&mut self) -> Result<(), AllocError> {
        self.0 = std::rc::Rc::new(self.0.as_ref().try_clone()?);
        Ok(())
    }

    /// Contract: the value where there is no other owner, and else a copy.
    #[inline]
    pub fn unwrap_or_clone(this: Rc<T>) -> Result<T, AllocError> {
        match std::rc::Rc::try_unwrap(this.0) {
            Ok(value) => Ok(value),
            Err(shared) => shared.as_ref().try_clone(),
        }
    }
}

/// Contract: one more owner of the same value.
impl<T> TryClone for Rc<T> {
    #[inline(always)]
    fn try_clone(&self) -> Result<Rc<T>, AllocError> {
        Ok(Rc(std::rc::Rc::clone(&self.0)))
    }
}

impl<T> Deref for Rc<T> {
    type Target = T;

    #[inline(always)]
    fn deref(&self) -> &T {
        &self.0
    }
}

/// A text with several owners, in one thread. Contract: it is seen as the text.
pub struct RcStr(std::rc::Rc<str>);

impl RcStr {
    /// Contract: the same text, with one owner.
    #[inline(always)]
    pub fn from_str(text: &str) -> Result<RcStr, AllocError> {
        Ok(RcStr(text.into()))
    }

    /// Contract: the same text, with one owner.
    #[inline(always)]
    pub fn from_string(text: String) -> Result<RcStr, AllocError> {
        Ok(RcStr(text.into()))
    }

    /// Contract: the text.
    #[inline(always)]
    pub fn as_str(&self) -> &str {
        &self.0
    }
}

/// Contract: one more owner of the same text.
impl TryClone for RcStr {
    #[inline(always)]
    fn try_clone(&self) -> Result<RcStr, AllocError> {
        Ok(RcStr(std::rc::Rc::clone(&self.0)))
    }
}

#[cfg(test)]
mod tests {
    use super::super::vec::Vec;
    use super::*;

    #[test]
    fn owners_share_until_one_changes_the_value() -> Result<(), AllocError> {
        let mut one = Rc::new(Vec::new())?;
        Rc::make_mut(&mut one)?.push(Rc::new(1)?);
        let mut other = one.try_clone()?;
        assert!(Rc::get_mut(&mut other).is_none());
        Rc::make_mut(&mut other)?.push(Rc::new(2)?);
        assert_eq!((one.len(), other.len()), (1, 2));
        assert!(Rc::get_mut(&mut one).is_some());
        Ok(())
    }

    #[test]
    fn the_last_owner_gets_the_value_itself() -> Result<(), AllocError> {
        let one = Rc::new(Vec::<Rc<u8>>::with_capacity(1))?;
        let other = one.try_clone()?;
        let place = other.as_ptr();
        let (copy, own) = (Rc::unwrap_or_clone(one)?, Rc::unwrap_or_clone(other)?);
        assert_ne!(copy.as_ptr(), place);
        assert_eq!(own.as_ptr(), place);
        Ok(())
    }

    #[test]
    fn owners_of_a_text_share_it() -> Result<(), AllocError> {
        let text = RcStr::from_str("aé")?;
        let copy = text.try_clone()?;
        assert_eq!((copy.as_str(), copy.as_str().as_ptr()), ("aé", text.as_str().as_ptr()));
        assert_eq!(RcStr::from_string(String::from("aé"))?.as_str(), "aé");
        Ok(())
    }
}
