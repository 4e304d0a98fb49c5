use super::alloc::{AllocError, Global};
use std::fmt;
use std::ops::{Deref, DerefMut};

/// A value on the heap. It is an array of one, because Rust has a fallible allocation for those.
#[derive(PartialEq, Eq, PartialOrd, Ord, Hash)]
pub struct Box<T>(std::boxed::Box<[T; 1]>);

impl<T> Box<T> {
    /// Moves a value to the heap.
    pub fn new(_alloc: Global, value: T) -> Result<Box<T>, AllocError> {
        let mut one = std::vec::Vec::new();
        one.try_reserve_exact(1)?;
        one.push(value);
        match one.into_boxed_slice().try_into() {
            Ok(boxed) => Ok(Box(boxed)),
            Err(_) => Err(AllocError),
        }
    }

    /// The value.
    pub fn into_inner(boxed: Box<T>) -> T {
        let [value] = *boxed.0;
        value
    }
}

impl<T> Deref for Box<T> {
    type Target = T;

    fn deref(&self) -> &T {
        &self.0[0]
    }
}

impl<T> DerefMut for Box<T> {
    fn deref_mut(&mut self) -> &mut T {
        &mut self.0[0]
    }
}

impl<T: fmt::Debug> fmt::Debug for Box<T> {
    fn fmt(&self, f: &mut fmt::Formatter<'_>) -> fmt::Result {
        fmt::Debug::fmt(&**self, f)
    }
}
