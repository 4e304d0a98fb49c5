use super::alloc::{AllocError, Global};
use std::borrow::Borrow;
use std::cmp::Ordering;
use std::ops::{Deref, DerefMut, RangeBounds};
use std::{fmt, io, slice, vec};

/// A list whose growth can fail.
#[derive(Clone, PartialEq, Eq, PartialOrd, Ord, Hash)]
pub struct Vec<T>(vec::Vec<T>);

impl<T> Vec<T> {
    /// An empty list.
    pub const fn new(_alloc: Global) -> Vec<T> {
        Vec(vec::Vec::new())
    }

    /// An empty list with room for as many items.
    pub fn with_capacity(alloc: Global, len: usize) -> Result<Vec<T>, AllocError> {
        let mut list = Vec::new(alloc);
        list.0.try_reserve_exact(len)?;
        Ok(list)
    }

    /// A list of the items of an array.
    pub fn from_array<const N: usize>(alloc: Global, items: [T; N]) -> Result<Vec<T>, AllocError> {
        let mut list = Vec::with_capacity(alloc, N)?;
        list.0.extend(items);
        Ok(list)
    }

    /// Appends an item.
    #[inline]
    pub fn push(&mut self, item: T) -> Result<(), AllocError> {
        if self.0.len() == self.0.capacity() {
            self.0.try_reserve(1)?;
        }
        self.0.push(item);
        Ok(())
    }

    /// Puts an item in front of the one at an index.
    pub fn insert(&mut self, index: usize, item: T) -> Result<(), AllocError> {
        self.0.try_reserve(1)?;
        self.0.insert(index, item);
        Ok(())
    }

    /// Moves all items of another list to the end of this one.
    pub fn append(&mut self, other: &mut Vec<T>) -> Result<(), AllocError> {
        self.0.try_reserve(other.len())?;
        self.0.append(&mut other.0);
        Ok(())
    }

    /// Moves the items from an index on to a new list.
    pub fn split_off(&mut self, index: usize) -> Result<Vec<T>, AllocError> {
        let mut tail = Vec::with_capacity(Global, self.0.len().saturating_sub(index))?;
        tail.0.extend(self.0.drain(index..));
        Ok(tail)
    }

    /// Makes room for as many more items.
    pub fn reserve(&mut self, len: usize) -> Result<(), AllocError> {
        Ok(self.0.try_reserve(len)?)
    }

    /// Cuts the list to a length.
    pub fn truncate(&mut self, len: usize) {
        self.0.truncate(len);
    }

    /// Removes all items.
    pub fn clear(&mut self) {
        self.0.clear();
    }

    /// Removes the last item.
    pub fn pop(&mut self) -> Option<T> {
        self.0.pop()
    }

    /// Removes the item at an index.
    pub fn remove(&mut self, index: usize) -> T {
        self.0.remove(index)
    }

    /// Removes the items of a range.
    pub fn drain<R: RangeBounds<usize>>(&mut self, range: R) -> vec::Drain<'_, T> {
        self.0.drain(range)
    }

    /// Removes items that a test does not pass.
    pub fn retain<F: FnMut(&T) -> bool>(&mut self, test: F) {
        self.0.retain(test);
    }

    /// For how many items there is room.
    pub fn capacity(&self) -> usize {
        self.0.capacity()
    }

    /// The items.
    pub fn as_slice(&self) -> &[T] {
        &self.0
    }

    /// The items, to be changed.
    pub fn as_mut_slice(&mut self) -> &mut [T] {
        &mut self.0
    }

    /// The allocator.
    pub fn allocator(&self) -> &Global {
        &Global
    }

    /// Sorts the items. Items that are equal keep their order.
    pub fn sort_by<F: FnMut(&T, &T) -> Ordering>(&mut self, order: F) -> Result<(), AllocError> {
        self.0.sort_by(order);
        Ok(())
    }

    /// Sorts the items. Items that are equal keep their order.
    pub fn sort(&mut self) -> Result<(), AllocError>
    where
        T: Ord,
    {
        self.0.sort();
        Ok(())
    }
}

impl<T: Clone> Vec<T> {
    /// A list of copies of items.
    pub fn from_slice(alloc: Global, items: &[T]) -> Result<Vec<T>, AllocError> {
        let mut list = Vec::with_capacity(alloc, items.len())?;
        list.0.extend_from_slice(items);
        Ok(list)
    }

    /// What `vec![in alloc; item; len]` calls.
    pub fn from_elem(alloc: Global, item: T, len: usize) -> Result<Vec<T>, AllocError> {
        let mut list = Vec::with_capacity(alloc, len)?;
        list.0.resize(len, item);
        Ok(list)
    }

    /// Appends copies of items.
    #[inline]
    pub fn extend_from_slice(&mut self, items: &[T]) -> Result<(), AllocError> {
        self.0.try_reserve(items.len())?;
        self.0.extend_from_slice(items);
        Ok(())
    }

    /// Cuts the list to a length, or appends copies of an item up to it.
    pub fn resize(&mut self, len: usize, item: T) -> Result<(), AllocError> {
        self.0.try_reserve(len.saturating_sub(self.0.len()))?;
        self.0.resize(len, item);
        Ok(())
    }

    /// A copy.
    #[allow(clippy::should_implement_trait)] // In Rattle it can fail; derives use the trait.
    pub fn clone(&self) -> Result<Vec<T>, AllocError> {
        Vec::from_slice(Global, &self.0)
    }
}

impl<T> From<vec::Vec<T>> for Vec<T> {
    fn from(items: vec::Vec<T>) -> Vec<T> {
        Vec(items)
    }
}

impl<T> From<Vec<T>> for vec::Vec<T> {
    fn from(items: Vec<T>) -> vec::Vec<T> {
        items.0
    }
}

impl<T> Deref for Vec<T> {
    type Target = [T];

    #[inline]
    fn deref(&self) -> &[T] {
        &self.0
    }
}

impl<T> DerefMut for Vec<T> {
    #[inline]
    fn deref_mut(&mut self) -> &mut [T] {
        &mut self.0
    }
}

impl<T> Borrow<[T]> for Vec<T> {
    fn borrow(&self) -> &[T] {
        &self.0
    }
}

impl<T> AsRef<[T]> for Vec<T> {
    fn as_ref(&self) -> &[T] {
        &self.0
    }
}

impl<T> IntoIterator for Vec<T> {
    type Item = T;
    type IntoIter = vec::IntoIter<T>;

    fn into_iter(self) -> vec::IntoIter<T> {
        self.0.into_iter()
    }
}

impl<'a, T> IntoIterator for &'a Vec<T> {
    type Item = &'a T;
    type IntoIter = slice::Iter<'a, T>;

    fn into_iter(self) -> slice::Iter<'a, T> {
        self.0.iter()
    }
}

impl<'a, T> IntoIterator for &'a mut Vec<T> {
    type Item = &'a mut T;
    type IntoIter = slice::IterMut<'a, T>;

    fn into_iter(self) -> slice::IterMut<'a, T> {
        self.0.iter_mut()
    }
}

impl io::Write for Vec<u8> {
    fn write(&mut self, bytes: &[u8]) -> io::Result<usize> {
        self.extend_from_slice(bytes)?;
        Ok(bytes.len())
    }

    fn flush(&mut self) -> io::Result<()> {
        Ok(())
    }
}

impl<T: fmt::Debug> fmt::Debug for Vec<T> {
    fn fmt(&self, f: &mut fmt::Formatter<'_>) -> fmt::Result {
        fmt::Debug::fmt(&self.0, f)
    }
}
