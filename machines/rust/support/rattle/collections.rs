//! Maps and sets in the order of their keys. Rust's own have no growth that can fail, so these
//! abort if memory runs out.

use super::alloc::{AllocError, Global};
use std::borrow::Borrow;
use std::collections::btree_map::{Entry, IntoIter, IntoValues, Iter};
use std::marker::PhantomData;
use std::ops::Deref;

/// A map in the order of its keys. `A` is the allocator, which some types name.
#[derive(PartialEq, Eq, Debug)]
pub struct BTreeMap<K, V, A = Global>(std::collections::BTreeMap<K, V>, PhantomData<A>);

impl<K: Ord, V> BTreeMap<K, V> {
    /// An empty map.
    pub const fn new(_alloc: Global) -> BTreeMap<K, V> {
        BTreeMap(std::collections::BTreeMap::new(), PhantomData)
    }

    /// Gives a key a value, and returns the one that it had.
    pub fn insert(&mut self, key: K, value: V) -> Result<Option<V>, AllocError> {
        Ok(self.0.insert(key, value))
    }

    /// Removes a key, and returns its value.
    pub fn remove<Q: Ord + ?Sized>(&mut self, key: &Q) -> Option<V>
    where
        K: Borrow<Q>,
    {
        self.0.remove(key)
    }

    /// The value of a key, to be changed.
    pub fn get_mut<Q: Ord + ?Sized>(&mut self, key: &Q) -> Option<&mut V>
    where
        K: Borrow<Q>,
    {
        self.0.get_mut(key)
    }

    /// The place of a key.
    pub fn entry(&mut self, key: K) -> Result<Entry<'_, K, V>, AllocError> {
        Ok(self.0.entry(key))
    }

    /// Removes all keys.
    pub fn clear(&mut self) {
        self.0.clear();
    }

    /// Removes the first key.
    pub fn pop_first(&mut self) -> Option<(K, V)> {
        self.0.pop_first()
    }

    /// The values.
    pub fn into_values(self) -> IntoValues<K, V> {
        self.0.into_values()
    }
}

impl<K, V, A> Deref for BTreeMap<K, V, A> {
    type Target = std::collections::BTreeMap<K, V>;

    fn deref(&self) -> &Self::Target {
        &self.0
    }
}

impl<K, V, A> IntoIterator for BTreeMap<K, V, A> {
    type Item = (K, V);
    type IntoIter = IntoIter<K, V>;

    fn into_iter(self) -> IntoIter<K, V> {
        self.0.into_iter()
    }
}

impl<'a, K, V, A> IntoIterator for &'a BTreeMap<K, V, A> {
    type Item = (&'a K, &'a V);
    type IntoIter = Iter<'a, K, V>;

    fn into_iter(self) -> Iter<'a, K, V> {
        self.0.iter()
    }
}

/// A set in order.
#[derive(PartialEq, Eq, Debug)]
pub struct BTreeSet<K>(std::collections::BTreeSet<K>);

impl<K: Ord> BTreeSet<K> {
    /// An empty set.
    pub const fn new(_alloc: Global) -> BTreeSet<K> {
        BTreeSet(std::collections::BTreeSet::new())
    }

    /// Adds a key, and says whether it is new.
    pub fn insert(&mut self, key: K) -> Result<bool, AllocError> {
        Ok(self.0.insert(key))
    }
}

impl<K> Deref for BTreeSet<K> {
    type Target = std::collections::BTreeSet<K>;

    fn deref(&self) -> &Self::Target {
        &self.0
    }
}
