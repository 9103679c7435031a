//! Sets and maps.

use crate::alloc::{AllocError, Global};
use std::ops::{Deref, DerefMut};

pub use std::collections::*;

#[derive(Clone, Debug)]
pub struct BTreeSet<T>(std::collections::BTreeSet<T>);

impl<T: Ord> BTreeSet<T> {
    pub fn new(_: Global) -> BTreeSet<T> {
        BTreeSet(std::collections::BTreeSet::new())
    }

    pub fn insert(&mut self, value: T) -> Result<bool, AllocError> {
        Ok(self.0.insert(value))
    }
}

impl<T> Deref for BTreeSet<T> {
    type Target = std::collections::BTreeSet<T>;

    fn deref(&self) -> &Self::Target {
        &self.0
    }
}

impl<T> DerefMut for BTreeSet<T> {
    fn deref_mut(&mut self) -> &mut Self::Target {
        &mut self.0
    }
}

#[derive(Clone, Debug)]
pub struct BTreeMap<K, V>(std::collections::BTreeMap<K, V>);

impl<K: Ord, V> BTreeMap<K, V> {
    pub fn new(_: Global) -> BTreeMap<K, V> {
        BTreeMap(std::collections::BTreeMap::new())
    }

    pub fn insert(&mut self, key: K, value: V) -> Result<Option<V>, AllocError> {
        Ok(self.0.insert(key, value))
    }
}

impl<K, V> Deref for BTreeMap<K, V> {
    type Target = std::collections::BTreeMap<K, V>;

    fn deref(&self) -> &Self::Target {
        &self.0
    }
}

impl<K, V> DerefMut for BTreeMap<K, V> {
    fn deref_mut(&mut self) -> &mut Self::Target {
        &mut self.0
    }
}
