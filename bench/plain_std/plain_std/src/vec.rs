//! Lists.

use crate::alloc::{AllocError, AllocFailed, Global};
use std::cmp::Ordering;
use std::ops::{Deref, DerefMut, RangeBounds};

/// A list of Rust, whose calls that take memory answer a result.
#[derive(Debug, PartialEq, Eq, PartialOrd, Ord)]
#[repr(transparent)]
pub struct Vec<T>(pub std::vec::Vec<T>);

#[macro_export]
macro_rules! vec {
    (in $alloc:expr; $value:expr; $count:expr) => {
        $crate::vec::Vec::from_elem($alloc, $value, $count)
    };
    (in $alloc:expr; $($value:expr),* $(,)?) => {
        $crate::vec::Vec::from_values($alloc, [$($value),*])
    };
}

#[macro_export]
macro_rules! prove {
    ($($any:tt)*) => {};
}

#[macro_export]
macro_rules! prove_eq {
    ($($any:tt)*) => {};
}

#[macro_export]
macro_rules! prove_ne {
    ($($any:tt)*) => {};
}

impl<T> Vec<T> {
    #[inline(always)]
    pub fn new(_: Global) -> Vec<T> {
        Vec(std::vec::Vec::new())
    }

    #[inline(always)]
    pub fn with_capacity(_: Global, capacity: usize) -> Result<Vec<T>, AllocError> {
        Ok(Vec(std::vec::Vec::with_capacity(capacity)))
    }

    #[inline(always)]
    pub fn from_values<const N: usize>(_: Global, values: [T; N]) -> Result<Vec<T>, AllocError> {
        Ok(Vec(std::vec::Vec::from(values)))
    }

    #[inline(always)]
    pub fn from_array<const N: usize>(_: Global, values: [T; N]) -> Result<Vec<T>, AllocFailed<[T; N]>> {
        Ok(Vec(std::vec::Vec::from(values)))
    }

    #[inline(always)]
    pub fn allocator(&self) -> &Global {
        &Global
    }

    #[inline(always)]
    pub fn capacity(&self) -> usize {
        self.0.capacity()
    }

    #[inline(always)]
    pub fn len(&self) -> usize {
        self.0.len()
    }

    #[inline(always)]
    pub fn is_empty(&self) -> bool {
        self.0.is_empty()
    }

    #[inline(always)]
    pub fn as_slice(&self) -> &[T] {
        &self.0
    }

    #[inline(always)]
    pub fn as_mut_slice(&mut self) -> &mut [T] {
        &mut self.0
    }

    #[inline(always)]
    pub fn push(&mut self, value: T) -> Result<(), AllocFailed<T>> {
        self.0.push(value);
        Ok(())
    }

    /// Pushes where there is room, which a contract says.
    #[inline(always)]
    pub fn push_reserved(&mut self, value: T) {
        debug_assert!(self.0.len() < self.0.capacity());
        unsafe {
            self.0.as_mut_ptr().add(self.0.len()).write(value);
            self.0.set_len(self.0.len() + 1);
        }
    }

    #[inline(always)]
    pub fn pop(&mut self) -> Option<T> {
        self.0.pop()
    }

    #[inline(always)]
    pub fn insert(&mut self, index: usize, value: T) -> Result<(), AllocFailed<T>> {
        self.0.insert(index, value);
        Ok(())
    }

    #[inline(always)]
    pub fn remove(&mut self, index: usize) -> T {
        self.0.remove(index)
    }

    #[inline(always)]
    pub fn swap_remove(&mut self, index: usize) -> T {
        self.0.swap_remove(index)
    }

    #[inline(always)]
    pub fn clear(&mut self) {
        self.0.clear()
    }

    #[inline(always)]
    pub fn truncate(&mut self, count: usize) {
        self.0.truncate(count)
    }

    #[inline(always)]
    pub fn reserve(&mut self, more: usize) -> Result<(), AllocError> {
        self.0.reserve(more);
        Ok(())
    }

    #[inline(always)]
    pub fn reserve_exact(&mut self, more: usize) -> Result<(), AllocError> {
        self.0.reserve_exact(more);
        Ok(())
    }

    #[inline(always)]
    pub fn shrink_to_fit(&mut self) {
        self.0.shrink_to_fit()
    }

    #[inline(always)]
    pub fn append(&mut self, other: &mut Vec<T>) -> Result<(), AllocError> {
        self.0.append(&mut other.0);
        Ok(())
    }

    #[inline(always)]
    pub fn extend<I: IntoIterator<Item = T>>(&mut self, values: I) -> Result<(), AllocError> {
        self.0.extend(values);
        Ok(())
    }

    #[inline(always)]
    pub fn retain<F: FnMut(&T) -> bool>(&mut self, keeps: F) {
        self.0.retain(keeps)
    }

    #[inline(always)]
    pub fn resize_with<F: FnMut() -> T>(&mut self, count: usize, made: F) -> Result<(), AllocError> {
        self.0.resize_with(count, made);
        Ok(())
    }

    #[inline(always)]
    pub fn sort_by<F: FnMut(&T, &T) -> Ordering>(&mut self, compare: F) -> Result<(), AllocError> {
        self.0.sort_by(compare);
        Ok(())
    }

    #[inline(always)]
    pub fn sort_by_key<K: Ord, F: FnMut(&T) -> K>(&mut self, key: F) -> Result<(), AllocError> {
        self.0.sort_by_key(key);
        Ok(())
    }
}

impl<T: Ord> Vec<T> {
    #[inline(always)]
    pub fn sort(&mut self) -> Result<(), AllocError> {
        self.0.sort();
        Ok(())
    }
}

impl<T: PartialEq> Vec<T> {
    #[inline(always)]
    pub fn dedup(&mut self) {
        self.0.dedup()
    }
}

impl<T: Clone> Vec<T> {
    #[inline(always)]
    pub fn clone(&self) -> Result<Vec<T>, AllocError> {
        Ok(Vec(self.0.clone()))
    }

    #[inline(always)]
    pub fn from_elem(_: Global, value: T, count: usize) -> Result<Vec<T>, AllocError> {
        Ok(Vec(std::vec![value; count]))
    }

    #[inline(always)]
    pub fn from_slice(_: Global, values: &[T]) -> Result<Vec<T>, AllocError> {
        Ok(Vec(values.to_vec()))
    }

    #[inline(always)]
    pub fn extend_from_slice(&mut self, values: &[T]) -> Result<(), AllocError> {
        self.0.extend_from_slice(values);
        Ok(())
    }

    #[inline(always)]
    pub fn extend_from_within<R: RangeBounds<usize>>(&mut self, range: R) -> Result<(), AllocError> {
        self.0.extend_from_within(range);
        Ok(())
    }

    #[inline(always)]
    pub fn resize(&mut self, count: usize, value: T) -> Result<(), AllocError> {
        self.0.resize(count, value);
        Ok(())
    }
}

/// Copies of slices. Rust's own call has the name of the toolchain's, which plain_build.py replaces.
pub trait ToList<T> {
    fn to_list(&self, alloc: Global) -> Result<Vec<T>, AllocError>;
}

impl<T: Clone> ToList<T> for [T] {
    #[inline(always)]
    fn to_list(&self, _: Global) -> Result<Vec<T>, AllocError> {
        Ok(Vec(self.to_vec()))
    }
}

impl<T> Deref for Vec<T> {
    type Target = [T];

    #[inline(always)]
    fn deref(&self) -> &[T] {
        &self.0
    }
}

impl<T> DerefMut for Vec<T> {
    #[inline(always)]
    fn deref_mut(&mut self) -> &mut [T] {
        &mut self.0
    }
}

impl<T> IntoIterator for Vec<T> {
    type Item = T;
    type IntoIter = std::vec::IntoIter<T>;

    #[inline(always)]
    fn into_iter(self) -> Self::IntoIter {
        self.0.into_iter()
    }
}

impl<'a, T> IntoIterator for &'a Vec<T> {
    type Item = &'a T;
    type IntoIter = std::slice::Iter<'a, T>;

    #[inline(always)]
    fn into_iter(self) -> Self::IntoIter {
        self.0.iter()
    }
}

impl<'a, T> IntoIterator for &'a mut Vec<T> {
    type Item = &'a mut T;
    type IntoIter = std::slice::IterMut<'a, T>;

    #[inline(always)]
    fn into_iter(self) -> Self::IntoIter {
        self.0.iter_mut()
    }
}

impl<T> AsRef<[T]> for Vec<T> {
    fn as_ref(&self) -> &[T] {
        &self.0
    }
}
