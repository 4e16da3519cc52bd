//! Vectors that ask for memory by name.

use super::alloc::{AllocError, Global};
use std::ops::{Deref, DerefMut, Index, IndexMut};

/// A vector that asks for memory by name.
#[derive(Debug, PartialEq, Eq)]
pub struct Vec<T>(std::vec::Vec<T>);

impl<T> Vec<T> {
    #[inline]
    pub fn from_array<const N: usize>(_: Global, items: [T; N]) -> Result<Self, AllocError> {
        Ok(Vec(items.into()))
    }

    pub fn new(_: Global) -> Self {
        Vec(std::vec::Vec::new())
    }

    pub fn with_capacity(_: Global, capacity: usize) -> Result<Self, AllocError> {
        let mut made = std::vec::Vec::new();
        made.try_reserve_exact(capacity).map_err(|_| AllocError)?;
        Ok(Vec(made))
    }

    pub fn from_elem(alloc: Global, value: T, len: usize) -> Result<Self, AllocError>
    where
        T: Clone,
    {
        let mut made = Vec::with_capacity(alloc, len)?;
        made.0.resize(len, value);
        Ok(made)
    }

    #[inline]
    pub fn allocator(&self) -> &Global {
        &Global
    }

    #[inline]
    pub fn capacity(&self) -> usize {
        self.0.capacity()
    }

    #[inline]
    pub fn reserve(&mut self, additional: usize) -> Result<(), AllocError> {
        self.0.try_reserve(additional).map_err(|_| AllocError)
    }

    #[inline]
    pub fn push(&mut self, value: T) -> Result<(), AllocError> {
        self.reserve(1)?;
        self.0.push(value);
        Ok(())
    }

    /// As `push`, if there is room.
    #[inline]
    pub fn push_reserved(&mut self, value: T) {
        debug_assert!(self.0.len() < self.0.capacity());
        self.0.push(value);
    }

    #[inline]
    pub fn pop(&mut self) -> Option<T> {
        self.0.pop()
    }

    pub fn remove(&mut self, index: usize) -> T {
        self.0.remove(index)
    }

    pub fn resize(&mut self, len: usize, value: T) -> Result<(), AllocError>
    where
        T: Clone,
    {
        self.reserve(len.saturating_sub(self.0.len()))?;
        self.0.resize(len, value);
        Ok(())
    }

    pub fn clear(&mut self) {
        self.0.clear();
    }

    pub fn retain(&mut self, keeps: impl FnMut(&T) -> bool) {
        self.0.retain(keeps);
    }

    #[inline]
    pub fn as_slice(&self) -> &[T] {
        &self.0
    }

    #[inline]
    pub fn as_mut_slice(&mut self) -> &mut [T] {
        &mut self.0
    }

    pub fn extend(&mut self, items: impl Iterator<Item = T>) -> Result<(), AllocError> {
        for item in items {
            self.push(item)?;
        }
        Ok(())
    }

    /// Rust's own vector of the same items.
    pub fn into_std(self) -> std::vec::Vec<T> {
        self.0
    }
}

impl Vec<u8> {
    pub(super) fn read_from(&mut self, reader: &mut impl std::io::Read) -> std::io::Result<usize> {
        reader.read_to_end(&mut self.0)
    }
}

/// An iterator whose items go into a vector that asks for memory by name.
pub trait CollectIn: Iterator + Sized {
    fn collect_in(self, alloc: Global) -> Result<Vec<Self::Item>, AllocError> {
        let mut made = Vec::new(alloc);
        made.extend(self)?;
        Ok(made)
    }
}

impl<I: Iterator> CollectIn for I {}

impl<T> IntoIterator for Vec<T> {
    type Item = T;
    type IntoIter = std::vec::IntoIter<T>;

    fn into_iter(self) -> Self::IntoIter {
        self.0.into_iter()
    }
}

impl<'a, T> IntoIterator for &'a Vec<T> {
    type Item = &'a T;
    type IntoIter = std::slice::Iter<'a, T>;

    fn into_iter(self) -> Self::IntoIter {
        self.0.iter()
    }
}

impl<T> Deref for Vec<T> {
    type Target = [T];

    #[inline(always)]
    fn deref(&self) -> &[T] {
        &self.0
    }
}

impl<T> DerefMut for Vec<T> {
    #[inline(always)]
    fn deref_mut(&mut self) -> &mut [T] {
        &mut self.0
    }
}

impl<T> Index<usize> for Vec<T> {
    type Output = T;

    #[inline(always)]
    fn index(&self, index: usize) -> &T {
        &self.0[index]
    }
}

impl<T> IndexMut<usize> for Vec<T> {
    #[inline(always)]
    fn index_mut(&mut self, index: usize) -> &mut T {
        &mut self.0[index]
    }
}
