// SPDX-License-Identifier: MIT
//! `Vec` and `String` that return an error if out of memory.

use std::ops::{Deref, DerefMut};

use super::{AllocError, Global};

/// A vector. Two of them are ordered as their slices, item by item.
#[derive(Debug, PartialEq, Eq, PartialOrd, Ord)]
pub struct Vec<T>(std::vec::Vec<T>);

/// Rattle's `vec!` of an item, filled `len` times.
macro_rules! vec {
    (in $alloc:expr; $item:expr; $len:expr) => {
        $crate::rattle::vec::Vec::filled($alloc, $item, $len)
    };
}
pub(crate) use vec;

impl<T> Vec<T> {
    /// "No items." It takes no memory.
    pub fn new(_: Global) -> Self {
        Vec(std::vec::Vec::new())
    }

    /// "`Ok`, and the items are the old ones and this one; or `Err` if an allocation failed."
    pub fn push(&mut self, item: T) -> Result<(), AllocError> {
        self.reserve(1)?;
        self.0.push(item);
        Ok(())
    }

    /// "The last item, which is removed; or `None` if there is none."
    pub fn pop(&mut self) -> Option<T> {
        self.0.pop()
    }

    /// "The first `len` items stay."
    pub fn truncate(&mut self, len: usize) {
        self.0.truncate(len);
    }

    /// "The items."
    pub fn as_slice(&self) -> &[T] {
        &self.0
    }

    /// "The items, to be written."
    pub fn as_mut_slice(&mut self) -> &mut [T] {
        &mut self.0
    }

    fn reserve(&mut self, more: usize) -> Result<(), AllocError> {
        self.0.try_reserve(more).map_err(|_| AllocError)
    }
}

impl<T: Copy> Vec<T> {
    /// "`Ok` of `len` times the item, or `Err` if an allocation failed."
    pub fn filled(alloc: Global, item: T, len: usize) -> Result<Self, AllocError> {
        let mut items = Vec::new(alloc);
        items.0.try_reserve_exact(len).map_err(|_| AllocError)?;
        items.0.resize(len, item);
        Ok(items)
    }

    /// "`Ok` of these items, or `Err` if an allocation failed."
    pub fn from_slice(alloc: Global, items: &[T]) -> Result<Self, AllocError> {
        let mut copy = Vec::new(alloc);
        copy.extend_from_slice(items)?;
        Ok(copy)
    }

    /// "`Ok`, and the items are the old ones and these; or `Err` if an allocation failed."
    pub fn extend_from_slice(&mut self, items: &[T]) -> Result<(), AllocError> {
        self.reserve(items.len())?;
        self.0.extend_from_slice(items);
        Ok(())
    }
}

impl<T> Deref for Vec<T> {
    type Target = [T];

    fn deref(&self) -> &[T] {
        &self.0
    }
}

impl<T> DerefMut for Vec<T> {
    fn deref_mut(&mut self) -> &mut [T] {
        &mut self.0
    }
}

impl<'a, T> IntoIterator for &'a Vec<T> {
    type Item = &'a T;
    type IntoIter = std::slice::Iter<'a, T>;

    fn into_iter(self) -> Self::IntoIter {
        self.0.iter()
    }
}

/// A text.
#[derive(Debug, PartialEq, Eq)]
pub struct String(std::string::String);

impl String {
    /// "No characters." It takes no memory.
    pub fn new(_: Global) -> Self {
        String(std::string::String::new())
    }

    /// "`Ok` of this text, or `Err` if an allocation failed."
    pub fn from_str(alloc: Global, text: &str) -> Result<Self, AllocError> {
        let mut owned = String::new(alloc);
        owned.push_str(text)?;
        Ok(owned)
    }

    /// "`Ok`, and the text is the old one and this character; or `Err` if an allocation failed."
    pub fn push(&mut self, c: char) -> Result<(), AllocError> {
        self.push_str(c.encode_utf8(&mut [0; 4]))
    }

    /// "`Ok`, and the text is the old one and this one; or `Err` if an allocation failed."
    pub fn push_str(&mut self, text: &str) -> Result<(), AllocError> {
        self.0.try_reserve(text.len()).map_err(|_| AllocError)?;
        self.0.push_str(text);
        Ok(())
    }

    /// "The text."
    pub fn as_str(&self) -> &str {
        &self.0
    }

    /// "The bytes of the text."
    pub fn as_bytes(&self) -> &[u8] {
        self.0.as_bytes()
    }
}
