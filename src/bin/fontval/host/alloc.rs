//! Fallible vectors over std's, which abort if allocation fails.

use core::marker::PhantomData;
use core::ops::Deref;
use std::vec;

/// Allocation failed.
#[derive(Clone, Copy, Debug)]
pub struct AllocError;

/// An allocator; always the global one.
pub trait Allocator {}

/// Rust's global allocator.
#[derive(Clone, Copy)]
pub struct Global;

impl Allocator for Global {}

/// A vector.
pub struct Vec<T, A> {
    items: vec::Vec<T>,
    alloc: PhantomData<A>,
}

impl<T, A: Allocator> Vec<T, A> {
    pub fn new(_alloc: A) -> Self {
        Self { items: vec::Vec::new(), alloc: PhantomData }
    }

    pub fn with_capacity(alloc: A, capacity: usize) -> Result<Self, AllocError> {
        let mut vec = Self::new(alloc);
        vec.items.try_reserve(capacity).map_err(|_| AllocError)?;
        Ok(vec)
    }

    pub fn push(&mut self, item: T) -> Result<(), AllocError> {
        self.items.try_reserve(1).map_err(|_| AllocError)?;
        self.items.push(item);
        Ok(())
    }

    pub fn extend_from_slice(&mut self, items: &[T]) -> Result<(), AllocError>
    where
        T: Copy,
    {
        let more = items.len();
        self.items.try_reserve(more).map_err(|_| AllocError)?;
        self.items.extend_from_slice(items);
        Ok(())
    }

    pub fn clear(&mut self) {
        self.items.clear();
    }
}

impl<T, A> Deref for Vec<T, A> {
    type Target = [T];

    fn deref(&self) -> &[T] {
        &self.items
    }
}
