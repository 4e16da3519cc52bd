//! Queues with a bound.

use super::alloc::{AllocError, Global};

/// A queue of at most `capacity` items. The engine takes them out all at once, so they never go round the end.
pub struct HeapCircularBuffer<T> {
    items: Vec<T>,
    capacity: usize,
}

impl<T> HeapCircularBuffer<T> {
    pub fn with_capacity(_: Global, capacity: usize) -> Result<Self, AllocError> {
        let mut items = Vec::new();
        items.try_reserve_exact(capacity).map_err(|_| AllocError)?;
        Ok(HeapCircularBuffer { items, capacity })
    }

    #[inline]
    pub fn len(&self) -> usize {
        self.items.len()
    }

    #[inline]
    pub fn is_full(&self) -> bool {
        self.items.len() == self.capacity
    }

    #[inline]
    pub fn try_push_back(&mut self, item: T) -> Result<(), T> {
        if self.is_full() {
            return Err(item);
        }
        self.items.push(item);
        Ok(())
    }

    #[inline]
    pub fn as_slices(&self) -> (&[T], &[T]) {
        (&self.items, &[])
    }

    pub fn clear(&mut self) {
        self.items.clear();
    }
}
