//! Whether a call is in the middle of a change.

use std::mem;
use std::sync::Arc;
use std::sync::atomic::{AtomicBool, Ordering::Relaxed};

/// Is set while a cache is half changed, and stays so if the caller's own code panics then. Who sets or reads it holds
/// the lock of the shard.
#[derive(Clone, Default)]
pub(crate) struct Mark(Arc<AtomicBool>);

impl Mark {
    #[inline]
    pub fn set(&self) {
        self.0.store(true, Relaxed);
    }

    #[inline]
    pub fn clear(&self) {
        self.0.store(false, Relaxed);
    }

    #[inline]
    pub fn is_set(&self) -> bool {
        self.0.load(Relaxed)
    }

    /// Runs code of the caller's in a call that has changed nothing yet, or all that it had to. If that panics the mark
    /// is clear then, and else as it was.
    #[inline]
    pub fn before_changes<R>(&self, code: impl FnOnce() -> R) -> R {
        let unmarking = Unmarking(self);
        let answer = code();
        mem::forget(unmarking);
        answer
    }
}

/// Clears a mark if a panic drops this.
struct Unmarking<'a>(&'a Mark);

impl Drop for Unmarking<'_> {
    fn drop(&mut self) {
        self.0.clear();
    }
}
