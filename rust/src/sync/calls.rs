//! Calls of the shards, and what is done when the lock of one is released.

use crate::making::Makers;
use crate::notices::{AllNotices, Left, locked};
use crate::shard::Shard;
use std::hash::Hash;
use std::mem::ManuallyDrop;
use std::sync::atomic::{AtomicUsize, Ordering};
use std::sync::{Arc, Mutex, MutexGuard, TryLockError};
use std::thread;

/// A shard, and what is being made for it. No two shards share a cache line.
#[repr(align(128))]
pub(super) struct Place<K: 'static, V> {
    pub index: usize,
    pub shard: Mutex<Shard<K, V>>,
    pub makers: Makers<K, V>,
}

/// All shards.
pub(super) struct Places<K: 'static, V> {
    pub all: Box<[Place<K, V>]>,
    // What the listener is still to be notified of, if there is one.
    notices: Option<Arc<AllNotices<K, V>>>,
    // How many visits there were.
    visited: AtomicUsize,
}

impl<K, V> Places<K, V> {
    pub fn new(all: Box<[Place<K, V>]>, notices: Option<AllNotices<K, V>>) -> Self {
        Places {
            all,
            notices: notices.map(Arc::new),
            visited: AtomicUsize::new(0),
        }
    }
}

impl<K: Eq + Hash, V: Clone + 'static> Places<K, V> {
    /// Calls for one of them.
    #[inline]
    pub fn calls<'a>(&'a self, place: &'a Place<K, V>) -> Calls<'a, K, V> {
        Calls {
            places: self,
            place,
            rest: ManuallyDrop::new(None),
        }
    }

    // Lets what is due in the next shard leave, if no calls for it do. One whose lock is held has a call.
    fn visit_next(&self) {
        let next = self.visited.fetch_add(1, Ordering::Relaxed) % self.all.len();
        let mut calls = self.calls(&self.all[next]);
        let shard = match calls.place.shard.try_lock() {
            Ok(shard) => shard,
            Err(TryLockError::Poisoned(shard)) => shard.into_inner(),
            Err(TryLockError::WouldBlock) => return,
        };
        calls.make_held(shard, |shard| shard.visit());
    }
}

/// Calls for a shard. At their end, which may be a panic, the listener is notified of what left by them; without a
/// listener that is dropped. No lock of the cache is held then.
pub(super) struct Calls<'a, K: Eq + Hash + 'static, V: Clone + 'static> {
    places: &'a Places<K, V>,
    place: &'a Place<K, V>,
    // `finish` drops it. The end of a call by which nothing left is a test, and no call.
    rest: ManuallyDrop<Option<Rest<K, V>>>,
}

/// What is still to be done when the lock of a shard is released.
struct Rest<K, V> {
    // The listener is to be notified.
    is_telling: bool,
    // Another shard is to be visited.
    is_visiting: bool,
    left: Option<Left<K, V>>,
}

impl<K, V> Default for Rest<K, V> {
    fn default() -> Self {
        Rest {
            is_telling: false,
            is_visiting: false,
            left: None,
        }
    }
}

impl<'a, K: Eq + Hash, V: Clone + 'static> Calls<'a, K, V> {
    /// Makes a call under the lock of the shard.
    #[inline]
    pub fn make<R>(&mut self, call: impl FnOnce(&mut Shard<K, V>) -> R) -> R {
        self.make_held(locked(&self.place.shard), call)
    }

    #[inline]
    fn make_held<R>(&mut self, shard: MutexGuard<'a, Shard<K, V>>, call: impl FnOnce(&mut Shard<K, V>) -> R) -> R {
        let mut held = Held { shard, calls: self };
        held.shard.recover();
        call(&mut held.shard)
    }

    /// Drops what left by them, unless a listener is to be notified of it: that waits for their end.
    pub fn drop_left(&mut self) {
        if self.places.notices.is_none() && self.rest.is_some() {
            self.finish();
        }
    }

    // Takes over what left. The lock of the shard is held, so that notices wait in the order in which values left.
    #[cold]
    fn take_rest(&mut self, shard: &mut Shard<K, V>) {
        let rest = self.rest.get_or_insert_default();
        rest.is_visiting |= shard.take_visit();
        let Some(left) = shard.take_left() else {
            return;
        };
        match (&self.places.notices, &mut rest.left) {
            (Some(notices), _) => {
                notices.of(self.place.index).put(left);
                rest.is_telling = true;
            }
            (None, Some(before)) => before.append(left),
            (None, none) => *none = Some(left),
        }
    }

    #[cold]
    fn finish(&mut self) {
        let rest = self.rest.take().unwrap_or_default();
        if let (true, Some(notices)) = (rest.is_telling, &self.places.notices) {
            notices.tell(self.place.index);
        }
        if let Some(left) = rest.left {
            left.drop_each();
        }
        // A second panic, in that shard, would end the process.
        if rest.is_visiting && !thread::panicking() {
            self.places.visit_next();
        }
    }
}

impl<K: Eq + Hash, V: Clone + 'static> Drop for Calls<'_, K, V> {
    // A call by which nothing left neither runs the listener nor waits for it.
    #[inline]
    fn drop(&mut self) {
        if self.rest.is_some() {
            self.finish();
        }
    }
}

/// A shard whose lock is held by a call.
struct Held<'a, 'b, K: Eq + Hash + 'static, V: Clone + 'static> {
    shard: MutexGuard<'a, Shard<K, V>>,
    calls: &'b mut Calls<'a, K, V>,
}

impl<K: Eq + Hash, V: Clone + 'static> Drop for Held<'_, '_, K, V> {
    #[inline]
    fn drop(&mut self) {
        if self.shard.has_rest() {
            self.calls.take_rest(&mut self.shard);
        }
    }
}
