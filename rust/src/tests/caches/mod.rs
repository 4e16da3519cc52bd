//! Tests of the caches on the engine: the synchronous one, whole and in segments, its saves, and one with a clock.

use super::engine::fixtures::{Below, Counting, NOW, config};
use crate::engine::moka_cache::{Cache, CacheEntry};
use crate::engine::moka_engine::{Instant, NoExpiry, Restored};
use crate::support::alloc::Global;

mod cache;
mod saves;
mod segments;
mod timed;

/// A synchronous cache of numbers by numbers.
type Numbers = Cache<u64, u64, NoExpiry, Counting, Below>;

fn empty_cache() -> Numbers {
    Cache::build(config(), Global, NOW).unwrap()
}

/// An entry's key and value, whether the call put the value, and whether it replaced another one.
fn fields(entry: CacheEntry<u64, u64>) -> (u64, u64, bool, bool) {
    let CacheEntry {
        key,
        value,
        is_fresh,
        is_old_value_replaced,
    } = entry;
    (key, value, is_fresh, is_old_value_replaced)
}

/// An entry to be restored, of the value 1.
fn entry_of(key: u64, expires: Option<Instant>) -> Restored<u64, u64> {
    Restored {
        key,
        value: 1,
        last_modified: NOW,
        last_accessed: NOW,
        expires,
    }
}
