//! Entries of the synchronous cache that are listed, saved and restored.

use super::{Numbers, empty_cache, entry_of};
use crate::engine::moka_engine::{FixedClock, Instant, RestoreError, SnapshotEntry};
use crate::support::alloc::Global;
use crate::tests::engine::fixtures::NOW;
use std::time::Duration;

/// What a run leaves, in the order of access: key, value, the moments of the last write and of the last access, and the
/// time that is left.
fn list(cache: &mut Numbers, now: Instant) -> Vec<(u64, u64, Instant, Instant, Option<Duration>)> {
    cache.run_pending_tasks(now, &mut FixedClock(now));
    let listed = |entry: SnapshotEntry<'_, u64, u64>| {
        let (key, value) = (*entry.key, *entry.value);
        (key, value, entry.last_modified, entry.last_accessed, entry.remaining)
    };
    cache.snapshot(now).map(listed).collect()
}

#[test]
fn what_was_saved_is_restored_in_the_order_of_access() {
    let mut cache = empty_cache();
    for (key, value, now) in [(4, 40, 0), (1, 10, 10), (2, 20, 20), (3, 30, 30)] {
        let now = Instant(now);
        cache.insert(key, value, now, &mut FixedClock(now)).unwrap();
    }
    let read = Instant(40);
    cache.run_pending_tasks(read, &mut FixedClock(read));
    assert_eq!(cache.get(&1, read, &mut FixedClock(read)).unwrap(), Some(10));

    // Key 4 has been idle for too long by then.
    let now = Instant(55);
    let left = |nanoseconds| Some(Duration::from_nanos(nanoseconds));
    let expected = [
        (2, 20, Instant(20), Instant(20), left(15)),
        (3, 30, Instant(30), Instant(30), left(25)),
        (1, 10, Instant(10), Instant(40), left(35)),
    ];
    assert_eq!(list(&mut cache, now), expected);

    let clock = &mut FixedClock(now);
    let saved = cache.save(Global, now, clock).unwrap();
    cache.invalidate_many(&[1, 2, 3], now, clock).unwrap();
    assert_eq!(cache.snapshot(now).count(), 0);
    cache.restore(saved, now, clock).unwrap();
    assert_eq!(list(&mut cache, now), expected);
}

#[test]
fn an_entry_is_restored_unless_its_key_is_there() {
    let (mut cache, clock) = (empty_cache(), &mut FixedClock(NOW));
    cache.restore_entry(entry_of(1, None), NOW, clock).unwrap();
    let again = cache.restore_entry(entry_of(1, None), NOW, clock);
    assert_eq!(again.unwrap_err().error, RestoreError::KeyPresent);
}

#[test]
fn an_entry_with_an_expiry_is_refused_by_a_cache_without_one() {
    let (mut cache, clock) = (empty_cache(), &mut FixedClock(NOW));
    let expiring = cache.restore_entry(entry_of(2, Some(Instant(9))), NOW, clock);
    assert_eq!(expiring.unwrap_err().error, RestoreError::NoExpiry);
}
