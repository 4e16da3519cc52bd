//! Calls of a cache with a clock of its own, in each test of one that is empty at first; and the clocks.

use super::{entry_of, fields};
use crate::callers::moka_timed::{SystemClock, TimedCache};
use crate::engine::moka_cache::{CompResult, Op, Stats};
use crate::engine::moka_engine::{Clock, FixedClock, Instant, NoExpiry};
use crate::support::alloc::Global;
use crate::support::{time, vec};
use crate::tests::engine::fixtures::{Below, Counting, NOW, config};
use std::io;
use std::time::Duration;

type Timed = TimedCache<u64, u64, FixedClock, NoExpiry, Counting, Below>;

fn empty_cache() -> Timed {
    TimedCache::build(config(), Global, FixedClock(NOW)).unwrap()
}

#[test]
fn many_keys_are_put_found_and_invalidated_at_once() {
    let mut cache = empty_cache();
    let items = vec::Vec::from_array(Global, [(1, 10), (2, 20), (3, 30)]).unwrap();
    cache.insert_many(items).unwrap();
    let found = cache.get_many(Global, &[2, 4, 1]).unwrap();
    assert_eq!(found.as_slice(), [Some(20), None, Some(10)]);
    cache.invalidate_many(&[1, 2]).unwrap();
    assert!(!cache.contains_key(&1));
    assert!(!cache.contains_key(&2));
}

#[test]
fn what_was_put_before_an_invalidation_of_all_is_hidden() {
    let mut cache = empty_cache();
    cache.insert(3, 30).unwrap();
    cache.clock = FixedClock(Instant(1));
    cache.invalidate_all();
    cache.insert(5, 50).unwrap();
    assert_eq!(Vec::from_iter(cache.iter().unwrap()), [(5, 50)]);
}

#[test]
fn makers_that_may_decline_or_fail_are_called() {
    let mut cache = empty_cache();
    assert_eq!(cache.optionally_get_with(1, || None).unwrap(), None);
    assert_eq!(cache.try_get_with(1, || Ok::<_, ()>(10)).unwrap(), Ok(10));
    let expected = Stats {
        hits: 0,
        misses: 2,
        loads: 2,
    };
    assert_eq!(cache.stats(), expected);
}

#[test]
fn the_capacity_can_be_changed() {
    let mut cache = empty_cache();
    cache.set_max_capacity(Some(20)).unwrap();
    assert_eq!(cache.policy().max_capacity(), Some(20));
    assert_eq!(cache.name(), None);
}

#[test]
fn an_entry_is_inserted_unless_its_key_is_there() {
    let mut cache = empty_cache();
    let declined = cache.entry(1).or_optionally_insert_with(|| None).unwrap();
    assert!(declined.is_none());
    let failed = cache.entry(1).or_try_insert_with(|| Err(7)).unwrap();
    assert_eq!(failed.unwrap_err(), 7);
    let put = cache.entry(1).or_insert(10).unwrap();
    assert_eq!(fields(put), (1, 10, true, false));
    let found = cache.entry(1).or_insert_with(|| 20).unwrap();
    assert_eq!(fields(found), (1, 10, false, false));
}

#[test]
fn a_value_is_computed_and_taken_out() {
    let mut cache = empty_cache();
    let one_more = |seen: Option<u64>| seen.unwrap_or(0) + 1;
    let put = cache.entry(1).and_upsert_with(one_more).unwrap();
    assert_eq!(fields(put), (1, 1, true, false));
    let taken = cache.entry(1).and_compute_with(|_| Op::Remove).unwrap();
    assert!(
        matches!(&taken, CompResult::Removed(entry) if entry.value == 1),
        "{taken:?}"
    );
}

#[test]
fn an_entry_is_restored_counted_and_invalidated() {
    let mut cache = empty_cache();
    cache.restore_entry(entry_of(1, None)).unwrap();
    cache.run_pending_tasks();
    assert_eq!(cache.weighted_size(), 1);
    cache.invalidate(&1).unwrap();
    assert!(!cache.contains_key(&1));
}

/// A source of monotonic time, which tells another time of day.
struct Source<F>(F);

impl<F: Fn() -> Duration> time::Clock for Source<F> {
    fn monotonic(&self) -> io::Result<Duration> {
        Ok(self.0())
    }

    fn since_1970(&self) -> io::Result<Duration> {
        Ok(Duration::ZERO)
    }
}

#[test]
fn the_system_clock_goes_on() {
    let start = std::time::Instant::now();
    let mut clock = SystemClock::new(Source(|| start.elapsed()));
    let first = clock.now();
    assert!((0..1_000_000).any(|_| clock.now() > first));
}

#[test]
fn the_system_clock_tells_nanoseconds() {
    let mut clock = SystemClock::new(Source(|| Duration::from_millis(2)));
    assert_eq!(clock.now(), Instant(2_000_000));
}
