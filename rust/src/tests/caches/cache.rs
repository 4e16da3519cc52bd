//! Calls of the synchronous cache, in each test of one that is empty at first.

use super::{Numbers, empty_cache, fields};
use crate::engine::moka_cache::{Cache, CompResult, Op, Removals, Stats};
use crate::engine::moka_engine::{FixedClock, Instant, RemovalCause};
use crate::support::alloc::Global;
use crate::tests::engine::fixtures::{NOW, config};

/// An empty cache that starts no run of maintenance but to make room in a full queue.
fn manual_cache() -> Numbers {
    let mut engine = config().build(Global, NOW).unwrap();
    engine.disable_auto_run();
    Cache::new(engine)
}

/// Puts the keys below a number in.
fn fill(cache: &mut Numbers, keys: u64) {
    for key in 0..keys {
        cache.insert(key, key, NOW, &mut FixedClock(NOW)).unwrap();
    }
}

/// How many tickets are outstanding, how many writes are queued, and how many entries the last run counted.
fn pending(cache: &Numbers) -> (u64, usize, u64) {
    let engine = cache.engine();
    (engine.outstanding(), engine.queued_writes(), cache.entry_count())
}

#[test]
fn operations_are_sent_at_once() {
    let mut cache = manual_cache();
    fill(&mut cache, 400);
    // The queue was full with 384 operations, and a run made room for the next one.
    assert_eq!(pending(&cache), (0, 16, 384));
    cache.run_pending_tasks(NOW, &mut FixedClock(NOW));
    assert_eq!(pending(&cache), (0, 0, 400));
}

#[test]
fn a_run_starts_once_64_writes_are_queued() {
    let mut cache = empty_cache();
    fill(&mut cache, 65);
    assert_eq!(pending(&cache), (0, 1, 64));
}

#[test]
fn a_maker_is_called_only_for_an_absent_key() {
    let (mut cache, clock) = (manual_cache(), &mut FixedClock(NOW));
    assert_eq!(cache.get_with(1, || 10, NOW, clock).unwrap(), 10);
    let found = cache.get_with(1, || unreachable!("the key is there"), NOW, clock);
    assert_eq!(found.unwrap(), 10);
}

#[test]
fn the_listener_is_notified_of_a_removal() {
    let (mut cache, later) = (manual_cache(), Instant(1));
    cache.insert(1, 10, NOW, &mut FixedClock(NOW)).unwrap();
    assert_eq!(cache.remove(&1, later, &mut FixedClock(later)).unwrap(), Some(10));
    let counting = cache.engine().listener().expect("a listener is set");
    assert_eq!(counting.listener.notice, Some((1, 10, RemovalCause::Explicit)));
    assert_eq!(cache.engine().queued_writes(), 2);
}

#[test]
fn a_value_is_made_once_and_look_ups_are_counted() {
    let (mut cache, clock) = (empty_cache(), &mut FixedClock(NOW));
    assert_eq!(cache.optionally_get_with(1, || None, NOW, clock).unwrap(), None);
    assert_eq!(cache.get_with(1, || 20, NOW, clock).unwrap(), 20);
    assert_eq!(cache.try_get_with(1, || Err("not called"), NOW, clock).unwrap(), Ok(20));
    let expected = Stats {
        hits: 1,
        misses: 2,
        loads: 2,
    };
    assert_eq!(cache.stats(), expected);
}

#[test]
fn an_entry_is_inserted_unless_its_key_is_there() {
    let (mut cache, clock) = (empty_cache(), &mut FixedClock(NOW));
    let declined = cache.entry(1).or_optionally_insert_with(|| None, NOW, clock).unwrap();
    assert!(declined.is_none());
    let failed = cache.entry(1).or_try_insert_with(|| Err(7), NOW, clock).unwrap();
    assert_eq!(failed.unwrap_err(), 7);
    let put = cache.entry(1).or_insert(10, NOW, clock).unwrap();
    assert_eq!(fields(put), (1, 10, true, false));
    let found = cache.entry(1).or_insert_with(|| 20, NOW, clock).unwrap();
    assert_eq!(fields(found), (1, 10, false, false));
}

#[test]
fn a_value_is_computed_from_the_one_that_is_there() {
    let one_more = |seen: Option<u64>| seen.unwrap_or(0) + 1;
    let (mut cache, clock) = (empty_cache(), &mut FixedClock(NOW));
    let put = cache.entry(1).and_upsert_with(one_more, NOW, clock).unwrap();
    assert_eq!(fields(put), (1, 1, true, false));
    let replaced = cache.entry(1).and_upsert_with(one_more, NOW, clock).unwrap();
    assert_eq!(fields(replaced), (1, 2, true, true));
    let taken = cache.entry(1).and_compute_with(|_| Op::Remove, NOW, clock).unwrap();
    assert!(
        matches!(&taken, CompResult::Removed(entry) if entry.value == 2),
        "{taken:?}"
    );
    assert!(!cache.contains_key(&1, NOW));
}

#[test]
fn removals_are_counted_by_cause() {
    let mut cache = empty_cache();
    fill(&mut cache, 2);
    fill(&mut cache, 2);
    assert_eq!(cache.remove(&1, NOW, &mut FixedClock(NOW)).unwrap(), Some(1));
    let expected = Removals {
        explicit: 1,
        replaced: 2,
        ..Removals::new()
    };
    assert_eq!(cache.removals(), expected);
}

#[test]
fn a_cache_of_capacity_0_keeps_nothing_and_notifies_nobody() {
    let mut cache: Numbers = Cache::build(config().max_capacity(0), Global, NOW).unwrap();
    let clock = &mut FixedClock(NOW);
    cache.insert(1, 10, NOW, clock).unwrap();
    assert_eq!(cache.get_with(1, || 20, NOW, clock).unwrap(), 20);
    assert_eq!(cache.get(&1, NOW, clock).unwrap(), None);
    cache.run_pending_tasks(NOW, clock);
    assert_eq!(pending(&cache), (0, 0, 0));
    assert_eq!(cache.removals(), Removals::new());
}
