//! Calls of a cache in four segments.

use super::fields;
use crate::engine::moka_cache::Stats;
use crate::engine::moka_engine::{FixedClock, Instant, NoExpiry, PredicateError};
use crate::engine::moka_segments::SegmentedCache;
use crate::support::alloc::Global;
use crate::tests::engine::fixtures::{Below, Counting, NOW, OneId, config};
use std::time::Duration;

type Segmented = SegmentedCache<u64, u64, NoExpiry, Counting, Below>;

fn four_segments() -> Segmented {
    SegmentedCache::build(4, Some(1_001), |_| config(), Global, NOW).unwrap()
}

/// Four segments with the keys below 200, each as its own value.
fn filled() -> Segmented {
    let mut cache = four_segments();
    for key in 0..200 {
        cache.insert(key, key, NOW, &mut FixedClock(NOW)).unwrap();
    }
    cache
}

/// The keys that are visible, in order.
fn keys(cache: &Segmented, now: Instant) -> Vec<u64> {
    let mut keys: Vec<u64> = cache.iter(now).unwrap().map(|(key, _)| key).collect();
    keys.sort_unstable();
    keys
}

#[test]
fn what_is_put_is_found_taken_out_and_counted() {
    let (mut cache, clock) = (filled(), &mut FixedClock(NOW));
    assert_eq!(cache.get(&6, NOW, clock).unwrap(), Some(6));
    assert_eq!(cache.remove(&7, NOW, clock).unwrap(), Some(7));
    cache.invalidate(&8, NOW, clock).unwrap();
    cache.run_pending_tasks(NOW, clock);
    assert_eq!(cache.entry_count(), 198);
    assert_eq!(cache.weighted_size(), 198);
}

#[test]
fn a_value_is_made_once_and_look_ups_are_counted() {
    let (mut cache, clock) = (four_segments(), &mut FixedClock(NOW));
    assert_eq!(cache.optionally_get_with(1, || None, NOW, clock).unwrap(), None);
    assert_eq!(cache.try_get_with(1, || Ok::<_, ()>(10), NOW, clock).unwrap(), Ok(10));
    assert_eq!(cache.get_with(1, || 20, NOW, clock).unwrap(), 10);
    let expected = Stats {
        hits: 1,
        misses: 2,
        loads: 2,
    };
    assert_eq!(cache.stats(), expected);
}

#[test]
fn name_and_policy_are_reported() {
    let cache = four_segments();
    assert_eq!(cache.name(), None);
    assert_eq!(cache.policy().max_capacity(), Some(1_001));
    assert_eq!(cache.policy().time_to_live(), Some(Duration::from_nanos(100)));
}

#[test]
fn what_was_put_before_an_invalidation_of_all_is_hidden() {
    let (mut cache, later) = (filled(), Instant(6));
    assert_eq!(keys(&cache, NOW), Vec::from_iter(0..200));
    cache.invalidate_all(Instant(5));
    cache.insert(300, 1, later, &mut FixedClock(later)).unwrap();
    assert_eq!(keys(&cache, later), [300]);
}

#[test]
fn a_predicate_hides_what_it_covers_in_each_segment() {
    let mut cache = filled();
    let ids = cache.invalidate_entries_if(|| Below(10), NOW, &mut OneId).unwrap();
    assert_eq!(ids.len(), 4);
    // The first segment has a predicate of this identifier already.
    let refused = cache.invalidate_entries_if(|| Below(10), NOW, &mut OneId).unwrap_err();
    assert_eq!(refused.done.len(), 0);
    assert_eq!(refused.refused.error, PredicateError::NoFreeId);
    assert_eq!(keys(&cache, NOW), Vec::from_iter(10..200));
}

#[test]
fn a_segment_is_lent_for_calls_of_its_own() {
    let (mut cache, clock) = (four_segments(), &mut FixedClock(NOW));
    let index = cache.segment_of(&6);
    let segment = cache.segment_mut(index);
    let share = segment.policy().max_capacity().expect("each has a share");
    let put = segment.entry(6).or_insert(60, NOW, clock).unwrap();
    assert_eq!(fields(put), (6, 60, true, false));
    segment.set_max_capacity(Some(1)).unwrap();
    assert_eq!(cache.get(&6, NOW, clock).unwrap(), Some(60));
    assert_eq!(cache.max_capacity(), Some(1_001 - share + 1));
}

#[test]
fn the_capacity_is_shared_out() {
    let (router, segments) = four_segments().into_parts();
    assert_eq!(router.count(), 4);
    let shares = segments.iter().map(|segment| segment.policy().max_capacity());
    assert_eq!(Vec::from_iter(shares), [Some(251), Some(250), Some(250), Some(250)]);
    let again = SegmentedCache::from_parts(router, segments);
    assert_eq!(again.max_capacity(), Some(1_001));
}
