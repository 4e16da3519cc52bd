//! Tests of `moka_timed_uses::shared`: a cache in segments.

use super::NOW;
use crate::callers::moka_timed_uses::shared::{get_or_put, keep_bound, put_and_find, put_where_it_belongs};
use crate::engine::moka_engine::{CacheConfig, FixedClock};
use crate::engine::moka_segments::SegmentedCache;
use crate::support::alloc::Global;

/// Has four segments of a capacity of 42 in all, and the value 10 under the key 1.
fn segmented() -> SegmentedCache<u64, u64> {
    let mut cache = SegmentedCache::build(4, Some(42), |_| CacheConfig::default(), Global, NOW).expect("memory");
    put_where_it_belongs(&mut cache, 1, 10, NOW, &mut FixedClock(NOW)).expect("memory");
    cache
}

#[test]
fn keys_are_found_in_their_segments() {
    let mut cache = segmented();
    let (put, found) = put_and_find(&mut cache, (2, 20), &2, NOW, &mut FixedClock(NOW));
    put.expect("memory");
    assert_eq!(found, Ok(Some(20)));
    assert!(cache.contains_key(&1, NOW));

    let kept = keep_bound(&mut cache, NOW);
    assert_eq!(kept.weight, 2);
    assert_eq!(kept.most, Some(42));
}

#[test]
fn a_value_is_put_only_once() {
    let clock = &mut FixedClock(NOW);
    let mut cache = segmented();
    let first = get_or_put(&mut cache, 3, 30, NOW, clock).expect("memory");
    assert!(first.is_fresh);
    let again = get_or_put(&mut cache, 3, 31, NOW, clock).expect("memory");
    assert_eq!(again.value, 30);
}
