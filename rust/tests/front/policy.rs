//! What a cache tells of its limits, and what it has counted.

use crate::keys::{Key, key};
use ravulemis::{Expiry, Policy, Stats, sync, unsync};
use std::iter;
use std::sync::Arc;
use std::time::{Duration, Instant};

fn counters(stats: &mut Stats) -> [&mut u64; 8] {
    [
        &mut stats.hits,
        &mut stats.misses,
        &mut stats.loads,
        &mut stats.load_failures,
        &mut stats.expired,
        &mut stats.explicit,
        &mut stats.replaced,
        &mut stats.evicted,
    ]
}

fn stats(numbers: [u64; 8]) -> Stats {
    let mut stats = Stats::default();
    for (counter, number) in counters(&mut stats).into_iter().zip(numbers) {
        *counter = number;
    }
    stats
}

// The sum of two, by each way to add them.
fn sums(one: Stats, other: Stats) -> [Stats; 3] {
    let mut added = one;
    added += other;
    [one + other, added, [one, other].into_iter().sum()]
}

#[test]
fn each_counter_is_added_to_its_own() {
    let (one, other) = (stats([1, 2, 3, 4, 5, 6, 7, 8]), stats([10, 20, 30, 40, 50, 60, 70, 80]));
    let sum = stats([11, 22, 33, 44, 55, 66, 77, 88]);
    assert_eq!(sums(one, other), [sum; 3]);
    assert_eq!([sum, one, other].into_iter().sum::<Stats>(), sum + sum);
    assert_eq!(iter::empty::<Stats>().sum::<Stats>(), Stats::default());
}

#[test]
fn a_sum_stops_at_the_greatest_number() {
    for place in 0..8 {
        let (mut most, mut sum) = ([1; 8], [3; 8]);
        (most[place], sum[place]) = (u64::MAX - 1, u64::MAX);
        assert_eq!(sums(stats(most), stats([2; 8])), [stats(sum); 3], "of {place}");
    }
    let most = stats([u64::MAX; 8]);
    assert_eq!(sums(most, most), [most; 3]);
}

#[test]
fn the_hit_ratio_is_that_of_all_look_ups() {
    let ratio = |hits, misses| stats([hits, misses, 9, 9, 9, 9, 9, 9]).hit_ratio();
    assert_eq!([ratio(0, 0), ratio(0, 5), ratio(5, 0)], [None, Some(0.0), Some(1.0)]);
    assert_eq!([ratio(3, 1), ratio(1, 7)], [Some(0.75), Some(0.125)]);
    assert_eq!(ratio(u64::MAX, u64::MAX), Some(0.5));
}

#[test]
fn a_cache_without_look_ups_has_no_hit_ratio() {
    let cache = sync::Cache::<u32, u32>::new(100);
    cache.insert(1, 1);
    assert!(cache.contains_key(&1));
    assert_eq!(cache.stats().hit_ratio(), None);
    assert_eq!([cache.get(&1), cache.get(&2)], [Some(1), None]);
    assert_eq!(cache.stats().hit_ratio(), Some(0.5));
    assert_eq!([cache.get_with(3, || 3), cache.get_with(4, || 4)], [3, 4]);
    assert_eq!(cache.stats().hit_ratio(), Some(0.25));
}

#[test]
fn policies_with_the_same_limits_are_equal() {
    fn is_eq<T: Eq>(_: &T) {}
    type Builder = sync::CacheBuilder<u32, u32>;
    let policy = |builder: Builder| -> Policy { builder.build().policy() };
    let limited = || Builder::new(100);
    let (limits, hour) = (policy(limited()), Duration::from_secs(3600));
    is_eq(&limits);
    assert_eq!(limits, policy(limited()));
    assert_eq!(limits, unsync::Cache::<u32, u32>::new(100).policy());
    let others = [
        ("max_capacity", limited().max_capacity(101)),
        ("shards", limited().shards(2)),
        ("time_to_live", limited().time_to_live(hour)),
        ("time_to_idle", limited().time_to_idle(hour)),
    ];
    for (name, other) in others {
        assert_ne!(policy(other), limits, "{name}");
    }
}

/// An expiry for keys of the caller's, so that it may be behind pointers of std.
struct Once;

impl Expiry<Key, u32> for Once {
    fn expire_after_create(&self, _: &Key, _: &u32, _: Instant) -> Option<Duration> {
        Some(Duration::ZERO)
    }
}

impl Expiry<Key, u32> for Arc<Once> {}

impl Expiry<Key, u32> for Box<Once> {
    fn expire_after_create(&self, key: &Key, value: &u32, at: Instant) -> Option<Duration> {
        self.as_ref().expire_after_create(key, value, at)
    }
}

#[test]
fn an_expiry_may_be_behind_a_pointer() {
    fn found(expiry: impl Expiry<Key, u32> + Send + Sync + 'static) -> Option<u32> {
        let cache = sync::Cache::builder().expire_after(expiry).build();
        cache.insert(key(1, 1), 7);
        cache.get(&key(1, 1))
    }
    type Any = dyn Expiry<Key, u32> + Send + Sync;
    let (shared, boxed): (Arc<Any>, Box<Any>) = (Arc::new(Once), Box::new(Once));
    assert_eq!([found(Once), found(shared), found(boxed)], [None; 3]);
    // These are the caller's own.
    assert_eq!([found(Arc::new(Once)), found(Box::new(Once))], [Some(7), None]);
}

#[test]
fn a_maker_counts_as_a_load_where_nothing_is_kept() {
    let cache = sync::Cache::<u32, u32>::new(0);
    assert_eq!([cache.get_with(1, || 1), cache.get_with(1, || 2)], [1, 2]);
    assert_eq!((cache.stats().loads, cache.stats().load_failures), (2, 0));
    assert!(!cache.contains_key(&1));
}
