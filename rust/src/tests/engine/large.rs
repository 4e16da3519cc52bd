//! That large names, tables and registries are not refused while there is memory, and that entries which leave give
//! their rows back.

use super::fixtures::{Calls, NOW};
use crate::engine::moka_engine::{
    CacheConfig, Engine, EvictionPolicy, FixedClock, IdSource, NoPredicate, OutOfMemory, PredicateId,
};
use crate::support::alloc::Global;

/// A cache with a name of 10,000 letters, a capacity of one entry, and room for many.
fn cache_with_room(entries: usize) -> Result<Engine<u64, u64>, OutOfMemory> {
    CacheConfig::default()
        .name("n".repeat(10_000))
        .max_capacity(1)
        .initial_capacity(entries)
        .eviction_policy(EvictionPolicy::lru())
        .support_invalidation_closures()
        .build(Global, NOW)
}

#[test]
fn an_evicted_entry_gives_its_row_to_the_next() {
    let mut cache = cache_with_room(1).unwrap();
    for key in 0..1000 {
        cache.put(key, key, key, NOW);
        // This key and the one before it have a row each until the latter is evicted: even keys have the first.
        let keys = cache.keys(0).unwrap().expect("segment 0 is there");
        assert_eq!(keys.first(), Some(&(key - key % 2)), "after key {key}");
        let is_more = cache.run_pending_tasks(NOW, &mut FixedClock(NOW), None, 1, 1);
        assert!(!is_more, "after key {key}");
    }
}

#[test]
fn a_long_name_is_kept() {
    let cache = cache_with_room(1).unwrap();
    assert_eq!(cache.name(), Some("n".repeat(10_000).as_str()));
}

/// Counts its identifiers up.
struct Ids(u128);

impl IdSource for Ids {
    fn next_id(&mut self) -> PredicateId {
        self.0 += 1;
        PredicateId::from_u128(self.0)
    }
}

#[test]
fn thousands_of_predicates_are_registered() {
    let (mut cache, mut ids) = (cache_with_room(1).unwrap(), Ids(0));
    for _ in 0..2_048 {
        cache.invalidate_entries_if(NoPredicate, NOW, &mut ids).unwrap();
    }
    assert_eq!(cache.invalidation_predicate_count(), 2_048);
}

#[test]
fn room_is_made_for_millions() {
    assert!(cache_with_room(3_000_000).is_ok());
}

#[test]
fn more_room_than_a_table_can_have_is_refused() {
    assert_eq!(cache_with_room(1 << 40).err(), Some(OutOfMemory));
}
