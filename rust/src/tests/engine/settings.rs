//! The settings that a cache is made with, and what follows from them.

use super::fixtures::{ByKey, Calls, Lasting, NOW, OneId, Recorder};
use crate::engine::moka_engine::{
    CacheConfig, Engine, EvictionPolicy, HousekeeperConfig, Instant, NoListener, NoPredicate, Ticket,
};
use crate::support::alloc::Global;
use std::time::Duration;

/// A cache in which each setting was chosen.
pub(super) type Chosen = Engine<u64, Lasting, Recorder, NoListener, NoPredicate, ByKey>;

pub(super) fn chosen(recorder: Recorder) -> Chosen {
    CacheConfig::default()
        .name("chosen".to_string())
        .max_capacity(10)
        .initial_capacity(3)
        .eviction_policy(EvictionPolicy::lru())
        .time_to_live(Duration::from_secs(16))
        .time_to_idle(Duration::from_secs(7))
        .housekeeper_config(HousekeeperConfig::default())
        .first_ticket(8)
        .expire_after(recorder)
        .weigher(ByKey)
        .eviction_listener(NoListener)
        .support_invalidation_closures()
        .build(Global, NOW)
        .unwrap()
}

const FIVE_SECONDS: Lasting = Lasting('a', Some(5), None, None);

/// A key is visible right before a moment, and not from then on.
#[track_caller]
pub(super) fn assert_lasts_until(cache: &Chosen, key: u64, end: Instant) {
    let before = Instant(end.0 - 1);
    assert!(cache.contains_key_with_hash(&key, key, before), "at {before:?}");
    assert!(!cache.contains_key_with_hash(&key, key, end), "at {end:?}");
}

#[test]
fn settings_are_reported() {
    let cache = chosen(Recorder::default());
    let policy = cache.policy();
    assert_eq!(policy.max_capacity(), Some(10));
    assert_eq!(policy.time_to_live(), Some(Duration::from_secs(16)));
    assert_eq!(policy.time_to_idle(), Some(Duration::from_secs(7)));
    assert_eq!(cache.name(), Some("chosen"));
    assert!(cache.is_removal_notifier_enabled());
    assert_eq!(cache.num_cht_segments(), 1);
}

#[test]
fn tickets_rise_from_the_first() {
    let mut cache = chosen(Recorder::default());
    assert_eq!(cache.put(4, 4, FIVE_SECONDS, NOW), Ticket(8));
    assert_eq!(cache.put(4, 4, FIVE_SECONDS, NOW), Ticket(9));
}

#[test]
fn weigher_and_expiry_are_followed() {
    let mut cache = chosen(Recorder::default());
    cache.put(4, 4, FIVE_SECONDS, NOW);
    cache.put(4, 4, FIVE_SECONDS, NOW);
    cache.run(NOW);
    assert_eq!(cache.weighted_size(), 4);
    let end = NOW.saturating_add(Duration::from_secs(5));
    assert_lasts_until(&cache, 4, end);
    cache.run(end);
    assert_eq!(cache.entry_count(), 0);
}

#[test]
fn predicates_can_be_registered() {
    let mut cache = chosen(Recorder::default());
    cache.invalidate_entries_if(NoPredicate, NOW, &mut OneId).unwrap();
    assert_eq!(cache.invalidation_predicate_count(), 1);
}
