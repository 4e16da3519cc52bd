//! Tests of moments, policies and expiries.

use super::record;
use crate::engine::moka_parts::expiry::{
    deadline_of, has_lapsed, is_expired_by_per_entry_ttl, is_expired_by_tti, is_expired_by_ttl, is_invalid_entry,
    remaining, renewed,
};
use crate::engine::moka_parts::policy::{
    EvictionPolicy, ExpirationPolicy, ExpireAfter, ExpireAfterCreate, Expiry, Instant, NoExpiry, Policy,
};
use crate::engine::moka_parts::record_ref::{self, RecordRef};
use crate::engine::moka_parts::records::Record;
use std::time::Duration;

const SECOND: Duration = Duration::from_secs(1);
const WRITTEN: Instant = Instant(5);
/// A second after the write.
const LATER: Instant = Instant(1_000_000_005);

/// An entry lasts as many seconds as its value says.
#[derive(Clone, Copy)]
struct BySeconds;

impl ExpireAfterCreate<u64, u64> for BySeconds {
    fn expire_after_create(&self, _: &u64, value: &u64, _: Instant) -> Option<Duration> {
        Some(Duration::from_secs(*value))
    }
}

#[test]
fn moments_and_durations_add_up() {
    assert_eq!(WRITTEN.saturating_add(SECOND), LATER);
    assert_eq!(LATER.saturating_duration_since(WRITTEN), SECOND);
    assert_eq!(LATER.saturating_add(Duration::MAX), Instant(u64::MAX));
}

#[test]
fn an_entry_expires_at_its_very_moment() {
    let expires = deadline_of(Some(SECOND), WRITTEN);
    assert!(is_expired_by_per_entry_ttl(expires, LATER));
    assert!(is_expired_by_ttl(Some(SECOND), WRITTEN, LATER));
    assert!(is_expired_by_tti(Some(SECOND), WRITTEN, LATER));
    assert!(is_invalid_entry(expires, WRITTEN));
}

#[test]
fn a_read_that_answers_the_time_left_renews_nothing() {
    let expires = deadline_of(Some(SECOND), WRITTEN);
    let left = remaining(expires, WRITTEN, WRITTEN, None, None, WRITTEN);
    assert_eq!(left, Some(SECOND));
    let (_, is_renewed) = renewed(expires, left, Some(SECOND), WRITTEN);
    assert!(!is_renewed);
}

#[test]
fn an_entry_lapses_when_it_is_idle_for_too_long() {
    let mut policy = ExpirationPolicy::<NoExpiry>::default();
    policy.set_time_to_idle(SECOND);
    let (front, cold) = record_ref::split(Record {
        written: WRITTEN,
        read: WRITTEN,
        ..record(1_u64, 1_u64)
    });
    let record = RecordRef::new(1, &front.hot, front.expiring, &cold);
    assert!(!has_lapsed(&record, &policy, None, Instant(LATER.0 - 1)));
    assert!(has_lapsed(&record, &policy, None, LATER));
}

#[test]
fn clones_of_policies_tell_what_was_set() {
    let mut expiration = ExpirationPolicy::default();
    expiration.set_time_to_live(SECOND);
    expiration.set_time_to_idle(SECOND);
    expiration.set_expiry(BySeconds);
    let expiration = expiration.clone();
    assert!(expiration.is_set());
    assert!(expiration.expiry().is_some());

    let (live, idle) = (expiration.time_to_live(), expiration.time_to_idle());
    let policy = Policy::new(Some(7), live, idle).clone();
    assert_eq!(policy.max_capacity(), Some(7));
    assert_eq!(policy.num_segments(), 1);
    assert_eq!(policy.time_to_live(), Some(SECOND));
    assert_eq!(policy.time_to_idle(), Some(SECOND));
}

#[test]
fn entries_are_evicted_by_tiny_lfu_by_default() {
    assert!(matches!(EvictionPolicy::default(), EvictionPolicy::TinyLfu));
    assert!(matches!(EvictionPolicy::tiny_lfu(), EvictionPolicy::TinyLfu));
}

#[test]
fn an_expiry_asks_the_part_for_each_event() {
    let expiry = ExpireAfter {
        create: BySeconds,
        read: NoExpiry,
        update: NoExpiry,
    };
    let (now, left) = (Instant(0), Some(SECOND));
    assert_eq!(expiry.expire_after_create(&1, &1, now), Some(SECOND));
    assert_eq!(expiry.expire_after_read(&1, &2, now, left, now), left);
    assert_eq!(expiry.expire_after_update(&1, &2, now, left), left);
}

#[test]
fn no_expiry_leaves_each_time_as_it_is() {
    fn no_expiry() -> impl Expiry<u64, u64> {
        NoExpiry
    }
    let (now, left) = (Instant(0), Some(SECOND));
    assert_eq!(no_expiry().expire_after_create(&1, &1, now), None);
    assert_eq!(no_expiry().expire_after_read(&1, &1, now, left, now), left);
    assert_eq!(no_expiry().expire_after_update(&1, &1, now, left), left);
}
