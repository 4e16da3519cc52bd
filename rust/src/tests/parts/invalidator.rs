//! Tests of the registry of predicates.

use super::record;
use crate::engine::moka_parts::closures::PredicateFn;
use crate::engine::moka_parts::invalidator::{IdSource, Invalidator, PredicateId};
use crate::engine::moka_parts::policy::Instant;
use crate::engine::moka_parts::record_ref::{self, RecordRef};
use crate::engine::moka_parts::records::Record;
use crate::support::alloc::Global;
use std::cell::Cell;

/// Covers entries with one value, and counts how often it is asked.
#[derive(Debug)]
struct IsValue {
    value: u64,
    asked: Cell<u32>,
}

impl PredicateFn<u8, u64> for IsValue {
    fn applies(&self, _: &u8, value: &u64) -> bool {
        self.asked.update(|asked| asked + 1);
        *value == self.value
    }
}

/// Counts up from 1, which it gives three times.
struct Repeating(u128);

impl IdSource for Repeating {
    fn next_id(&mut self) -> PredicateId {
        self.0 += 1;
        PredicateId::from_u128(self.0.saturating_sub(2).max(1))
    }
}

/// Registers predicates for three values, the last two at the same moment, and gives their identifiers.
fn register_three(registry: &mut Invalidator<IsValue>) -> [PredicateId; 3] {
    let mut ids = Repeating(0);
    [(7, 4), (8, 6), (7, 6)].map(|(value, now)| {
        let asked = Cell::new(0);
        let registered = registry.register_predicate(IsValue { value, asked }, Instant(now), &mut ids);
        registered.expect("a free identifier")
    })
}

/// Asserts which predicate is the first to cover a record of this value, written then, and whether the last one does.
#[track_caller]
fn assert_covers(registry: &Invalidator<IsValue>, value: u64, written: u64, first: Option<u128>, last: bool) {
    let (front, cold) = record_ref::split(Record {
        written: Instant(written),
        read: Instant(9),
        ..record(1, value)
    });
    let record = RecordRef::new(1, &front.hot, front.expiring, &cold);
    assert_eq!(registry.apply_predicates(&record), first.is_some());
    assert_eq!(registry.first_covering(&record), first.map(PredicateId::from_u128));
    assert_eq!(registry.covers_at(2, &record), last);
    assert_eq!(registry.len(), 3);
}

#[test]
fn an_identifier_in_use_is_not_given_again() {
    let mut registry = Invalidator::new(Global);
    assert!(registry.is_empty());
    let ids = register_three(&mut registry);
    assert_eq!(ids.map(PredicateId::as_u128), [1, 2, 3]);
    assert_eq!(registry.len(), 3);
}

#[test]
fn predicates_are_asked_only_of_what_was_written_no_later() {
    let mut registry = Invalidator::new(Global);
    register_three(&mut registry);
    assert_covers(&registry, 7, 4, Some(1), true);
    assert_covers(&registry, 7, 5, Some(3), true);
    assert_covers(&registry, 9, 7, None, false);

    let removed = [0; 3].map(|index| registry.remove(index));
    let asked = removed.map(|removed| (removed.id.as_u128(), removed.predicate.asked.get()));
    assert_eq!(asked, [(1, 2), (2, 2), (3, 4)]);
}
