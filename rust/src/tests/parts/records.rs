//! Tests of entries that were found, and of records in their parts.

use crate::engine::moka_parts::calls::Entry;
use crate::engine::moka_parts::policy::Instant;
use crate::engine::moka_parts::record_ref::{self, RecordRef};
use crate::engine::moka_parts::records::Record;

const RECORD: Record<u64, u64> = Record {
    number: 1,
    key: 2,
    hash: 3,
    value: 4,
    written: Instant(5),
    read: Instant(6),
    expires: Some(Instant(7)),
    weight: 8,
    generation: 9,
    applied: 9,
};

#[test]
fn an_entry_has_its_key_and_value() {
    let entry = Entry {
        key: Some(1_u64),
        value: 2_u64,
    };
    assert_eq!(entry.key(), Some(&1));
    assert_eq!(entry.value(), &2);
    assert_eq!(entry.into_value(), 2);
}

#[test]
fn a_record_is_lent_with_all_it_has() {
    let (front, cold) = record_ref::split(RECORD);
    let lent = RecordRef::new(1, &front.hot, front.expiring, &cold);
    assert_eq!(lent.number(), 1);
    assert_eq!(lent.key(), &2);
    assert_eq!(lent.hash(), 3);
    assert_eq!(lent.value(), &4);
    assert_eq!(lent.written(), Instant(5));
    assert_eq!(lent.read(), Instant(6));
    assert_eq!(lent.expires(), Some(Instant(7)));
    assert_eq!(lent.weight(), 8);
    assert_eq!(lent.generation(), 9);
    assert_eq!(lent.applied(), 9);
    assert!(lent.is_settled());
}

#[test]
fn the_parts_of_a_record_are_joined_again() {
    let (front, cold) = record_ref::split(RECORD);
    let joined = record_ref::join(1, front, cold);
    assert_eq!(joined.key, 2);
    assert_eq!(joined.weight, 8);
}
