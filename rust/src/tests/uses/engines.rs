//! Tests of callers of the engine, who send its operations themselves.

use super::NOW;
use crate::callers::moka_uses::asked::ask_twice;
use crate::callers::moka_uses::bounded;
use crate::callers::moka_uses::expiring::{Opened, is_open_at};
use crate::callers::moka_uses::late::send_in_other_order;
use crate::callers::moka_uses::notified::{Counter, replace};
use crate::callers::moka_uses::ordered::{age_out, put_last};
use crate::callers::moka_uses::refused::{may_put_again, put, send_after_all};
use crate::callers::moka_uses::resized::shrink_and_grow;
use crate::callers::moka_uses::texts;
use crate::callers::moka_uses::weighed::keep_two;
use crate::engine::moka_engine::{CacheConfig, Engine, InsertError, InsertRefused, Instant};
use crate::support::alloc::Global;
use std::time::Duration;

/// Its entries live for ten nanoseconds.
fn engine() -> Engine<u64, u64> {
    let config = CacheConfig::default().time_to_live(Duration::from_nanos(10));
    config.build(Global, NOW).expect("memory")
}

/// Puts so many keys in and sends their operations.
fn fill(engine: &mut Engine<u64, u64>, keys: u64) {
    for key in 0..keys {
        assert!(!engine.is_map_disabled());
        put(engine, key, key, NOW).expect("memory");
    }
}

#[test]
fn a_full_queue_is_emptied() {
    let mut engine = engine();
    fill(&mut engine, 1_000);
    assert_eq!(ask_twice(&mut engine, 999, NOW), (true, true));
    assert_eq!(ask_twice(&mut engine, 1_000, NOW), (false, false));
}

#[test]
fn an_engine_that_shrinks_evicts_entries() {
    let mut engine = engine();
    fill(&mut engine, 4);
    assert_eq!(shrink_and_grow(&mut engine, 2, 8, NOW), Ok(2));
}

#[test]
fn nothing_is_left_past_its_time() {
    let mut engine = engine();
    for moment in 0..2 {
        assert!(!engine.is_map_disabled());
        let (ticket, _) = put_last(&mut engine, moment, 10, Instant(moment)).expect("memory");
        assert!(!engine.is_map_disabled());
        send_after_all(&mut engine, ticket, NOW).expect("a ticket that waits");
    }
    assert!(!age_out(&mut engine, Instant(10)));
    assert_eq!(engine.entry_count(), 1);
}

#[test]
fn memory_may_be_given_back() {
    let refused = InsertRefused {
        error: InsertError::OutOfMemory,
        key: 1,
        value: 10,
    };
    assert!(may_put_again(&refused));
}

#[test]
fn a_value_that_was_put_with_a_ticket_is_found() {
    let found = bounded::put_and_get(Global, 1, 10).expect("memory");
    assert_eq!(found.map(|entry| entry.value), Some(10));
}

#[test]
fn a_session_ends_at_its_very_moment() {
    let session = Opened {
        user: 1,
        token: 10,
        at: Instant(5),
    };
    let is_open = |asked| is_open_at(Global, Duration::from_nanos(100), session, Instant(asked)).expect("memory");
    assert!(is_open(104));
    assert!(!is_open(105));
}

#[test]
fn entries_sent_in_another_order_are_counted() {
    let engine = send_in_other_order(Global).expect("memory");
    assert_eq!(engine.entry_count(), 2);
    assert_eq!(engine.weighted_size(), 2);
}

#[test]
fn a_value_that_is_replaced_is_notified_of() {
    let engine = replace(Global, 1, 10, 20).expect("memory");
    assert_eq!(engine.listener(), Some(&Counter { count: 1 }));
}

#[test]
fn a_text_is_found() {
    let found = texts::put_and_get(Global, "key".to_owned(), "text".to_owned()).expect("memory");
    assert_eq!(found.map(|entry| entry.value).as_deref(), Some("text"));
}

#[test]
fn texts_are_weighed_by_their_bytes() {
    let weight = keep_two(Global, "tea".to_owned(), "coffee".to_owned()).expect("memory");
    assert_eq!(weight, 9);
}
