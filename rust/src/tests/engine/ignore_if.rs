//! Gets with a test that may ignore the value: when the test is asked, what is found then, and that the read is queued.

use super::fixtures::{Below, Calls, Counting, NOW, config};
use crate::engine::moka_engine::{Engine, FixedClock, Instant, NoExpiry};
use crate::support::alloc::Global;
use std::time::Duration;

/// The key and the value that a get found, how often it asked its test, and how many reads are queued afterwards.
#[derive(Debug, PartialEq)]
struct Got {
    found: Option<(Option<u64>, u64)>,
    asked: u32,
    queued: usize,
}

/// Gets the key 1 at the moment 20, unless its value is 10. Entries live for ten nanoseconds, and a value may have been
/// put under the key before.
fn get_unless_ten(put: Option<(u64, Instant)>) -> Got {
    let config = config().time_to_live(Duration::from_nanos(10));
    let mut cache: Engine<u64, u64, NoExpiry, Counting, Below> = config.build(Global, NOW).unwrap();
    if let Some((value, written)) = put {
        cache.put(1, 1, value, written);
    }
    let (now, mut asked) = (Instant(20), 0);
    let mut is_ten = |value: &u64| {
        asked += 1;
        *value == 10
    };
    let found = cache.get_with_hash_and_ignore_if(&1, 1, Some(&mut is_ten), true, now, &mut FixedClock(now));
    Got {
        found: found.unwrap().map(|entry| (entry.key, entry.value)),
        asked,
        queued: cache.queued_reads(),
    }
}

#[test]
fn the_test_is_asked_of_an_expired_value_too() {
    let expected = Got {
        found: None,
        asked: 1,
        queued: 1,
    };
    assert_eq!(get_unless_ten(Some((30, NOW))), expected);
}

#[test]
fn a_value_that_passes_is_found_with_its_key() {
    let expected = Got {
        found: Some((Some(1), 20)),
        asked: 1,
        queued: 1,
    };
    assert_eq!(get_unless_ten(Some((20, Instant(15)))), expected);
}

#[test]
fn the_test_is_not_asked_of_an_absent_key() {
    let expected = Got {
        found: None,
        asked: 0,
        queued: 1,
    };
    assert_eq!(get_unless_ten(None), expected);
}

#[test]
fn an_ignored_value_is_not_found() {
    let expected = Got {
        found: None,
        asked: 1,
        queued: 1,
    };
    assert_eq!(get_unless_ten(Some((10, Instant(15)))), expected);
}
