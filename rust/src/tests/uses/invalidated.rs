//! Tests of `moka_uses::driven` and `moka_uses::invalidated`: a list of calls puts numbers in, which a
//! predicate hides.

use super::NOW;
use crate::callers::moka_uses::driven::make_calls;
use crate::callers::moka_uses::invalidated::{Below, CountedIds, Numbers, hide_below, run_after_hiding};
use crate::engine::moka_engine::{CacheConfig, Call, FixedClock, Reply};
use crate::support::alloc::Global;
use crate::support::vec;

/// The call that puts a value under a key.
fn put(numbers: &Numbers, key: u64, value: u64) -> Call<u64, u64, Below> {
    Call::Insert {
        key,
        hash: numbers.hash(&key),
        value,
        now: NOW,
    }
}

/// Has 9 under the key 1, and 10 under the key 2, with both operations sent.
fn nine_and_ten() -> Numbers {
    let config = CacheConfig::default().support_invalidation_closures::<Below>();
    let mut numbers: Numbers = config.build(Global, NOW).expect("memory");
    let calls = vec::Vec::from_array(Global, [put(&numbers, 1, 9), put(&numbers, 2, 10)]).expect("memory");
    let replies = make_calls(Global, &mut numbers, calls, &mut CountedIds(0), &mut FixedClock(NOW)).expect("memory");
    let [Reply::Insert(Ok((one, _))), Reply::Insert(Ok((other, _)))] = replies.as_slice() else {
        panic!("{replies:?}");
    };
    numbers.send(*one).expect("room");
    numbers.send(*other).expect("room");
    numbers
}

#[track_caller]
fn assert_shows_ten_alone(numbers: &Numbers) {
    let shows = |key| numbers.contains_key_with_hash(&key, numbers.hash(&key), NOW);
    assert!(!shows(1));
    assert!(shows(2));
}

#[test]
fn what_lies_below_a_bound_is_hidden_and_leaves() {
    let mut numbers = nine_and_ten();
    hide_below(&mut numbers, 10, NOW, &mut CountedIds(0)).expect("a free identifier");
    assert_shows_ten_alone(&numbers);

    assert!(!run_after_hiding(&mut numbers, NOW), "more is left");
    assert_eq!(numbers.entry_count(), 1);
    assert_shows_ten_alone(&numbers);
}
