//! Tests of weighers, predicates and tests of values: those that are closures, and those that do nothing.

use crate::engine::moka_parts::closures::{
    ByClosure, NoPredicate, NoTest, NoWeigher, PairFn, PredicateFn, ValueTest, Weigher,
};

fn weigher(closure: impl PairFn<u64, u64, u32>) -> impl Weigher<u64, u64> {
    ByClosure::new(closure)
}

fn predicate(closure: impl PairFn<u64, u64, bool>) -> impl PredicateFn<u64, u64> {
    ByClosure::new(closure)
}

#[test]
fn a_closure_weighs() {
    let heavy = 7;
    let weigher = weigher(|_: &u64, value: &u64| if *value == 2 { heavy } else { 1 });
    assert_eq!(weigher.weigh(&1, &2), 7);
    assert_eq!(weigher.weigh(&2, &1), 1);
}

#[test]
fn a_closure_covers_entries() {
    let are_equal = predicate(|key: &u64, value: &u64| key == value);
    assert!(are_equal.applies(&1, &1));
    assert!(!are_equal.applies(&1, &2));
}

#[test]
fn a_closure_that_changes_tests_values() {
    let mut asked = 0;
    let mut is_even = |value: &u64| {
        asked += 1;
        value.is_multiple_of(2)
    };
    assert_eq!([1, 2, 4].map(|value| is_even.ignores(&value)), [false, true, true]);
    assert_eq!(asked, 3);
}

#[test]
fn those_that_do_nothing_answer_the_same_each_time() {
    assert_eq!(NoWeigher.weigh(&1, &2), 1);
    assert!(!NoPredicate.applies(&1, &2));
    assert!(!NoTest.ignores(&1));
}
