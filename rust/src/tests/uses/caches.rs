//! Tests of callers of the synchronous cache.

use super::NOW;
use crate::callers::moka_uses::batches::{ask, drop_all, load};
use crate::callers::moka_uses::invalidated::CountedIds;
use crate::callers::moka_uses::read_through::look_up;
use crate::callers::moka_uses::released::{Connections, Places, close};
use crate::callers::moka_uses::selected::put_if_absent;
use crate::callers::moka_uses::{cached, handled, texts, visits};
use crate::engine::moka_cache::Cache;
use crate::engine::moka_engine::{CacheConfig, FixedClock, Instant, NoPredicate};
use crate::support::alloc::Global;
use crate::support::vec;

fn cache() -> Cache<u64, u64> {
    Cache::build(CacheConfig::default(), Global, NOW).expect("memory")
}

#[test]
fn a_value_that_was_put_is_found() {
    assert_eq!(cached::put_and_get(Global, 1, 10, NOW).expect("memory"), Some(10));
}

#[test]
fn rows_are_put_in_found_and_taken_out() {
    let clock = &mut FixedClock(NOW);
    let mut cache = cache();
    let rows = vec::Vec::from_array(Global, [(1, 10), (2, 20), (3, 30)]).expect("memory");
    load(&mut cache, rows, NOW, clock).expect("memory");
    let found = ask(Global, &mut cache, &[3, 4, 1], NOW, clock).expect("memory");
    assert_eq!(found.as_slice(), [Some(30), None, Some(10)]);

    drop_all(&mut cache, &[1, 2], NOW, clock).expect("memory");
    for (key, is_left) in [(1, false), (2, false), (3, true)] {
        assert_eq!(cache.contains_key(&key, NOW), is_left, "key {key}");
    }
}

#[test]
fn a_value_is_put_and_taken() {
    let clock = &mut FixedClock(NOW);
    let mut cache = cache();
    handled::put(&mut cache, 1, 10, NOW, clock).expect("memory");
    assert_eq!(handled::take(&mut cache, 1, NOW, clock), Some(10));
    assert_eq!(handled::value_or_made(&mut cache, 1, || 20, NOW, clock), Ok(20));
}

#[test]
fn all_is_hidden_if_a_predicate_is_refused() {
    let mut cache = cache();
    handled::put(&mut cache, 1, 10, NOW, &mut FixedClock(NOW)).expect("memory");
    // The cache was built without support for predicates.
    let later = Instant(1);
    assert_eq!(handled::hide(&mut cache, NoPredicate, later, &mut CountedIds(0)), None);
    assert!(!cache.contains_key(&1, later));
}

#[test]
fn a_capacity_is_set_to_at_least_one() {
    assert_eq!(handled::resize(&mut cache(), 0), 1);
}

#[test]
fn a_source_is_asked_until_it_answers() {
    let mut cache = cache();
    let mut ask = |answer| look_up(&mut cache, 1, || answer, NOW, &mut FixedClock(NOW)).expect("memory");
    assert_eq!(ask(Err("no answer")), Err("no answer"));
    assert_eq!(ask(Ok(10)), Ok(10));
    assert_eq!(ask(Err("no answer")), Ok(10));
}

#[test]
fn only_the_first_value_is_put() {
    let clock = &mut FixedClock(NOW);
    let mut cache = cache();
    let put = put_if_absent(&mut cache, 1, 10, NOW, clock).expect("memory");
    assert!(put.is_fresh);
    assert_eq!(put.value, 10);
    let found = put_if_absent(&mut cache, 1, 20, NOW, clock).expect("memory");
    assert!(!found.is_fresh);
    assert_eq!(found.value, 10);
}

#[test]
fn a_page_is_counted_and_taken_out_when_it_is_full() {
    let clock = &mut FixedClock(NOW);
    let mut pages = cache();
    for visits in 1..=2 {
        assert_eq!(visits::count(&mut pages, 7, NOW, clock).expect("memory"), visits);
    }
    assert_eq!(visits::take_full(&mut pages, 7, 3, NOW, clock), None);
    assert_eq!(visits::take_full(&mut pages, 7, 2, NOW, clock), Some(2));
    assert!(!pages.contains_key(&7, NOW));
}

#[test]
fn a_connection_that_is_closed_gives_its_place_back() {
    let clock = &mut FixedClock(NOW);
    let config = CacheConfig::default().eviction_listener(Places { free: 0 });
    let mut connections = Connections::build(config, Global, NOW).expect("memory");
    connections.insert(1, 10, NOW, clock).expect("memory");
    close(&mut connections, &1, NOW, clock).expect("memory");
    assert_eq!(connections.engine().listener(), Some(&Places { free: 1 }));
}

#[test]
fn texts_are_listed() {
    let clock = &mut FixedClock(NOW);
    let mut cache = Cache::build(CacheConfig::default(), Global, NOW).expect("memory");
    let (key, text) = ("key".to_owned(), "text".to_owned());
    cache.insert(key.clone(), text.clone(), NOW, clock).expect("memory");
    let listed = texts::list(&cache, NOW).expect("memory");
    assert_eq!(listed.as_slice(), [(key, text)]);
}
