//! Which types threads may share or hand on, and which generics calls have. That this compiles is the test.

use ravulemis::ops::compute::{CompResult, Op};
use ravulemis::{Entry, sync, unsync};
use std::hash::RandomState;
use std::sync::Arc;

fn is_sent<T: Send>() {}
fn is_shared<T: Send + Sync>() {}

fn are_shared_with_their_parts<K, Q, V, S>()
where
    K: Send + Sync + 'static,
    Q: Sync + ?Sized + 'static,
    V: Send + Sync + 'static,
    S: Send + Sync + 'static,
{
    is_shared::<sync::Cache<K, V, S>>();
    is_shared::<sync::CacheBuilder<K, V>>();
    is_shared::<sync::Iter<'_, K, V, S>>();
    is_shared::<sync::OwnedKeyEntrySelector<'_, K, V, S>>();
    is_shared::<sync::RefKeyEntrySelector<'_, K, Q, V, S>>();
    is_shared::<unsync::CacheBuilder<K, V>>();
    is_shared::<Entry<K, V>>();
    is_shared::<CompResult<K, V>>();
}

fn are_sent_with_their_parts<K, Q, V, S>()
where
    K: Send + Sync + 'static,
    Q: Sync + ?Sized + 'static,
    V: Send + 'static,
    S: Send + 'static,
{
    is_sent::<unsync::Cache<K, V, S>>();
    is_sent::<unsync::EntrySelector<'_, K, V, S>>();
    is_sent::<unsync::RefKeyEntrySelector<'_, K, Q, V, S>>();
}

// Calls that moka has of a cache of any key, value and hasher.
fn are_counted<K: 'static, V, S>(cache: &sync::Cache<K, V, S>) -> (u64, u64) {
    (cache.entry_count(), cache.weighted_size())
}

#[test]
fn a_cache_of_any_types_is_counted() {
    let cache = sync::Cache::builder().weigher(|_: &u32, weight: &u32| *weight).build();
    cache.insert(1, 7);
    cache.run_pending_tasks();
    assert_eq!(are_counted(&cache), (1, 7));
}

#[test]
fn what_threads_share_is_shared_with_all_that_calls_hand_out() {
    are_shared_with_their_parts::<String, str, Vec<u8>, RandomState>();
    are_sent_with_their_parts::<String, str, Vec<u8>, RandomState>();
}

// Makers and closures whose types are named in the order in which moka names them.
fn are_named<M, T, C>(cache: &sync::Cache<String, u32>, makes: M, tries: T, computes: C)
where
    M: Fn() -> Option<u32>,
    T: Fn() -> Result<u32, String>,
    C: Fn(Option<Entry<String, u32>>) -> Op<u32>,
{
    type Made = Result<u32, Arc<String>>;
    let key = || "key".to_string();
    let made = cache.optionally_get_with::<&M>(key(), &makes);
    assert_eq!(made, cache.optionally_get_with_by_ref::<&M, str>("key", &makes));
    let tried: Made = cache.try_get_with::<&T, String>(key(), &tries);
    assert_eq!(tried, cache.try_get_with_by_ref::<&T, String, str>("key", &tries));
    let entry = cache.entry(key()).or_try_insert_with::<&T, String>(&tries).unwrap();
    assert_eq!(tried, Ok(entry.into_value()));
    cache.entry(key()).and_compute_with::<&C>(&computes);
    cache.entry_by_ref("key").and_compute_with::<&C>(&computes);
    let seven: fn(_) -> u32 = |_| 7;
    assert_eq!(
        cache.entry(key()).and_upsert_with::<fn(_) -> u32>(seven).into_value(),
        7
    );
}

#[test]
fn the_types_of_makers_and_closures_can_be_named() {
    let listener: fn(_, _, _) = |_, _, _| {};
    let builder = sync::Cache::builder().eviction_listener::<fn(_, _, _)>(listener);
    are_named(&builder.build(), || Some(7), || Ok(7), |_| Op::Nop);
}
