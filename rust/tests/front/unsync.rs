//! The cache with one owner.

use ravulemis::ops::compute::{CompResult, Op};
use ravulemis::unsync::Cache;
use ravulemis::{EvictionPolicy, Expiry, PredicateError, RemovalCause};
use std::collections::HashMap;
use std::panic::{AssertUnwindSafe, catch_unwind};
use std::sync::Arc;
use std::sync::mpsc::{self, Receiver};
use std::thread::sleep;
use std::time::{Duration, Instant};

type Left = Receiver<(u32, String, RemovalCause)>;

/// A cache of texts in order of use, and what leaves it.
fn watched(max_capacity: u64) -> (Cache<u32, String>, Left) {
    let (sender, left) = mpsc::channel();
    let cache = Cache::<u32, _>::builder()
        .max_capacity(max_capacity)
        .eviction_policy(EvictionPolicy::lru())
        .eviction_listener(move |key, value, cause| sender.send((*key, value, cause)).unwrap())
        .build();
    (cache, left)
}

#[test]
fn agrees_with_a_map_where_nothing_leaves() {
    let (mut cache, mut map) = (Cache::builder().build(), HashMap::new());
    let mut seed = 1u64;
    for step in 0..20_000u64 {
        seed = seed.wrapping_mul(6364136223846793005).wrapping_add(1442695040888963407);
        let key = (seed >> 33) % 200;
        match (seed >> 60) % 5 {
            0 => assert_eq!(cache.remove(&key), map.remove(&key)),
            1 | 2 => {
                cache.insert(key, step);
                map.insert(key, step);
            }
            3 => assert_eq!(cache.contains_key(&key), map.contains_key(&key)),
            _ => assert_eq!(cache.get(&key), map.get(&key).copied()),
        }
        if step % 5_000 == 4_999 {
            cache.invalidate_all();
            cache.run_pending_tasks();
            map.clear();
        }
    }
    cache.run_pending_tasks();
    let entries: HashMap<_, _> = cache.iter().map(|(key, value)| (*key, value)).collect();
    assert_eq!((cache.entry_count() as usize, entries), (map.len(), map));
}

#[test]
fn a_capacity_of_nothing_keeps_nothing() {
    let (mut cache, left) = watched(0);
    cache.insert(1, "one".to_string());
    assert_eq!(
        (cache.get(&1), cache.remove(&1), cache.contains_key(&1)),
        (None, None, false)
    );
    assert_eq!(cache.get_with(1, || "two".to_string()), "two");
    cache.run_pending_tasks();
    assert_eq!(cache.entry_count(), 0);
    assert!(left.try_recv().is_err(), "nothing was there that could leave");
}

#[test]
fn tells_each_value_once_with_its_cause() {
    let (mut cache, left) = watched(2);
    for key in 0..4 {
        cache.insert(key, "old".to_string());
        cache.run_pending_tasks();
    }
    cache.insert(3, "new".to_string());
    cache.invalidate(&2);
    cache.run_pending_tasks();
    let causes: Vec<_> = left.try_iter().map(|(key, _, cause)| (key, cause)).collect();
    let wanted = [
        (0, RemovalCause::Size),
        (1, RemovalCause::Size),
        (3, RemovalCause::Replaced),
        (2, RemovalCause::Explicit),
    ];
    assert_eq!(causes, wanted);
    let stats = cache.stats();
    assert_eq!(
        (stats.evicted, stats.replaced, stats.explicit, stats.expired),
        (2, 1, 1, 0)
    );
}

#[test]
fn bounds_by_weight() {
    let mut cache = Cache::<u32, _>::builder()
        .max_capacity(10)
        .eviction_policy(EvictionPolicy::lru())
        .weigher(|_: &u32, text: &String| text.len() as u32)
        .build();
    for key in 0..4 {
        cache.insert(key, "four".to_string());
    }
    cache.insert(9, "far too heavy".to_string());
    cache.run_pending_tasks();
    assert_eq!(
        (cache.weighted_size(), cache.entry_count(), cache.get(&9)),
        (8, 2, None)
    );
}

// How long entries last, so long that a machine with other work lets none expire between two calls; and longer.
const LONG: Duration = Duration::from_secs(2);
const LONGER: Duration = Duration::from_millis(2100);

#[test]
fn lets_entries_expire() {
    let mut cache = Cache::<u32, u32>::builder().time_to_live(LONG).build();
    cache.insert(1, 1);
    assert_eq!(cache.get(&1), Some(1));
    sleep(LONGER);
    assert_eq!((cache.contains_key(&1), cache.get(&1)), (false, None));
}

#[test]
fn hands_out_what_has_expired() {
    let mut cache = Cache::<u32, u32>::builder().time_to_live(LONG).build();
    cache.insert(1, 1);
    sleep(LONGER);
    assert!(!cache.contains_key(&1));
    assert_eq!((cache.remove(&1), cache.remove(&1)), (Some(1), None));
}

#[test]
fn a_slow_maker_takes_nothing_of_the_time_to_live() {
    let mut cache = Cache::<u32, u32>::builder().time_to_live(LONG).build();
    let make = || {
        sleep(LONGER);
        1
    };
    assert_eq!(cache.get_with(1, make), 1);
    assert_eq!(cache.get(&1), Some(1));
}

#[test]
fn a_read_keeps_an_entry_from_idling_out() {
    let mut cache = Cache::<u32, u32>::builder().time_to_idle(LONG).build();
    cache.insert(1, 1);
    for _ in 0..4 {
        sleep(Duration::from_millis(600));
        assert_eq!(cache.get(&1), Some(1));
    }
    sleep(LONGER);
    assert_eq!(cache.get(&1), None);
}

/// An entry lasts as many hours as its value says, from when it was written.
struct Hours;

impl Expiry<u64, u64> for Hours {
    fn expire_after_create(&self, _: &u64, hours: &u64, created_at: Instant) -> Option<Duration> {
        assert!(created_at <= Instant::now());
        Some(Duration::from_secs(3600 * hours))
    }

    fn expire_after_update(&self, _: &u64, hours: &u64, _: Instant, left: Option<Duration>) -> Option<Duration> {
        assert!(left <= Some(Duration::from_secs(3600)));
        Some(Duration::from_secs(3600 * hours))
    }
}

#[test]
fn entries_expire_by_themselves() {
    let mut cache = Cache::<u64, _>::builder().expire_after(Hours).build();
    cache.insert(1, 1);
    cache.insert(2, 0);
    assert_eq!((cache.get(&1), cache.get(&2)), (Some(1), None));
    cache.insert(1, 0);
    assert_eq!(cache.get(&1), None);
    cache.run_pending_tasks();
    assert_eq!((cache.entry_count(), cache.stats().expired), (0, 2));
}

#[test]
fn an_expiry_may_be_shared() {
    let expiry: Arc<dyn Expiry<u64, u64> + Send + Sync> = Arc::new(Hours);
    let mut cache = Cache::<u64, _>::builder().expire_after(expiry).build();
    cache.insert(1, 1);
    cache.insert(2, 0);
    assert_eq!((cache.get(&1), cache.get(&2)), (Some(1), None));
}

#[test]
fn an_invalidation_hides_what_was_before_it_alone() {
    let mut cache = Cache::<u32, u32>::builder().support_invalidation_closures().build();
    for round in 0..200 {
        cache.insert(1, round);
        cache.invalidate_all();
        assert_eq!(cache.get(&1), None);
        cache.insert(1, round);
        assert_eq!(cache.get(&1), Some(round));
        cache.invalidate_entries_if(|key, _| *key == 1).unwrap();
        assert_eq!(cache.get(&1), None);
        cache.insert(1, round);
        assert_eq!(cache.get(&1), Some(round));
        cache.run_pending_tasks();
        assert_eq!(cache.entry_count(), 1);
    }
}

#[test]
fn predicates_are_refused_where_they_are_not_supported() {
    let mut cache = Cache::<u32, u32>::new(10);
    let refused = cache.invalidate_entries_if(|_, _| true);
    assert_eq!(refused, Err(PredicateError::InvalidationClosuresDisabled));
}

#[test]
fn counts_loads() {
    let mut cache = Cache::<u32, u32>::new(10);
    assert_eq!(cache.get_with(1, || 1), 1);
    assert_eq!(cache.try_get_with::<_, &str>(2, || Err("no")), Err("no"));
    assert_eq!(cache.optionally_get_with(1, || None), Some(1));
    assert_eq!(cache.optionally_get_with(2, || None), None);
    let stats = cache.stats();
    assert_eq!(
        (stats.hits, stats.misses, stats.loads, stats.load_failures),
        (1, 3, 1, 2)
    );
}

#[test]
fn entries_are_put_replaced_and_taken_out() {
    let mut cache = Cache::<String, u32>::new(10);
    let entry = cache.entry_by_ref("key").or_insert(1);
    assert_eq!((entry.is_fresh(), entry.is_old_value_replaced()), (true, false));
    let entry = cache.entry("key".to_string()).or_insert_with_if(|| 2, |old| *old == 1);
    assert_eq!((entry.is_fresh(), entry.is_old_value_replaced()), (true, true));
    let entry = cache.entry("key".to_string()).or_insert_with_if(|| 3, |old| *old == 1);
    assert_eq!((entry.is_fresh(), *entry.value()), (false, 2));
    let put = cache
        .entry_by_ref("key")
        .and_compute_with(|old| Op::Put(old.unwrap().into_value() + 1));
    assert!(matches!(put, CompResult::ReplacedWith(entry) if *entry.value() == 3));
    let failed = cache.entry_by_ref("key").and_try_compute_with::<_, &str>(|_| Err("no"));
    assert_eq!(failed.map(|_| ()), Err("no"));
    let taken = cache.entry_by_ref("key").and_compute_with(|_| Op::Remove);
    assert!(matches!(taken, CompResult::Removed(entry) if *entry.value() == 3));
    let none = cache.entry_by_ref("key").and_compute_with(|_| Op::Nop);
    assert!(matches!(none, CompResult::StillNone(key) if *key == "key"));
    let stats = cache.stats();
    assert_eq!(
        (stats.hits, stats.misses, stats.loads, stats.load_failures),
        (5, 2, 2, 0)
    );
    assert_eq!((stats.replaced, stats.explicit), (2, 1));
}

#[test]
fn can_be_sent_to_a_thread() {
    let (mut cache, left) = watched(1);
    let sent = std::thread::spawn(move || {
        cache.insert(1, "one".to_string());
        cache
    });
    let mut cache = sent.join().unwrap();
    assert_eq!(cache.get(&1).as_deref(), Some("one"));
    drop(cache);
    assert!(left.try_recv().is_err(), "a cache that is let go tells nobody");
}

#[test]
fn a_panic_within_a_call_keeps_no_notice_back() {
    let (sender, told) = mpsc::channel();
    let mut cache = Cache::<u32, _>::builder()
        .support_invalidation_closures()
        .eviction_listener(move |_, value, _| sender.send(value).unwrap())
        .build();
    cache.insert(0, 0);
    cache.run_pending_tasks();
    let predicate = |_: &u32, _: &u32| panic!("a predicate that panics");
    cache.invalidate_entries_if(predicate).unwrap();
    cache.insert(1, 0);
    // Within 64 of these a run asks the predicate.
    let mut replaces = |value| catch_unwind(AssertUnwindSafe(|| cache.insert(1, value))).is_ok();
    let replaced = (1..=100).take_while(|value| replaces(*value)).count() as u32 + 1;
    assert!(replaced < 100);
    assert_eq!(told.try_iter().collect::<Vec<_>>(), (0..replaced).collect::<Vec<_>>());
}

#[test]
fn what_leaves_by_a_look_up_has_left_before_the_maker_is_called() {
    type Call = fn(&mut Cache<u32, Arc<u32>>, &dyn Fn() -> Arc<u32>);
    let calls: [(&str, Call); 6] = [
        ("get_with", |it, make| _ = it.get_with(2, make)),
        ("or_insert_with", |it, make| _ = it.entry(2).or_insert_with(make)),
        ("or_insert_with_if", |it, make| {
            _ = it.entry_by_ref(&2).or_insert_with_if(make, |_| true);
        }),
        ("or_optionally_insert_with", |it, make| {
            _ = it.entry(2).or_optionally_insert_with(|| Some(make()));
        }),
        ("or_try_insert_with", |it, make| {
            _ = it.entry(2).or_try_insert_with(|| Ok::<_, String>(make()));
        }),
        ("and_upsert_with", |it, make| {
            _ = it.entry_by_ref(&2).and_upsert_with(|_| make());
        }),
    ];
    let calls = calls.map(|(name, call)| {
        let value = Arc::new(1);
        let with_listener = Cache::<u32, _>::builder().eviction_listener(|_, _, _| ()).build();
        let caches = [Cache::builder().build(), with_listener].map(|mut cache| {
            cache.insert(1, Arc::clone(&value));
            cache.invalidate_all();
            cache
        });
        (name, call, caches, value)
    });
    // After this a run is due.
    sleep(Duration::from_millis(310));
    for (name, call, caches, value) in calls {
        for (before, mut cache) in [2, 1].into_iter().zip(caches) {
            let make = || {
                assert_eq!(Arc::strong_count(&value), before, "{name}");
                Arc::new(2)
            };
            call(&mut cache, &make);
        }
    }
}
