//! What leaves a shared cache: whom a call tells, for whom it waits, and where keys and values are dropped.

use crate::waits::ends;
use ravulemis::RemovalCause;
use ravulemis::ops::compute::Op;
use ravulemis::policy::EvictionPolicy;
use ravulemis::sync::Cache;
use std::cell::Cell;
use std::collections::HashMap;
use std::panic::{AssertUnwindSafe, RefUnwindSafe, UnwindSafe, catch_unwind};
use std::sync::atomic::{AtomicU32, AtomicU64, Ordering};
use std::sync::{Arc, Mutex, OnceLock, mpsc};
use std::thread::{self, ThreadId};
use std::time::{Duration, Instant};

fn count(counter: &AtomicU32) {
    counter.fetch_add(1, Ordering::SeqCst);
}

/// A cache of one shard whose listener is in the middle of a call by another thread, and waits for a lock, while 2,000
/// notices wait. A maker waits for no turn, so it is one that puts them there.
fn busy(lock: &Arc<Mutex<()>>, listen: impl Fn() + Send + Sync + 'static) -> Cache<u32, u32> {
    let (starts, started) = mpsc::channel();
    let seen = Arc::clone(lock);
    let listener = move |_, _, _| {
        let _ = starts.send(());
        drop(seen.lock());
        listen();
    };
    let cache = Cache::<u32, _>::builder().shards(1).eviction_listener(listener).build();
    cache.insert(1, 0);
    let told = cache.clone();
    thread::spawn(move || told.insert(1, 1));
    started.recv().unwrap();
    let (fills, full) = mpsc::channel();
    let filled = cache.clone();
    thread::spawn(move || {
        filled.get_with(2, || {
            (0..2000).for_each(|value| filled.insert(1, value));
            fills.send(()).unwrap();
            7
        })
    });
    full.recv().unwrap();
    cache
}

#[test]
fn a_call_by_which_nothing_left_waits_for_no_listener() {
    let lock = Arc::new(Mutex::new(()));
    let held = lock.lock().unwrap();
    let cache = busy(&lock, || {});
    type Call = fn(&Cache<u32, u32>);
    let calls: [(&str, Call); 8] = [
        ("get", |cache| assert!(cache.get(&1).is_some())),
        ("contains_key", |cache| assert!(cache.contains_key(&1))),
        ("entry_count", |cache| assert!(cache.entry_count() <= 4)),
        ("stats", |cache| assert!(cache.stats().replaced > 2000)),
        ("iter", |cache| assert!(cache.iter().count() > 0)),
        ("Debug", |cache| assert!(format!("{cache:?}").contains("1: "))),
        ("get_with", |cache| assert_eq!(cache.get_with(3, || 3), 3)),
        ("and_upsert_with", |cache| drop(cache.entry(4).and_upsert_with(|_| 4))),
    ];
    for (name, call) in calls {
        let cache = cache.clone();
        assert!(ends(move || call(&cache)), "{name} has not come back");
    }
    drop(held);
}

#[test]
fn a_call_lets_one_batch_go_where_there_is_a_listener() {
    let told = Arc::new(AtomicU32::new(0));
    let counts = Arc::clone(&told);
    let cache = Cache::<u32, _>::builder()
        .shards(1)
        .eviction_listener(move |_, _, _| count(&counts))
        .build();
    (0..10_000).for_each(|key| cache.insert(key, key));
    cache.run_pending_tasks();
    cache.invalidate_all();
    let mut most = 0;
    for key in 10_000..10_100 {
        let before = told.load(Ordering::SeqCst);
        cache.insert(key, key);
        most = most.max(told.load(Ordering::SeqCst) - before);
    }
    assert!((1..1000).contains(&most), "one call told of {most}");
    assert_eq!(
        told.load(Ordering::SeqCst),
        10_000,
        "the following calls tell of the rest"
    );
}

#[test]
fn a_shard_exceeds_its_capacity_by_64_entries_at_most() {
    let cache = Cache::<u32, _>::builder().max_capacity(100).shards(1).build();
    let insert = |key| {
        cache.insert(key, key);
        cache.iter().count()
    };
    let most = (0..1000).map(insert).max();
    assert!(most <= Some(164), "there were {most:?}");
}

#[test]
fn heavy_entries_exceed_no_capacity_where_there_is_a_listener() {
    for (policy, first) in [(EvictionPolicy::lru(), 50_000), (EvictionPolicy::tiny_lfu(), 0)] {
        let cache = Cache::<u32, _>::builder()
            .max_capacity(500_000)
            .weigher(|_, weight: &u32| *weight)
            .eviction_policy(policy)
            .eviction_listener(|_, _, _| ())
            .build();
        (0..50_000).for_each(|key| cache.insert(key, 10));
        cache.run_pending_tasks();
        let insert = |key| {
            cache.insert(key, 50_000);
            cache.weighted_size()
        };
        let most = (first..first + 400).map(insert).max();
        assert!(most <= Some(500_000), "they weighed {most:?}");
    }
}

#[test]
fn a_run_that_look_ups_or_removals_start_keeps_the_bound() {
    type Call = fn(&Cache<u32, u32>, u32) -> Option<u32>;
    let calls: [Call; 2] = [|cache, key| cache.get(&key), |cache, key| cache.remove(&key)];
    for call in calls {
        let cache = Cache::<u32, _>::builder()
            .max_capacity(500_000)
            .weigher(|_, weight: &u32| *weight)
            .eviction_policy(EvictionPolicy::lru())
            .eviction_listener(|_, _, _| ())
            .build();
        (0..50_000).for_each(|key| cache.insert(key, 10));
        cache.run_pending_tasks();
        // Too few to start a run.
        (50_000..50_020).for_each(|key| cache.insert(key, 50_000));
        let found = (0..200).filter_map(|key| call(&cache, key)).count();
        assert!(found > 0);
        assert!(cache.weighted_size() <= 500_000, "they weigh {}", cache.weighted_size());
        assert!(cache.contains_key(&50_019), "no run was made of the last");
    }
}

#[test]
fn the_turn_to_tell_goes_on_to_one_who_waits_for_it() {
    let lock = Arc::new(Mutex::new(()));
    let held = lock.lock().unwrap();
    let told: Arc<Mutex<HashMap<ThreadId, u32>>> = Arc::default();
    let counts = Arc::clone(&told);
    let cache = busy(&lock, move || {
        *counts.lock().unwrap().entry(thread::current().id()).or_default() += 1;
        thread::sleep(Duration::from_micros(400));
    });
    let (starts, started) = mpsc::channel();
    let waits = thread::spawn(move || {
        starts.send(()).unwrap();
        cache.insert(1, 0);
        thread::current().id()
    });
    started.recv().unwrap();
    drop(held);
    let second = waits.join().unwrap();
    let told = told.lock().unwrap();
    assert!(told.contains_key(&second), "one thread told all that waited");
}

thread_local! {
    // Whether this is the thread that was the first to notify.
    static IS_FIRST: Cell<bool> = const { Cell::new(false) };
}

/// How many notices a cache has, of what was replaced, that its listener was not told.
fn pending(cache: &OnceLock<Cache<u64, u64>>, told: &AtomicU64) -> u64 {
    let replaced = cache.get().map_or(0, |cache| cache.stats().replaced);
    replaced.saturating_sub(told.load(Ordering::SeqCst))
}

#[test]
fn a_call_tells_its_turn_and_no_more_while_others_put_notices_there() {
    const ALL: u64 = 3000;
    static OWN: OnceLock<Cache<u64, u64>> = OnceLock::new();
    static TOLD: AtomicU64 = AtomicU64::new(0);
    static BY_FIRST: AtomicU32 = AtomicU32::new(0);
    let listener = |_, _, _| {
        TOLD.fetch_add(1, Ordering::SeqCst);
        if IS_FIRST.get() {
            count(&BY_FIRST);
            // Another comes before this has returned, unless its thread waits for the turn.
            let start = Instant::now();
            while pending(&OWN, &TOLD) == 0 && start.elapsed() < Duration::from_millis(200) {
                thread::yield_now();
            }
        }
    };
    let cache = OWN.get_or_init(|| Cache::builder().shards(1).eviction_listener(listener).build());
    cache.insert(1, 0);
    let others = thread::spawn(|| {
        while TOLD.load(Ordering::SeqCst) == 0 {
            thread::yield_now();
        }
        for value in 0..ALL {
            while pending(&OWN, &TOLD) > 50 {
                thread::yield_now();
            }
            cache.insert(1, value);
        }
    });
    IS_FIRST.set(true);
    cache.insert(1, ALL);
    let told = BY_FIRST.load(Ordering::SeqCst);
    others.join().unwrap();
    assert!((1..1000).contains(&told), "one insert told {told}");
    assert_eq!(TOLD.load(Ordering::SeqCst), ALL + 1);
}

#[test]
fn who_put_notices_there_in_a_maker_waits_after_it() {
    const CALLS: u64 = 1500;
    static OWN: OnceLock<Cache<u64, u64>> = OnceLock::new();
    static TOLD: AtomicU64 = AtomicU64::new(0);
    let listener = |_, _, _| {
        TOLD.fetch_add(1, Ordering::SeqCst);
        let start = Instant::now();
        // As long as the makers go on, or a while.
        while IS_FIRST.get() && pending(&OWN, &TOLD) < CALLS && start.elapsed() < Duration::from_millis(1) {
            thread::yield_now();
        }
    };
    let cache = OWN.get_or_init(|| Cache::builder().shards(1).eviction_listener(listener).build());
    cache.insert(1, 0);
    let first = thread::spawn(|| {
        IS_FIRST.set(true);
        cache.insert(1, 1);
    });
    while TOLD.load(Ordering::SeqCst) == 0 {
        thread::yield_now();
    }
    let users = Cache::<u64, u64>::new(10_000);
    let call = |key| {
        users.get_with(key, || {
            cache.insert(1, key);
            key
        });
        pending(&OWN, &TOLD)
    };
    let most = (0..CALLS).map(call).max();
    first.join().unwrap();
    assert!(most <= Some(1025), "{most:?} notices waited");
    assert_eq!(TOLD.load(Ordering::SeqCst), CALLS + 1);
}

#[test]
fn makers_and_listeners_of_caches_that_call_each_other_end() {
    const CALLS: u64 = 2000;
    static CACHES: [OnceLock<Cache<u64, u64>>; 2] = [const { OnceLock::new() }; 2];
    static TOLD: AtomicU64 = AtomicU64::new(0);
    for (index, cache) in CACHES.iter().enumerate() {
        let listener = move |_, left, _| {
            TOLD.fetch_add(1, Ordering::SeqCst);
            if left > 0 {
                CACHES[1 - index].get().unwrap().insert(1, left - 1);
            }
        };
        cache.get_or_init(|| Cache::builder().shards(1).eviction_listener(listener).build());
    }
    let call = |number: usize| {
        let users = Cache::<u64, u64>::new(10_000);
        for key in 0..CALLS {
            let cache = CACHES[number % 2].get().unwrap();
            users.get_with(key, || {
                cache.insert(1, 3);
                key
            });
        }
    };
    let calls = move || {
        let threads: Vec<_> = (0..4).map(|number| thread::spawn(move || call(number))).collect();
        threads.into_iter().for_each(|thread| thread.join().unwrap());
    };
    assert!(ends(calls));
    let replaced = CACHES.iter().map(|cache| cache.get().unwrap().stats().replaced).sum();
    assert_eq!(TOLD.load(Ordering::SeqCst), replaced, "a notice was kept back");
}

#[test]
fn the_listener_is_told_between_the_runs_of_a_call() {
    static OWN: OnceLock<Cache<u32, u32>> = OnceLock::new();
    static MOST: AtomicU32 = AtomicU32::new(0);
    let listener = |_, _, _| {
        let left = OWN.get().map_or(0, |cache| cache.entry_count());
        MOST.fetch_max(left.try_into().unwrap(), Ordering::SeqCst);
    };
    let builder = Cache::<u32, _>::builder().shards(1).support_invalidation_closures();
    let cache = OWN.get_or_init(|| builder.eviction_listener(listener).build());
    (0..2000).for_each(|key| cache.insert(key, key));
    cache.run_pending_tasks();
    cache.invalidate_entries_if(|_, _| true).unwrap();
    cache.run_pending_tasks();
    assert_eq!(cache.entry_count(), 0);
    assert!(MOST.load(Ordering::SeqCst) > 0, "all had left before the first notice");
}

#[test]
fn listeners_of_two_caches_may_call_each_other() {
    const KEYS: u32 = 1000;
    static ONE: OnceLock<Cache<u32, u32>> = OnceLock::new();
    static OTHER: OnceLock<Cache<u32, u32>> = OnceLock::new();
    static LEFT_ONE: Mutex<Vec<u32>> = Mutex::new(Vec::new());
    static LEFT_OTHER: Mutex<Vec<u32>> = Mutex::new(Vec::new());
    let listener = |key: Arc<u32>, value, _| {
        let mut left = LEFT_ONE.try_lock().expect("a listener within itself");
        left.push(*key);
        OTHER.get().unwrap().insert(*key, value);
    };
    let one = ONE.get_or_init(|| Cache::builder().shards(4).eviction_listener(listener).build());
    let listener = |key: Arc<u32>, _, _| {
        let mut left = LEFT_OTHER.try_lock().expect("a listener within itself");
        left.push(*key);
        ONE.get().unwrap().remove(&(*key + 1));
    };
    let other = OTHER.get_or_init(|| Cache::builder().shards(4).eviction_listener(listener).build());
    for key in 0..KEYS {
        one.insert(key, key);
        other.insert(key, KEYS);
    }
    assert!(ends(move || one.invalidate(&0)));
    let all: Vec<_> = (0..KEYS).collect();
    assert_eq!(*LEFT_ONE.lock().unwrap(), all);
    assert_eq!(*LEFT_OTHER.lock().unwrap(), all);
    assert_eq!((one.iter().count(), other.iter().count()), (0, all.len()));
    assert!(all.iter().all(|key| other.get(key) == Some(*key)));
}

#[test]
fn a_predicate_that_is_refused_makes_no_run() {
    let told = Arc::new(AtomicU32::new(0));
    let counts = Arc::clone(&told);
    let cache = Cache::<u32, _>::builder()
        .shards(1)
        .time_to_live(Duration::from_millis(1))
        .eviction_listener(move |_, _, _| count(&counts))
        .build();
    cache.insert(0_u32, 0_u32);
    // After this a run is due, which lets the entry leave.
    thread::sleep(Duration::from_millis(400));
    assert!(cache.invalidate_entries_if(|_, _| true).is_err());
    assert_eq!(told.load(Ordering::SeqCst), 0);
    cache.run_pending_tasks();
    assert_eq!(told.load(Ordering::SeqCst), 1);
}

#[test]
fn a_panic_within_a_call_keeps_no_notice_back() {
    let told = Arc::new(AtomicU32::new(0));
    let counts = Arc::clone(&told);
    let cache = Cache::<u32, _>::builder()
        .shards(1)
        .support_invalidation_closures()
        .eviction_listener(move |_, _, _| count(&counts))
        .build();
    cache.insert(0, 0);
    cache.run_pending_tasks();
    let predicate = |_: &u32, _: &u32| panic!("a predicate that panics");
    cache.invalidate_entries_if(predicate).unwrap();
    cache.insert(1, 0);
    // Within 64 of these a run asks the predicate.
    let replaces = |value| catch_unwind(AssertUnwindSafe(|| cache.insert(1, value))).is_ok();
    let replaced = (1..=100).take_while(|value| replaces(*value)).count() as u32 + 1;
    assert!(replaced < 100);
    assert_eq!(told.load(Ordering::SeqCst), replaced);
}

/// A key or value whose drop calls the cache that it is in.
#[derive(Clone, PartialEq, Eq, Hash)]
struct Caller(u32);

static OF_CALLERS: OnceLock<Cache<Caller, Caller>> = OnceLock::new();

impl Drop for Caller {
    fn drop(&mut self) {
        if let Some(cache) = OF_CALLERS.get() {
            cache.entry_count();
        }
    }
}

#[test]
fn what_leaves_is_dropped_without_a_lock() {
    let cache = OF_CALLERS.get_or_init(|| Cache::builder().max_capacity(10).shards(1).build());
    let insert = |key, value| cache.insert(Caller(key), Caller(value));
    assert!(ends(move || insert(1, 1)));
    assert!(
        ends(move || insert(1, 2)),
        "a value that is replaced, and a key that is there already"
    );
    assert!(
        ends(|| cache.entry(Caller(1)).and_upsert_with(|_| Caller(3))),
        "by an entry"
    );
    assert!(ends(|| cache.remove(&Caller(1))), "one that is taken out");
    insert(1, 4);
    assert!(ends(|| cache.invalidate(&Caller(1))), "one that is invalidated");
    assert!(
        ends(move || (0..1000).for_each(|key| insert(key, key))),
        "some that are evicted"
    );
    assert!(ends(|| cache.run_pending_tasks()), "all that exceed the capacity");
    assert_eq!((cache.entry_count(), cache.stats().explicit), (10, 2));
}

#[test]
fn what_leaves_by_the_look_up_of_an_entry_is_dropped_before_the_closure_is_called() {
    type Call = fn(&Cache<u32, Arc<u32>>, &dyn Fn());
    let calls: [(&str, Call); 5] = [
        ("get_with", |it, look| {
            let make = || {
                look();
                Arc::new(2)
            };
            it.get_with(2, make);
        }),
        ("or_insert_with_if", |it, look| {
            let make = || {
                look();
                Arc::new(2)
            };
            it.entry(2).or_insert_with_if(make, |_| true);
        }),
        ("and_upsert_with", |it, look| {
            let make = |_| {
                look();
                Arc::new(2)
            };
            it.entry(2).and_upsert_with(make);
        }),
        ("and_compute_with", |it, look| {
            let decide = |_| {
                look();
                Op::Nop
            };
            it.entry_by_ref(&2).and_compute_with(decide);
        }),
        ("and_try_compute_with", |it, look| {
            let decide = |_| {
                look();
                Err("no")
            };
            assert!(it.entry(2).and_try_compute_with(decide).is_err());
        }),
    ];
    let calls = calls.map(|(name, call)| {
        let (cache, value) = (Cache::<u32, _>::builder().shards(1).build(), Arc::new(1));
        cache.insert(1, Arc::clone(&value));
        cache.invalidate_all();
        (name, call, cache, value)
    });
    // After this a run is due.
    thread::sleep(Duration::from_millis(310));
    for (name, call, cache, value) in calls {
        let owners = Cell::new(0);
        call(&cache, &|| owners.set(Arc::strong_count(&value)));
        assert_eq!(owners.get(), 1, "{name}");
    }
}

#[test]
fn what_has_expired_leaves_while_only_another_shard_is_called() {
    let told = Arc::new(AtomicU32::new(0));
    let counts = Arc::clone(&told);
    let builder = Cache::<u32, _>::builder()
        .shards(4)
        .time_to_live(Duration::from_millis(1));
    let cache = builder.eviction_listener(move |_, _, _| count(&counts)).build();
    (0..100).for_each(|key| cache.insert(key, key));
    let start = Instant::now();
    let mut looks = 0;
    while told.load(Ordering::SeqCst) < 100 && start.elapsed() < Duration::from_secs(10) {
        cache.get(&1);
        looks += 1;
    }
    assert_eq!(told.load(Ordering::SeqCst), 100);
    assert_eq!(
        cache.stats().hits + cache.stats().misses,
        looks,
        "a visit is no look-up"
    );
}

#[test]
fn what_was_invalidated_leaves_while_only_another_shard_is_called() {
    type Hides = fn(&Cache<u32, Arc<u32>>, Arc<u32>);
    let ways: [(&str, Hides); 2] = [
        ("invalidate_all", |cache, _| cache.invalidate_all()),
        ("invalidate_entries_if", |cache, captured| {
            let predicate = move |_: &u32, _: &Arc<u32>| Arc::strong_count(&captured) > 0;
            drop(cache.invalidate_entries_if(predicate).unwrap());
        }),
    ];
    for (name, hide) in ways {
        let builder = Cache::<u32, _>::builder().shards(4);
        let cache = builder.support_invalidation_closures().build();
        let (value, captured) = (Arc::new(1), Arc::new(2));
        (0..100).for_each(|key| cache.insert(key, Arc::clone(&value)));
        hide(&cache, Arc::clone(&captured));
        let start = Instant::now();
        let kept = || Arc::strong_count(&value) + Arc::strong_count(&captured) > 2;
        while kept() && start.elapsed() < Duration::from_secs(10) {
            cache.get(&1);
        }
        assert!(!kept(), "{name}");
    }
}

#[test]
fn many_leave_a_quiet_shard_by_each_visit() {
    let told = Arc::new(AtomicU32::new(0));
    let counts = Arc::clone(&told);
    let builder = Cache::<u32, _>::builder()
        .shards(2)
        .time_to_live(Duration::from_millis(500));
    let cache = builder.eviction_listener(move |_, _, _| count(&counts)).build();
    (0..40_000).for_each(|key| cache.insert(key, key));
    let start = Instant::now();
    while told.load(Ordering::SeqCst) < 40_000 && start.elapsed() < Duration::from_secs(10) {
        cache.get(&1);
        thread::sleep(Duration::from_millis(1));
    }
    assert_eq!(told.load(Ordering::SeqCst), 40_000);
}

#[test]
fn what_was_invalidated_leaves_by_the_next_call_where_nothing_expires() {
    let cache = Cache::<u32, _>::builder().shards(1).build();
    (0..10).for_each(|key| cache.insert(key, Arc::new(key)));
    let value = cache.get(&1).unwrap();
    cache.invalidate_all();
    thread::sleep(Duration::from_millis(310));
    assert_eq!(cache.get(&1), None);
    assert_eq!(
        (cache.entry_count(), Arc::strong_count(&value)),
        (0, 1),
        "a run was due"
    );
}

#[test]
fn predicates_do_not_pile_up_where_nothing_else_is_called() {
    let asked = Arc::new(AtomicU32::new(0));
    let cache = Cache::<u32, _>::builder()
        .shards(1)
        .support_invalidation_closures()
        .build();
    cache.insert(1, 1);
    for _ in 0..1000 {
        let counts = Arc::clone(&asked);
        let predicate = move |_: &u32, _: &u32| {
            count(&counts);
            false
        };
        cache.invalidate_entries_if(predicate).unwrap();
    }
    let before = asked.load(Ordering::SeqCst);
    assert_eq!(cache.get(&1), Some(1));
    let in_get = asked.load(Ordering::SeqCst) - before;
    assert!(in_get < 200, "a get asked {in_get} predicates");
    assert_eq!(
        (cache.stats().hits, cache.stats().misses),
        (1, 0),
        "a registration is no look-up"
    );
}

#[test]
fn an_iterator_finds_what_was_taken_out_and_put_back() {
    let cache = Cache::<u32, _>::new(1000);
    (0..500).for_each(|key| cache.insert(key, 'a'));
    let mut entries = cache.iter();
    assert!(entries.next().is_some());
    for key in 0..500 {
        cache.invalidate(&key);
        cache.insert(key, 'b');
    }
    assert_eq!(entries.filter(|(_, value)| *value == 'b').count(), 499);
}

#[test]
fn causes_and_order_are_those_of_the_leaving() {
    let told: Arc<Mutex<Vec<_>>> = Arc::default();
    let list = Arc::clone(&told);
    let listener = move |key: Arc<u32>, value, cause| list.lock().unwrap().push((*key, value, cause));
    let cache = Cache::<u32, _>::builder().eviction_listener(listener).build();
    cache.insert(1, 'a');
    cache.insert(1, 'b');
    cache.insert(2, 'c');
    cache.entry(1).and_upsert_with(|_| 'd');
    cache.invalidate(&1);
    assert_eq!(cache.remove(&2), Some('c'));
    let expected = [
        (1, 'a', RemovalCause::Replaced),
        (1, 'b', RemovalCause::Replaced),
        (1, 'd', RemovalCause::Explicit),
        (2, 'c', RemovalCause::Explicit),
    ];
    assert_eq!(*told.lock().unwrap(), expected);
}

#[test]
fn a_cache_may_be_taken_over_an_unwinding() {
    fn is_safe<T: UnwindSafe + RefUnwindSafe>() {}
    is_safe::<Cache<String, Arc<Mutex<u32>>>>();
}

#[test]
fn a_shard_that_keeps_nothing_keeps_no_predicate() {
    let held = Arc::new(());
    let cache = Cache::<u32, u32>::builder()
        .max_capacity(0)
        .support_invalidation_closures()
        .build();
    let captured = Arc::clone(&held);
    cache
        .invalidate_entries_if(move |_, _| Arc::strong_count(&captured) == 0)
        .unwrap();
    assert_eq!(Arc::strong_count(&held), 1);
}
