//! The cache that threads share.

use crate::waits::{Watched, ends, watched, with_one_who_waits};
use ravulemis::ops::compute::{CompResult, Op};
use ravulemis::sync::{Cache, CacheBuilder};
use ravulemis::{EvictionPolicy, Expiry, RemovalCause};
use std::hash::{BuildHasher, Hasher};
use std::sync::atomic::{AtomicU32, AtomicU64, Ordering};
use std::sync::{Arc, Barrier, Mutex, OnceLock, mpsc};
use std::thread;
use std::time::{Duration, Instant};

#[test]
fn threads_share_it() {
    let cache = Cache::new(10_000);
    thread::scope(|scope| {
        for thread in 0..16u32 {
            let cache = cache.clone();
            scope.spawn(move || {
                for key in thread * 64..(thread + 1) * 64 {
                    cache.insert(key, key.to_string());
                    assert_eq!(cache.get(&key), Some(key.to_string()));
                }
                for key in (thread * 64..(thread + 1) * 64).step_by(4) {
                    cache.invalidate(&key);
                }
            });
        }
    });
    for key in 0..16 * 64 {
        assert_eq!(cache.get(&key), (key % 4 != 0).then(|| key.to_string()));
    }
    cache.run_pending_tasks();
    assert_eq!((cache.entry_count(), cache.iter().count()), (16 * 48, 16 * 48));
}

#[test]
fn threads_own_clones_of_it() {
    let cache = Cache::new(10_000);
    let counters = (0..16u32).map(|thread| {
        let owned = cache.clone();
        thread::spawn(move || {
            let keys = thread * 64..(thread + 1) * 64;
            keys.clone().for_each(|key| owned.insert(key, format!("value {key}")));
            keys.clone().step_by(4).for_each(|key| owned.invalidate(&key));
            keys.filter(|key| owned.get(key) == Some(format!("value {key}")))
                .count()
        })
    });
    let counters: Vec<_> = counters.collect();
    let found = counters.into_iter().map(|it| it.join().unwrap());
    assert_eq!(found.collect::<Vec<_>>(), [48; 16]);
    assert_eq!((cache.get(&0), cache.get(&1)), (None, Some("value 1".to_string())));
}

#[test]
fn settings_leave_types_to_the_calls() {
    let texts = Cache::builder()
        .weigher(|_key, text: &String| -> u32 { text.len().try_into().unwrap_or(u32::MAX) })
        .max_capacity(32 << 20)
        .build();
    texts.insert(0u32, "zero".to_string());
    texts.run_pending_tasks();
    assert_eq!((texts.get(&0).as_deref(), texts.weighted_size()), (Some("zero"), 4));
    let timed = Cache::builder()
        .time_to_live(Duration::from_secs(1800))
        .time_to_idle(Duration::from_secs(300))
        .build();
    timed.insert(0u32, 'a');
    assert_eq!(timed.get(&0), Some('a'));
    let policy = timed.policy();
    let times = (policy.time_to_live(), policy.time_to_idle());
    assert_eq!(times, (Some(Duration::from_secs(1800)), Some(Duration::from_secs(300))));
    let entries: Vec<_> = timed.iter().collect();
    assert_eq!(entries, [(Arc::new(0), 'a')]);
    let named: ravulemis::sync::Iter<'_, u32, char> = timed.iter();
    assert_eq!(named.count(), 1);
}

#[test]
fn shards_share_the_capacity() {
    for (capacity, shards) in [(1, 1), (7, 4), (1000, 16), (100_000, 64)] {
        let builder = Cache::builder()
            .max_capacity(capacity)
            .eviction_policy(EvictionPolicy::lru());
        let cache = builder.shards(shards).build();
        assert_eq!(cache.policy().num_segments(), shards);
        for key in 0..2 * capacity {
            cache.insert(key, key);
        }
        cache.run_pending_tasks();
        assert!(cache.entry_count() <= capacity);
    }
    let few = Cache::<u32, u32>::builder().max_capacity(3).shards(64).build();
    assert_eq!(few.policy().num_segments(), 2, "a share is at least 1");
}

#[test]
fn the_builder_chooses_the_shards() {
    let shards = |capacity| Cache::<u32, u32>::new(capacity).policy().num_segments();
    assert_eq!(
        [0, 1, 2000, 2048, 3100, 10_000, 1 << 30].map(shards),
        [1, 1, 1, 2, 2, 8, 64]
    );
    let builder = Cache::<u32, u32>::builder;
    let others = [builder(), builder().shards(3), builder().max_capacity(3).shards(4)];
    assert_eq!(others.map(|it| it.build().policy().num_segments()), [64, 4, 2]);
    let weighed = Cache::builder()
        .max_capacity(1 << 30)
        .weigher(|_: &u32, _: &u32| 1)
        .build();
    assert_eq!(weighed.policy().num_segments(), 1);
}

#[test]
fn an_idle_entry_is_hidden_and_leaves_as_expired() {
    // So long that a machine with other work lets none expire between two calls.
    let idle = Duration::from_secs(2);
    let (sender, left) = mpsc::channel();
    let listener = move |key: Arc<u32>, value, cause| sender.send((*key, value, cause)).unwrap();
    let cache = Cache::builder().time_to_idle(idle).eviction_listener(listener).build();
    cache.insert(1, 'a');
    cache.insert(2, 'b');
    for _ in 0..4 {
        thread::sleep(Duration::from_millis(600));
        assert_eq!(cache.get(&1), Some('a'), "each read keeps it");
    }
    assert_eq!((cache.contains_key(&2), cache.get(&2)), (false, None));
    assert_eq!(cache.iter().collect::<Vec<_>>(), [(Arc::new(1), 'a')]);
    cache.run_pending_tasks();
    assert_eq!(left.try_iter().collect::<Vec<_>>(), [(2, 'b', RemovalCause::Expired)]);
    thread::sleep(idle / 4);
    assert!(cache.contains_key(&1), "which is no read");
    thread::sleep(idle * 3 / 4 + Duration::from_millis(100));
    assert!(!cache.contains_key(&1));
    cache.run_pending_tasks();
    assert_eq!(left.try_iter().collect::<Vec<_>>(), [(1, 'a', RemovalCause::Expired)]);
    assert_eq!((cache.entry_count(), cache.stats().expired), (0, 2));
}

#[test]
fn one_makes_for_all_that_wait() {
    let (cache, made, start) = (Cache::new(100), AtomicU32::new(0), Barrier::new(8));
    thread::scope(|scope| {
        for _ in 0..8 {
            scope.spawn(|| {
                start.wait();
                for key in 0..50u32 {
                    let make = || {
                        thread::sleep(Duration::from_millis(1));
                        made.fetch_add(1, Ordering::SeqCst);
                        key + 1
                    };
                    assert_eq!(cache.get_with(key, make), key + 1);
                }
            });
        }
    });
    assert_eq!((made.load(Ordering::SeqCst), cache.stats().loads), (50, 50));
}

/// A value of which the second clone takes long, if its number is 1.
struct Slow(u32, Arc<AtomicU32>);

impl Clone for Slow {
    fn clone(&self) -> Self {
        if self.0 == 1 && self.1.fetch_add(1, Ordering::SeqCst) == 1 {
            thread::sleep(Duration::from_millis(200));
        }
        Slow(self.0, Arc::clone(&self.1))
    }
}

#[test]
fn a_value_that_was_taken_out_is_not_handed_out_by_its_maker() {
    let (cache, clones) = (Cache::<Watched, Slow>::new(100), Arc::<AtomicU32>::default());
    let slow = |number| Slow(number, Arc::clone(&clones));
    let made = slow(1);
    thread::scope(|scope| {
        // The first clone is put there, the second is for the one who waits.
        let asks = scope.spawn(|| {
            with_one_who_waits(
                &cache,
                move |cache, key, wait| {
                    cache.get_with(key, || {
                        wait();
                        made
                    })
                },
                |cache, key| cache.get_with(key, || unreachable!()),
            )
        });
        while clones.load(Ordering::SeqCst) < 2 && !asks.is_finished() {
            thread::yield_now();
        }
        let (key, _) = watched(1);
        assert_eq!(cache.remove(&key).map(|value| value.0), Some(1));
        assert_eq!(cache.get_with(key, || slow(2)).0, 2);
    });
}

#[test]
fn a_value_for_which_nobody_waits_is_cloned_once() {
    type Call = fn(&Cache<Watched, Slow>, Watched, Slow);
    let calls: [(&str, Call); 7] = [
        ("get_with", |it, key, value| drop(it.get_with(key, || value))),
        ("get_with_by_ref", |it, key, value| {
            it.get_with_by_ref(&key, || value);
        }),
        ("optionally_get_with", |it, key, value| {
            it.optionally_get_with(key, || Some(value));
        }),
        ("try_get_with", |it, key, value| {
            assert!(it.try_get_with(key, || Ok::<_, ()>(value)).is_ok());
        }),
        ("or_insert", |it, key, value| drop(it.entry(key).or_insert(value))),
        ("or_insert_with", |it, key, value| {
            it.entry_by_ref(&key).or_insert_with(|| value);
        }),
        ("and_upsert_with", |it, key, value| {
            it.entry(key).and_upsert_with(|_| value);
        }),
    ];
    for (name, call) in calls {
        let clones = Arc::<AtomicU32>::default();
        call(&Cache::new(100), watched(1).0, Slow(1, Arc::clone(&clones)));
        assert_eq!(clones.load(Ordering::SeqCst), 1, "{name}");
    }
}

/// A key that is cloned after a look-up in vain: before the value is made, another is put into the cache of its number.
#[derive(PartialEq, Eq, Hash)]
struct Late(usize);

static LATE: [OnceLock<Cache<Late, Slow>>; 2] = [const { OnceLock::new() }; 2];

impl Clone for Late {
    fn clone(&self) -> Self {
        // The first two clones are those of who finds it.
        let clones = Arc::new(AtomicU32::new(u32::MAX));
        LATE[self.0].get().unwrap().insert(Late(self.0), Slow(1, clones));
        Late(self.0)
    }
}

#[test]
fn a_value_that_was_taken_out_is_not_handed_out_by_one_who_found_it() {
    let cache = LATE[0].get_or_init(|| Cache::new(100));
    thread::scope(|scope| {
        scope.spawn(|| cache.get_with_by_ref(&Late(0), || unreachable!()));
        while !cache.contains_key(&Late(0)) {
            thread::yield_now();
        }
        thread::sleep(Duration::from_millis(50));
        assert_eq!(cache.remove(&Late(0)).map(|value| value.0), Some(1));
        assert_eq!(cache.get_with(Late(0), || Slow(2, Arc::default())).0, 2);
    });
}

/// Entries that are handed out once.
struct Once;

impl<K, V> Expiry<K, V> for Once {
    fn expire_after_read(&self, _: &K, _: &V, _: Instant, _: Option<Duration>, _: Instant) -> Option<Duration> {
        Some(Duration::ZERO)
    }
}

#[test]
fn what_expires_by_the_look_that_found_it_is_replaced() {
    let cache = Cache::<u32, char>::builder().expire_after(Once).build();
    cache.insert(1, 'a');
    let entry = cache.entry(1).or_insert_with_if(|| 'b', |old| *old == 'a');
    assert!(entry.is_fresh() && entry.is_old_value_replaced());
}

#[test]
fn what_another_put_there_meanwhile_is_read() {
    let cache = LATE[1].get_or_init(|| Cache::builder().expire_after(Once).build());
    assert_eq!(cache.get_with_by_ref(&Late(1), || unreachable!()).0, 1);
    assert_eq!(cache.get(&Late(1)).map(|value| value.0), None);
    let stats = cache.stats();
    assert_eq!((stats.hits, stats.misses, stats.loads), (0, 2, 0));
}

/// Hashes a number to itself.
#[derive(Clone, Copy, Default)]
struct Same(u64);

impl BuildHasher for Same {
    type Hasher = Same;

    fn build_hasher(&self) -> Same {
        Same(0)
    }
}

impl Hasher for Same {
    fn write(&mut self, _: &[u8]) {
        unreachable!("keys are numbers");
    }

    fn write_u64(&mut self, number: u64) {
        self.0 = number;
    }

    fn finish(&self) -> u64 {
        self.0
    }
}

#[test]
fn a_key_becomes_popular_by_its_own_look_ups_alone() {
    let cache = Cache::builder()
        .max_capacity(100)
        .shards(1)
        .support_invalidation_closures()
        .build_with_hasher(Same(0));
    for _ in 0..4 {
        (1..=100u64).for_each(|key| _ = cache.get_with(key, || key));
        cache.run_pending_tasks();
    }
    (0..30).for_each(|_| _ = cache.invalidate_entries_if(|_, _| false).unwrap());
    cache.run_pending_tasks();
    cache.insert(0, 0);
    cache.run_pending_tasks();
    assert!(!cache.contains_key(&0), "nobody asked for it");
}

#[test]
fn waiters_share_an_error() {
    let (cache, made, start) = (Cache::<u32, u32>::new(100), AtomicU32::new(0), Barrier::new(4));
    let errors = Mutex::new(Vec::new());
    thread::scope(|scope| {
        for _ in 0..4 {
            scope.spawn(|| {
                start.wait();
                let make = || {
                    made.fetch_add(1, Ordering::SeqCst);
                    thread::sleep(Duration::from_secs(1));
                    Err::<u32, _>("refused".to_string())
                };
                let error = cache.try_get_with(1, make).unwrap_err();
                errors.lock().unwrap().push(error);
            });
        }
    });
    let errors = errors.into_inner().unwrap();
    assert_eq!(made.load(Ordering::SeqCst), 1);
    assert!(errors.iter().all(|error| Arc::ptr_eq(error, &errors[0])));
    assert_eq!((cache.get(&1), cache.stats().load_failures), (None, 1));
}

#[test]
fn upserts_of_a_key_follow_each_other() {
    let cache = Cache::new(100);
    thread::scope(|scope| {
        for _ in 0..4 {
            scope.spawn(|| {
                for _ in 0..500 {
                    let more = |old: Option<ravulemis::Entry<_, u32>>| old.map_or(1, |old| old.into_value() + 1);
                    cache.entry_by_ref("key").and_upsert_with(more);
                }
            });
        }
    });
    assert_eq!(cache.get(&"key".to_string()), Some(2000));
}

#[test]
fn an_entry_is_handed_out_once() {
    let cache = Cache::<u32, char>::new(100);
    let claim = |meanwhile: &dyn Fn()| {
        cache.entry(1).and_compute_with(|there| {
            meanwhile();
            there.map_or(Op::Nop, |_| Op::Remove)
        })
    };
    cache.insert(1, 'a');
    let answer = claim(&|| assert_eq!(cache.remove(&1), Some('a')));
    assert!(matches!(answer, CompResult::StillNone(key) if *key == 1));
    cache.insert(1, 'a');
    let answer = claim(&|| cache.insert(1, 'b'));
    assert!(matches!(answer, CompResult::Removed(entry) if *entry.value() == 'b'));
    assert_eq!(cache.get(&1), None);
}

#[test]
fn a_computation_that_fails_changes_nothing() {
    let cache = Cache::<u32, char>::new(100);
    cache.insert(1, 'a');
    // As with moka, the type of the error may be given after that of the closure.
    let failed = cache
        .entry(1)
        .and_try_compute_with::<_, String>(|_| Err("no".to_string()));
    assert!(failed.is_err_and(|error| error == "no"));
    assert_eq!(cache.get(&1), Some('a'));
}

#[test]
fn a_computation_is_a_look_up() {
    let cache = Cache::<u32, u32>::new(100);
    (0..100).for_each(|key| cache.insert(key, 0));
    cache.run_pending_tasks();
    for _ in 0..20 {
        cache
            .entry(1000)
            .and_upsert_with(|old| old.map_or(1, |old| old.into_value() + 1));
    }
    cache.run_pending_tasks();
    assert_eq!(cache.get(&1000), Some(20), "a key that is often asked for is admitted");
    assert_eq!((cache.stats().hits, cache.stats().misses), (20, 1));
    let policy = EvictionPolicy::lru();
    let cache = Cache::<u32, u32>::builder()
        .max_capacity(2)
        .eviction_policy(policy)
        .build();
    (1..3).for_each(|key| cache.insert(key, key));
    cache.run_pending_tasks();
    cache.entry_by_ref(&1).and_compute_with(|_| Op::Nop);
    cache.insert(3, 3);
    cache.run_pending_tasks();
    assert_eq!([1, 2, 3].map(|key| cache.contains_key(&key)), [true, false, true]);
}

#[test]
fn each_value_is_there_or_was_told_once() {
    let told = Arc::new((AtomicU64::new(0), AtomicU64::new(0)));
    let listener = Arc::clone(&told);
    let cache = Cache::builder()
        .max_capacity(500)
        .shards(4)
        .eviction_listener(move |_, value: u64, _| {
            listener.0.fetch_add(1, Ordering::SeqCst);
            listener.1.fetch_add(value, Ordering::SeqCst);
        })
        .build();
    const EACH: u64 = 20_000;
    thread::scope(|scope| {
        for thread in 0..4 {
            let cache = &cache;
            scope.spawn(move || {
                for step in 0..EACH {
                    cache.insert(step % 2000, thread * EACH + step);
                }
            });
        }
    });
    cache.run_pending_tasks();
    let (mut count, mut sum) = (told.0.load(Ordering::SeqCst), told.1.load(Ordering::SeqCst));
    for (_, value) in &cache {
        count += 1;
        sum += value;
    }
    assert_eq!((count, sum), (4 * EACH, (0..4 * EACH).sum()));
    assert!(cache.entry_count() <= 500);
}

#[test]
fn a_listener_may_call_the_cache() {
    let own: Arc<Mutex<Option<Cache<u32, u32>>>> = Arc::default();
    let seen = Arc::clone(&own);
    let cache = Cache::builder()
        .max_capacity(10)
        .eviction_listener(move |key, value, cause| {
            let cache = seen.lock().unwrap().clone();
            if let (Some(cache), RemovalCause::Explicit) = (cache, cause) {
                cache.insert(*key + 100, value);
            }
        })
        .build();
    *own.lock().unwrap() = Some(cache.clone());
    cache.insert(1, 7);
    cache.invalidate(&1);
    assert_eq!((cache.get(&1), cache.get(&101)), (None, Some(7)));
    *own.lock().unwrap() = None;
}

/// A cache whose listener calls it, and the keys that the listener was told of, by one call after the other.
fn calling(
    builder: CacheBuilder<u32, u32>,
    call: fn(&Cache<u32, u32>, u32),
) -> (Cache<u32, u32>, Arc<Mutex<Vec<u32>>>) {
    let cell = Arc::new(OnceLock::<Cache<u32, u32>>::new());
    let left = Arc::new(Mutex::new(Vec::new()));
    let (known, told) = (Arc::clone(&cell), Arc::clone(&left));
    let listener = move |key: Arc<u32>, _, _| {
        let mut told = told.try_lock().expect("a listener within itself");
        told.push(*key);
        call(known.get().unwrap(), *key);
    };
    let cache = builder.shards(64).eviction_listener(listener).build();
    cell.set(cache.clone()).unwrap();
    (0..1000).for_each(|key| cache.insert(key, key));
    (cache, left)
}

#[test]
fn a_listener_is_never_called_within_itself() {
    let (cache, left) = calling(Cache::builder(), |cache, key| cache.invalidate(&(key + 1)));
    cache.invalidate(&0);
    assert_eq!(*left.lock().unwrap(), (0..1000).collect::<Vec<_>>());

    // A look-up lets what has expired leave, also in other shards.
    let builder = Cache::builder().time_to_live(Duration::from_millis(100));
    let (cache, left) = calling(builder, |cache, key| assert_eq!(cache.get(&key), None));
    thread::sleep(Duration::from_millis(500));
    assert_eq!(cache.get(&0), None);
    cache.run_pending_tasks();
    assert_eq!(left.lock().unwrap().len(), 1000);
}

#[test]
fn a_listener_may_compute_the_entry_that_it_is_told_of() {
    static OWN: OnceLock<Cache<u32, u32>> = OnceLock::new();
    let listener = |key: Arc<u32>, value: u32, cause| {
        if let (Some(cache), RemovalCause::Explicit) = (OWN.get(), cause) {
            cache.entry(*key).and_upsert_with(|_| value + 1);
        }
    };
    let cache = OWN.get_or_init(|| Cache::builder().max_capacity(10).eviction_listener(listener).build());
    cache.insert(1, 7);
    assert!(ends(move || cache.entry(1).and_compute_with(|_| Op::Remove)));
    assert_eq!(cache.get(&1), Some(8));
}

#[test]
fn a_listener_may_compute_the_entry_by_whose_look_up_a_value_left() {
    static OWN: OnceLock<Cache<u32, u32>> = OnceLock::new();
    let listener = |key: Arc<u32>, _, _| {
        if *key == 1 {
            let cache = OWN.get().unwrap();
            cache.entry(2).and_upsert_with(|old| old.unwrap().into_value() + 1);
        }
    };
    let cache = OWN.get_or_init(|| Cache::builder().max_capacity(10).eviction_listener(listener).build());
    cache.insert(1, 1);
    cache.invalidate_all();
    // After this a run is due.
    thread::sleep(Duration::from_millis(310));
    assert!(ends(move || cache.entry(2).and_upsert_with(|_| 7)));
    assert_eq!(cache.get(&2), Some(8));
}

#[test]
fn a_listener_may_make_the_value_that_it_is_told_of() {
    static OWN: OnceLock<Cache<u32, u32>> = OnceLock::new();
    static TOLD: AtomicU32 = AtomicU32::new(0);
    let listener = |key: Arc<u32>, _, _| {
        if TOLD.fetch_add(1, Ordering::SeqCst) == 0 {
            OWN.get().unwrap().get_with(*key, || 9);
        }
    };
    // Each value has expired when it is put there, so each look-up is a miss.
    let builder = Cache::builder().time_to_live(Duration::ZERO);
    let cache = OWN.get_or_init(|| builder.eviction_listener(listener).build());
    cache.insert(1, 7);
    assert!(ends(move || cache.get_with(1, || 8)));
    assert_eq!(cache.stats().loads, 2);
}

#[test]
fn a_listener_may_wait_for_a_maker_that_lets_many_values_go() {
    static OWN: OnceLock<Cache<u32, u32>> = OnceLock::new();
    static IS_TOLD: Barrier = Barrier::new(2);
    let listener = |key: Arc<u32>, _, _| {
        if *key == 1 {
            IS_TOLD.wait();
            OWN.get().unwrap().get_with(2, || 0);
        }
    };
    let cache = OWN.get_or_init(|| Cache::builder().max_capacity(10).eviction_listener(listener).build());
    cache.insert(1, 1);
    let make = move || {
        thread::spawn(move || cache.invalidate(&1));
        IS_TOLD.wait();
        (0..5000).for_each(|value| cache.insert(3, value));
        7
    };
    assert!(ends(move || assert_eq!(cache.get_with(2, make), 7)));
}

#[test]
fn borrowed_forms_find_the_key() {
    let cache = Cache::<String, u32>::new(100);
    cache.insert("key".to_string(), 1);
    assert!(cache.contains_key("key"));
    assert_eq!((cache.get("key"), cache.get(&"key".to_string())), (Some(1), Some(1)));
    assert_eq!((cache.remove("key"), cache.get("key")), (Some(1), None));
    let bytes = Cache::<Vec<u8>, u32>::new(100);
    bytes.insert(vec![1, 2], 3);
    assert_eq!(bytes.get([1, 2].as_slice()), Some(3));
}

#[test]
fn builders_selectors_and_iterators_can_be_shown() {
    let builder = Cache::<u32, char>::builder().name("letters").max_capacity(100);
    let shown = format!("{builder:?}");
    assert!(
        shown.contains("letters") && shown.contains("100") && shown.contains("TinyLfu"),
        "{shown}"
    );
    let cache = builder.build();
    assert_eq!(format!("{:?}", cache.entry(1)), "OwnedKeyEntrySelector { key: 1, .. }");
    assert_eq!(
        format!("{:?}", cache.entry_by_ref(&1)),
        "RefKeyEntrySelector { key: 1, .. }"
    );
    let mut entries = cache.iter();
    assert_eq!(format!("{entries:?}"), "Iter { .. }");
    cache.insert(1, 'a');
    assert!(entries.next().is_some() && entries.next().is_none() && entries.next().is_none());
}
