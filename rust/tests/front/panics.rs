//! What follows where the caller's own code panics.

use ravulemis::ops::compute::Op;
use ravulemis::{Expiry, sync, unsync};
use std::cell::Cell;
use std::hash::{BuildHasherDefault, DefaultHasher, Hash, Hasher};
use std::panic::{AssertUnwindSafe, catch_unwind};
use std::sync::Arc;
use std::sync::atomic::{AtomicBool, AtomicU32, Ordering};
use std::thread;
use std::time::{Duration, Instant};

fn panics<R>(call: impl FnOnce() -> R) -> bool {
    catch_unwind(AssertUnwindSafe(call)).is_err()
}

/// A value whose clone panics where it is told to.
struct Fragile(u32, Arc<AtomicBool>);

impl Clone for Fragile {
    fn clone(&self) -> Self {
        assert!(!self.1.load(Ordering::SeqCst), "a clone that panics");
        Fragile(self.0, Arc::clone(&self.1))
    }
}

#[test]
fn a_clone_of_what_is_looked_up_that_panics_changes_nothing() {
    let breaks = Arc::new(AtomicBool::new(false));
    let cache = sync::Cache::<u32, _>::new(100);
    for key in 0..50 {
        cache.insert(key, Fragile(key, Arc::clone(&breaks)));
    }
    breaks.store(true, Ordering::SeqCst);
    for _ in 0..100 {
        assert!(panics(|| cache.get(&1)));
    }
    assert!(panics(|| cache.entry(1).or_insert_with(|| unreachable!())));
    assert!(panics(|| cache.iter().count()));
    breaks.store(false, Ordering::SeqCst);
    assert!((0..50).all(|key| cache.get(&key).is_some_and(|it| it.0 == key)));
    cache.run_pending_tasks();
    assert_eq!(
        (cache.entry_count(), cache.stats().hits, cache.stats().misses),
        (50, 50, 0)
    );
}

#[test]
fn a_clone_of_what_is_taken_out_that_panics_empties_the_shard() {
    let breaks = Arc::new(AtomicBool::new(false));
    let builder = sync::Cache::<u32, _>::builder().max_capacity(100).shards(2);
    let cache = builder.build_with_hasher(BuildHasherDefault::<DefaultHasher>::default());
    for key in 0..50 {
        cache.insert(key, Fragile(key, Arc::clone(&breaks)));
    }
    cache.run_pending_tasks();
    breaks.store(true, Ordering::SeqCst);
    assert!(panics(|| cache.invalidate(&1)));
    breaks.store(false, Ordering::SeqCst);
    let counted = cache.entry_count();
    let left = (0..50)
        .filter(|key| cache.get(key).is_some_and(|it| it.0 == *key))
        .count();
    assert!(
        10 < left && left < 40,
        "one of two shards was emptied, {left} entries are left"
    );
    assert_eq!(counted, left as u64);
    assert!(cache.get(&1).is_none());
    cache.insert(1, Fragile(1, breaks));
    cache.run_pending_tasks();
    assert!(cache.get(&1).is_some());
    assert_eq!(cache.entry_count(), left as u64 + 1);
}

#[test]
fn a_weigher_that_panics_changes_nothing() {
    let weigher = |_: &u32, value: &u32| {
        if *value == 13 {
            panic!("a weigher that panics")
        } else {
            *value
        }
    };
    let mut cache = unsync::Cache::<u32, _>::builder().weigher(weigher).build();
    for _ in 0..100 {
        cache.insert(1, 1);
        assert!(panics(|| cache.insert(1, 13)) && panics(|| cache.insert(2, 13)));
    }
    cache.insert(3, 3);
    cache.run_pending_tasks();
    assert_eq!((cache.get(&1), cache.get(&2), cache.get(&3)), (Some(1), None, Some(3)));
    assert_eq!((cache.entry_count(), cache.weighted_size()), (2, 4));
}

/// An expiry that panics about a new value of 13, a read of 14, and 15 in another's place.
struct Fearful;

impl Expiry<u32, u32> for Fearful {
    fn expire_after_create(&self, _: &u32, value: &u32, _: Instant) -> Option<Duration> {
        assert!(*value != 13, "an expiry that panics");
        None
    }

    fn expire_after_read(
        &self,
        _: &u32,
        value: &u32,
        _: Instant,
        left: Option<Duration>,
        _: Instant,
    ) -> Option<Duration> {
        assert!(*value != 14, "an expiry that panics");
        left
    }

    fn expire_after_update(&self, _: &u32, value: &u32, _: Instant, left: Option<Duration>) -> Option<Duration> {
        assert!(*value != 15, "an expiry that panics");
        left
    }
}

#[test]
fn an_expiry_that_panics_changes_nothing() {
    let mut cache = unsync::Cache::<u32, _>::builder().expire_after(Fearful).build();
    cache.insert(1, 1);
    cache.insert(3, 14);
    for _ in 0..100 {
        assert!(panics(|| cache.insert(2, 13)) && panics(|| cache.insert(1, 15)) && panics(|| cache.get(&3)));
    }
    cache.run_pending_tasks();
    assert_eq!((cache.get(&1), cache.get(&2)), (Some(1), None));
    assert_eq!((cache.contains_key(&3), cache.entry_count()), (true, 2));
}

/// A cache of two entries and of 100 more, with a predicate that panics about the first while it is told to.
fn with_a_predicate(breaks: &Arc<AtomicBool>) -> unsync::Cache<u32, char> {
    let mut cache = unsync::Cache::builder().support_invalidation_closures().build();
    for key in 1..=102 {
        cache.insert(key, 'a');
    }
    cache.run_pending_tasks();
    let breaks = Arc::clone(breaks);
    let predicate = move |key: &u32, _: &char| {
        assert!(*key != 1 || !breaks.load(Ordering::SeqCst), "a predicate that panics");
        false
    };
    cache.invalidate_entries_if(predicate).unwrap();
    cache
}

#[test]
fn a_predicate_that_panics_in_a_look_up_changes_nothing() {
    let breaks = Arc::new(AtomicBool::new(true));
    let mut cache = with_a_predicate(&breaks);
    for _ in 0..50 {
        assert!(panics(|| cache.get(&1)) && panics(|| cache.contains_key(&1)));
    }
    assert_eq!(cache.get(&2), Some('a'));
    breaks.store(false, Ordering::SeqCst);
    cache.run_pending_tasks();
    assert_eq!((cache.get(&1), cache.entry_count()), (Some('a'), 102));
}

#[test]
fn a_predicate_that_panics_in_a_run_empties_the_cache() {
    type Call = fn(&mut unsync::Cache<u32, char>);
    let calls: [(&str, Call); 4] = [
        ("get", |it| _ = it.get(&2)),
        ("get of a missing key", |it| _ = it.get(&0)),
        ("insert", |it| it.insert(2, 'b')),
        ("run_pending_tasks", |it| it.run_pending_tasks()),
    ];
    for (name, call) in calls {
        let mut cache = with_a_predicate(&Arc::new(AtomicBool::new(true)));
        // One of so many calls makes a run.
        assert!((0..1000).any(|_| panics(|| call(&mut cache))), "{name}");
        assert!(!cache.contains_key(&2), "{name}");
        cache.insert(1, 'c');
        cache.run_pending_tasks();
        assert_eq!(
            (cache.get(&1), cache.get(&2), cache.entry_count()),
            (Some('c'), None, 1),
            "{name}"
        );
    }
}

#[test]
fn a_predicate_that_panics_in_two_shards_ends_no_process() {
    let builder = sync::Cache::<u32, _>::builder().time_to_live(Duration::from_secs(60));
    let cache = builder.shards(16).support_invalidation_closures().build();
    for key in 0..1000 {
        cache.insert(key, 'a');
    }
    let predicate = |_: &u32, _: &char| panic!("a predicate that panics");
    cache.invalidate_entries_if(predicate).unwrap();
    // A call now visits another shard, where the predicate panics too.
    thread::sleep(Duration::from_millis(400));
    assert!(panics(|| cache.get(&0)));
    for key in 1..1000 {
        panics(|| cache.insert(key, 'b'));
    }
    // What a run leaves half done the next call empties, the predicate with it.
    while panics(|| cache.run_pending_tasks()) {}
    cache.insert(1, 'c');
    assert_eq!((cache.get(&0), cache.get(&1)), (None, Some('c')));
}

thread_local! {
    // How many of `Brittle` were dropped.
    static DROPS: Cell<u32> = const { Cell::new(0) };
}

/// A key or value whose drop panics if it ends in 13.
#[derive(Clone, PartialEq, Eq, Hash)]
struct Brittle(u32);

impl Drop for Brittle {
    fn drop(&mut self) {
        DROPS.set(DROPS.get() + 1);
        assert!(self.0 % 100 != 13, "a drop that panics");
    }
}

#[test]
fn a_drop_that_panics_changes_nothing() {
    let mut cache = unsync::Cache::new(100);
    cache.insert(Brittle(1), Brittle(13));
    cache.insert(Brittle(2), Brittle(2));
    assert!(panics(|| cache.insert(Brittle(1), Brittle(1))));
    assert!(cache.get(&Brittle(1)).is_some_and(|it| it.0 == 1));
    assert!(cache.get(&Brittle(2)).is_some());
}

/// Lets keys and values leave by one call, some of which panic when they are dropped. All are dropped, and the cache
/// goes on.
macro_rules! drops {
    ($cache:expr) => {{
        let mut cache = $cache;
        for key in [1, 13, 2, 113, 213] {
            cache.insert(Brittle(key), Brittle(key));
        }
        cache.invalidate_all();
        DROPS.set(0);
        assert!(panics(|| cache.run_pending_tasks()));
        assert_eq!((cache.entry_count(), DROPS.get()), (0, 10));
        cache.insert(Brittle(1), Brittle(1));
        assert!(cache.get(&Brittle(1)).is_some());
    }};
}

#[test]
#[allow(unused_mut)]
fn drops_of_one_call_that_panic_end_no_process() {
    drops!(unsync::Cache::<Brittle, _>::builder().build());
    drops!(sync::Cache::<Brittle, _>::builder().shards(1).build());
}

#[test]
fn a_drop_that_panics_during_another_panic_ends_no_process() {
    let cache = sync::Cache::builder().shards(1).support_invalidation_closures().build();
    let insert = |key, value| cache.insert(Brittle(key), Brittle(value));
    insert(0, 0);
    cache.run_pending_tasks();
    let predicate = |_: &Brittle, _: &Brittle| panic!("a predicate that panics");
    cache.invalidate_entries_if(predicate).unwrap();
    insert(1, 13);
    // Within 64 of these a run asks the predicate, after one more value has left.
    let text = || {
        let panic = catch_unwind(AssertUnwindSafe(|| insert(1, 13))).unwrap_err();
        *panic.downcast_ref::<&str>().unwrap()
    };
    assert!((0..100).any(|_| text() == "a predicate that panics"));
    // That empties the shard, so the last value is dropped.
    assert!(panics(|| insert(1, 1)));
    insert(1, 1);
    let are_there = [0, 1].map(|key| cache.contains_key(&Brittle(key)));
    assert_eq!(are_there, [false, true]);
}

#[test]
fn drops_that_panic_after_the_listener_has_end_no_process() {
    let listener = |_, _, _| panic!("a listener that panics");
    let mut cache = unsync::Cache::<Brittle, _>::builder()
        .eviction_listener(listener)
        .build();
    for key in [1, 13] {
        cache.insert(Brittle(key), Brittle(key));
        cache.invalidate_all();
        cache.run_pending_tasks();
        assert_eq!(cache.entry_count(), 0);
    }
}

thread_local! {
    // How many comparisons of `Touchy` do not panic.
    static CALM: Cell<u32> = const { Cell::new(u32::MAX) };
    // Whether all hashes of `Touchy` panic.
    static BREAKS: Cell<bool> = const { Cell::new(false) };
}

/// A key whose comparison panics if one of the two is 13, and whose hash panics if it is 14; or as the above say.
#[derive(Clone, Copy, Debug, Eq)]
struct Touchy(u32);

impl PartialEq for Touchy {
    fn eq(&self, other: &Self) -> bool {
        let calm = CALM.get();
        CALM.set(calm.wrapping_sub(1));
        let is_13 = self.0 == 13 || other.0 == 13;
        assert!(calm > 0 && !is_13, "a comparison that panics");
        self.0 == other.0
    }
}

impl Hash for Touchy {
    fn hash<H: Hasher>(&self, state: &mut H) {
        assert!(self.0 != 14 && !BREAKS.get(), "a hash that panics");
        // All hashes below 100 are equal, so that keys are compared.
        state.write_u32(self.0 / 100);
    }
}

#[test]
fn a_comparison_or_hash_that_panics_changes_nothing() {
    let mut cache = unsync::Cache::new(100);
    for key in 0..10 {
        cache.insert(Touchy(key), key);
    }
    for key in [13, 14] {
        assert!(panics(|| cache.get(&Touchy(key))));
        assert!(panics(|| cache.insert(Touchy(key), key)));
        assert!(panics(|| cache.entry(Touchy(key)).or_insert(key)));
        assert!(panics(|| cache.remove(&Touchy(key))));
    }
    for key in 0..10 {
        assert_eq!(cache.get(&Touchy(key)), Some(key));
    }
    cache.run_pending_tasks();
    assert_eq!(cache.entry_count(), 10);
}

/// Makes calls for a key that is there, until one compares it twice: before and after a run. The second time panics.
/// All hashes are different.
macro_rules! compares {
    ($cache:expr, $($call:expr),+) => {$({
        let mut cache = $cache;
        for key in 0..100 {
            cache.insert(Touchy(100 * key), key);
        }
        let mut breaks = || {
            CALM.set(1);
            let is_broken = panics(|| $call(&mut cache, Touchy(100)));
            CALM.set(u32::MAX);
            is_broken
        };
        assert!((0..1000).any(|_| breaks()), stringify!($call));
        assert!((0..100).all(|key| cache.get(&Touchy(100 * key)) == Some(key)), stringify!($call));
    })+};
}

#[test]
fn a_comparison_that_panics_after_a_run_changes_nothing() {
    type Shared = sync::Cache<Touchy, u32>;
    compares!(
        Shared::builder().shards(1).build(),
        |it: &mut Shared, key| it.get(&key),
        |it: &mut Shared, key| it.get_with(key, || unreachable!()),
        |it: &mut Shared, key| it.entry(key).or_insert(0),
        |it: &mut Shared, key| it.entry(key).and_compute_with(|_| Op::Nop)
    );
    type Owned = unsync::Cache<Touchy, u32>;
    compares!(
        Owned::builder().build(),
        |it: &mut Owned, key| it.get(&key),
        |it: &mut Owned, key| it.entry(key).or_insert(0)
    );
}

#[test]
fn a_hash_that_panics_keeps_no_making_from_ending() {
    let cache = sync::Cache::<Touchy, u32>::new(100);
    let make = || {
        BREAKS.set(true);
        7
    };
    assert!(!panics(|| cache.get_with(Touchy(1), make)));
    BREAKS.set(false);
    cache.invalidate(&Touchy(1));
    assert_eq!(cache.get_with(Touchy(1), || 8), 8);
}

#[test]
fn a_maker_that_panics_harms_nobody() {
    let (cache, calls) = (sync::Cache::<u32, u32>::new(100), AtomicU32::new(0));
    let values = thread::scope(|scope| {
        let ask = || {
            cache.get_with(1, || {
                let is_first = calls.fetch_add(1, Ordering::SeqCst) == 0;
                thread::sleep(Duration::from_millis(100));
                assert!(!is_first, "a maker that panics");
                7
            })
        };
        let threads: Vec<_> = (0..4).map(|_| scope.spawn(ask)).collect();
        threads
            .into_iter()
            .map(|it| it.join())
            .filter_map(Result::ok)
            .collect::<Vec<_>>()
    });
    assert_eq!((values, calls.load(Ordering::SeqCst)), (vec![7; 3], 2));
    assert_eq!((cache.get(&1), cache.stats().load_failures), (Some(7), 1));
}

#[test]
fn a_maker_that_panics_changes_nothing() {
    let mut cache = unsync::Cache::<u32, _>::new(100);
    cache.insert(1, 'a');
    assert!(panics(|| cache.get_with(2, || panic!("a maker that panics"))));
    assert!(panics(|| cache
        .entry(1)
        .or_insert_with_if(|| panic!("a maker that panics"), |_| true)));
    assert_eq!((cache.get(&1), cache.get(&2)), (Some('a'), None));
    assert_eq!((cache.stats().loads, cache.stats().load_failures), (0, 2));
}

/// How many values were loaded, and how many loads failed, if a call panics.
macro_rules! loads {
    ($cache:expr, $value:expr) => {{
        let mut cache = $cache;
        assert!(panics(|| cache.get_with(1, || $value)));
        assert!(!cache.contains_key(&1));
        (cache.stats().loads, cache.stats().load_failures)
    }};
}

#[test]
#[allow(unused_mut)]
fn a_value_that_a_panic_keeps_out_is_a_load_that_failed() {
    let breaks = Arc::new(AtomicBool::new(true));
    let fragile = || Fragile(1, Arc::clone(&breaks));
    assert_eq!(loads!(sync::Cache::<u32, _>::new(100), fragile()), (0, 1));
    assert_eq!(loads!(unsync::Cache::<u32, _>::new(100), fragile()), (0, 1));
    let weigher = |_: &u32, _: &u32| panic!("a weigher that panics");
    assert_eq!(loads!(sync::Cache::builder().weigher(weigher).build(), 1), (0, 1));
    assert_eq!(loads!(unsync::Cache::builder().weigher(weigher).build(), 1), (0, 1));
}

#[test]
fn what_was_counted_outlives_a_panic() {
    let breaks = Arc::new(AtomicBool::new(false));
    let mut cache = unsync::Cache::<u32, _>::new(100);
    cache.get_with(1, || Fragile(1, Arc::clone(&breaks)));
    cache.get(&1);
    breaks.store(true, Ordering::SeqCst);
    assert!(panics(|| cache.remove(&1)));
    assert!(cache.get(&1).is_none());
    let stats = cache.stats();
    assert_eq!((stats.hits, stats.misses, stats.loads), (1, 2, 1));
}

#[test]
fn an_upsert_that_panics_changes_nothing() {
    let cache = sync::Cache::<u32, _>::new(100);
    cache.insert(1, 'a');
    assert!(panics(|| cache
        .entry(1)
        .and_upsert_with(|_| panic!("an upsert that panics"))));
    assert_eq!(
        cache
            .entry(1)
            .and_upsert_with(|old| old.unwrap().into_value())
            .into_value(),
        'a'
    );
}

#[test]
fn a_listener_that_panics_is_told_no_more() {
    let told = Arc::new(AtomicU32::new(0));
    let counts = Arc::clone(&told);
    let cache = sync::Cache::<u32, u32>::builder()
        .max_capacity(100)
        .shards(8)
        .eviction_listener(move |_, _, _| {
            counts.fetch_add(1, Ordering::SeqCst);
            panic!("a listener that panics");
        })
        .build();
    for value in 0..50 {
        cache.insert(value % 10, value);
    }
    assert_eq!(
        (cache.get(&9), told.load(Ordering::SeqCst), cache.stats().replaced),
        (Some(49), 1, 40)
    );
}
