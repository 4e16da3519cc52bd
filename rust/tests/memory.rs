//! How much memory a cache asks for, and what it does if that is refused.

use ravulemis::RemovalCause;
use ravulemis::sync::Cache;
use std::alloc::{GlobalAlloc, Layout, System};
use std::env;
use std::panic::{AssertUnwindSafe, catch_unwind};
use std::process::Command;
use std::ptr;
use std::sync::atomic::{AtomicUsize, Ordering};
use std::sync::{Arc, Mutex, MutexGuard, PoisonError, mpsc};

/// The system's allocator, which notes the greatest size that was asked for, and refuses what exceeds a limit.
struct Noting;

static GREATEST: AtomicUsize = AtomicUsize::new(0);
static LIMIT: AtomicUsize = AtomicUsize::new(usize::MAX);

// SAFETY: all is left to the system's, but for what is refused.
unsafe impl GlobalAlloc for Noting {
    unsafe fn alloc(&self, layout: Layout) -> *mut u8 {
        GREATEST.fetch_max(layout.size(), Ordering::Relaxed);
        if layout.size() > LIMIT.load(Ordering::Relaxed) {
            return ptr::null_mut();
        }
        // SAFETY: as the caller's.
        unsafe { System.alloc(layout) }
    }

    unsafe fn dealloc(&self, at: *mut u8, layout: Layout) {
        // SAFETY: as the caller's.
        unsafe { System.dealloc(at, layout) }
    }
}

#[global_allocator]
static NOTING: Noting = Noting;

/// The tests here are made one after the other. One that fails may leave its limit behind.
fn alone() -> MutexGuard<'static, ()> {
    static ALONE: Mutex<()> = Mutex::new(());
    let alone = ALONE.lock().unwrap_or_else(PoisonError::into_inner);
    LIMIT.store(usize::MAX, Ordering::Relaxed);
    alone
}

#[test]
fn an_entry_that_is_too_heavy_asks_for_no_more_memory() {
    let _alone = alone();
    GREATEST.store(0, Ordering::Relaxed);
    let cache = Cache::<u32, _>::builder()
        .max_capacity(1000)
        .weigher(|_, weight| *weight)
        .build();
    for key in 0..10 {
        cache.insert(key, 1);
    }
    cache.run_pending_tasks();
    cache.insert(0, u32::MAX);
    cache.run_pending_tasks();
    assert_eq!(cache.get(&0), None);
    let greatest = GREATEST.load(Ordering::Relaxed);
    assert!(greatest < 1 << 20, "{greatest} bytes at once");
}

#[test]
fn a_value_for_which_no_table_can_grow_leaves_at_once() {
    let _alone = alone();
    let (sender, left) = mpsc::channel();
    let listener = move |key: Arc<u32>, value, cause| sender.send((*key, value, cause)).unwrap();
    let cache = Cache::<u32, _>::builder().shards(1).eviction_listener(listener).build();
    LIMIT.store(1 << 16, Ordering::Relaxed);
    let insert = |key, value| {
        cache.insert(key, value);
        left.try_recv().ok()
    };
    let refused = (0..100_000).find_map(|key| insert(key, 'a'));
    let again = refused.and_then(|(key, ..)| insert(key, 'a'));
    // The room for a replacement was made when its key was put there.
    let kept = 0..refused.map_or(0, |(key, ..)| key);
    let replaced: Vec<_> = kept.clone().map(|key| insert(key, 'b')).collect();
    LIMIT.store(usize::MAX, Ordering::Relaxed);
    let (key, ..) = refused.expect("a table of more than 64 KiB");
    let told = Some((key, 'a', RemovalCause::Size));
    assert_eq!((refused, again, cache.stats().evicted), (told, told, 2));
    let older = kept.clone().map(|key| Some((key, 'a', RemovalCause::Replaced)));
    assert_eq!(replaced, older.collect::<Vec<_>>());
    assert!(
        kept.clone().all(|key| cache.get(&key) == Some('b')),
        "a newer value stays"
    );
    cache.insert(key, 'c');
    assert_eq!((cache.get(&key), cache.iter().count()), (Some('c'), key as usize + 1));
}

/// The process ends for want of memory, so the test starts itself anew.
#[test]
fn an_iterator_that_is_refused_memory_leaves_nothing_out() {
    const NAME: &str = "an_iterator_that_is_refused_memory_leaves_nothing_out";
    // No limit of another test holds while the process is started.
    let _alone = alone();
    if env::var_os(NAME).is_some() {
        let cache = Cache::<u32, _>::builder().shards(1).build();
        (0..10_000).for_each(|key| cache.insert(key, key));
        LIMIT.store(1 << 16, Ordering::Relaxed);
        let count = cache.iter().count();
        LIMIT.store(usize::MAX, Ordering::Relaxed);
        assert_eq!(count, 10_000);
        return;
    }
    let mut again = Command::new(env::current_exe().unwrap());
    let ended = again.args(["--exact", NAME]).env(NAME, "").output().unwrap();
    let told = String::from_utf8_lossy(&ended.stderr);
    assert!(!ended.status.success() && told.contains("memory allocation"), "{told}");
}

#[test]
fn a_cache_that_a_panic_emptied_asks_for_no_initial_room() {
    let _alone = alone();
    let cache = Cache::<u32, u32>::builder()
        .shards(1)
        .initial_capacity(100_000)
        .support_invalidation_closures()
        .build();
    cache.insert(1, 1);
    let predicate = |_: &u32, _: &u32| panic!("a predicate that panics");
    cache.invalidate_entries_if(predicate).unwrap();
    assert!(catch_unwind(AssertUnwindSafe(|| cache.run_pending_tasks())).is_err());
    LIMIT.store(1 << 16, Ordering::Relaxed);
    let found = catch_unwind(AssertUnwindSafe(|| {
        cache.insert(2, 2);
        (cache.get(&1), cache.get(&2))
    }));
    LIMIT.store(usize::MAX, Ordering::Relaxed);
    assert_eq!(found.ok(), Some((None, Some(2))));
}
