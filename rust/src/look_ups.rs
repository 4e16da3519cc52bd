//! How often the calls of both caches, and of the generated one, hash, compare and look up a key that is there.

use crate::engine::moka_cache::{Cache, Op as Computed};
use crate::engine::moka_engine::{CacheConfig, FixedClock, Instant};
use crate::entry::Op;
use crate::key::COMPARISONS;
use crate::support::alloc::Global;
use crate::{sync, unsync};
use std::cell::Cell;
use std::hash::{Hash, Hasher};

type Generated = Cache<Counting, u32>;

thread_local! {
    static HASHES: Cell<u32> = const { Cell::new(0) };
    static EQUALS: Cell<u32> = const { Cell::new(0) };
}

/// A key that counts.
#[derive(Clone, Copy, Eq)]
struct Counting;

impl PartialEq for Counting {
    fn eq(&self, _: &Self) -> bool {
        EQUALS.set(EQUALS.get() + 1);
        true
    }
}

impl Hash for Counting {
    fn hash<H: Hasher>(&self, state: &mut H) {
        HASHES.set(HASHES.get() + 1);
        state.write_u32(0);
    }
}

/// Makes a call: how often it hashed the key, compared it by its own `Eq`, and looked it up.
fn counted(call: impl FnOnce()) -> (u32, u32, u32) {
    HASHES.set(0);
    EQUALS.set(0);
    COMPARISONS.set(0);
    call();
    (HASHES.get(), EQUALS.get(), COMPARISONS.get())
}

const KEY: Counting = Counting;
const ONCE: (u32, u32, u32) = (1, 1, 1);
// The key that is kept is looked up by the caller's `Eq`, and by its address then.
const TO_PUT: (u32, u32, u32) = (1, 1, 2);

/// Makes calls of a cache whose one entry is there, and compares what each cost.
macro_rules! calls {
    ($cache:ident, $upsert:expr, $remove:expr) => {{
        type Call = fn(&mut $cache::Cache<Counting, u32>);
        let calls: [(&str, Call, (u32, u32, u32)); 24] = [
            ("get", |it| assert_eq!(it.get(&KEY), Some(1)), ONCE),
            ("contains_key", |it| assert!(it.contains_key(&KEY)), ONCE),
            ("insert", |it| it.insert(KEY, 1), TO_PUT),
            ("remove", |it| assert_eq!(it.remove(&KEY), Some(1)), ONCE),
            ("invalidate", |it| it.invalidate(&KEY), ONCE),
            ("get_with", |it| _ = it.get_with(KEY, || 2), ONCE),
            ("get_with_by_ref", |it| _ = it.get_with_by_ref(&KEY, || 2), ONCE),
            (
                "optionally_get_with",
                |it| _ = it.optionally_get_with(KEY, || None),
                ONCE,
            ),
            (
                "optionally_get_with_by_ref",
                |it| _ = it.optionally_get_with_by_ref(&KEY, || None),
                ONCE,
            ),
            ("try_get_with", |it| _ = it.try_get_with(KEY, || Err("no")), ONCE),
            (
                "try_get_with_by_ref",
                |it| _ = it.try_get_with_by_ref(&KEY, || Err("no")),
                ONCE,
            ),
            ("or_insert", |it| _ = it.entry(KEY).or_insert(2), ONCE),
            ("or_default", |it| _ = it.entry(KEY).or_default(), ONCE),
            ("or_insert_with", |it| _ = it.entry(KEY).or_insert_with(|| 2), ONCE),
            (
                "or_insert_with_if",
                |it| _ = it.entry(KEY).or_insert_with_if(|| 2, |old| *old > 1),
                ONCE,
            ),
            (
                "or_optionally_insert_with",
                |it| _ = it.entry(KEY).or_optionally_insert_with(|| None),
                ONCE,
            ),
            (
                "or_try_insert_with",
                |it| _ = it.entry(KEY).or_try_insert_with(|| Err("no")),
                ONCE,
            ),
            (
                "or_insert_with by a reference",
                |it| _ = it.entry_by_ref(&KEY).or_insert_with(|| 2),
                ONCE,
            ),
            (
                "or_insert_with_if by a reference",
                |it| _ = it.entry_by_ref(&KEY).or_insert_with_if(|| 2, |_| false),
                ONCE,
            ),
            (
                "or_try_insert_with by a reference",
                |it| _ = it.entry_by_ref(&KEY).or_try_insert_with(|| Err("no")),
                ONCE,
            ),
            (
                "and_compute_with to nothing",
                |it| _ = it.entry(KEY).and_compute_with(|_| Op::Nop),
                ONCE,
            ),
            (
                "and_compute_with to nothing by a reference",
                |it| _ = it.entry_by_ref(&KEY).and_compute_with(|_| Op::Nop),
                ONCE,
            ),
            (
                "and_upsert_with",
                |it| _ = it.entry(KEY).and_upsert_with(|_| 2),
                $upsert,
            ),
            (
                "and_compute_with to a removal",
                |it| _ = it.entry(KEY).and_compute_with(|_| Op::Remove),
                $remove,
            ),
        ];
        for (name, call, cost) in calls {
            let mut cache = $cache::Cache::new(100);
            cache.insert(KEY, 1);
            let seen = counted(|| call(&mut cache));
            assert_eq!(seen, cost, "{name}");
        }
    }};
}

#[test]
fn a_key_that_is_there_is_looked_up_once() {
    // What the closure saw may have changed when a shared cache puts a value there, or takes one out.
    calls!(sync, (1, 2, 3), (1, 2, 2));
    calls!(unsync, TO_PUT, (1, 1, 2));
}

/// Makes calls of the generated cache, whose one entry is there, and compares how often each hashed and compared it.
#[test]
fn the_generated_cache_looks_a_key_up_once() {
    type Call = fn(&mut Generated, &mut FixedClock) -> bool;
    const NOW: Instant = Instant(0);
    let calls: [(&str, Call, (u32, u32)); 14] = [
        ("get", |it, clock| it.get(&KEY, NOW, clock).is_ok(), (1, 1)),
        ("contains_key", |it, _| it.contains_key(&KEY, NOW), (1, 1)),
        ("insert", |it, clock| it.insert(KEY, 1, NOW, clock).is_ok(), (1, 1)),
        ("remove", |it, clock| it.remove(&KEY, NOW, clock).is_ok(), (1, 1)),
        (
            "invalidate",
            |it, clock| it.invalidate(&KEY, NOW, clock).is_ok(),
            (1, 1),
        ),
        (
            "get_with",
            |it, clock| it.get_with(KEY, || 2, NOW, clock).is_ok(),
            (1, 1),
        ),
        (
            "optionally_get_with",
            |it, clock| it.optionally_get_with(KEY, || None, NOW, clock).is_ok(),
            (1, 1),
        ),
        (
            "try_get_with",
            |it, clock| it.try_get_with(KEY, || Err("no"), NOW, clock).is_ok(),
            (1, 1),
        ),
        (
            "or_insert",
            |it, clock| it.entry(KEY).or_insert(2, NOW, clock).is_ok(),
            (1, 1),
        ),
        (
            "or_insert_with",
            |it, clock| it.entry(KEY).or_insert_with(|| 2, NOW, clock).is_ok(),
            (1, 1),
        ),
        (
            "or_optionally_insert_with",
            |it, clock| it.entry(KEY).or_optionally_insert_with(|| None, NOW, clock).is_ok(),
            (1, 1),
        ),
        (
            "or_try_insert_with",
            |it, clock| it.entry(KEY).or_try_insert_with(|| Err("no"), NOW, clock).is_ok(),
            (1, 1),
        ),
        (
            "and_compute_with to nothing",
            |it, clock| it.entry(KEY).and_compute_with(|_| Computed::Nop, NOW, clock).is_ok(),
            (1, 1),
        ),
        // It looks the key up, and then puts it there.
        (
            "and_upsert_with",
            |it, clock| it.entry(KEY).and_upsert_with(|_| 2, NOW, clock).is_ok(),
            (1, 2),
        ),
    ];
    for (name, call, cost) in calls {
        let clock = &mut FixedClock(NOW);
        let mut cache = Generated::build(CacheConfig::default(), Global, NOW).expect("memory");
        assert!(cache.insert(KEY, 1, NOW, clock).is_ok());
        let (hashes, equals, _) = counted(|| assert!(call(&mut cache, clock), "{name}"));
        assert_eq!((hashes, equals), cost, "{name}");
    }
}
