//! What a cache owns: it drops the key and the value of each entry that leaves, and clones a key only for a call that
//! needs the clone.

use super::fixtures::{Calls, NOW, OneId};
use crate::engine::moka_engine::{
    BaseCache, DefaultHasher, Engine, EvictionPolicy, ExpirationPolicy, ExpireAfter, ExpireAfterCreate, FixedClock,
    HousekeeperConfig, Instant, Listener, NoExpiry, NoTest, OutOfMemory, PredicateFn, RemovalCause,
};
use crate::support::alloc::{AllocError, Global};
use crate::support::clone::unless_refused;
use std::cell::RefCell;
use std::rc::Rc;
use std::time::Duration;

/// A key that is also held outside the cache, and that cannot be cloned: memory for that is refused.
#[derive(Debug, PartialEq, Eq, Hash)]
struct Unique(Rc<u64>);

impl Clone for Unique {
    fn clone(&self) -> Self {
        unless_refused(Err(AllocError))
    }
}

/// Keeps the cause of each notice, and drops key and value. Clones share what they keep.
#[derive(Clone, Default)]
struct Causes(Rc<RefCell<Vec<RemovalCause>>>);

impl<K, V> Listener<K, V> for Causes {
    fn notify(&mut self, _: K, _: V, cause: RemovalCause) {
        self.0.borrow_mut().push(cause);
    }
}

/// Covers each entry.
#[derive(Debug)]
struct All;

impl<K, V> PredicateFn<K, V> for All {
    fn applies(&self, _: &K, _: &V) -> bool {
        true
    }
}

const TEN: Duration = Duration::from_nanos(10);

/// An entry lasts for ten nanoseconds after its creation.
struct TenAfterCreate;

impl<K, V> ExpireAfterCreate<K, V> for TenAfterCreate {
    fn expire_after_create(&self, _: &K, _: &V, _: Instant) -> Option<Duration> {
        Some(TEN)
    }
}

type OwnExpiry = ExpireAfter<TenAfterCreate, NoExpiry, NoExpiry>;

type Held = Engine<Unique, Rc<u8>, OwnExpiry, Causes, All>;

fn time_to_live() -> ExpirationPolicy<OwnExpiry> {
    let mut policy = ExpirationPolicy::default();
    policy.set_time_to_live(TEN);
    policy
}

fn time_to_idle() -> ExpirationPolicy<OwnExpiry> {
    let mut policy = ExpirationPolicy::default();
    policy.set_time_to_idle(TEN);
    policy
}

fn own_expiry() -> ExpirationPolicy<OwnExpiry> {
    let mut policy = ExpirationPolicy::default();
    policy.set_expiry(ExpireAfter {
        create: TenAfterCreate,
        read: NoExpiry,
        update: NoExpiry,
    });
    policy
}

/// An empty cache. By `CacheConfig` one without a listener would be of another type.
fn cache(
    expiration: ExpirationPolicy<OwnExpiry>,
    max_capacity: Option<u64>,
    eviction: EvictionPolicy,
    listener: Option<Causes>,
) -> Held {
    BaseCache::new(
        Global,
        None,
        max_capacity,
        None,
        DefaultHasher::default(),
        None,
        eviction,
        listener,
        expiration,
        HousekeeperConfig::default(),
        true,
        NOW,
        1,
    )
    .unwrap()
}

/// How many references to the first key, to the second one and to the value a cache holds.
type Counts = (usize, usize, usize);

const NONE: Counts = (0, 0, 0);
const FIRST: Counts = (1, 0, 1);
const SECOND: Counts = (0, 1, 1);
const BOTH: Counts = (1, 1, 2);

/// Two keys and a value, which tell how many references to them a cache holds.
struct Outside {
    first: Unique,
    second: Unique,
    value: Rc<u8>,
}

impl Outside {
    fn new() -> Self {
        Outside {
            first: Unique(Rc::new(1)),
            second: Unique(Rc::new(2)),
            value: Rc::new(7),
        }
    }

    fn held(&self) -> Counts {
        (
            Rc::strong_count(&self.first.0) - 1,
            Rc::strong_count(&self.second.0) - 1,
            Rc::strong_count(&self.value) - 1,
        )
    }

    fn put(&self, cache: &mut Held, key: &Unique, now: Instant) {
        cache.put(Unique(Rc::clone(&key.0)), 1, Rc::clone(&self.value), now);
    }

    fn put_both(&self, cache: &mut Held, now: Instant) {
        self.put(cache, &self.first, now);
        self.put(cache, &self.second, now);
    }
}

fn remove(cache: &mut Held, key: &Unique, now: Instant) {
    let (entry, ticket) = cache.remove_entry(key, 1).expect("the key is there");
    cache.notify_invalidate(&entry, now).unwrap();
    cache.send(ticket).unwrap();
}

/// Puts two entries, of which a run leaves what is `kept`, and lets them leave in every way. The cache has no listener,
/// so nobody else drops them.
fn assert_drops_what_leaves(mut cache: Held, kept: Counts) {
    let outside = Outside::new();
    for case in ["put", "replaced"] {
        outside.put_both(&mut cache, NOW);
        cache.run(NOW);
        assert_eq!(outside.held(), kept, "{case}");
    }

    outside.put_both(&mut cache, NOW);
    remove(&mut cache, &outside.first, NOW);
    remove(&mut cache, &outside.second, NOW);
    cache.run(NOW);
    assert_eq!(outside.held(), NONE, "removed");

    outside.put_both(&mut cache, Instant(1));
    cache.invalidate_all(Instant(2));
    cache.run(Instant(2));
    assert_eq!(outside.held(), NONE, "invalidated");

    outside.put_both(&mut cache, Instant(3));
    cache.invalidate_entries_if(All, Instant(3), &mut OneId).unwrap();
    cache.run(Instant(3));
    assert_eq!(outside.held(), NONE, "covered by a predicate");

    outside.put_both(&mut cache, Instant(4));
    cache.run(Instant(14));
    assert_eq!(outside.held(), NONE, "expired");

    outside.put_both(&mut cache, Instant(14));
    drop(cache);
    assert_eq!(outside.held(), NONE, "dropped with the cache");
}

#[test]
fn drops_what_leaves_with_a_time_to_live() {
    assert_drops_what_leaves(cache(time_to_live(), None, EvictionPolicy::Lru, None), BOTH);
}

#[test]
fn drops_what_leaves_with_a_time_to_idle() {
    assert_drops_what_leaves(cache(time_to_idle(), None, EvictionPolicy::Lru, None), BOTH);
}

#[test]
fn drops_what_leaves_with_an_expiry() {
    assert_drops_what_leaves(cache(own_expiry(), None, EvictionPolicy::Lru, None), BOTH);
}

#[test]
fn drops_what_is_evicted_by_recency() {
    assert_drops_what_leaves(cache(time_to_live(), Some(1), EvictionPolicy::Lru, None), SECOND);
}

#[test]
fn drops_what_is_rejected_by_frequency() {
    assert_drops_what_leaves(cache(time_to_live(), Some(1), EvictionPolicy::TinyLfu, None), FIRST);
}

/// A cache with this listener, whose entries last for ten nanoseconds without being used.
fn heard_by(causes: &Causes) -> Held {
    cache(time_to_idle(), None, EvictionPolicy::Lru, Some(causes.clone()))
}

/// The value that a get finds, which may need a clone of the key as well.
fn get(cache: &mut Held, key: &Unique, need_key: bool, now: Instant) -> Result<Option<u8>, OutOfMemory> {
    let (test, clock) = (Some(&mut NoTest), &mut FixedClock(now));
    let found = cache.get_with_hash_and_ignore_if(key, 1, test, need_key, now, clock)?;
    Ok(found.map(|entry| *entry.value))
}

#[test]
fn a_call_that_needs_a_clone_of_a_key_is_refused_and_changes_nothing() {
    let (outside, mut cache) = (Outside::new(), heard_by(&Causes::default()));
    let key = &outside.first;
    outside.put(&mut cache, key, NOW);

    assert_eq!(get(&mut cache, key, true, Instant(5)), Err(OutOfMemory));
    assert_eq!(cache.queued_reads(), 0);
    assert!(cache.contains_key_with_hash(key, 1, Instant(9)));
    assert!(!cache.contains_key_with_hash(key, 1, Instant(10)));
    assert_eq!(cache.keys(0), Err(OutOfMemory));
    // No clone is needed of a key that is not there.
    assert_eq!(get(&mut cache, &outside.second, true, Instant(5)), Ok(None));
    assert_eq!(cache.queued_reads(), 1);
}

#[test]
fn look_ups_make_no_clone_of_a_key_unless_it_is_asked_for() {
    let (outside, mut cache) = (Outside::new(), heard_by(&Causes::default()));
    let (key, now) = (&outside.first, Instant(1));
    outside.put(&mut cache, key, NOW);

    assert_eq!(get(&mut cache, key, false, now), Ok(Some(7)));
    let unrecorded = cache.get_with_hash_without_recording(key, 1, Some(&mut NoTest), now);
    assert_eq!(unrecorded, Ok(Some(Rc::new(7))));
    assert_eq!(cache.scanning_get(key, now), Ok(Some(Rc::new(7))));
    assert_eq!(cache.get_key_with_hash(key, 1), Some(key));
}

#[test]
fn writes_and_runs_make_no_clone_of_a_key() {
    let (outside, causes) = (Outside::new(), Causes::default());
    let (mut cache, now) = (heard_by(&causes), Instant(20));
    outside.put(&mut cache, &outside.first, NOW);
    assert_eq!(get(&mut cache, &outside.first, false, Instant(1)), Ok(Some(7)));
    outside.put_both(&mut cache, Instant(1));

    // A removal clones the key for its notice alone, which the listener does not get then.
    let hash = cache.hash(&outside.second);
    let removed = cache.remove_entry_with_own_hash(&outside.second, hash);
    let (entry, _) = removed.expect("the key is there");
    assert_eq!(cache.notify_invalidate(&entry, Instant(1)), Err(OutOfMemory));
    drop(entry);

    cache.run(now);
    outside.put(&mut cache, &outside.first, now);
    assert_eq!(*causes.0.borrow(), [RemovalCause::Replaced, RemovalCause::Expired]);
    assert_eq!(outside.held(), FIRST);

    // A cache that is dropped notifies nobody.
    drop(cache);
    assert_eq!(outside.held(), NONE);
    assert_eq!(causes.0.borrow().len(), 2);
}
