//! A cache that threads share: shards by the key's hash, each behind a lock.
//!
//! ```
//! use ravulemis::sync::Cache;
//! use std::thread;
//!
//! let cache = Cache::new(10_000);
//! thread::scope(|scope| {
//!     for thread in 0..4 {
//!         let cache = cache.clone();
//!         scope.spawn(move || {
//!             for key in thread * 100..(thread + 1) * 100 {
//!                 cache.insert(key, format!("value {key}"));
//!             }
//!         });
//!     }
//! });
//! assert_eq!(cache.get(&250).as_deref(), Some("value 250"));
//! ```

mod builder;
mod calls;
mod entry;
mod iter;
mod loads;

pub use builder::CacheBuilder;
pub use entry::{OwnedKeyEntrySelector, RefKeyEntrySelector};
pub use iter::Iter;

use self::calls::{Place, Places};
use crate::engine::moka_segments::Router;
use crate::notices::locked;
use crate::settings::{Settings, Tests};
use crate::shard::Shard;
use crate::{Policy, PredicateError, Stats};
use std::borrow::Borrow;
use std::fmt;
use std::hash::{BuildHasher, Hash, RandomState};
use std::panic::{RefUnwindSafe, UnwindSafe};
use std::sync::Arc;
use std::sync::atomic::{AtomicU64, Ordering};

/// Names a predicate that was registered.
///
/// ```
/// use ravulemis::sync::{Cache, PredicateId};
/// let cache = Cache::<u32, u32>::builder().support_invalidation_closures().build();
/// let hide = |least| -> PredicateId { cache.invalidate_entries_if(move |key, _| *key >= least).unwrap() };
/// assert_ne!(hide(10), hide(20));
/// ```
pub type PredicateId = String;

// A hash for the router, which goes by the upper half: a hasher of the caller's may leave that empty. The factor is
// none of the engine's, which spreads the same hash anew: by one of those the keys of a shard would meet in a part of
// its index.
fn spread(hash: u64) -> u64 {
    hash.wrapping_mul(0xD1B5_4A32_D192_ED03)
}

struct Shared<K: 'static, V, S> {
    places: Places<K, V>,
    // The hasher of the keys, and which shard a hash belongs to.
    router: Router<S>,
    settings: Arc<Settings<K, V>>,
    loads: AtomicU64,
    load_failures: AtomicU64,
    // The identifier of the last predicate.
    last_predicate: AtomicU64,
}

/// A bounded cache that threads share. A clone is another owner of the same cache. moka: `sync::Cache`.
///
/// Each shard is a cache of its own behind a lock, and has its share of the capacity; the builder says how many there
/// are. A call that concerns all of them, such as `invalidate_all`, `iter`, `stats` or `entry_count`, goes from one to
/// the next, so its answer is no snapshot while other threads call.
///
/// The listener is called after the lock is released, in the order in which values left the shard, by the thread by
/// whose call they left, or by another that is notifying already. So it may call the cache: of what leaves by that it
/// is notified when it has returned, so a thread never calls it within itself. It must not wait for another thread that
/// calls the cache: if 1,024 notices are pending, or one thread has told 256, that one may wait for it. Nor may it put
/// back each value that leaves with `Size`: another leaves for it, so the call never ends. A call by which nothing left
/// neither calls the listener nor waits for it. If a maker or a closure of an entry calls the cache, the listener may
/// be called within it: then it must not have a value made or computed for that key, nor for one whose maker or closure
/// may wait for that key. If the listener may have a value made or computed for a key, the maker or closure of that key
/// must not wait for another thread that calls the cache: that one may wait for the listener, and the listener for the
/// maker or closure.
///
/// In a listener, a maker or a closure of an entry no call waits for a listener. When the outermost of them has ended,
/// its call waits instead, also for the listeners of other caches that were called within it. So a slow listener holds
/// back who puts entries there in makers, but by no more than a maker at a time: what one maker, or one call of a
/// listener, lets leave waits in memory.
///
/// Of what left by the look-up of `and_upsert_with`, `and_compute_with` or `and_try_compute_with` the call notifies the
/// listener when the closure has returned, if no other has: the closure must not wait for what that frees. Without a
/// listener it is dropped before the closure is called: its `Drop` must not make one of these calls for that key.
///
/// The weigher, the expiry and predicates, `Eq` of keys and `Clone` of values may be called under the lock of a shard:
/// they must neither call the cache nor wait for a lock that a thread holds while it calls the cache. The same holds
/// for `Drop` of what a predicate has captured, and of keys and values after a panic and in a cache of capacity 0;
/// otherwise they are dropped after the lock is released.
///
/// # Panics of the caller's own code
/// A panic goes on to the caller whose call it was. One of `Eq`, `Hash`, the weigher, the expiry, a predicate or `Clone`
/// in a look-up, a maker of `get_with`, a closure of an entry, the listener, or `Drop` (but that of what a predicate
/// has captured) changes nothing. Once a panic of the listener is caught it is not notified again; until then other
/// threads may notify it of what left other shards.
///
/// If a predicate panics in a run of maintenance, or the `Clone` of a value that is taken out by `remove`, `invalidate`
/// or an entry call, the shard is **emptied** by the next call for it but `entry_count` and `weighted_size`, which
/// answer 0 of it: its entries are gone, and the listener is not notified of them. That is the whole cache if there is
/// one shard, as by default with a weigher or a capacity below 2,048.
pub struct Cache<K: 'static, V, S = RandomState>(Arc<Shared<K, V, S>>);

impl<K, V, S> Clone for Cache<K, V, S> {
    /// Another owner of the same cache.
    ///
    /// ```
    /// let cache = ravulemis::sync::Cache::new(100);
    /// let other = cache.clone();
    /// cache.insert(1, 'a');
    /// assert_eq!(other.get(&1), Some('a'));
    /// ```
    fn clone(&self) -> Self {
        Cache(Arc::clone(&self.0))
    }
}

// What a panic left half done no later call sees.
impl<K, V, S: RefUnwindSafe> UnwindSafe for Cache<K, V, S> {}
impl<K, V, S: RefUnwindSafe> RefUnwindSafe for Cache<K, V, S> {}

impl<K, V, S> fmt::Debug for Cache<K, V, S>
where
    K: fmt::Debug + Eq + Hash + Send + Sync + 'static,
    V: fmt::Debug + Clone + Send + Sync + 'static,
    S: BuildHasher,
{
    /// A map of the entries that [`iter`](Cache::iter) gives.
    ///
    /// ```
    /// let cache = ravulemis::sync::Cache::new(100);
    /// cache.insert(1, 'a');
    /// assert_eq!(format!("{cache:?}"), "{1: 'a'}");
    /// ```
    fn fmt(&self, f: &mut fmt::Formatter<'_>) -> fmt::Result {
        f.debug_map().entries(self).finish()
    }
}

impl<K, V> Cache<K, V, RandomState>
where
    K: Eq + Hash + Send + Sync + 'static,
    V: Clone + Send + Sync + 'static,
{
    /// A cache of `max_capacity` entries, from which TinyLFU evicts. Between two batches of maintenance there may be up
    /// to 64 more in each shard.
    ///
    /// ```
    /// let cache = ravulemis::sync::Cache::new(100);
    /// cache.insert("key", 7);
    /// assert_eq!(cache.get("key"), Some(7));
    /// ```
    pub fn new(max_capacity: u64) -> Self {
        Cache::builder().max_capacity(max_capacity).build()
    }

    /// What builds a cache of these types. [`CacheBuilder`] says what an empty one takes.
    ///
    /// ```
    /// use ravulemis::{EvictionPolicy, sync::Cache};
    ///
    /// let builder = Cache::builder().max_capacity(100).eviction_policy(EvictionPolicy::lru());
    /// let cache: Cache<u32, u32> = builder.build();
    /// assert_eq!(cache.policy().max_capacity(), Some(100));
    /// ```
    pub fn builder() -> CacheBuilder<K, V> {
        CacheBuilder::default()
    }
}

impl<K: 'static, V, S> Cache<K, V, S> {
    /// The cache's name, if it has one.
    ///
    /// ```
    /// # use ravulemis::sync::Cache;
    /// let cache: Cache<u32, u32> = Cache::builder().name("users").build();
    /// assert_eq!(cache.name(), Some("users"));
    /// ```
    pub fn name(&self) -> Option<&str> {
        self.0.settings.name.as_deref()
    }

    /// The cache's limits.
    ///
    /// ```
    /// # use ravulemis::sync::Cache;
    /// let cache: Cache<u32, u32> = Cache::new(100);
    /// assert_eq!(cache.policy().max_capacity(), Some(100));
    /// assert_eq!(cache.policy().time_to_live(), None);
    /// ```
    pub fn policy(&self) -> Policy {
        let settings = &self.0.settings;
        Policy {
            max_capacity: settings.max_capacity,
            shards: self.0.places.all.len(),
            time_to_live: settings.time_to_live,
            time_to_idle: settings.time_to_idle,
        }
    }

    /// How many entries the last runs of maintenance left.
    ///
    /// ```
    /// let cache = ravulemis::sync::Cache::new(100);
    /// cache.insert(1, 'a');
    /// cache.run_pending_tasks();
    /// assert_eq!(cache.entry_count(), 1);
    /// ```
    pub fn entry_count(&self) -> u64 {
        let places = self.0.places.all.iter();
        places.map(|place| locked(&place.shard).entry_count()).sum()
    }

    /// The total weight that the last runs of maintenance left.
    ///
    /// ```
    /// # use ravulemis::sync::Cache;
    /// let cache = Cache::builder().weigher(|_, text: &String| text.len() as u32).build();
    /// cache.insert(1, "four".to_string());
    /// cache.run_pending_tasks();
    /// assert_eq!(cache.weighted_size(), 4);
    /// ```
    pub fn weighted_size(&self) -> u64 {
        let places = self.0.places.all.iter();
        let weights = places.map(|place| locked(&place.shard).weighted_size());
        weights.fold(0, u64::saturating_add)
    }
}

impl<K, V, S> Cache<K, V, S>
where
    K: Eq + Hash + Send + Sync + 'static,
    V: Clone + Send + Sync + 'static,
    S: BuildHasher,
{
    fn place(&self, hash: u64) -> &Place<K, V> {
        &self.0.places.all[self.0.router.segment_of_hash(spread(hash))]
    }

    // Makes a call for a shard.
    #[inline]
    fn with<R>(&self, place: &Place<K, V>, call: impl FnOnce(&mut Shard<K, V>) -> R) -> R {
        self.0.places.calls(place).make(call)
    }

    // Makes a call for each shard. The engine's cache in segments, whose router names the shard of a key, has one owner
    // of all; here one lock is held at a time.
    fn with_each(&self, mut call: impl FnMut(&mut Shard<K, V>)) {
        for place in &self.0.places.all {
            self.with(place, &mut call);
        }
    }

    // The look-up of all calls that ask for a value alone: the engine's stands in it, once for a type of keys.
    #[inline]
    fn get_hashed<Q>(&self, hash: u64, key: &Q) -> Option<V>
    where
        K: Borrow<Q>,
        Q: Eq + ?Sized,
    {
        self.with(self.place(hash), |shard| shard.get(hash, key))
    }

    fn insert_shared(&self, hash: u64, key: Arc<K>, value: V) {
        self.with(self.place(hash), |shard| shard.insert(hash, key, value));
    }

    /// A clone of a key's value.
    ///
    /// The key may be any borrowed form of the cache's type of keys.
    ///
    /// ```
    /// let cache = ravulemis::sync::Cache::new(100);
    /// cache.insert("key".to_string(), 7);
    /// assert_eq!(cache.get("key"), Some(7));
    /// assert_eq!(cache.get("another"), None);
    /// ```
    #[inline]
    pub fn get<Q>(&self, key: &Q) -> Option<V>
    where
        K: Borrow<Q>,
        Q: Eq + Hash + ?Sized,
    {
        let hash = self.0.router.hasher().hash_one(key);
        self.get_hashed(hash, key)
    }

    /// Whether there is a value under a key. This does not count as a read.
    ///
    /// ```
    /// let cache = ravulemis::sync::Cache::new(100);
    /// cache.insert(1, 'a');
    /// assert!(cache.contains_key(&1));
    /// assert!(!cache.contains_key(&2));
    /// ```
    pub fn contains_key<Q>(&self, key: &Q) -> bool
    where
        K: Borrow<Q>,
        Q: Eq + Hash + ?Sized,
    {
        let hash = self.0.router.hasher().hash_one(key);
        self.with(self.place(hash), |shard| shard.contains(hash, key))
    }

    /// Puts a value under a key. An old value leaves as `Replaced`.
    ///
    /// ```
    /// let cache = ravulemis::sync::Cache::new(100);
    /// cache.insert(1, 'a');
    /// cache.insert(1, 'b');
    /// assert_eq!(cache.get(&1), Some('b'));
    /// ```
    #[inline]
    pub fn insert(&self, key: K, value: V) {
        self.insert_shared(self.0.router.hasher().hash_one(&key), Arc::new(key), value);
    }

    /// Takes a key's value out and hands it out, also one that has expired or was invalidated and has not left yet. The
    /// listener is notified.
    ///
    /// ```
    /// let cache = ravulemis::sync::Cache::new(100);
    /// cache.insert(1, 'a');
    /// assert_eq!(cache.remove(&1), Some('a'));
    /// assert_eq!(cache.remove(&1), None);
    /// ```
    pub fn remove<Q>(&self, key: &Q) -> Option<V>
    where
        K: Borrow<Q>,
        Q: Eq + Hash + ?Sized,
    {
        let hash = self.0.router.hasher().hash_one(key);
        self.with(self.place(hash), |shard| shard.remove(hash, key))
    }

    /// Removes a key's entry. The listener is notified. As in `remove`, the value is cloned under the shard's lock. A
    /// value that is being made for the key is put there all the same.
    ///
    /// ```
    /// let cache = ravulemis::sync::Cache::new(100);
    /// cache.insert(1, 'a');
    /// cache.invalidate(&1);
    /// assert_eq!(cache.get(&1), None);
    /// ```
    pub fn invalidate<Q>(&self, key: &Q)
    where
        K: Borrow<Q>,
        Q: Eq + Hash + ?Sized,
    {
        // What is dropped here is dropped without the lock.
        drop(self.remove(key));
    }

    /// Hides all values that are there, shard by shard. They leave in later runs of maintenance.
    ///
    /// ```
    /// let cache = ravulemis::sync::Cache::new(100);
    /// cache.insert(1, 'a');
    /// cache.invalidate_all();
    /// cache.insert(2, 'b');
    /// assert_eq!((cache.get(&1), cache.get(&2)), (None, Some('b')));
    /// ```
    pub fn invalidate_all(&self) {
        self.with_each(|shard| shard.invalidate_all());
    }

    /// Hides all values that are there and to which the predicate says yes. They leave in later runs of maintenance,
    /// and the predicate with them: until then look-ups ask it too, and the run that comes to the end of a shard asks it
    /// about that shard's entries until one is covered, under the lock. It has to answer equal arguments equally.
    ///
    /// A run asks all predicates that are registered about each entry that it looks at. So many of them at once on a
    /// large cache make one call take long, with 500 on a million entries of one shard seconds: let one predicate ask
    /// for many things, for example whether a set has the key.
    ///
    /// # Errors
    /// `InvalidationClosuresDisabled` if the cache was built without `support_invalidation_closures`; `OutOfMemory` if
    /// a shard had no memory for one more predicate: then some shards may have it already.
    ///
    /// # Panics
    /// If an earlier predicate panics in a run of maintenance that this call makes: then, too, some shards may have
    /// it already.
    ///
    /// ```
    /// # use ravulemis::sync::Cache;
    /// let cache = Cache::builder().max_capacity(100).support_invalidation_closures().build();
    /// cache.insert(1, 10);
    /// cache.insert(2, 20);
    /// cache.invalidate_entries_if(|_, value| *value > 10)?;
    /// assert_eq!((cache.get(&1), cache.get(&2)), (Some(10), None));
    /// # Ok::<(), ravulemis::PredicateError>(())
    /// ```
    pub fn invalidate_entries_if<F>(&self, predicate: F) -> Result<PredicateId, PredicateError>
    where
        F: Fn(&K, &V) -> bool + Send + Sync + 'static,
    {
        self.hide(Arc::new(predicate))
    }

    fn hide(&self, predicate: Tests<K, V>) -> Result<PredicateId, PredicateError> {
        let id = self.0.last_predicate.fetch_add(1, Ordering::Relaxed) + 1;
        let mut answer = Ok(id.to_string());
        self.with_each(|shard| {
            if let Err(error) = shard.invalidate_entries_if(Arc::clone(&predicate), id.into()) {
                answer = Err(error);
            }
        });
        answer
    }

    /// Does what calls left for later: what has expired, was invalidated or exceeds the capacity leaves. A shard's lock
    /// is held for one run at a time, which ends when nothing is due or predicates were asked about 384 entries. The
    /// run that comes to the end of a shard also asks each predicate about its entries until one is covered, to drop
    /// those predicates that are done.
    ///
    /// ```
    /// let cache = ravulemis::sync::Cache::new(2);
    /// for key in 0..10 {
    ///     cache.insert(key, key);
    /// }
    /// cache.run_pending_tasks();
    /// assert_eq!(cache.entry_count(), 2);
    /// ```
    pub fn run_pending_tasks(&self) {
        for place in &self.0.places.all {
            let mut runs = self.with(place, |shard| shard.run_pending_tasks());
            // The lock is released between two, and the listener is notified.
            while runs > 0 {
                runs = self.with(place, |shard| shard.run_pending_tasks()).min(runs - 1);
            }
        }
    }

    /// What the cache has counted.
    ///
    /// ```
    /// let cache = ravulemis::sync::Cache::new(100);
    /// cache.insert(1, 'a');
    /// cache.get(&1);
    /// cache.get(&2);
    /// assert_eq!((cache.stats().hits, cache.stats().misses), (1, 1));
    /// ```
    pub fn stats(&self) -> Stats {
        let mut stats = Stats {
            loads: self.0.loads.load(Ordering::Relaxed),
            load_failures: self.0.load_failures.load(Ordering::Relaxed),
            ..Stats::default()
        };
        self.with_each(|shard| stats += shard.stats());
        stats
    }

    /// All visible entries, shard by shard. A shard's keys are those at the moment when the iterator comes to it: the
    /// shard's keys are copied under its lock, about 0.1 µs each, and calls for it wait meanwhile. An entry that has
    /// gone since is left out, and of one that was put back the new value is given. No lock is held between two items,
    /// and nothing counts as a read.
    ///
    /// ```
    /// let cache = ravulemis::sync::Cache::new(100);
    /// cache.insert(1, 'a');
    /// cache.insert(2, 'b');
    /// let mut entries: Vec<_> = cache.iter().map(|(key, value)| (*key, value)).collect();
    /// entries.sort();
    /// assert_eq!(entries, [(1, 'a'), (2, 'b')]);
    /// ```
    pub fn iter(&self) -> Iter<'_, K, V, S> {
        Iter::new(self)
    }
}

impl<'a, K, V, S> IntoIterator for &'a Cache<K, V, S>
where
    K: Eq + Hash + Send + Sync + 'static,
    V: Clone + Send + Sync + 'static,
    S: BuildHasher,
{
    type Item = (Arc<K>, V);
    type IntoIter = Iter<'a, K, V, S>;

    /// As [`iter`](Cache::iter).
    ///
    /// ```
    /// let cache = ravulemis::sync::Cache::new(100);
    /// cache.insert(1, 'a');
    /// for (key, value) in &cache {
    ///     assert_eq!((*key, value), (1, 'a'));
    /// }
    /// ```
    fn into_iter(self) -> Self::IntoIter {
        self.iter()
    }
}

#[cfg(test)]
mod tests {
    use super::*;
    use crate::engine::moka_store::IndexHash;
    use std::collections::HashSet;

    const SHARDS: usize = 64;

    // The parts of its index that the keys of each shard take, of as many as there are shards.
    fn parts(hash_of: impl Fn(u64) -> u64) -> Vec<HashSet<u32>> {
        let router = Router::new((), SHARDS as u32);
        let mut parts = vec![HashSet::new(); SHARDS];
        for key in 0..100_000 {
            let hash = hash_of(key);
            let part = IndexHash::of(hash).0 >> 26;
            parts[router.segment_of_hash(spread(hash))].insert(part);
        }
        parts
    }

    #[test]
    fn keys_of_a_shard_lie_all_over_its_index() {
        let hasher = RandomState::new();
        for parts in [parts(|key| hasher.hash_one(key)), parts(|key| key)] {
            assert!(parts.iter().all(|parts| parts.len() == SHARDS), "{parts:?}");
        }
    }
}
