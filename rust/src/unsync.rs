//! A cache with one owner: no locks, no shards.
//!
//! ```
//! use ravulemis::unsync::Cache;
//!
//! let mut cache = Cache::new(10_000);
//! cache.insert("a key".to_string(), 7);
//! assert_eq!(cache.get("a key"), Some(7));
//! ```

mod entry;
mod iter;

pub use entry::{EntrySelector, RefKeyEntrySelector};
pub use iter::Iter;

use crate::notices::{Notices, locked, make_waits};
use crate::settings::{Settings, Tests, setters};
use crate::shard::{Shard, Visits};
use crate::{Entry, EvictionPolicy, Expiry, Policy, PredicateError, RemovalCause, Stats};
use std::borrow::Borrow;
use std::fmt;
use std::hash::{BuildHasher, Hash, RandomState};
use std::sync::{Arc, Mutex};
use std::time::{Duration, Instant};

/// Names a predicate that was registered.
///
/// ```
/// use ravulemis::unsync::{Cache, PredicateId};
/// let mut cache = Cache::<u32, u32>::builder().support_invalidation_closures().build();
/// let mut hide = |least| -> PredicateId { cache.invalidate_entries_if(move |key, _| *key >= least).unwrap() };
/// assert_ne!(hide(10), hide(20));
/// ```
pub type PredicateId = String;

/// A bounded cache with one owner. It is `Send` if keys, values and the hasher are.
///
/// The listener is called in the order in which values left, at the end of the call by which they did or between two
/// steps of it: before a maker or a closure, and between two runs of `run_pending_tasks`.
///
/// # Panics of the caller's own code
/// A panic of `Eq`, `Hash`, the weigher, the expiry, a predicate or `Clone` in a look-up, a maker of `get_with`, the
/// listener, or `Drop` (but that of what a predicate has captured) changes nothing; after its first panic the listener
/// is not notified again. If a predicate panics in a run of maintenance, or the `Clone` of a value that is taken out,
/// the cache is **emptied** by the next call that may change it: its entries are gone, and the listener is not notified
/// of them.
pub struct Cache<K: 'static, V, S = RandomState> {
    shard: Shard<K, V>,
    notices: Option<Notices<K, V>>,
    hasher: S,
    settings: Arc<Settings<K, V>>,
    last_predicate: u64,
}

/// A call. At its end, which may be a panic, the listener is told of what left by it; without one that is dropped.
struct Call<'a, K: 'static, V> {
    shard: &'a mut Shard<K, V>,
    notices: Option<&'a Notices<K, V>>,
}

impl<K, V> Call<'_, K, V> {
    #[cold]
    fn settle(&self) {
        let Some(left) = self.shard.take_left() else {
            return;
        };
        match self.notices {
            Some(notices) => {
                notices.put(left);
                notices.deliver(|| ());
                make_waits();
            }
            None => left.drop_each(),
        }
    }
}

impl<K, V> Drop for Call<'_, K, V> {
    #[inline]
    fn drop(&mut self) {
        if self.shard.has_rest() {
            self.settle();
        }
    }
}

/// What a cache with one owner is built with.
///
/// ```
/// use ravulemis::{EvictionPolicy, RemovalCause, unsync::Cache};
/// use std::sync::mpsc;
///
/// let (sender, left) = mpsc::channel();
/// let mut cache = Cache::builder()
///     .max_capacity(2)
///     .eviction_policy(EvictionPolicy::lru())
///     .eviction_listener(move |key, _, cause| sender.send((*key, cause)).unwrap())
///     .build();
/// for key in 0..3 {
///     cache.insert(key, key);
/// }
/// cache.run_pending_tasks();
/// assert_eq!(left.try_recv(), Ok((0, RemovalCause::Size)));
/// ```
#[must_use = "a builder does nothing until it builds"]
pub struct CacheBuilder<K, V> {
    settings: Settings<K, V>,
}

impl<K, V> fmt::Debug for CacheBuilder<K, V> {
    fn fmt(&self, f: &mut fmt::Formatter<'_>) -> fmt::Result {
        f.debug_struct("CacheBuilder")
            .field("settings", &self.settings)
            .finish()
    }
}

impl<K, V> Default for CacheBuilder<K, V> {
    /// A builder of a cache without a bound.
    ///
    /// ```
    /// use ravulemis::unsync::CacheBuilder;
    /// let mut cache = CacheBuilder::default().build();
    /// cache.insert(1, 'a');
    /// assert_eq!(cache.policy().max_capacity(), None);
    /// ```
    fn default() -> Self {
        let settings = Settings::default();
        CacheBuilder { settings }
    }
}

impl<K: Eq + Hash + Sync + 'static, V: Clone + 'static> CacheBuilder<K, V> {
    /// A builder of a cache of this [capacity](Self::max_capacity).
    ///
    /// ```
    /// use ravulemis::unsync::CacheBuilder;
    /// let mut cache = CacheBuilder::new(100).build();
    /// cache.insert(1, 'a');
    /// ```
    pub fn new(max_capacity: u64) -> Self {
        CacheBuilder::default().max_capacity(max_capacity)
    }

    setters!("unsync", "mut cache");

    /// Is notified of each value that leaves, with key and cause, at the end of the call or between two steps of it. By
    /// default nobody is.
    ///
    /// ```
    /// # use ravulemis::unsync::Cache;
    /// use std::sync::{Arc, mpsc};
    ///
    /// let (sender, left) = mpsc::channel();
    /// let listener = move |key: Arc<u32>, value, _| sender.send((*key, value)).unwrap();
    /// let mut cache = Cache::builder().eviction_listener(listener).build();
    /// cache.insert(1, 'a');
    /// cache.remove(&1);
    /// assert_eq!(left.recv(), Ok((1, 'a')));
    /// ```
    pub fn eviction_listener<F>(mut self, listener: F) -> Self
    where
        F: FnMut(Arc<K>, V, RemovalCause) + Send + 'static,
    {
        let listener = Mutex::new(listener);
        self.settings.listener = Some(Arc::new(move |key, value, cause| locked(&listener)(key, value, cause)));
        self
    }

    /// An empty cache.
    ///
    /// # Panics
    /// If there is no memory for the initial capacity.
    ///
    /// ```
    /// let mut cache = ravulemis::unsync::CacheBuilder::new(100).build();
    /// cache.insert(1, 'a');
    /// ```
    pub fn build(self) -> Cache<K, V> {
        self.build_with_hasher(RandomState::new())
    }

    /// An empty cache whose keys are hashed by this hasher.
    ///
    /// # Panics
    /// If there is no memory for the initial capacity.
    ///
    /// ```
    /// use std::hash::RandomState;
    /// let mut cache = ravulemis::unsync::CacheBuilder::new(100).build_with_hasher(RandomState::new());
    /// cache.insert(1, 'a');
    /// ```
    pub fn build_with_hasher<S: BuildHasher>(self, hasher: S) -> Cache<K, V, S> {
        let settings = Arc::new(self.settings);
        let notices = settings
            .listener
            .clone()
            .map(|listener| Notices::new(listener, Arc::default()));
        let capacity = settings.max_capacity;
        Cache {
            shard: Shard::new(settings.clone(), capacity, Visits::new(1), Instant::now()),
            notices,
            hasher,
            settings,
            last_predicate: 0,
        }
    }
}

impl<K, V, S> fmt::Debug for Cache<K, V, S>
where
    K: fmt::Debug + Eq + Hash + Sync + 'static,
    V: fmt::Debug + Clone + 'static,
    S: BuildHasher,
{
    /// A map of the entries that [`iter`](Cache::iter) gives.
    ///
    /// ```
    /// let mut cache = ravulemis::unsync::Cache::new(100);
    /// cache.insert(1, 'a');
    /// assert_eq!(format!("{cache:?}"), "{1: 'a'}");
    /// ```
    fn fmt(&self, f: &mut fmt::Formatter<'_>) -> fmt::Result {
        f.debug_map().entries(self).finish()
    }
}

impl<K: Eq + Hash + Sync + 'static, V: Clone + 'static> Cache<K, V> {
    /// A cache of `max_capacity` entries, from which TinyLFU evicts. Between two batches of maintenance there may be up
    /// to 64 more.
    ///
    /// ```
    /// let mut cache = ravulemis::unsync::Cache::new(100);
    /// cache.insert("key", 7);
    /// assert_eq!(cache.get("key"), Some(7));
    /// ```
    pub fn new(max_capacity: u64) -> Self {
        Cache::builder().max_capacity(max_capacity).build()
    }

    /// What builds a cache of these types.
    ///
    /// ```
    /// # use ravulemis::unsync::Cache;
    /// let cache: Cache<u32, u32> = Cache::builder().max_capacity(100).build();
    /// assert_eq!(cache.policy().max_capacity(), Some(100));
    /// ```
    pub fn builder() -> CacheBuilder<K, V> {
        CacheBuilder::default()
    }
}

impl<K: Eq + Hash + Sync + 'static, V: Clone + 'static, S: BuildHasher> Cache<K, V, S> {
    /// The cache's name, if it has one.
    ///
    /// ```
    /// # use ravulemis::unsync::Cache;
    /// let cache: Cache<u32, u32> = Cache::builder().name("users").build();
    /// assert_eq!(cache.name(), Some("users"));
    /// ```
    pub fn name(&self) -> Option<&str> {
        self.settings.name.as_deref()
    }

    /// The cache's limits.
    ///
    /// ```
    /// let cache = ravulemis::unsync::Cache::<u32, u32>::new(100);
    /// assert_eq!(cache.policy().max_capacity(), Some(100));
    /// ```
    pub fn policy(&self) -> Policy {
        Policy {
            max_capacity: self.settings.max_capacity,
            shards: 1,
            time_to_live: self.settings.time_to_live,
            time_to_idle: self.settings.time_to_idle,
        }
    }

    // Makes a call, and tells the listener of what left by it.
    #[inline]
    fn with<R>(&mut self, call: impl FnOnce(&mut Shard<K, V>) -> R) -> R {
        let made = Call {
            shard: &mut self.shard,
            notices: self.notices.as_ref(),
        };
        made.shard.recover();
        call(made.shard)
    }

    /// A clone of a key's value, by the key or any borrowed form of it.
    ///
    /// ```
    /// let mut cache = ravulemis::unsync::Cache::new(100);
    /// cache.insert("key".to_string(), 7);
    /// assert_eq!(cache.get("key"), Some(7));
    /// assert_eq!(cache.get("another"), None);
    /// ```
    #[inline]
    pub fn get<Q>(&mut self, key: &Q) -> Option<V>
    where
        K: Borrow<Q>,
        Q: Eq + Hash + ?Sized,
    {
        let hash = self.hasher.hash_one(key);
        self.with(|shard| shard.get(hash, key))
    }

    /// Whether there is a value under a key. This does not count as a read.
    ///
    /// ```
    /// let mut cache = ravulemis::unsync::Cache::new(100);
    /// cache.insert(1, 'a');
    /// assert!(cache.contains_key(&1));
    /// assert!(!cache.contains_key(&2));
    /// ```
    pub fn contains_key<Q>(&self, key: &Q) -> bool
    where
        K: Borrow<Q>,
        Q: Eq + Hash + ?Sized,
    {
        let hash = self.hasher.hash_one(key);
        !self.shard.is_broken() && self.shard.contains(hash, key)
    }

    /// Puts a value under a key. An old value leaves as `Replaced`.
    ///
    /// ```
    /// let mut cache = ravulemis::unsync::Cache::new(100);
    /// cache.insert(1, 'a');
    /// cache.insert(1, 'b');
    /// assert_eq!(cache.get(&1), Some('b'));
    /// ```
    #[inline]
    pub fn insert(&mut self, key: K, value: V) {
        let hash = self.hasher.hash_one(&key);
        self.with(|shard| shard.insert(hash, Arc::new(key), value));
    }

    /// A clone of a key's value, which is made and put there if it is missing. A maker that panics has changed nothing.
    ///
    /// ```
    /// let mut cache = ravulemis::unsync::Cache::new(100);
    /// assert_eq!(cache.get_with(1, || 'a'), 'a');
    /// assert_eq!(cache.get_with(1, || unreachable!()), 'a');
    /// ```
    pub fn get_with(&mut self, key: K, init: impl FnOnce() -> V) -> V {
        self.entry(key).or_insert_with(init).into_value()
    }

    /// As [`get_with`](Self::get_with), by a borrowed form of the key, of which an owned one is made only if there is
    /// none.
    ///
    /// ```
    /// let mut cache = ravulemis::unsync::Cache::<String, u32>::new(100);
    /// assert_eq!(cache.get_with_by_ref("key", || 7), 7);
    /// assert_eq!(cache.get("key"), Some(7));
    /// ```
    pub fn get_with_by_ref<Q>(&mut self, key: &Q, init: impl FnOnce() -> V) -> V
    where
        K: Borrow<Q>,
        Q: Eq + Hash + ToOwned<Owned = K> + ?Sized,
    {
        self.entry_by_ref(key).or_insert_with(init).into_value()
    }

    /// As [`get_with`](Self::get_with), by a maker that may give no value: then nothing is put there.
    ///
    /// ```
    /// let mut cache = ravulemis::unsync::Cache::new(100);
    /// assert_eq!(cache.optionally_get_with(1, || None), None);
    /// assert_eq!(cache.optionally_get_with(1, || Some('a')), Some('a'));
    /// ```
    pub fn optionally_get_with<F>(&mut self, key: K, init: F) -> Option<V>
    where
        F: FnOnce() -> Option<V>,
    {
        let entry = self.entry(key).or_optionally_insert_with(init)?;
        Some(entry.into_value())
    }

    /// As [`optionally_get_with`](Self::optionally_get_with), by a borrowed form of the key.
    ///
    /// ```
    /// let mut cache = ravulemis::unsync::Cache::<String, u32>::new(100);
    /// assert_eq!(cache.optionally_get_with_by_ref("key", || "7".parse().ok()), Some(7));
    /// ```
    pub fn optionally_get_with_by_ref<F, Q>(&mut self, key: &Q, init: F) -> Option<V>
    where
        F: FnOnce() -> Option<V>,
        K: Borrow<Q>,
        Q: Eq + Hash + ToOwned<Owned = K> + ?Sized,
    {
        let entry = self.entry_by_ref(key).or_optionally_insert_with(init)?;
        Some(entry.into_value())
    }

    /// As [`get_with`](Self::get_with), by a maker that may fail: then nothing is put there.
    ///
    /// # Errors
    /// The maker's.
    ///
    /// ```
    /// let mut cache = ravulemis::unsync::Cache::<u32, u32>::new(100);
    /// assert!(cache.try_get_with(1, || "seven".parse::<u32>()).is_err());
    /// assert_eq!(cache.try_get_with(1, || "7".parse::<u32>()), Ok(7));
    /// ```
    pub fn try_get_with<F, E>(&mut self, key: K, init: F) -> Result<V, E>
    where
        F: FnOnce() -> Result<V, E>,
    {
        self.entry(key).or_try_insert_with(init).map(Entry::into_value)
    }

    /// As [`try_get_with`](Self::try_get_with), by a borrowed form of the key.
    ///
    /// # Errors
    /// The maker's.
    ///
    /// ```
    /// let mut cache = ravulemis::unsync::Cache::<String, u32>::new(100);
    /// assert_eq!(cache.try_get_with_by_ref("key", || "7".parse::<u32>()), Ok(7));
    /// ```
    pub fn try_get_with_by_ref<F, E, Q>(&mut self, key: &Q, init: F) -> Result<V, E>
    where
        F: FnOnce() -> Result<V, E>,
        K: Borrow<Q>,
        Q: Eq + Hash + ToOwned<Owned = K> + ?Sized,
    {
        let entry = self.entry_by_ref(key).or_try_insert_with(init)?;
        Ok(entry.into_value())
    }

    /// Selects a key, for one of the calls of the selector.
    ///
    /// ```
    /// let mut cache = ravulemis::unsync::Cache::new(100);
    /// let entry = cache.entry("key").or_insert_with(|| 7);
    /// assert!(entry.is_fresh());
    /// assert_eq!((*entry.key(), *entry.value()), ("key", 7));
    /// ```
    pub fn entry(&mut self, key: K) -> EntrySelector<'_, K, V, S> {
        let hash = self.hasher.hash_one(&key);
        EntrySelector::new(self, hash, key)
    }

    /// As [`entry`](Self::entry), by a borrowed form of the key, of which an owned one is made only if there is none.
    ///
    /// ```
    /// let mut cache = ravulemis::unsync::Cache::<String, u32>::new(100);
    /// assert_eq!(cache.entry_by_ref("key").or_insert(7).into_value(), 7);
    /// assert_eq!(cache.get("key"), Some(7));
    /// ```
    pub fn entry_by_ref<'a, Q>(&'a mut self, key: &'a Q) -> RefKeyEntrySelector<'a, K, Q, V, S>
    where
        K: Borrow<Q>,
        Q: Eq + Hash + ToOwned<Owned = K> + ?Sized,
    {
        let hash = self.hasher.hash_one(key);
        RefKeyEntrySelector::new(self, hash, key)
    }

    /// Takes a key's value out and hands it out, also one that has expired or was invalidated and has not left yet. The
    /// listener is notified.
    ///
    /// ```
    /// let mut cache = ravulemis::unsync::Cache::new(100);
    /// cache.insert(1, 'a');
    /// assert_eq!(cache.remove(&1), Some('a'));
    /// assert_eq!(cache.remove(&1), None);
    /// ```
    pub fn remove<Q>(&mut self, key: &Q) -> Option<V>
    where
        K: Borrow<Q>,
        Q: Eq + Hash + ?Sized,
    {
        let hash = self.hasher.hash_one(key);
        self.with(|shard| shard.remove(hash, key))
    }

    /// Removes a key's entry. The listener is notified.
    ///
    /// ```
    /// let mut cache = ravulemis::unsync::Cache::new(100);
    /// cache.insert(1, 'a');
    /// cache.invalidate(&1);
    /// assert_eq!(cache.get(&1), None);
    /// ```
    pub fn invalidate<Q>(&mut self, key: &Q)
    where
        K: Borrow<Q>,
        Q: Eq + Hash + ?Sized,
    {
        drop(self.remove(key));
    }

    /// Hides all values that are there. They leave in later runs of maintenance.
    ///
    /// ```
    /// let mut cache = ravulemis::unsync::Cache::new(100);
    /// cache.insert(1, 'a');
    /// cache.invalidate_all();
    /// cache.insert(2, 'b');
    /// assert_eq!((cache.get(&1), cache.get(&2)), (None, Some('b')));
    /// ```
    pub fn invalidate_all(&mut self) {
        self.with(|shard| shard.invalidate_all());
    }

    /// Hides all values that are there and to which the predicate says yes. They leave in later runs of maintenance,
    /// and the predicate with them. It has to answer equal arguments equally. A run asks all predicates that are
    /// registered about each entry that it looks at, so many of them at once on a large cache make one call take long.
    ///
    /// # Errors
    /// `InvalidationClosuresDisabled` if the cache was built without `support_invalidation_closures`; `OutOfMemory` if
    /// there is no memory for one more predicate.
    ///
    /// ```
    /// # use ravulemis::unsync::Cache;
    /// let mut cache = Cache::builder().support_invalidation_closures().build();
    /// cache.insert(1, 10);
    /// cache.insert(2, 20);
    /// cache.invalidate_entries_if(|_, value| *value > 10)?;
    /// assert_eq!((cache.get(&1), cache.get(&2)), (Some(10), None));
    /// # Ok::<(), ravulemis::PredicateError>(())
    /// ```
    pub fn invalidate_entries_if<F>(&mut self, predicate: F) -> Result<PredicateId, PredicateError>
    where
        F: Fn(&K, &V) -> bool + Send + Sync + 'static,
    {
        self.hide(Arc::new(predicate))
    }

    fn hide(&mut self, predicate: Tests<K, V>) -> Result<PredicateId, PredicateError> {
        self.last_predicate += 1;
        let id = self.last_predicate;
        self.with(|shard| shard.invalidate_entries_if(predicate, id.into()))?;
        Ok(id.to_string())
    }

    /// Does what calls left for later: what has expired, was invalidated or exceeds the capacity leaves.
    ///
    /// ```
    /// let mut cache = ravulemis::unsync::Cache::new(2);
    /// for key in 0..10 {
    ///     cache.insert(key, key);
    /// }
    /// cache.run_pending_tasks();
    /// assert_eq!(cache.entry_count(), 2);
    /// ```
    pub fn run_pending_tasks(&mut self) {
        let mut runs = self.with(|shard| shard.run_pending_tasks());
        while runs > 0 {
            runs = self.with(|shard| shard.run_pending_tasks()).min(runs - 1);
        }
    }

    /// How many entries the last run of maintenance left.
    ///
    /// ```
    /// let mut cache = ravulemis::unsync::Cache::new(100);
    /// cache.insert(1, 'a');
    /// cache.run_pending_tasks();
    /// assert_eq!(cache.entry_count(), 1);
    /// ```
    pub fn entry_count(&self) -> u64 {
        self.shard.entry_count()
    }

    /// The total weight that the last run of maintenance left.
    ///
    /// ```
    /// # use ravulemis::unsync::Cache;
    /// let mut cache = Cache::builder().weigher(|_, text: &String| text.len() as u32).build();
    /// cache.insert(1, "four".to_string());
    /// cache.run_pending_tasks();
    /// assert_eq!(cache.weighted_size(), 4);
    /// ```
    pub fn weighted_size(&self) -> u64 {
        self.shard.weighted_size()
    }

    /// What the cache has counted.
    ///
    /// ```
    /// let mut cache = ravulemis::unsync::Cache::new(100);
    /// cache.insert(1, 'a');
    /// cache.get(&1);
    /// cache.get(&2);
    /// assert_eq!((cache.stats().hits, cache.stats().misses), (1, 1));
    /// ```
    pub fn stats(&self) -> Stats {
        self.shard.stats()
    }

    /// All visible entries. Nothing counts as a read.
    ///
    /// ```
    /// let mut cache = ravulemis::unsync::Cache::new(100);
    /// cache.insert(1, 'a');
    /// assert_eq!(cache.iter().map(|(key, value)| (*key, value)).collect::<Vec<_>>(), [(1, 'a')]);
    /// ```
    pub fn iter(&self) -> Iter<'_, K, V, S> {
        Iter::new(self)
    }
}
