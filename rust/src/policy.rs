//! The policy of a cache, expiries, and what a cache counts. moka: `policy`.

/// Which entries a full cache keeps: those that are asked for often, or those that were used last.
///
/// ```
/// use ravulemis::{EvictionPolicy, sync::Cache};
/// use std::hash::{BuildHasherDefault, DefaultHasher};
///
/// // How many of five keys that are asked for again and again outlast a scan of a hundred others. Hashes that differ
/// // from run to run would let one of the hundred in now and then.
/// let kept = |policy| {
///     let builder = Cache::builder().max_capacity(10).eviction_policy(policy);
///     let cache = builder.build_with_hasher(BuildHasherDefault::<DefaultHasher>::default());
///     for key in (0..20).map(|step| step % 5).chain(100..200) {
///         cache.get_with(key, || 'a');
///         cache.run_pending_tasks();
///     }
///     (0..5).filter(|key| cache.contains_key(key)).count()
/// };
/// assert_eq!(kept(EvictionPolicy::tiny_lfu()), 5);
/// assert_eq!(kept(EvictionPolicy::lru()), 0);
/// ```
pub use crate::engine::moka_engine::EvictionPolicy;

use crate::engine::moka_engine as engine;
use crate::key::Key;
use crate::mark::Mark;
use std::iter::Sum;
use std::ops::{Add, AddAssign, Deref};
use std::sync::Arc;
use std::time::{Duration, Instant};

/// Decides when each entry expires. moka: `Expiry`.
///
/// Each call answers how long the entry lasts from now on, `None` for always. A time to live or to idle of the cache
/// holds beside it, and the earliest end counts. Calls are made under the lock of a shard, so they must not call the
/// cache. `contains_key` and `iter` ask nothing.
///
/// ```
/// use ravulemis::{Expiry, sync::Cache};
/// use std::time::{Duration, Instant};
///
/// struct ByLength;
///
/// impl Expiry<u32, String> for ByLength {
///     fn expire_after_create(&self, _: &u32, value: &String, _: Instant) -> Option<Duration> {
///         Some(Duration::from_secs(value.len() as u64))
///     }
/// }
///
/// let cache = Cache::builder().max_capacity(100).expire_after(ByLength).build();
/// cache.insert(1, "four".to_string());
/// cache.insert(2, String::new());
/// assert_eq!(cache.get(&1).as_deref(), Some("four"));
/// assert_eq!(cache.get(&2), None);
/// ```
pub trait Expiry<K, V> {
    /// Asked when an entry is created, also if its key is there with an entry whose own time is over. The default is
    /// always.
    ///
    /// ```
    /// use ravulemis::{Expiry, sync::Cache};
    /// use std::time::{Duration, Instant};
    ///
    /// struct Hours;
    ///
    /// impl Expiry<u32, u64> for Hours {
    ///     fn expire_after_create(&self, _: &u32, hours: &u64, _: Instant) -> Option<Duration> {
    ///         Some(Duration::from_secs(hours * 3600))
    ///     }
    /// }
    ///
    /// let cache = Cache::builder().expire_after(Hours).build();
    /// cache.insert(1, 24);
    /// cache.insert(2, 0);
    /// assert_eq!((cache.get(&1), cache.get(&2)), (Some(24), None));
    /// ```
    #[allow(unused_variables)]
    fn expire_after_create(&self, key: &K, value: &V, created_at: Instant) -> Option<Duration> {
        None
    }

    /// Asked when an entry is read; `duration_until_expiry` is what it has left by all its times, and the default
    /// answer.
    ///
    /// ```
    /// use ravulemis::{Expiry, sync::Cache};
    /// use std::time::{Duration, Instant};
    ///
    /// /// Entries that are handed out once.
    /// struct Once;
    ///
    /// impl Expiry<u32, char> for Once {
    ///     fn expire_after_read(
    ///         &self,
    ///         _: &u32,
    ///         _: &char,
    ///         _: Instant,
    ///         left: Option<Duration>,
    ///         _: Instant,
    ///     ) -> Option<Duration> {
    ///         assert_eq!(left, None);
    ///         Some(Duration::ZERO)
    ///     }
    /// }
    ///
    /// let cache = Cache::builder().expire_after(Once).build();
    /// cache.insert(1, 'a');
    /// assert_eq!((cache.get(&1), cache.get(&1)), (Some('a'), None));
    /// ```
    #[allow(unused_variables)]
    fn expire_after_read(
        &self,
        key: &K,
        value: &V,
        read_at: Instant,
        duration_until_expiry: Option<Duration>,
        last_modified_at: Instant,
    ) -> Option<Duration> {
        duration_until_expiry
    }

    /// Asked when a value is replaced; `duration_until_expiry` is what the entry has left by all its times, and the
    /// default answer.
    ///
    /// ```
    /// use ravulemis::{Expiry, sync::Cache};
    /// use std::time::{Duration, Instant};
    ///
    /// /// Entries that expire when they are marked with an `x`.
    /// struct Marked;
    ///
    /// impl Expiry<u32, char> for Marked {
    ///     fn expire_after_update(
    ///         &self,
    ///         _: &u32,
    ///         value: &char,
    ///         _: Instant,
    ///         left: Option<Duration>,
    ///     ) -> Option<Duration> {
    ///         if *value == 'x' { Some(Duration::ZERO) } else { left }
    ///     }
    /// }
    ///
    /// let cache = Cache::builder().expire_after(Marked).build();
    /// cache.insert(1, 'a');
    /// cache.insert(1, 'b');
    /// assert_eq!(cache.get(&1), Some('b'));
    /// cache.insert(1, 'x');
    /// assert_eq!(cache.get(&1), None);
    /// ```
    #[allow(unused_variables)]
    fn expire_after_update(
        &self,
        key: &K,
        value: &V,
        updated_at: Instant,
        duration_until_expiry: Option<Duration>,
    ) -> Option<Duration> {
        duration_until_expiry
    }
}

/// That of what is behind a pointer. For each pointer by itself: for all at once it would be in the way of a caller's
/// own, of an `Arc` or `Box` of a type of theirs.
macro_rules! behind {
    ($pointer:ty) => {
        impl<K, V> Expiry<K, V> for $pointer {
            fn expire_after_create(&self, key: &K, value: &V, created_at: Instant) -> Option<Duration> {
                self.deref().expire_after_create(key, value, created_at)
            }

            fn expire_after_read(
                &self,
                key: &K,
                value: &V,
                read_at: Instant,
                duration_until_expiry: Option<Duration>,
                last_modified_at: Instant,
            ) -> Option<Duration> {
                self.deref()
                    .expire_after_read(key, value, read_at, duration_until_expiry, last_modified_at)
            }

            fn expire_after_update(
                &self,
                key: &K,
                value: &V,
                updated_at: Instant,
                duration_until_expiry: Option<Duration>,
            ) -> Option<Duration> {
                self.deref()
                    .expire_after_update(key, value, updated_at, duration_until_expiry)
            }
        }
    };
}

behind!(Arc<dyn Expiry<K, V> + Send + Sync>);
behind!(Box<dyn Expiry<K, V> + Send + Sync>);

/// The limits of a cache. moka: `Policy`.
///
/// ```
/// # use ravulemis::sync::Cache;
/// let policy = Cache::<u32, u32>::new(100).policy();
/// assert_eq!((policy.max_capacity(), policy.time_to_live()), (Some(100), None));
/// ```
#[derive(Clone, Debug, PartialEq, Eq)]
pub struct Policy {
    pub(crate) max_capacity: Option<u64>,
    pub(crate) shards: usize,
    pub(crate) time_to_live: Option<Duration>,
    pub(crate) time_to_idle: Option<Duration>,
}

impl Policy {
    /// The greatest total weight that is kept, if there is a bound.
    ///
    /// ```
    /// # use ravulemis::sync::Cache;
    /// let cache = Cache::<u32, u32>::new(100);
    /// assert_eq!(cache.policy().max_capacity(), Some(100));
    /// ```
    pub fn max_capacity(&self) -> Option<u64> {
        self.max_capacity
    }

    /// The number of shards.
    ///
    /// ```
    /// # use ravulemis::sync::Cache;
    /// let cache = Cache::<u32, u32>::builder().shards(4).build();
    /// assert_eq!(cache.policy().num_segments(), 4);
    /// ```
    pub fn num_segments(&self) -> usize {
        self.shards
    }

    /// How long an entry stays after it was written.
    ///
    /// ```
    /// # use ravulemis::sync::Cache;
    /// use std::time::Duration;
    ///
    /// let cache = Cache::<u32, u32>::builder().time_to_live(Duration::from_secs(60)).build();
    /// assert_eq!(cache.policy().time_to_live(), Some(Duration::from_secs(60)));
    /// ```
    pub fn time_to_live(&self) -> Option<Duration> {
        self.time_to_live
    }

    /// How long an entry stays after it was written or read.
    ///
    /// ```
    /// # use ravulemis::sync::Cache;
    /// use std::time::Duration;
    ///
    /// let cache = Cache::<u32, u32>::builder().time_to_idle(Duration::from_secs(60)).build();
    /// assert_eq!(cache.policy().time_to_idle(), Some(Duration::from_secs(60)));
    /// ```
    pub fn time_to_idle(&self) -> Option<Duration> {
        self.time_to_idle
    }
}

/// What a cache has counted since it was built. Later versions may count more.
#[derive(Clone, Copy, Debug, Default, PartialEq, Eq)]
#[non_exhaustive]
pub struct Stats {
    /// Look-ups that found a value.
    pub hits: u64,
    /// Look-ups that found none, also those that then waited for another's load. Hits and misses are all look-ups.
    pub misses: u64,
    /// Values that were made by `get_with` and its like, also those for which there was no room, as in a cache of
    /// capacity 0.
    pub loads: u64,
    /// Loads that gave no value: the maker gave none, by `None` or an error, or something panicked.
    pub load_failures: u64,
    /// Values that left because their time was over.
    pub expired: u64,
    /// Values that a caller took out or invalidated, and that have left.
    pub explicit: u64,
    /// Values that were replaced.
    pub replaced: u64,
    /// Values for which there was no room.
    pub evicted: u64,
}

impl Stats {
    /// How many of all look-ups found a value, from 0 to 1; `None` before the first.
    ///
    /// ```
    /// let cache = ravulemis::sync::Cache::new(100);
    /// assert_eq!(cache.stats().hit_ratio(), None);
    /// cache.insert(1, 'a');
    /// (cache.get(&1), cache.get(&2));
    /// assert_eq!(cache.stats().hit_ratio(), Some(0.5));
    /// ```
    pub fn hit_ratio(&self) -> Option<f64> {
        let (hits, misses) = (self.hits as f64, self.misses as f64);
        (hits + misses > 0.0).then(|| hits / (hits + misses))
    }
}

impl Add for Stats {
    type Output = Stats;

    /// What two caches have counted, each sum at most `u64::MAX`.
    ///
    /// ```
    /// let (one, other) = (ravulemis::sync::Cache::new(10), ravulemis::sync::Cache::new(10));
    /// (one.insert(1, 'a'), other.insert(1, 'a'));
    /// (one.get(&1), other.get(&2));
    /// let stats = one.stats() + other.stats();
    /// assert_eq!((stats.hits, stats.misses), (1, 1));
    /// ```
    fn add(self, other: Stats) -> Stats {
        Stats {
            hits: self.hits.saturating_add(other.hits),
            misses: self.misses.saturating_add(other.misses),
            loads: self.loads.saturating_add(other.loads),
            load_failures: self.load_failures.saturating_add(other.load_failures),
            expired: self.expired.saturating_add(other.expired),
            explicit: self.explicit.saturating_add(other.explicit),
            replaced: self.replaced.saturating_add(other.replaced),
            evicted: self.evicted.saturating_add(other.evicted),
        }
    }
}

impl AddAssign for Stats {
    /// Adds what another cache has counted.
    ///
    /// ```
    /// let cache = ravulemis::sync::Cache::<u32, u32>::new(100);
    /// cache.get(&1);
    /// let mut stats = cache.stats();
    /// stats += cache.stats();
    /// assert_eq!(stats.misses, 2);
    /// ```
    fn add_assign(&mut self, other: Stats) {
        *self = *self + other;
    }
}

impl Sum for Stats {
    /// What several caches have counted.
    ///
    /// ```
    /// use ravulemis::{Stats, sync::Cache};
    /// let caches = [Cache::<u32, u32>::new(100), Cache::new(100)];
    /// for cache in &caches {
    ///     cache.get(&1);
    /// }
    /// assert_eq!(caches.iter().map(Cache::stats).sum::<Stats>().misses, 2);
    /// ```
    fn sum<I: Iterator<Item = Stats>>(all: I) -> Stats {
        all.fold(Stats::default(), Add::add)
    }
}

/// The engine's expiry: the caller's, asked with moments of std. It is asked before a look-up or an insert changes
/// anything.
pub(crate) struct Asked<K, V> {
    pub expiry: Arc<dyn Expiry<K, V> + Send + Sync>,
    pub mark: Mark,
    /// The engine's moment 0.
    pub start: Instant,
}

impl<K, V> Asked<K, V> {
    fn moment(&self, moment: engine::Instant) -> Instant {
        self.start + Duration::from_nanos(moment.0)
    }
}

impl<K, V> engine::Expiry<Key<'_, K>, V> for Asked<K, V> {
    fn expire_after_create(&self, key: &Key<'_, K>, value: &V, created_at: engine::Instant) -> Option<Duration> {
        let key = key.shared()?;
        let created_at = self.moment(created_at);
        self.mark
            .before_changes(|| self.expiry.expire_after_create(key, value, created_at))
    }

    fn expire_after_read(
        &self,
        key: &Key<'_, K>,
        value: &V,
        read_at: engine::Instant,
        left: Option<Duration>,
        last_modified_at: engine::Instant,
    ) -> Option<Duration> {
        let (read_at, last_modified_at) = (self.moment(read_at), self.moment(last_modified_at));
        let key = key.shared()?;
        self.mark.before_changes(|| {
            self.expiry
                .expire_after_read(key, value, read_at, left, last_modified_at)
        })
    }

    fn expire_after_update(
        &self,
        key: &Key<'_, K>,
        value: &V,
        updated_at: engine::Instant,
        left: Option<Duration>,
    ) -> Option<Duration> {
        let (key, updated_at) = (key.shared()?, self.moment(updated_at));
        self.mark
            .before_changes(|| self.expiry.expire_after_update(key, value, updated_at, left))
    }
}
