//! What builds a shared cache.

use super::calls::{Place, Places};
use super::{Cache, Shared};
use crate::engine::moka_segments::Router;
use crate::making::Makers;
use crate::notices::AllNotices;
use crate::settings::{Settings, setters};
use crate::shard::{Shard, Visits};
use crate::{EvictionPolicy, Expiry, RemovalCause};
use std::fmt;
use std::hash::{BuildHasher, Hash, RandomState};
use std::sync::atomic::AtomicU64;
use std::sync::{Arc, Mutex};
use std::time::{Duration, Instant};

// At least so many entries are a shard's share if the builder chooses the shards.
const LEAST_SHARE: u64 = 1024;
// At most so many shards are chosen by the builder, and asked of it.
const MAX_CHOSEN: u64 = 64;
const MAX_ASKED: usize = 1 << 16;

/// What a shared cache is built with. moka: `sync::CacheBuilder`.
///
/// All [shards](Self::shards) are made at once: an empty cache without a capacity, or of 65,536 entries or more, has
/// 64, takes some 680 KB of memory and asks for 1.9 MB. One of 1,000 entries, or with a weigher, has one, and takes
/// some 11 KB. For many small caches set a capacity, or `shards(1)`.
///
/// ```
/// use ravulemis::{EvictionPolicy, RemovalCause, sync::Cache};
/// use std::time::Duration;
///
/// let cache = Cache::builder()
///     .name("pages")
///     .max_capacity(32 << 20)
///     .initial_capacity(1000)
///     .eviction_policy(EvictionPolicy::tiny_lfu())
///     .weigher(|_: &String, page: &Vec<u8>| page.len().try_into().unwrap_or(u32::MAX))
///     .eviction_listener(|url, _, cause: RemovalCause| println!("{url} has left: {cause:?}"))
///     .time_to_live(Duration::from_secs(3600))
///     .time_to_idle(Duration::from_secs(600))
///     .support_invalidation_closures()
///     .shards(4)
///     .build();
/// cache.insert("/".to_string(), b"page".to_vec());
/// assert_eq!(cache.get("/"), Some(b"page".to_vec()));
/// ```
#[must_use = "a builder does nothing until it builds"]
pub struct CacheBuilder<K, V> {
    settings: Settings<K, V>,
    shards: Option<usize>,
}

impl<K, V> fmt::Debug for CacheBuilder<K, V> {
    fn fmt(&self, f: &mut fmt::Formatter<'_>) -> fmt::Result {
        f.debug_struct("CacheBuilder")
            .field("settings", &self.settings)
            .field("shards", &self.shards)
            .finish()
    }
}

impl<K, V> Default for CacheBuilder<K, V> {
    /// A builder of a cache without a bound, which has 64 shards and takes some 680 KB of memory when it is empty.
    ///
    /// ```
    /// use ravulemis::sync::CacheBuilder;
    /// let cache = CacheBuilder::default().build();
    /// cache.insert(1, 'a');
    /// assert_eq!(cache.policy().max_capacity(), None);
    /// ```
    fn default() -> Self {
        CacheBuilder {
            settings: Settings::default(),
            shards: None,
        }
    }
}

impl<K, V> CacheBuilder<K, V>
where
    K: Eq + Hash + Send + Sync + 'static,
    V: Clone + Send + Sync + 'static,
{
    /// A builder of a cache of this [capacity](Self::max_capacity).
    ///
    /// ```
    /// use ravulemis::sync::CacheBuilder;
    /// let cache = CacheBuilder::new(100).build();
    /// cache.insert(1, 'a');
    /// ```
    pub fn new(max_capacity: u64) -> Self {
        CacheBuilder::default().max_capacity(max_capacity)
    }

    setters!("sync", "cache");

    /// Is notified of each value that leaves, with key and cause, after the lock of its shard is released. By default
    /// nobody is. It may call the cache ([`Cache`] says how), but if it owns a clone of it that is never dropped. It
    /// must not put back each value that leaves with `Size`: another leaves for it, so the call never ends. If it is
    /// slow, calls by which something leaves wait for it, as [`Cache`] says. With a listener a call lets a batch of at
    /// most 384 entries leave in each step of a run, however many are due; the calls that follow go on. All whose own
    /// expiry has come leave at once, and so do all that exceed the capacity.
    ///
    /// ```
    /// # use ravulemis::sync::Cache;
    /// use ravulemis::notification::RemovalCause;
    /// use std::sync::{Arc, mpsc};
    ///
    /// let (sender, left) = mpsc::channel();
    /// let listener = move |key: Arc<u32>, value, cause| sender.send((*key, value, cause)).unwrap();
    /// let cache = Cache::builder().eviction_listener(listener).build();
    /// cache.insert(1, 'a');
    /// cache.insert(1, 'b');
    /// assert_eq!(left.recv(), Ok((1, 'a', RemovalCause::Replaced)));
    /// ```
    pub fn eviction_listener<F>(mut self, listener: F) -> Self
    where
        F: Fn(Arc<K>, V, RemovalCause) + Send + Sync + 'static,
    {
        self.settings.listener = Some(Arc::new(listener));
        self
    }

    /// The number of shards, rounded up to a power of two, from 1 to 65,536, and at most the capacity. Each has its
    /// share of the capacity, so an entry that weighs more than a share is not kept, and a shard whose keys come often
    /// evicts before the whole is full. Each asks the allocator for about 30 KB, also empty, of which about 11 KB are
    /// touched at first.
    ///
    /// By default a cache with a weigher has one shard; another has the greatest power of two that leaves each at least
    /// 1,024 entries, at most 64, and 64 without a capacity.
    ///
    /// ```
    /// # use ravulemis::sync::Cache;
    /// let cache: Cache<u32, u32> = Cache::builder().max_capacity(10_000).shards(16).build();
    /// assert_eq!(cache.policy().num_segments(), 16);
    /// ```
    pub fn shards(mut self, shards: usize) -> Self {
        self.shards = Some(shards);
        self
    }

    /// An empty cache.
    ///
    /// # Panics
    /// If there is no memory for the initial capacity.
    ///
    /// ```
    /// let cache = ravulemis::sync::CacheBuilder::new(100).build();
    /// cache.insert(1, 'a');
    /// ```
    pub fn build(self) -> Cache<K, V> {
        self.build_with_hasher(RandomState::new())
    }

    /// An empty cache whose keys are hashed by this hasher.
    ///
    /// # Panics
    /// If there is no memory for the initial capacity.
    ///
    /// ```
    /// use std::hash::RandomState;
    /// let cache = ravulemis::sync::CacheBuilder::new(100).build_with_hasher(RandomState::new());
    /// cache.insert(1, 'a');
    /// ```
    pub fn build_with_hasher<S: BuildHasher>(self, hasher: S) -> Cache<K, V, S> {
        let count = self.count_of_shards();
        let mut settings = self.settings;
        settings.initial_capacity = settings.initial_capacity.map(|all| all.div_ceil(count as usize));
        let (settings, start) = (Arc::new(settings), Instant::now());
        let visits = Visits::new(count);
        let router = Router::new(hasher, count);
        let notices = settings.listener.as_ref();
        let notices = notices.map(|listener| AllNotices::new(listener, count as usize));
        let places = (0..router.count()).map(|index| {
            let share = settings.max_capacity.map(|all| router.share(all, index));
            Place {
                index: index as usize,
                shard: Mutex::new(Shard::new(settings.clone(), share, visits.clone(), start)),
                makers: Makers::default(),
            }
        });
        let places = Places::new(places.collect(), notices);
        Cache(Arc::new(Shared {
            places,
            router,
            settings,
            loads: AtomicU64::new(0),
            load_failures: AtomicU64::new(0),
            last_predicate: AtomicU64::new(0),
        }))
    }

    fn count_of_shards(&self) -> u32 {
        if let Some(asked) = self.shards {
            // A share of 0 would keep nothing.
            let most = self.settings.max_capacity.unwrap_or(u64::MAX).max(1).ilog2();
            let asked = asked.clamp(1, MAX_ASKED).next_power_of_two();
            return (asked as u32).min(1 << most.min(16));
        }
        if self.settings.weigher.is_some() {
            return 1;
        }
        let wanted = self.settings.max_capacity.map_or(MAX_CHOSEN, |all| all / LEAST_SHARE);
        1 << wanted.clamp(1, MAX_CHOSEN).ilog2()
    }
}
