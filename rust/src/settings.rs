//! What a cache is built with.

use crate::engine::moka_engine as engine;
use crate::mark::Mark;
use crate::notices::Told;
use crate::{EvictionPolicy, Expiry};
use std::fmt;
use std::sync::Arc;
use std::time::Duration;

/// The caller's weigher.
pub(crate) type Weighs<K, V> = Arc<dyn Fn(&K, &V) -> u32 + Send + Sync>;
/// A caller's predicate.
pub(crate) type Tests<K, V> = Arc<dyn Fn(&K, &V) -> bool + Send + Sync>;

pub(crate) struct Settings<K, V> {
    pub name: Option<String>,
    pub max_capacity: Option<u64>,
    pub initial_capacity: Option<usize>,
    pub eviction_policy: EvictionPolicy,
    pub time_to_live: Option<Duration>,
    pub time_to_idle: Option<Duration>,
    pub expiry: Option<Arc<dyn Expiry<K, V> + Send + Sync>>,
    pub weigher: Option<Weighs<K, V>>,
    pub listener: Option<Told<K, V>>,
    pub takes_closures: bool,
}

impl<K, V> Default for Settings<K, V> {
    fn default() -> Self {
        Settings {
            name: None,
            max_capacity: None,
            initial_capacity: None,
            eviction_policy: EvictionPolicy::default(),
            time_to_live: None,
            time_to_idle: None,
            expiry: None,
            weigher: None,
            listener: None,
            takes_closures: false,
        }
    }
}

impl<K, V> Settings<K, V> {
    /// Whether a moment can decide about an entry.
    pub fn is_timed(&self) -> bool {
        self.time_to_live.is_some() || self.time_to_idle.is_some() || self.expiry.is_some()
    }
}

impl<K, V> fmt::Debug for Settings<K, V> {
    /// What can be shown: of code of the caller's, whether it is there.
    fn fmt(&self, f: &mut fmt::Formatter<'_>) -> fmt::Result {
        let policy = match self.eviction_policy {
            EvictionPolicy::TinyLfu => "TinyLfu",
            EvictionPolicy::Lru => "Lru",
        };
        f.debug_struct("Settings")
            .field("name", &self.name)
            .field("max_capacity", &self.max_capacity)
            .field("initial_capacity", &self.initial_capacity)
            .field("eviction_policy", &policy)
            .field("time_to_live", &self.time_to_live)
            .field("time_to_idle", &self.time_to_idle)
            .field("has_expiry", &self.expiry.is_some())
            .field("has_weigher", &self.weigher.is_some())
            .field("has_listener", &self.listener.is_some())
            .field("takes_closures", &self.takes_closures)
            .finish()
    }
}

/// The engine's weigher. What is too heavy to be kept weighs one more than the capacity: the engine makes its sketch as
/// long as the weight of all asks, so one entry of a great weight would take gigabytes.
///
/// It is asked before an insert changes anything.
pub(crate) struct Weighing<K, V> {
    weigher: Weighs<K, V>,
    most: u32,
    mark: Mark,
}

impl<K, V> Weighing<K, V> {
    pub fn new(weigher: Weighs<K, V>, capacity: Option<u64>, mark: Mark) -> Self {
        let most = capacity.and_then(|capacity| u32::try_from(capacity).ok()?.checked_add(1));
        let most = most.unwrap_or(u32::MAX);
        Weighing { weigher, most, mark }
    }
}

impl<K, V> engine::Weigher<crate::key::Key<'_, K>, V> for Weighing<K, V> {
    fn weigh(&self, key: &crate::key::Key<'_, K>, value: &V) -> u32 {
        let Some(key) = key.shared() else {
            return 0;
        };
        self.mark.before_changes(|| (self.weigher)(key, value)).min(self.most)
    }
}

/// The engine's predicate.
pub(crate) struct Testing<K, V>(pub Tests<K, V>);

impl<K, V> engine::PredicateFn<crate::key::Key<'_, K>, V> for Testing<K, V> {
    fn applies(&self, key: &crate::key::Key<'_, K>, value: &V) -> bool {
        key.shared().is_some_and(|key| (self.0)(key, value))
    }
}

/// The setters that both builders have. Their examples are of the builder's module, with a cache that is bound so.
macro_rules! setters {
    ($module:literal, $cache:literal) => {
        /// A name for diagnostics; `name` of the cache returns it. By default there is none.
        ///
        /// ```
        #[doc = concat!("use ravulemis::", $module, "::Cache;")]
        /// let cache: Cache<u32, u32> = Cache::builder().name("users").build();
        /// assert_eq!(cache.name(), Some("users"));
        /// ```
        pub fn name(mut self, name: &str) -> Self {
            self.settings.name = Some(name.to_string());
            self
        }

        /// The greatest total weight that is kept; without a weigher each entry weighs 1. Between two batches of
        /// maintenance there may be up to 64 entries more in each shard, whatever they weigh; `run_pending_tasks`
        /// applies what waits. A cache of capacity 0 keeps nothing. By default there is no bound.
        ///
        /// ```
        #[doc = concat!("use ravulemis::", $module, "::Cache;")]
        #[doc = concat!("let ", $cache, " = Cache::builder().max_capacity(2).build();")]
        /// (0..10).for_each(|key| cache.insert(key, key));
        /// cache.run_pending_tasks();
        /// assert_eq!(cache.entry_count(), 2);
        /// ```
        pub fn max_capacity(mut self, max_capacity: u64) -> Self {
            self.settings.max_capacity = Some(max_capacity);
            self
        }

        /// The number of entries that room is made for at once, whatever their weights. It bounds nothing.
        ///
        /// ```
        #[doc = concat!("use ravulemis::", $module, "::Cache;")]
        #[doc = concat!("let ", $cache, " = Cache::builder().max_capacity(10_000).initial_capacity(1000).build();")]
        /// cache.insert(1, 'a');
        /// ```
        pub fn initial_capacity(mut self, number_of_entries: usize) -> Self {
            self.settings.initial_capacity = Some(number_of_entries);
            self
        }

        /// How a cache that is full chooses what stays. By default it is TinyLFU.
        ///
        /// ```
        #[doc = concat!("use ravulemis::", $module, "::Cache;")]
        /// use ravulemis::policy::EvictionPolicy;
        ///
        /// let builder = Cache::builder().max_capacity(2).eviction_policy(EvictionPolicy::lru());
        #[doc = concat!("let ", $cache, " = builder.build();")]
        /// (0..10).for_each(|key| cache.insert(key, key));
        /// cache.run_pending_tasks();
        /// assert_eq!((cache.get(&8), cache.get(&9)), (Some(8), Some(9)));
        /// ```
        pub fn eviction_policy(mut self, policy: EvictionPolicy) -> Self {
            self.settings.eviction_policy = policy;
            self
        }

        /// How long an entry stays after it was written, exact to the nanosecond. By default it stays.
        ///
        /// ```
        #[doc = concat!("use ravulemis::", $module, "::Cache;")]
        /// use std::time::Duration;
        ///
        #[doc = concat!("let ", $cache, " = Cache::builder().time_to_live(Duration::from_millis(1)).build();")]
        /// cache.insert(1, 'a');
        /// std::thread::sleep(Duration::from_millis(2));
        /// assert_eq!(cache.get(&1), None);
        /// ```
        pub fn time_to_live(mut self, duration: Duration) -> Self {
            self.settings.time_to_live = Some(duration);
            self
        }

        /// How long an entry stays after it was written or read, exact to the nanosecond. By default it stays.
        ///
        /// ```
        #[doc = concat!("use ravulemis::", $module, "::Cache;")]
        /// use std::time::Duration;
        ///
        #[doc = concat!("let ", $cache, " = Cache::builder().time_to_idle(Duration::from_millis(1)).build();")]
        /// cache.insert(1, 'a');
        /// std::thread::sleep(Duration::from_millis(2));
        /// assert_eq!(cache.get(&1), None);
        /// ```
        pub fn time_to_idle(mut self, duration: Duration) -> Self {
            self.settings.time_to_idle = Some(duration);
            self
        }

        /// Decides when each entry expires. By default none does by itself.
        ///
        /// ```
        #[doc = concat!("use ravulemis::", $module, "::Cache;")]
        /// use std::time::{Duration, Instant};
        ///
        /// struct Seconds;
        ///
        /// impl ravulemis::Expiry<u32, u64> for Seconds {
        ///     fn expire_after_create(&self, _: &u32, seconds: &u64, _: Instant) -> Option<Duration> {
        ///         Some(Duration::from_secs(*seconds))
        ///     }
        /// }
        ///
        #[doc = concat!("let ", $cache, " = Cache::builder().expire_after(Seconds).build();")]
        /// cache.insert(1, 60);
        /// cache.insert(2, 0);
        /// assert_eq!((cache.get(&1), cache.get(&2)), (Some(60), None));
        /// ```
        pub fn expire_after(mut self, expiry: impl Expiry<K, V> + Send + Sync + 'static) -> Self {
            self.settings.expiry = Some(Arc::new(expiry));
            self
        }

        /// Weighs each entry as it is inserted. It has to give equal weights for equal arguments. One that exceeds the
        /// capacity, or a shard's share of it, counts as one more than that: such an entry is not kept. If it replaces
        /// a value that is kept, all others of its shard leave before it. By default each weighs 1.
        ///
        /// ```
        #[doc = concat!("use ravulemis::", $module, "::Cache;")]
        /// let weigher = |_: &u32, text: &String| text.len().try_into().unwrap_or(u32::MAX);
        #[doc = concat!("let ", $cache, " = Cache::builder().max_capacity(10).weigher(weigher).build();")]
        /// cache.insert(1, "four".to_string());
        /// cache.run_pending_tasks();
        /// assert_eq!(cache.weighted_size(), 4);
        /// ```
        pub fn weigher(mut self, weigher: impl Fn(&K, &V) -> u32 + Send + Sync + 'static) -> Self {
            self.settings.weigher = Some(Arc::new(weigher));
            self
        }

        /// Lets `invalidate_entries_if` take predicates. By default it refuses each.
        ///
        /// ```
        #[doc = concat!("use ravulemis::", $module, "::Cache;")]
        /// let builder = Cache::<u32, u32>::builder().support_invalidation_closures();
        #[doc = concat!("let ", $cache, " = builder.build();")]
        /// assert!(cache.invalidate_entries_if(|key, _| key % 2 == 0).is_ok());
        #[doc = concat!("let ", $cache, ": Cache<u32, u32> = Cache::builder().build();")]
        /// assert!(cache.invalidate_entries_if(|key, _| key % 2 == 0).is_err());
        /// ```
        pub fn support_invalidation_closures(mut self) -> Self {
            self.settings.takes_closures = true;
            self
        }
    };
}
pub(crate) use setters;
