//! Calls for one key that look first and then decide.

use super::Cache;
use super::loads::{Always, Optionally, always, made, made_or_failed, made_or_nothing, never, shared_error};
use crate::entry::{CompResult, Entry, Op, computed};
use crate::making::Outcome;
use crate::once::{Once, trying};
use std::any::TypeId;
use std::borrow::Borrow;
use std::convert::Infallible;
use std::fmt;
use std::hash::{BuildHasher, Hash};
use std::sync::Arc;

/// A key of a cache, and what is to be done with its entry: see [`Cache::entry`].
#[must_use = "a selector does nothing until one of its calls is made"]
pub struct OwnedKeyEntrySelector<'a, K: 'static, V, S> {
    cache: &'a Cache<K, V, S>,
    hash: u64,
    key: K,
}

/// A borrowed form of a key of a cache, and what is to be done with its entry: see [`Cache::entry_by_ref`].
#[must_use = "a selector does nothing until one of its calls is made"]
pub struct RefKeyEntrySelector<'a, K: 'static, Q: ?Sized, V, S> {
    cache: &'a Cache<K, V, S>,
    hash: u64,
    key: &'a Q,
}

impl<K: fmt::Debug, V, S> fmt::Debug for OwnedKeyEntrySelector<'_, K, V, S> {
    fn fmt(&self, f: &mut fmt::Formatter<'_>) -> fmt::Result {
        let mut shown = f.debug_struct("OwnedKeyEntrySelector");
        shown.field("key", &self.key).finish_non_exhaustive()
    }
}

impl<K, Q: fmt::Debug + ?Sized, V, S> fmt::Debug for RefKeyEntrySelector<'_, K, Q, V, S> {
    fn fmt(&self, f: &mut fmt::Formatter<'_>) -> fmt::Result {
        let mut shown = f.debug_struct("RefKeyEntrySelector");
        shown.field("key", &self.key).finish_non_exhaustive()
    }
}

impl<K, V, S> Cache<K, V, S>
where
    K: Eq + Hash + Send + Sync + 'static,
    V: Clone + Send + Sync + 'static,
    S: BuildHasher,
{
    /// Selects a key, for one of the calls of the selector.
    ///
    /// ```
    /// let cache = ravulemis::sync::Cache::new(100);
    /// let entry = cache.entry("key".to_string()).or_insert(7);
    /// assert!(entry.is_fresh());
    /// assert_eq!((entry.key().as_str(), *entry.value()), ("key", 7));
    /// assert!(!cache.entry("key".to_string()).or_insert(8).is_fresh());
    /// ```
    pub fn entry(&self, key: K) -> OwnedKeyEntrySelector<'_, K, V, S> {
        let hash = self.0.router.hasher().hash_one(&key);
        OwnedKeyEntrySelector { cache: self, hash, key }
    }

    /// As [`entry`](Self::entry), by a borrowed form of the key. An owned one is made if a value is to be made, and by
    /// each of the calls `and_..`.
    ///
    /// ```
    /// let cache = ravulemis::sync::Cache::<String, u32>::new(100);
    /// assert_eq!(cache.entry_by_ref("key").or_insert(7).into_value(), 7);
    /// assert_eq!(cache.get("key"), Some(7));
    /// ```
    pub fn entry_by_ref<'a, Q>(&'a self, key: &'a Q) -> RefKeyEntrySelector<'a, K, Q, V, S>
    where
        K: Borrow<Q>,
        Q: Eq + Hash + ToOwned<Owned = K> + ?Sized,
    {
        let hash = self.0.router.hasher().hash_one(key);
        RefKeyEntrySelector { cache: self, hash, key }
    }

    // The entry of a key, with the value made if it is missing or to be replaced, as one was that the call has seen.
    fn entry_loaded(
        &self,
        hash: u64,
        key: &Arc<K>,
        kind: TypeId,
        is_seen: bool,
        replaces: &mut dyn FnMut(&V) -> bool,
        make: Once<'_, (), Outcome<V>>,
    ) -> (bool, Outcome<V>) {
        let mut is_replaced = is_seen;
        let mut replaces = |value: &V| {
            is_replaced = replaces(value);
            is_replaced
        };
        let outcome = self.load(hash, Arc::clone(key), kind, &mut replaces, make);
        (is_replaced, outcome)
    }

    // Decides about the entry of a key, while no other does so for this key. There is no answer if the closure gives
    // none: then nothing is done.
    fn compute(
        &self,
        hash: u64,
        key: Arc<K>,
        decide: Once<'_, Option<Entry<K, V>>, Option<Op<V>>>,
    ) -> Option<CompResult<K, V>> {
        let place = self.place(hash);
        // They end after the making, as those of a load.
        let mut calls = self.0.places.calls(place);
        place.makers.alone(hash, Arc::clone(&key), || {
            let there = calls.make(|shard| shard.get_entry(hash, &*key));
            // The closure may wait for what that frees. A listener may ask for the key, so it waits for the end.
            calls.drop_left();
            let there = there.map(|(key, value)| Entry::found(key, value));
            let op = decide.call(there.clone())?;
            Some(computed(Arc::clone(&key), op, there, |value| match value {
                Some(value) => {
                    drop(calls.make(|shard| shard.insert(hash, key, value)));
                    None
                }
                None => calls.make(|shard| shard.remove(hash, &*key)),
            }))
        })
    }
}

fn entry_of<K, V>(key: Arc<K>, (is_replaced, outcome): (bool, Outcome<V>)) -> Option<Entry<K, V>> {
    match outcome {
        Outcome::Made { value, is_fresh } => Some(Entry {
            key,
            value,
            is_fresh,
            is_old_value_replaced: is_fresh && is_replaced,
        }),
        Outcome::Nothing | Outcome::Failed(_) => None,
    }
}

/// The calls that both selectors have.
macro_rules! calls {
    () => {
        /// The key's entry; if there is none, this value is put there.
        ///
        /// ```
        /// let cache = ravulemis::sync::Cache::new(100);
        /// assert_eq!(cache.entry(1).or_insert('a').into_value(), 'a');
        /// assert_eq!(cache.entry_by_ref(&1).or_insert('b').into_value(), 'a');
        /// ```
        pub fn or_insert(self, default: V) -> Entry<K, V> {
            self.or_insert_with(|| default)
        }

        /// The key's entry; if there is none, the default value is put there.
        ///
        /// ```
        /// let cache = ravulemis::sync::Cache::<u32, u32>::new(100);
        /// assert_eq!(cache.entry(1).or_default().into_value(), 0);
        /// assert_eq!(cache.entry_by_ref(&2).or_default().into_value(), 0);
        /// ```
        pub fn or_default(self) -> Entry<K, V>
        where
            V: Default,
        {
            self.or_insert_with(V::default)
        }

        /// The key's entry; if there is none, a value is made and put there, as by `get_with`.
        ///
        /// ```
        /// let cache = ravulemis::sync::Cache::new(100);
        /// assert!(cache.entry(1).or_insert_with(|| 'a').is_fresh());
        /// assert!(!cache.entry_by_ref(&1).or_insert_with(|| 'b').is_fresh());
        /// ```
        pub fn or_insert_with(self, init: impl FnOnce() -> V) -> Entry<K, V> {
            self.or_insert_with_if(init, |_| false)
        }

        /// The key's entry; if there is none, or the test says that its value is to be replaced, one is made and put
        /// there.
        ///
        /// ```
        /// let cache = ravulemis::sync::Cache::new(100);
        /// cache.insert(1, 'a');
        /// let entry = cache.entry(1).or_insert_with_if(|| 'b', |old| *old == 'a');
        /// assert!(entry.is_old_value_replaced());
        /// let entry = cache.entry_by_ref(&1).or_insert_with_if(|| 'c', |old| *old == 'a');
        /// assert_eq!(entry.into_value(), 'b');
        /// ```
        pub fn or_insert_with_if(
            self,
            init: impl FnOnce() -> V,
            mut replace_if: impl FnMut(&V) -> bool,
        ) -> Entry<K, V> {
            let found = self.look();
            let (cache, hash, is_seen) = (self.cache, self.hash, found.is_some());
            match found {
                Some((key, value)) if !replace_if(&value) => Entry::found(key, value),
                _ => {
                    let (key, kind) = (self.into_shared(), TypeId::of::<Always>());
                    // It goes, with what it has captured, before what was found does.
                    let mut replaces = replace_if;
                    let make = &mut Some(|()| made(init()));
                    let loaded = cache.entry_loaded(hash, &key, kind, is_seen, &mut replaces, Once::of(make));
                    always(entry_of(key, loaded))
                }
            }
        }

        /// The key's entry; if there is none, a value is made and put there, or `None` is answered if the maker gives
        /// none.
        ///
        /// ```
        /// let cache = ravulemis::sync::Cache::new(100);
        /// assert!(cache.entry(1).or_optionally_insert_with(|| None).is_none());
        /// let entry = cache.entry_by_ref(&1).or_optionally_insert_with(|| Some('a'));
        /// assert!(entry.is_some_and(|entry| entry.is_fresh()));
        /// ```
        pub fn or_optionally_insert_with(self, init: impl FnOnce() -> Option<V>) -> Option<Entry<K, V>> {
            if let Some((key, value)) = self.look() {
                return Some(Entry::found(key, value));
            }
            let (cache, hash, kind) = (self.cache, self.hash, TypeId::of::<Optionally>());
            let (key, make) = (self.into_shared(), &mut Some(|()| made_or_nothing(init())));
            let loaded = cache.entry_loaded(hash, &key, kind, false, &mut never, Once::of(make));
            entry_of(key, loaded)
        }

        /// The key's entry; if there is none, a value is made and put there.
        ///
        /// # Errors
        /// The maker's, shared by all that waited for it with the same type of error.
        ///
        /// ```
        /// let cache = ravulemis::sync::Cache::<u32, u32>::new(100);
        /// assert!(cache.entry(1).or_try_insert_with(|| "one".parse::<u32>()).is_err());
        /// let entry = cache.entry_by_ref(&1).or_try_insert_with(|| "1".parse::<u32>());
        /// assert!(entry.is_ok_and(|entry| entry.is_fresh()));
        /// ```
        pub fn or_try_insert_with<F, E>(self, init: F) -> Result<Entry<K, V>, Arc<E>>
        where
            F: FnOnce() -> Result<V, E>,
            E: Send + Sync + 'static,
        {
            if let Some((key, value)) = self.look() {
                return Ok(Entry::found(key, value));
            }
            let (cache, hash, kind) = (self.cache, self.hash, TypeId::of::<E>());
            let (key, make) = (self.into_shared(), &mut Some(|()| made_or_failed(init())));
            let (is_replaced, outcome) = cache.entry_loaded(hash, &key, kind, false, &mut never, Once::of(make));
            let outcome = shared_error(outcome)?;
            Ok(always(entry_of(key, (is_replaced, outcome))))
        }

        /// Puts the value that the closure makes of the entry, or of `None` if there is none. No other call of this
        /// kind for the key is made meanwhile. The closure may call the cache; [`Cache`] says what it must not wait
        /// for.
        ///
        /// # Panics
        /// If the closure panics, or makes a call of this kind for its own key.
        ///
        /// ```
        /// let cache = ravulemis::sync::Cache::new(100);
        /// let count = |cache: &ravulemis::sync::Cache<&'static str, u32>| {
        ///     let entry = cache.entry("key").and_upsert_with(|old| old.map_or(1, |old| old.into_value() + 1));
        ///     entry.into_value()
        /// };
        /// assert_eq!((count(&cache), count(&cache)), (1, 2));
        /// ```
        pub fn and_upsert_with<F>(self, f: F) -> Entry<K, V>
        where
            F: FnOnce(Option<Entry<K, V>>) -> V,
        {
            let answer = self.and_compute_with(|there| Op::Put(f(there)));
            always(answer.into_entry())
        }

        /// Puts a value, removes the entry or leaves it, as the closure answers of what is there. No other call of this
        /// kind for the key is made meanwhile. The closure may call the cache; [`Cache`] says what it must not wait
        /// for.
        ///
        /// # Panics
        /// If the closure panics, or makes a call of this kind for its own key.
        ///
        /// ```
        /// use ravulemis::ops::compute::{CompResult, Op};
        /// let cache = ravulemis::sync::Cache::new(100);
        /// let answer = cache.entry(1).and_compute_with(|there| match there {
        ///     Some(_) => Op::Remove,
        ///     None => Op::Put('a'),
        /// });
        /// assert!(matches!(answer, CompResult::Inserted(_)));
        /// let answer = cache.entry_by_ref(&1).and_compute_with(|_| Op::Remove);
        /// assert!(matches!(answer, CompResult::Removed(_)));
        /// ```
        pub fn and_compute_with<F>(self, f: F) -> CompResult<K, V>
        where
            F: FnOnce(Option<Entry<K, V>>) -> Op<V>,
        {
            let Ok(answer) = self.and_try_compute_with(|there| Ok::<_, Infallible>(f(there)));
            answer
        }

        /// As `and_compute_with`, by a closure that may fail: then nothing is done.
        ///
        /// # Errors
        /// The closure's.
        ///
        /// ```
        /// use ravulemis::ops::compute::Op;
        /// let cache = ravulemis::sync::Cache::<u32, u32>::new(100);
        /// let answer = cache.entry(1).and_try_compute_with(|_| "one".parse().map(Op::Put));
        /// assert!(answer.is_err());
        /// assert!(!cache.contains_key(&1));
        /// ```
        pub fn and_try_compute_with<F, E>(self, f: F) -> Result<CompResult<K, V>, E>
        where
            F: FnOnce(Option<Entry<K, V>>) -> Result<Op<V>, E>,
        {
            let (cache, hash, key) = (self.cache, self.hash, self.into_shared());
            trying(f, |decide| cache.compute(hash, key, decide))
        }
    };
}

impl<K, V, S> OwnedKeyEntrySelector<'_, K, V, S>
where
    K: Eq + Hash + Send + Sync + 'static,
    V: Clone + Send + Sync + 'static,
    S: BuildHasher,
{
    fn look(&self) -> Option<(Arc<K>, V)> {
        let place = self.cache.place(self.hash);
        self.cache.with(place, |shard| shard.get_entry(self.hash, &self.key))
    }

    fn into_shared(self) -> Arc<K> {
        Arc::new(self.key)
    }

    calls!();
}

impl<K, Q, V, S> RefKeyEntrySelector<'_, K, Q, V, S>
where
    K: Eq + Hash + Borrow<Q> + Send + Sync + 'static,
    Q: Eq + Hash + ToOwned<Owned = K> + ?Sized,
    V: Clone + Send + Sync + 'static,
    S: BuildHasher,
{
    fn look(&self) -> Option<(Arc<K>, V)> {
        let place = self.cache.place(self.hash);
        self.cache.with(place, |shard| shard.get_entry(self.hash, self.key))
    }

    fn into_shared(self) -> Arc<K> {
        Arc::new(self.key.to_owned())
    }

    calls!();
}
