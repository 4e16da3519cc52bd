//! Calls for one key that look first and then decide.

use super::Cache;
use crate::Entry;
use crate::entry::{CompResult, Op, computed};
use crate::once::{Once, trying};
use std::borrow::Borrow;
use std::convert::Infallible;
use std::fmt;
use std::hash::{BuildHasher, Hash};
use std::sync::Arc;

/// A key of a cache, and what is to be done with its entry: see [`Cache::entry`].
#[must_use = "a selector does nothing until one of its calls is made"]
pub struct EntrySelector<'a, K: 'static, V, S> {
    cache: &'a mut Cache<K, V, S>,
    hash: u64,
    key: K,
}

/// A borrowed form of a key of a cache, and what is to be done with its entry: see [`Cache::entry_by_ref`].
#[must_use = "a selector does nothing until one of its calls is made"]
pub struct RefKeyEntrySelector<'a, K: 'static, Q: ?Sized, V, S> {
    cache: &'a mut Cache<K, V, S>,
    hash: u64,
    key: &'a Q,
}

impl<K: fmt::Debug, V, S> fmt::Debug for EntrySelector<'_, K, V, S> {
    fn fmt(&self, f: &mut fmt::Formatter<'_>) -> fmt::Result {
        let mut shown = f.debug_struct("EntrySelector");
        shown.field("key", &self.key).finish_non_exhaustive()
    }
}

impl<K, Q: fmt::Debug + ?Sized, V, S> fmt::Debug for RefKeyEntrySelector<'_, K, Q, V, S> {
    fn fmt(&self, f: &mut fmt::Formatter<'_>) -> fmt::Result {
        let mut shown = f.debug_struct("RefKeyEntrySelector");
        shown.field("key", &self.key).finish_non_exhaustive()
    }
}

impl<K: Eq + Hash + Sync + 'static, V: Clone + 'static, S: BuildHasher> Cache<K, V, S> {
    // The entry of a key that is kept, or of one that is not there, with a value that is made; none if that is not.
    fn put_made(
        &mut self,
        hash: u64,
        key: Arc<K>,
        is_replaced: bool,
        make: Once<'_, (), Option<V>>,
    ) -> Option<Entry<K, V>> {
        self.with(|shard| shard.put_made(hash, key, is_replaced, make))
    }

    // Does with an entry what the caller's closure has decided.
    fn change(&mut self, hash: u64, key: Arc<K>, op: Op<V>, there: Option<Entry<K, V>>) -> CompResult<K, V> {
        let kept = Arc::clone(&key);
        computed(key, op, there, |value| {
            self.with(|shard| match value {
                Some(value) => {
                    shard.insert_kept(hash, kept, value);
                    None
                }
                None => shard.remove_kept(hash, &kept),
            })
        })
    }
}

/// The calls that both selectors have.
macro_rules! calls {
    () => {
        /// The key's entry; if there is none, this value is put there.
        ///
        /// ```
        /// let mut cache = ravulemis::unsync::Cache::new(100);
        /// assert_eq!(cache.entry(1).or_insert('a').into_value(), 'a');
        /// assert_eq!(cache.entry_by_ref(&1).or_insert('b').into_value(), 'a');
        /// ```
        pub fn or_insert(self, default: V) -> Entry<K, V> {
            self.or_insert_with(|| default)
        }

        /// The key's entry; if there is none, the default value is put there.
        ///
        /// ```
        /// let mut cache = ravulemis::unsync::Cache::<u32, u32>::new(100);
        /// assert_eq!(cache.entry(1).or_default().into_value(), 0);
        /// assert_eq!(cache.entry_by_ref(&2).or_default().into_value(), 0);
        /// ```
        pub fn or_default(self) -> Entry<K, V>
        where
            V: Default,
        {
            self.or_insert_with(V::default)
        }

        /// The key's entry; if there is none, a value is made and put there.
        ///
        /// ```
        /// let mut cache = ravulemis::unsync::Cache::new(100);
        /// assert!(cache.entry(1).or_insert_with(|| 'a').is_fresh());
        /// assert!(!cache.entry_by_ref(&1).or_insert_with(|| 'b').is_fresh());
        /// ```
        pub fn or_insert_with(self, init: impl FnOnce() -> V) -> Entry<K, V> {
            let Ok(entry) = self.or_try_insert_with(|| Ok::<_, Infallible>(init()));
            entry
        }

        /// The key's entry; if there is none, or the test says that its value is to be replaced, one is made and put
        /// there.
        ///
        /// ```
        /// let mut cache = ravulemis::unsync::Cache::new(100);
        /// cache.insert(1, 'a');
        /// let entry = cache.entry(1).or_insert_with_if(|| 'b', |old| *old == 'a');
        /// assert!(entry.is_old_value_replaced());
        /// let entry = cache.entry_by_ref(&1).or_insert_with_if(|| 'c', |old| *old == 'a');
        /// assert_eq!(entry.into_value(), 'b');
        /// ```
        pub fn or_insert_with_if(
            self,
            init: impl FnOnce() -> V,
            mut replace_if: impl FnMut(&V) -> bool,
        ) -> Entry<K, V> {
            let Self { cache, hash, key } = self;
            let (key, there) = Self::look(cache, hash, key);
            let is_replaced = match there {
                Some(value) if !replace_if(&value) => return Entry::found(key, value),
                there => there.is_some(),
            };
            let make = |()| Ok::<_, Infallible>(init());
            let Ok(entry) = trying(make, |make| cache.put_made(hash, key, is_replaced, make));
            entry
        }

        /// The key's entry; if there is none, a value is made and put there, or `None` is answered if the maker gives
        /// none.
        ///
        /// ```
        /// let mut cache = ravulemis::unsync::Cache::new(100);
        /// assert!(cache.entry(1).or_optionally_insert_with(|| None).is_none());
        /// let entry = cache.entry_by_ref(&1).or_optionally_insert_with(|| Some('a'));
        /// assert!(entry.is_some_and(|entry| entry.is_fresh()));
        /// ```
        pub fn or_optionally_insert_with(self, init: impl FnOnce() -> Option<V>) -> Option<Entry<K, V>> {
            self.or_try_insert_with(|| init().ok_or(())).ok()
        }

        /// The key's entry; if there is none, a value is made and put there.
        ///
        /// # Errors
        /// The maker's: then nothing is put there.
        ///
        /// ```
        /// let mut cache = ravulemis::unsync::Cache::<u32, u32>::new(100);
        /// assert!(cache.entry(1).or_try_insert_with(|| "one".parse::<u32>()).is_err());
        /// let entry = cache.entry_by_ref(&1).or_try_insert_with(|| "1".parse::<u32>());
        /// assert!(entry.is_ok_and(|entry| entry.is_fresh()));
        /// ```
        pub fn or_try_insert_with<F, E>(self, init: F) -> Result<Entry<K, V>, E>
        where
            F: FnOnce() -> Result<V, E>,
        {
            let Self { cache, hash, key } = self;
            // What left by the look-up is dropped or told before the maker is called, which may wait for that.
            match Self::look(cache, hash, key) {
                (key, Some(value)) => Ok(Entry::found(key, value)),
                (key, None) => trying(|()| init(), |make| cache.put_made(hash, key, false, make)),
            }
        }

        /// Puts the value that the closure makes of the entry, or of `None` if there is none.
        ///
        /// ```
        /// let mut cache = ravulemis::unsync::Cache::new(100);
        /// for _ in 0..3 {
        ///     cache.entry("key").and_upsert_with(|old| old.map_or(1, |old| old.into_value() + 1));
        /// }
        /// let entry = cache.entry_by_ref(&"key").and_upsert_with(|old| old.map_or(1, |old| old.into_value() + 1));
        /// assert_eq!(entry.into_value(), 4);
        /// ```
        pub fn and_upsert_with<F>(self, f: F) -> Entry<K, V>
        where
            F: FnOnce(Option<Entry<K, V>>) -> V,
        {
            let answer = self.and_compute_with(|there| Op::Put(f(there)));
            let entry = answer.into_entry();
            entry.unwrap_or_else(|| unreachable!("an entry was put there"))
        }

        /// Puts a value, removes the entry or leaves it, as the closure answers of what is there.
        ///
        /// ```
        /// use ravulemis::ops::compute::{CompResult, Op};
        /// let mut cache = ravulemis::unsync::Cache::new(100);
        /// let answer = cache.entry(1).and_compute_with(|there| match there {
        ///     Some(_) => Op::Remove,
        ///     None => Op::Put('a'),
        /// });
        /// assert!(matches!(answer, CompResult::Inserted(_)));
        /// let answer = cache.entry_by_ref(&1).and_compute_with(|_| Op::Remove);
        /// assert!(matches!(answer, CompResult::Removed(_)));
        /// ```
        pub fn and_compute_with<F>(self, f: F) -> CompResult<K, V>
        where
            F: FnOnce(Option<Entry<K, V>>) -> Op<V>,
        {
            let Ok(answer) = self.and_try_compute_with(|there| Ok::<_, Infallible>(f(there)));
            answer
        }

        /// As [`and_compute_with`](Self::and_compute_with), by a closure that may fail: then nothing is done.
        ///
        /// # Errors
        /// The closure's.
        ///
        /// ```
        /// use ravulemis::ops::compute::Op;
        /// let mut cache = ravulemis::unsync::Cache::<u32, u32>::new(100);
        /// let answer = cache.entry(1).and_try_compute_with(|_| "one".parse().map(Op::Put));
        /// assert!(answer.is_err());
        /// assert!(!cache.contains_key(&1));
        /// let answer = cache.entry_by_ref(&1).and_try_compute_with(|_| "1".parse().map(Op::Put));
        /// assert!(answer.is_ok_and(|answer| answer.unwrap().is_fresh()));
        /// ```
        pub fn and_try_compute_with<F, E>(self, f: F) -> Result<CompResult<K, V>, E>
        where
            F: FnOnce(Option<Entry<K, V>>) -> Result<Op<V>, E>,
        {
            let Self { cache, hash, key } = self;
            let (key, there) = Self::look(cache, hash, key);
            let there = there.map(|value| Entry::found(Arc::clone(&key), value));
            let op = f(there.clone())?;
            Ok(cache.change(hash, key, op, there))
        }
    };
}

impl<'a, K: Eq + Hash + Sync + 'static, V: Clone + 'static, S: BuildHasher> EntrySelector<'a, K, V, S> {
    pub(super) fn new(cache: &'a mut Cache<K, V, S>, hash: u64, key: K) -> Self {
        EntrySelector { cache, hash, key }
    }

    // The key, the one that is kept if one is, with its value if that is visible, which counts as a read.
    #[inline]
    fn look(cache: &mut Cache<K, V, S>, hash: u64, key: K) -> (Arc<K>, Option<V>) {
        cache.with(|shard| {
            let (kept, value) = shard.seek(hash, &key);
            (kept.unwrap_or_else(|| Arc::new(key)), value)
        })
    }

    calls!();
}

impl<'a, K, Q, V, S> RefKeyEntrySelector<'a, K, Q, V, S>
where
    K: Eq + Hash + Borrow<Q> + Sync + 'static,
    Q: Eq + Hash + ToOwned<Owned = K> + ?Sized,
    V: Clone + 'static,
    S: BuildHasher,
{
    pub(super) fn new(cache: &'a mut Cache<K, V, S>, hash: u64, key: &'a Q) -> Self {
        RefKeyEntrySelector { cache, hash, key }
    }

    // The same. An owned key is made if none is kept.
    #[inline]
    fn look(cache: &mut Cache<K, V, S>, hash: u64, key: &Q) -> (Arc<K>, Option<V>) {
        cache.with(|shard| {
            let (kept, value) = shard.seek(hash, key);
            (kept.unwrap_or_else(|| Arc::new(key.to_owned())), value)
        })
    }

    calls!();
}
