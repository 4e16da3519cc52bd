//! The entries of a shared cache, one after the other.

use super::Cache;
use crate::notices::locked;
use std::fmt;
use std::hash::{BuildHasher, Hash, RandomState};
use std::iter::FusedIterator;
use std::sync::Arc;

/// The entries of a cache: see [`Cache::iter`].
#[must_use = "iterators are lazy and do nothing unless consumed"]
pub struct Iter<'a, K: 'static, V, S = RandomState> {
    cache: &'a Cache<K, V, S>,
    keys: std::vec::IntoIter<(u64, Arc<K>)>,
    // The shard whose keys come next.
    next: usize,
}

impl<'a, K: 'static, V, S> Iter<'a, K, V, S> {
    pub(super) fn new(cache: &'a Cache<K, V, S>) -> Self {
        let keys = Vec::new().into_iter();
        Iter { cache, keys, next: 0 }
    }
}

impl<K, V, S> fmt::Debug for Iter<'_, K, V, S> {
    fn fmt(&self, f: &mut fmt::Formatter<'_>) -> fmt::Result {
        f.debug_struct("Iter").finish_non_exhaustive()
    }
}

impl<K, V, S> FusedIterator for Iter<'_, K, V, S>
where
    K: Eq + Hash + Send + Sync + 'static,
    V: Clone + Send + Sync + 'static,
    S: BuildHasher,
{
}

impl<K, V, S> Iterator for Iter<'_, K, V, S>
where
    K: Eq + Hash + Send + Sync + 'static,
    V: Clone + Send + Sync + 'static,
    S: BuildHasher,
{
    type Item = (Arc<K>, V);

    /// The next entry, its value being cloned now.
    ///
    /// ```
    /// let cache = ravulemis::sync::Cache::new(100);
    /// cache.insert(1, 'a');
    /// let mut entries = cache.iter();
    /// cache.insert(1, 'b');
    /// assert_eq!(entries.next().map(|(key, value)| (*key, value)), Some((1, 'b')));
    /// assert!(entries.next().is_none());
    /// ```
    fn next(&mut self) -> Option<(Arc<K>, V)> {
        loop {
            for (hash, key) in self.keys.by_ref() {
                let shard = locked(&self.cache.place(hash).shard);
                if shard.is_broken() {
                    continue;
                }
                if let Some(value) = shard.scan(hash, &key) {
                    return Some((key, value));
                }
                // Since the keys were listed another one that equals this may have been put there.
                if let Some(entry) = shard.peek(hash, &key) {
                    return Some(entry);
                }
            }
            let place = self.cache.0.places.all.get(self.next)?;
            self.keys = self.cache.with(place, |shard| shard.keys()).into_iter();
            self.next += 1;
        }
    }
}
