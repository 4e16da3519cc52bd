//! The entries of a cache, one after the other.

use super::Cache;
use std::fmt;
use std::hash::{BuildHasher, Hash, RandomState};
use std::iter::FusedIterator;
use std::sync::Arc;
use std::vec;

/// The entries of a cache: see [`Cache::iter`].
#[must_use = "iterators are lazy and do nothing unless consumed"]
pub struct Iter<'a, K: 'static, V, S = RandomState> {
    cache: &'a Cache<K, V, S>,
    keys: vec::IntoIter<(u64, Arc<K>)>,
}

impl<'a, K: Eq + Hash + Sync + 'static, V: Clone + 'static, S: BuildHasher> Iter<'a, K, V, S> {
    pub(super) fn new(cache: &'a Cache<K, V, S>) -> Self {
        let shard = &cache.shard;
        let keys = if shard.is_broken() { Vec::new() } else { shard.keys() };
        let keys = keys.into_iter();
        Iter { cache, keys }
    }
}

impl<K, V, S> fmt::Debug for Iter<'_, K, V, S> {
    fn fmt(&self, f: &mut fmt::Formatter<'_>) -> fmt::Result {
        f.debug_struct("Iter").finish_non_exhaustive()
    }
}

impl<K: Eq + Hash + Sync + 'static, V: Clone + 'static, S: BuildHasher> FusedIterator for Iter<'_, K, V, S> {}

impl<K: Eq + Hash + Sync + 'static, V: Clone + 'static, S: BuildHasher> Iterator for Iter<'_, K, V, S> {
    type Item = (Arc<K>, V);

    /// The next entry, its value being cloned now.
    ///
    /// ```
    /// let mut cache = ravulemis::unsync::Cache::new(100);
    /// cache.insert(1, 'a');
    /// let mut entries = cache.iter();
    /// assert_eq!(entries.next().map(|(key, value)| (*key, value)), Some((1, 'a')));
    /// assert!(entries.next().is_none());
    /// ```
    fn next(&mut self) -> Option<(Arc<K>, V)> {
        self.keys.find_map(|(hash, key)| {
            let value = self.cache.shard.scan(hash, &key)?;
            Some((key, value))
        })
    }
}

impl<'a, K: Eq + Hash + Sync + 'static, V: Clone + 'static, S: BuildHasher> IntoIterator for &'a Cache<K, V, S> {
    type Item = (Arc<K>, V);
    type IntoIter = Iter<'a, K, V, S>;

    /// As [`iter`](Cache::iter).
    ///
    /// ```
    /// let mut cache = ravulemis::unsync::Cache::new(100);
    /// cache.insert(1, 'a');
    /// for (key, value) in &cache {
    ///     assert_eq!((*key, value), (1, 'a'));
    /// }
    /// ```
    fn into_iter(self) -> Self::IntoIter {
        self.iter()
    }
}
