//! What the calls of an entry answer.

use std::sync::Arc;

/// A key with its value, as a call of an entry found or left it. moka: `Entry`.
///
/// ```
/// let cache = ravulemis::sync::Cache::new(100);
/// let entry = cache.entry("key").or_insert_with(|| 7);
/// assert_eq!((*entry.key(), *entry.value(), entry.is_fresh()), ("key", 7, true));
/// ```
#[derive(Debug)]
pub struct Entry<K, V> {
    pub(crate) key: Arc<K>,
    pub(crate) value: V,
    pub(crate) is_fresh: bool,
    pub(crate) is_old_value_replaced: bool,
}

impl<K, V: Clone> Clone for Entry<K, V> {
    /// An entry of the same key, which is shared, and of a clone of the value.
    ///
    /// ```
    /// let cache = ravulemis::sync::Cache::new(100);
    /// let entry = cache.entry("key").or_insert(7);
    /// let copy = entry.clone();
    /// assert_eq!(copy.into_value(), entry.into_value());
    /// ```
    fn clone(&self) -> Self {
        Entry {
            key: Arc::clone(&self.key),
            value: self.value.clone(),
            ..*self
        }
    }
}

impl<K, V> Entry<K, V> {
    pub(crate) fn found(key: Arc<K>, value: V) -> Self {
        Entry {
            key,
            value,
            is_fresh: false,
            is_old_value_replaced: false,
        }
    }

    pub(crate) fn put(key: Arc<K>, value: V, is_old_value_replaced: bool) -> Self {
        Entry {
            key,
            value,
            is_fresh: true,
            is_old_value_replaced,
        }
    }

    /// The key.
    ///
    /// ```
    /// let cache = ravulemis::sync::Cache::new(100);
    /// assert_eq!(cache.entry("key").or_insert(7).key(), &"key");
    /// ```
    pub fn key(&self) -> &K {
        &self.key
    }

    /// The value.
    ///
    /// ```
    /// let cache = ravulemis::sync::Cache::new(100);
    /// assert_eq!(cache.entry("key").or_insert(7).value(), &7);
    /// ```
    pub fn value(&self) -> &V {
        &self.value
    }

    /// The value, out of the entry.
    ///
    /// ```
    /// let cache = ravulemis::sync::Cache::new(100);
    /// assert_eq!(cache.entry("key").or_insert(7).into_value(), 7);
    /// ```
    pub fn into_value(self) -> V {
        self.value
    }

    /// Whether the call put the value there.
    ///
    /// ```
    /// let cache = ravulemis::sync::Cache::new(100);
    /// assert!(cache.entry("key").or_insert(7).is_fresh());
    /// assert!(!cache.entry("key").or_insert(8).is_fresh());
    /// ```
    pub fn is_fresh(&self) -> bool {
        self.is_fresh
    }

    /// Whether the call put the value there in place of another that it had seen.
    ///
    /// ```
    /// let cache = ravulemis::sync::Cache::new(100);
    /// let count = || cache.entry("key").and_upsert_with(|old| old.map_or(1, |old| old.into_value() + 1));
    /// assert!(!count().is_old_value_replaced());
    /// assert!(count().is_old_value_replaced());
    /// ```
    pub fn is_old_value_replaced(&self) -> bool {
        self.is_old_value_replaced
    }
}

/// What is to be done with an entry. moka: `ops::compute::Op`.
///
/// ```
/// use ravulemis::ops::compute::Op;
/// let stock = ravulemis::sync::Cache::new(100);
/// stock.insert("tea", 2);
/// let sell = || stock.entry("tea").and_compute_with(|left| match left.map(|left| left.into_value()) {
///     None => Op::Nop,
///     Some(1) => Op::Remove,
///     Some(left) => Op::Put(left - 1),
/// });
/// (sell(), assert_eq!(stock.get("tea"), Some(1)));
/// (sell(), assert_eq!(stock.get("tea"), None));
/// ```
#[derive(Clone, Copy, Debug, PartialEq, Eq)]
pub enum Op<V> {
    /// Nothing.
    Nop,
    /// The value is put there.
    Put(V),
    /// The entry is taken out.
    Remove,
}

/// What was done with an entry. Whether there was one is what the closure saw: an `insert`, a `remove` or a call that
/// puts a missing value there may come between in another thread. moka: `ops::compute::CompResult`.
///
/// ```
/// use ravulemis::ops::compute::{CompResult, Op};
/// let cache = ravulemis::sync::Cache::new(100);
/// match cache.entry(1).and_compute_with(|_| Op::Put('a')) {
///     CompResult::Inserted(entry) => assert_eq!(entry.into_value(), 'a'),
///     other => unreachable!("{other:?}"),
/// }
/// assert!(matches!(cache.entry(2).and_compute_with(|_| Op::Remove), CompResult::StillNone(_)));
/// ```
#[derive(Debug)]
pub enum CompResult<K, V> {
    /// There was none, and now there is this.
    Inserted(Entry<K, V>),
    /// The value was replaced by this.
    ReplacedWith(Entry<K, V>),
    /// This was taken out.
    Removed(Entry<K, V>),
    /// No value was put there, and there is none that could be taken out.
    StillNone(Arc<K>),
    /// It stayed as it was.
    Unchanged(Entry<K, V>),
}

impl<K, V> CompResult<K, V> {
    /// The entry that is there or was taken out, if there is or was one.
    ///
    /// ```
    /// use ravulemis::ops::compute::Op;
    /// let cache = ravulemis::sync::Cache::new(100);
    /// cache.insert(1, 'a');
    /// let taken = cache.entry(1).and_compute_with(|_| Op::Remove).into_entry();
    /// assert_eq!(taken.map(|entry| entry.into_value()), Some('a'));
    /// ```
    pub fn into_entry(self) -> Option<Entry<K, V>> {
        match self {
            CompResult::StillNone(_) => None,
            CompResult::Inserted(entry)
            | CompResult::ReplacedWith(entry)
            | CompResult::Removed(entry)
            | CompResult::Unchanged(entry) => Some(entry),
        }
    }

    /// The entry that is there or was taken out.
    ///
    /// # Panics
    /// If there is and was none.
    ///
    /// ```
    /// use ravulemis::ops::compute::Op;
    /// let cache = ravulemis::sync::Cache::new(100);
    /// let put = cache.entry(1).and_compute_with(|_| Op::Put('a')).unwrap();
    /// assert!(put.is_fresh());
    /// ```
    pub fn unwrap(self) -> Entry<K, V> {
        self.into_entry().expect("there is no entry")
    }
}

/// Does what a caller wants done with an entry: `change` puts a value there, or takes out the one that is there, and
/// hands that out.
pub(crate) fn computed<K, V: Clone>(
    key: Arc<K>,
    op: Op<V>,
    there: Option<Entry<K, V>>,
    change: impl FnOnce(Option<V>) -> Option<V>,
) -> CompResult<K, V> {
    match (op, there) {
        (Op::Nop, Some(entry)) => CompResult::Unchanged(entry),
        (Op::Nop | Op::Remove, None) => CompResult::StillNone(key),
        // What the closure saw may have left since, or another value be there.
        (Op::Remove, Some(entry)) => match change(None) {
            Some(value) => CompResult::Removed(Entry { value, ..entry }),
            None => CompResult::StillNone(key),
        },
        (Op::Put(value), there) => {
            change(Some(value.clone()));
            let entry = Entry::put(key, value, there.is_some());
            match there {
                Some(_) => CompResult::ReplacedWith(entry),
                None => CompResult::Inserted(entry),
            }
        }
    }
}
