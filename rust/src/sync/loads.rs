//! Values that are made if they are missing.

use super::Cache;
use crate::making::{Outcome, Wanted};
use crate::once::Once;
use std::any::TypeId;
use std::borrow::Borrow;
use std::hash::{BuildHasher, Hash};
use std::sync::Arc;
use std::sync::atomic::{AtomicU64, Ordering};

// The kinds of makers that give no error.
pub(super) struct Always;
pub(super) struct Optionally;

/// Counts a load that fails, also by a panic.
struct Load<'a> {
    failures: &'a AtomicU64,
    is_done: bool,
}

impl Drop for Load<'_> {
    fn drop(&mut self) {
        self.failures.fetch_add(u64::from(!self.is_done), Ordering::Relaxed);
    }
}

/// What a maker that always gives something gave.
pub(super) fn always<T>(given: Option<T>) -> T {
    given.unwrap_or_else(|| unreachable!("a maker that always gives a value gave none"))
}

fn value_of<V>(outcome: Outcome<V>) -> Option<V> {
    match outcome {
        Outcome::Made { value, .. } => Some(value),
        Outcome::Nothing | Outcome::Failed(_) => None,
    }
}

/// The outcome, or the error that was the outcome.
pub(super) fn shared_error<V, E: Send + Sync + 'static>(outcome: Outcome<V>) -> Result<Outcome<V>, Arc<E>> {
    match outcome {
        Outcome::Failed(error) => match error.downcast() {
            Ok(error) => Err(error),
            Err(_) => unreachable!("makers of one kind give errors of one type"),
        },
        outcome => Ok(outcome),
    }
}

/// The test that has no value replaced.
pub(super) fn never<V>(_: &V) -> bool {
    false
}

pub(super) fn made<V>(value: V) -> Outcome<V> {
    Outcome::Made { value, is_fresh: true }
}

pub(super) fn made_or_nothing<V>(value: Option<V>) -> Outcome<V> {
    value.map_or(Outcome::Nothing, made)
}

pub(super) fn made_or_failed<V, E: Send + Sync + 'static>(value: Result<V, E>) -> Outcome<V> {
    value.map_or_else(|error| Outcome::Failed(Arc::new(error)), made)
}

impl<K, V, S> Cache<K, V, S>
where
    K: Eq + Hash + Send + Sync + 'static,
    V: Clone + Send + Sync + 'static,
    S: BuildHasher,
{
    /// The value of a key, made and put there by one caller if it is missing or to be replaced.
    pub(super) fn load(
        &self,
        hash: u64,
        key: Arc<K>,
        kind: TypeId,
        replaces: &mut dyn FnMut(&V) -> bool,
        make: Once<'_, (), Outcome<V>>,
    ) -> Outcome<V> {
        let place = self.place(hash);
        // Their end comes after that of the making: the listener may ask for the key.
        let mut calls = self.0.places.calls(place);
        let wanted = Wanted { hash, key, kind };
        let key = &wanted.key;
        place.makers.once(&wanted, |making| {
            // Another may have put it there since the caller looked.
            let there = calls.make(|shard| shard.peek(hash, key));
            if let Some((_, value)) = there
                && !replaces(&value)
            {
                // That counts as a read. What is there by now was not tested, so this is the value that is handed out.
                drop(calls.make(|shard| shard.get_again(hash, key)));
                return Outcome::Made { value, is_fresh: false };
            }
            let mut load = Load {
                failures: &self.0.load_failures,
                is_done: false,
            };
            let outcome = make.call(());
            if let Outcome::Made { value, .. } = &outcome {
                let value = value.clone();
                calls.make(|shard| {
                    let unused = shard.insert(hash, Arc::clone(key), value);
                    // Who asks later looks for it: it may have been taken out again.
                    making.close();
                    unused
                });
                self.0.loads.fetch_add(1, Ordering::Relaxed);
                load.is_done = true;
            }
            outcome
        })
    }

    // The value of a key that is there, or the outcome of its maker. This is compiled for each maker, so it only looks
    // and hands on.
    fn get_or_load(&self, key: K, kind: TypeId, make: impl FnOnce() -> Outcome<V>) -> Outcome<V> {
        let hash = self.0.router.hasher().hash_one(&key);
        match self.get_hashed(hash, &key) {
            Some(value) => Outcome::Made { value, is_fresh: false },
            None => {
                let make = &mut Some(|()| make());
                self.load(hash, Arc::new(key), kind, &mut never, Once::of(make))
            }
        }
    }

    // The same by a borrowed form of the key, of which an owned one is made only if the value is missing.
    fn get_or_load_by_ref<Q>(&self, key: &Q, kind: TypeId, make: impl FnOnce() -> Outcome<V>) -> Outcome<V>
    where
        K: Borrow<Q>,
        Q: Eq + Hash + ToOwned<Owned = K> + ?Sized,
    {
        let hash = self.0.router.hasher().hash_one(key);
        match self.get_hashed(hash, key) {
            Some(value) => Outcome::Made { value, is_fresh: false },
            None => {
                let make = &mut Some(|()| make());
                self.load(hash, Arc::new(key.to_owned()), kind, &mut never, Once::of(make))
            }
        }
    }

    /// A clone of a key's value, which is made and put there if it is missing. Of all who ask for a key at once by a
    /// call of this kind one makes the value, and the others wait for it. If the maker panics, the panic is its
    /// caller's, and one of the others is the next to make.
    ///
    /// If the key is inserted, removed or invalidated while its value is being made, what is made is put there all the
    /// same, and replaces what was inserted meanwhile.
    ///
    /// If the maker calls a cache whose listener falls behind, this call waits for that at its end, as [`Cache`] says.
    ///
    /// # Panics
    /// If the maker panics, or asks for its own key by a call of this kind. It may call the cache otherwise, but two
    /// makers must not wait for each other, nor one for another thread that calls the cache, if the listener may ask
    /// for its key.
    ///
    /// ```
    /// let cache = ravulemis::sync::Cache::new(100);
    /// assert_eq!(cache.get_with(1, || "made".to_string()), "made");
    /// assert_eq!(cache.get_with(1, || unreachable!()), "made");
    /// ```
    pub fn get_with(&self, key: K, init: impl FnOnce() -> V) -> V {
        always(value_of(self.get_or_load(key, TypeId::of::<Always>(), || made(init()))))
    }

    /// As [`get_with`](Self::get_with), by a borrowed form of the key.
    ///
    /// ```
    /// let cache = ravulemis::sync::Cache::<String, u32>::new(100);
    /// assert_eq!(cache.get_with_by_ref("key", || 7), 7);
    /// assert_eq!(cache.get("key"), Some(7));
    /// ```
    pub fn get_with_by_ref<Q>(&self, key: &Q, init: impl FnOnce() -> V) -> V
    where
        K: Borrow<Q>,
        Q: Eq + Hash + ToOwned<Owned = K> + ?Sized,
    {
        let outcome = self.get_or_load_by_ref(key, TypeId::of::<Always>(), || made(init()));
        always(value_of(outcome))
    }

    /// As [`get_with`](Self::get_with), by a maker that may give no value: then nothing is put there, and all that
    /// waited get `None`.
    ///
    /// ```
    /// let cache = ravulemis::sync::Cache::new(100);
    /// assert_eq!(cache.optionally_get_with(1, || None), None);
    /// assert_eq!(cache.optionally_get_with(1, || Some('a')), Some('a'));
    /// assert_eq!(cache.get(&1), Some('a'));
    /// ```
    pub fn optionally_get_with<F>(&self, key: K, init: F) -> Option<V>
    where
        F: FnOnce() -> Option<V>,
    {
        let outcome = self.get_or_load(key, TypeId::of::<Optionally>(), || made_or_nothing(init()));
        value_of(outcome)
    }

    /// As [`optionally_get_with`](Self::optionally_get_with), by a borrowed form of the key.
    ///
    /// ```
    /// let cache = ravulemis::sync::Cache::<String, u32>::new(100);
    /// assert_eq!(cache.optionally_get_with_by_ref("key", || "7".parse().ok()), Some(7));
    /// ```
    pub fn optionally_get_with_by_ref<F, Q>(&self, key: &Q, init: F) -> Option<V>
    where
        F: FnOnce() -> Option<V>,
        K: Borrow<Q>,
        Q: Eq + Hash + ToOwned<Owned = K> + ?Sized,
    {
        let outcome = self.get_or_load_by_ref(key, TypeId::of::<Optionally>(), || made_or_nothing(init()));
        value_of(outcome)
    }

    /// As [`get_with`](Self::get_with), by a maker that may fail: then nothing is put there.
    ///
    /// # Errors
    /// The maker's, shared by all that waited for it with the same type of error.
    ///
    /// ```
    /// let cache = ravulemis::sync::Cache::<u32, u32>::new(100);
    /// assert!(cache.try_get_with(1, || "seven".parse::<u32>()).is_err());
    /// assert_eq!(cache.try_get_with(1, || "7".parse::<u32>()), Ok(7));
    /// ```
    pub fn try_get_with<F, E>(&self, key: K, init: F) -> Result<V, Arc<E>>
    where
        F: FnOnce() -> Result<V, E>,
        E: Send + Sync + 'static,
    {
        let outcome = self.get_or_load(key, TypeId::of::<E>(), || made_or_failed(init()));
        Ok(always(value_of(shared_error(outcome)?)))
    }

    /// As [`try_get_with`](Self::try_get_with), by a borrowed form of the key.
    ///
    /// # Errors
    /// As there.
    ///
    /// ```
    /// let cache = ravulemis::sync::Cache::<String, u32>::new(100);
    /// assert_eq!(cache.try_get_with_by_ref("key", || "7".parse::<u32>()), Ok(7));
    /// ```
    pub fn try_get_with_by_ref<F, E, Q>(&self, key: &Q, init: F) -> Result<V, Arc<E>>
    where
        F: FnOnce() -> Result<V, E>,
        E: Send + Sync + 'static,
        K: Borrow<Q>,
        Q: Eq + Hash + ToOwned<Owned = K> + ?Sized,
    {
        let outcome = self.get_or_load_by_ref(key, TypeId::of::<E>(), || made_or_failed(init()));
        Ok(always(value_of(shared_error(outcome)?)))
    }
}
