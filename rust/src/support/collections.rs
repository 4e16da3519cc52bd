//! Maps that ask for memory by name.

use super::alloc::{AllocError, Global};
use super::hash::{BuildHasherDefault, FoldHasher, Hash};

/// A map that asks for memory by name.
pub struct HashMap<K, V>(std::collections::HashMap<K, V, BuildHasherDefault<FoldHasher>>);

impl<K: Eq + Hash, V> HashMap<K, V> {
    pub fn new(_: Global) -> Self {
        HashMap(Default::default())
    }

    pub fn len(&self) -> usize {
        self.0.len()
    }

    pub fn capacity(&self) -> usize {
        self.0.capacity()
    }

    pub fn reserve(&mut self, additional: usize) -> Result<(), AllocError> {
        self.0.try_reserve(additional).map_err(|_| AllocError)
    }

    pub fn insert(&mut self, key: K, value: V) -> Result<Option<V>, AllocError> {
        self.reserve(1)?;
        Ok(self.0.insert(key, value))
    }

    pub fn get(&self, key: &K) -> Option<&V> {
        self.0.get(key)
    }

    pub fn contains_key(&self, key: &K) -> bool {
        self.0.contains_key(key)
    }

    pub fn remove(&mut self, key: &K) -> Option<V> {
        self.0.remove(key)
    }
}
