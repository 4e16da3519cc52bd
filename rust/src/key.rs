//! The keys that the engine is given: shared, and hashed once.

use std::hash::{BuildHasher, Hash, Hasher};
use std::sync::Arc;

/// Whether a kept key is the one that is sought. It may be asked by any thread that a cache is sent to.
pub(crate) type Test<'a, K> = &'a (dyn Fn(&K) -> bool + Sync);

#[cfg(test)]
thread_local! {
    /// How many keys that are kept this thread has compared: in a cache of one entry, how often it was looked up.
    pub(crate) static COMPARISONS: std::cell::Cell<u32> = const { std::cell::Cell::new(0) };
}

/// Counts a comparison with a key that is kept, in tests alone.
#[inline]
pub(crate) fn note_comparison() {
    #[cfg(test)]
    COMPARISONS.set(COMPARISONS.get() + 1);
}

/// A key with its hash. The engine keeps each key once. Calls go by a test of the caller's, or by that very key; so the
/// caller's `Eq` runs only while nothing is half changed. `Sought` equals not even itself, so it is for look-ups alone.
pub(crate) struct Key<'a, K> {
    hash: u64,
    form: Form<'a, K>,
}

enum Form<'a, K> {
    /// One that is kept, or is to be.
    Kept(Arc<K>),
    /// The address of one that is kept, for look-ups alone: no two keys that are kept have the same one.
    At(usize),
    /// One by a test.
    Sought(&'a Test<'a, K>),
}

/// The address of a key that is kept.
#[inline]
pub(crate) fn address<K>(key: &Arc<K>) -> usize {
    Arc::as_ptr(key).addr()
}

impl<'a, K> Key<'a, K> {
    #[inline]
    pub fn kept(hash: u64, key: Arc<K>) -> Self {
        let form = Form::Kept(key);
        Key { hash, form }
    }

    /// The key that is kept at an address.
    #[inline]
    pub fn at(hash: u64, address: usize) -> Self {
        let form = Form::At(address);
        Key { hash, form }
    }

    #[inline]
    pub fn sought(hash: u64, test: &'a Test<'a, K>) -> Self {
        let form = Form::Sought(test);
        Key { hash, form }
    }

    pub fn hash(&self) -> u64 {
        self.hash
    }

    /// The key itself, of one that is kept.
    #[inline]
    pub fn shared(&self) -> Option<&Arc<K>> {
        match &self.form {
            Form::Kept(key) => Some(key),
            Form::At(_) | Form::Sought(_) => None,
        }
    }

    pub fn into_shared(self) -> Option<Arc<K>> {
        match self.form {
            Form::Kept(key) => Some(key),
            Form::At(_) | Form::Sought(_) => None,
        }
    }
}

impl<K> Clone for Key<'_, K> {
    #[inline]
    fn clone(&self) -> Self {
        let form = match &self.form {
            Form::Kept(key) => Form::Kept(Arc::clone(key)),
            Form::At(address) => Form::At(*address),
            Form::Sought(test) => Form::Sought(test),
        };
        Key { hash: self.hash, form }
    }
}

impl<K> PartialEq for Key<'_, K> {
    #[inline]
    fn eq(&self, other: &Self) -> bool {
        note_comparison();
        match (&self.form, &other.form) {
            (Form::Kept(one), Form::Kept(other)) => Arc::ptr_eq(one, other),
            (Form::Kept(key), Form::At(at)) | (Form::At(at), Form::Kept(key)) => address(key) == *at,
            (Form::Kept(key), Form::Sought(test)) | (Form::Sought(test), Form::Kept(key)) => {
                self.hash == other.hash && test(key)
            }
            (Form::At(one), Form::At(other)) => one == other,
            (Form::Sought(_), _) | (_, Form::Sought(_)) => false,
        }
    }
}

impl<K> Eq for Key<'_, K> {}

impl<K> Hash for Key<'_, K> {
    #[inline]
    fn hash<H: Hasher>(&self, state: &mut H) {
        state.write_u64(self.hash);
    }
}

/// The engine's hasher: it hands on the hash that a key carries.
#[derive(Clone, Copy)]
pub(crate) struct Carried;

pub(crate) struct CarriedHash(u64);

impl BuildHasher for Carried {
    type Hasher = CarriedHash;

    #[inline]
    fn build_hasher(&self) -> CarriedHash {
        CarriedHash(0)
    }
}

impl Hasher for CarriedHash {
    fn write(&mut self, _: &[u8]) {
        unreachable!("a key writes its hash alone")
    }

    #[inline]
    fn write_u64(&mut self, hash: u64) {
        self.0 = hash;
    }

    #[inline]
    fn finish(&self) -> u64 {
        self.0
    }
}
