//! The caches that are compared. All have Rust's SipHash, and keys and values of eight bytes.

use hashlink::LruCache as Linked;
use lru::LruCache as Lru;
use ravulemis::{EvictionPolicy, sync, unsync};
use std::collections::HashMap;
use std::hash::{BuildHasher, RandomState};
use std::sync::Mutex;

/// A cache that threads share.
pub trait Subject: Sync {
    fn insert(&self, key: u64, value: u64);

    /// The sum of the values of keys.
    fn sum(&self, keys: &mut dyn Iterator<Item = u64>) -> u64;

    /// Asks for each key, and puts it there where it is missing.
    fn read_through(&self, keys: &mut dyn Iterator<Item = u64>);
}

/// Its two calls, from which the rest follows.
trait Calls: Sync {
    fn get(&self, key: u64) -> Option<u64>;
    fn put(&self, key: u64, value: u64);
}

impl<C: Calls> Subject for C {
    fn insert(&self, key: u64, value: u64) {
        self.put(key, value);
    }

    fn sum(&self, keys: &mut dyn Iterator<Item = u64>) -> u64 {
        keys.filter_map(|key| self.get(key)).fold(0, u64::wrapping_add)
    }

    fn read_through(&self, keys: &mut dyn Iterator<Item = u64>) {
        for key in keys {
            if self.get(key).is_none() {
                self.put(key, key);
            }
        }
    }
}

/// A cache with one owner.
trait Owned: Send {
    fn get(&mut self, key: u64) -> Option<u64>;
    fn put(&mut self, key: u64, value: u64);
}

impl Owned for HashMap<u64, u64> {
    fn get(&mut self, key: u64) -> Option<u64> {
        HashMap::get(self, &key).copied()
    }
    fn put(&mut self, key: u64, value: u64) {
        self.insert(key, value);
    }
}

impl Owned for Lru<u64, u64, RandomState> {
    fn get(&mut self, key: u64) -> Option<u64> {
        Lru::get(self, &key).copied()
    }
    fn put(&mut self, key: u64, value: u64) {
        Lru::put(self, key, value);
    }
}

impl Owned for Linked<u64, u64, RandomState> {
    fn get(&mut self, key: u64) -> Option<u64> {
        Linked::get(self, &key).copied()
    }
    fn put(&mut self, key: u64, value: u64) {
        self.insert(key, value);
    }
}

impl Owned for unsync::Cache<u64, u64> {
    fn get(&mut self, key: u64) -> Option<u64> {
        unsync::Cache::get(self, &key)
    }
    fn put(&mut self, key: u64, value: u64) {
        self.insert(key, value);
    }
}

/// One owner's cache behind a lock that is taken once for all calls: its time is the cache's alone.
struct Alone<C>(Mutex<C>);

impl<C: Owned> Subject for Alone<C> {
    fn insert(&self, key: u64, value: u64) {
        self.0.lock().unwrap().put(key, value);
    }

    fn sum(&self, keys: &mut dyn Iterator<Item = u64>) -> u64 {
        let mut cache = self.0.lock().unwrap();
        keys.filter_map(|key| cache.get(key)).fold(0, u64::wrapping_add)
    }

    fn read_through(&self, keys: &mut dyn Iterator<Item = u64>) {
        let mut cache = self.0.lock().unwrap();
        for key in keys {
            if cache.get(key).is_none() {
                cache.put(key, key);
            }
        }
    }
}

/// Caches of one owner, each behind a lock, as one would write it by hand: the hasher chooses among them.
struct Sharded<C> {
    shards: Vec<Mutex<C>>,
    hasher: RandomState,
}

impl<C> Sharded<C> {
    fn new(count: usize, make: impl Fn() -> C) -> Self {
        let shards = (0..count).map(|_| Mutex::new(make())).collect();
        let hasher = RandomState::new();
        Sharded { shards, hasher }
    }

    fn of(&self, key: u64) -> &Mutex<C> {
        match &self.shards[..] {
            [one] => one,
            shards => &shards[self.hasher.hash_one(key) as usize % shards.len()],
        }
    }
}

impl<C: Owned> Calls for Sharded<C> {
    fn get(&self, key: u64) -> Option<u64> {
        self.of(key).lock().unwrap().get(key)
    }
    fn put(&self, key: u64, value: u64) {
        self.of(key).lock().unwrap().put(key, value);
    }
}

impl Calls for sync::Cache<u64, u64> {
    fn get(&self, key: u64) -> Option<u64> {
        sync::Cache::get(self, &key)
    }
    fn put(&self, key: u64, value: u64) {
        sync::Cache::insert(self, key, value);
    }
}

/// The cache of a name, with so many shards; 0 is one owner's.
pub fn subject(name: &str, shards: usize, capacity: usize) -> Box<dyn Subject> {
    let map = || HashMap::with_capacity(capacity);
    let lru = || Lru::with_hasher(capacity / shards.max(1), RandomState::new());
    let linked = || Linked::with_hasher(capacity / shards.max(1), RandomState::new());
    let policy = match name {
        "ravulemis-lru" => EvictionPolicy::lru(),
        _ => EvictionPolicy::tiny_lfu(),
    };
    match (name, shards) {
        ("HashMap", 0) => Box::new(Alone(Mutex::new(map()))),
        ("HashMap", _) => Box::new(Sharded::new(shards, map)),
        ("lru", 0) => Box::new(Alone(Mutex::new(lru()))),
        ("lru", _) => Box::new(Sharded::new(shards, lru)),
        ("hashlink", 0) => Box::new(Alone(Mutex::new(linked()))),
        ("hashlink", _) => Box::new(Sharded::new(shards, linked)),
        ("ravulemis" | "ravulemis-lru", 0) => {
            let builder = unsync::Cache::builder().max_capacity(capacity as u64);
            Box::new(Alone(Mutex::new(builder.eviction_policy(policy).build())))
        }
        ("ravulemis" | "ravulemis-lru", _) => {
            let builder = sync::Cache::builder().max_capacity(capacity as u64).shards(shards);
            Box::new(builder.eviction_policy(policy).build())
        }
        _ => panic!("no such cache: {name}"),
    }
}
