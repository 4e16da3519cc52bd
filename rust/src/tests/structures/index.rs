//! Tests of `moka_index`: the index of places beside a map of keys, with hashes that collide and crowd.

use super::{Growing, Random, filled, refuse_each};
use crate::engine::moka_index::PlaceIndex;
use crate::support::alloc::{AllocError, Global};
use std::collections::HashMap;

/// All keys are less than this.
const KEYS: u32 = 2_000;

/// Even keys are spread over the table, four to a hash. Odd ones crowd at its end, eight to a hash.
fn hash_of(key: u32) -> u32 {
    if key.is_multiple_of(2) {
        (key % 500).wrapping_mul(0x9E37_79B9)
    } else {
        u32::MAX - key / 16
    }
}

/// The places of some keys in an index and in a map.
struct Both {
    index: PlaceIndex,
    map: HashMap<u32, usize>,
    /// The key of each place.
    keys: Vec<u32>,
}

impl Both {
    /// Both with nothing, and so many random keys.
    fn new(steps: usize) -> Self {
        let mut random = Random(1);
        Both {
            index: PlaceIndex::new(Global),
            map: HashMap::new(),
            keys: (0..steps).map(|_| random.below(KEYS.into()) as u32).collect(),
        }
    }

    /// Both after so many random keys were toggled.
    fn after(steps: usize) -> Self {
        let mut both = Both::new(steps);
        for place in 0..steps {
            both.toggle(place);
        }
        both
    }

    fn find(&self, key: u32) -> Option<usize> {
        self.index.find(hash_of(key), |place| self.keys[place] == key)
    }

    /// Removes the key of this place, if it is there, or else adds it at this place.
    fn toggle(&mut self, place: usize) {
        let key = self.keys[place];
        let hash = hash_of(key);
        let found = self.find(key);
        assert_eq!(found, self.map.remove(&key), "key {key} at step {place}");
        if let Some(found) = found {
            self.index.remove(hash, found);
        } else {
            self.index.reserve(1).expect("memory");
            self.index.insert(hash, place);
            self.map.insert(key, place);
        }
    }
}

impl Growing for Both {
    fn used(&self) -> usize {
        self.map.len()
    }

    fn reserve(&mut self, additional: usize) -> Result<(), AllocError> {
        self.index.reserve(additional)
    }

    fn add(&mut self, place: u64) {
        self.toggle(place as usize);
    }

    fn assert_alike(&self) {
        for key in 0..KEYS {
            assert_eq!(self.find(key), self.map.get(&key).copied(), "key {key}");
        }
        assert_eq!(self.index.len(), self.map.len());
        assert_eq!(self.index.is_empty(), self.map.is_empty());
    }
}

#[test]
fn finds_what_a_map_finds() {
    Both::after(0).assert_alike();
    Both::after(10_000).assert_alike();
}

#[test]
fn is_as_it_was_after_a_refused_growth() {
    refuse_each(|| filled(Both::new(300), 300).map);
}
