//! Tests of `moka_maintenance`: how long the table of the sketch is that comes on at a capacity. moka:
//! `test_skt_capacity_will_not_overflow`.

use super::record;
use crate::engine::moka_maintenance::bounds::Bounds;
use crate::engine::moka_maintenance::sketch::enable_frequency_sketch;
use crate::engine::moka_parts::policy::EvictionPolicy;
use crate::engine::moka_sketch::frequency_sketch::FrequencySketch;
use crate::engine::moka_store::{IndexHash, Store};
use crate::support::alloc::Global;
use crate::support::hash::{BuildHasherDefault, FoldHasher};

type TestStore = Store<u64, u64, BuildHasherDefault<FoldHasher>>;

/// A store with one member of this weight.
fn store_of(weight: u32) -> TestStore {
    let mut store = TestStore::new(Global, BuildHasherDefault::new(), false, false).expect("memory");
    store.reserve(1).expect("memory");
    let hash = IndexHash::of(store.hash(&1));
    let handle = store.insert_new(record(1, 10), hash);
    store.admit(handle, weight);
    store
}

fn length_at(capacity: u64, store: &TestStore) -> usize {
    let mut sketch = FrequencySketch::new(Global).expect("memory");
    let bounds = Bounds {
        capacity: Some(capacity),
        policy: EvictionPolicy::TinyLfu,
        has_weigher: false,
    };
    enable_frequency_sketch(store, &mut sketch, bounds);
    sketch.table_len()
}

#[test]
fn the_sketch_has_a_word_for_each_unit_of_capacity() {
    // At least half of each capacity is taken, so the sketch is due.
    let store = store_of(u32::MAX);
    for (capacity, length) in [
        (0, 0),
        (1, 128),
        (128, 128),
        (129, 256),
        (256, 256),
        (65_536, 65_536),
        (65_537, 131_072),
        (1_000_000, 1_048_576),
    ] {
        assert_eq!(length_at(capacity, &store), length, "at {capacity}");
    }
}
