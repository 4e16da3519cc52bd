//! Tests of `moka_sketch`: the length of its tables, and its packed counters beside plain ones.

use super::{Random, made, refuse_each};
use crate::engine::moka_sketch::frequency_sketch::FrequencySketch;
use crate::support::alloc::Global;
use crate::tests::allocator::refusable;
use std::array;

const FACTORS: [u64; 4] = [
    0x9E37_79B9_7F4A_7C15,
    0xBF58_476D_1CE4_E5B9,
    0x94D0_49BB_1331_11EB,
    0xD6E8_FEB8_6659_FD93,
];

/// A sketch that counts as `FrequencySketch` does, with a byte for each counter.
struct PlainSketch {
    counters: Vec<u8>,
    words: u64,
    size: u64,
}

impl PlainSketch {
    /// Each word has sixteen counters.
    fn new(words: u64) -> Self {
        PlainSketch {
            counters: vec![0; 16 * words as usize],
            words,
            size: 0,
        }
    }

    /// The places of the four counters of a hash.
    fn places(&self, hash: u64) -> [usize; 4] {
        array::from_fn(|i| {
            let mixed = hash.wrapping_mul(FACTORS[i]);
            let word = (mixed ^ (mixed >> 32)) % self.words;
            (16 * word + 4 * (hash % 4)) as usize + i
        })
    }

    fn frequency(&self, hash: u64) -> u8 {
        let [a, b, c, d] = self.places(hash).map(|place| self.counters[place]);
        a.min(b).min(c).min(d)
    }

    fn increment(&mut self, hash: u64) {
        let places = self.places(hash);
        if places.iter().all(|&place| self.counters[place] == 15) {
            return;
        }
        for place in places {
            self.counters[place] = 15.min(self.counters[place] + 1);
        }
        self.size += 1;
        if self.size == 10 * self.words {
            self.counters.iter_mut().for_each(|counter| *counter /= 2);
            self.size = 5 * self.words;
        }
    }
}

/// A hash for a number, as a hasher might give it.
fn hash_of(number: u64) -> u64 {
    number.wrapping_mul(0x2545_F491_4F6C_DD1D)
}

/// How often all numbers below 1,024 were seen together.
fn sum_of(packed: &FrequencySketch) -> u64 {
    (0..1024)
        .map(|number| u64::from(packed.frequency(hash_of(number))))
        .sum()
}

/// Counts so many numbers below 1,024 by a fresh sketch and a plain one, of which some come often.
fn assert_agree(packed: &mut FrequencySketch, words: u64, count: u64) {
    let (mut random, mut plain) = (Random(1), PlainSketch::new(words));
    assert_eq!(packed.table_len() as u64, words);
    for _ in 0..count {
        let bits = random.next();
        let hash = hash_of((bits >> 21) & (bits >> 1));
        packed.increment(hash);
        plain.increment(hash);
        assert_eq!(packed.frequency(hash), plain.frequency(hash));
    }
    for hash in (0..1024).map(hash_of) {
        assert_eq!(packed.frequency(hash), plain.frequency(hash));
    }
}

// The lengths are moka's.
#[test]
fn a_table_is_fresh_and_as_long_as_asked() {
    let mut sketch = FrequencySketch::new(Global).expect("memory");
    for (size, length) in [
        (0, 128),
        (129, 256),
        (65_536, 65_536),
        (65_537, 131_072),
        (1_000_000, 1_048_576),
        (1, 128),
    ] {
        sketch.ensure_capacity(size).expect("memory");
        assert_eq!(sketch.table_len(), length, "for {size}");
        assert_eq!(sketch.frequency(7), 0, "for {size}");
        sketch.increment(7);
        assert_eq!(sketch.frequency(7), 1, "for {size}");
    }
}

#[test]
fn packed_counters_agree_with_plain_ones() {
    let mut packed = FrequencySketch::new(Global).expect("memory");
    // The sums of all frequencies were computed by another program.
    for (words, sum) in [(128, 1161), (256, 1744)] {
        packed.ensure_capacity(words).expect("memory");
        assert_agree(&mut packed, words, 100_000);
        assert_eq!(sum_of(&packed), sum, "of {words} words");
    }
}

#[test]
fn a_table_that_is_refused_is_the_shortest() {
    refuse_each(|| {
        let mut packed = made(|| FrequencySketch::new(Global));
        [128, 256, 512, 1024, 2048, 4096].map(|words| {
            if refusable("ensure_capacity", || packed.ensure_capacity(words)).is_err() {
                assert_agree(&mut packed, 128, 10_000);
                refusable("ensure_capacity", || packed.ensure_capacity(words)).expect("memory");
            }
            assert_agree(&mut packed, words, 10_000);
            sum_of(&packed)
        })
    });
}
