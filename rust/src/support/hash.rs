//! Hashing: Rust's, and the default hasher of the engine.

#[allow(unused_imports)]
pub use std::hash::{BuildHasher, BuildHasherDefault, DefaultHasher, Hash, Hasher};

const SEED: u64 = 0x243F_6A88_85A3_08D3;
const FACTOR: u64 = 0x9E37_79B9_7F4A_7C15;

/// A fast hasher with a fixed seed, for keys that nobody hostile picks: one folded multiplication for eight bytes. It
/// stands for Rattle's of this name and hashes otherwise; no contract of the engine speaks of that.
#[derive(Clone, Copy)]
pub struct FoldHasher(u64);

impl Default for FoldHasher {
    #[inline(always)]
    fn default() -> Self {
        FoldHasher(SEED)
    }
}

impl Hasher for FoldHasher {
    #[inline]
    fn write(&mut self, bytes: &[u8]) {
        let (words, rest) = bytes.as_chunks::<8>();
        for word in words {
            self.write_u64(u64::from_le_bytes(*word));
        }
        if !rest.is_empty() {
            let mut last = [0; 8];
            last[..rest.len()].copy_from_slice(rest);
            self.write_u64(u64::from_le_bytes(last));
        }
    }

    #[inline(always)]
    fn write_u64(&mut self, word: u64) {
        let wide = u128::from(self.0 ^ word) * u128::from(FACTOR);
        self.0 = wide as u64 ^ (wide >> 64) as u64;
    }

    #[inline(always)]
    fn finish(&self) -> u64 {
        self.0
    }
}
