//! Eight lanes at once.

pub mod prelude {
    #[allow(non_camel_case_types)]
    #[derive(Clone, Copy)]
    pub struct u32x8([u32; 8]);

    /// Which lanes are equal.
    pub struct Mask(u64);

    impl u32x8 {
        #[inline(always)]
        pub fn from_array(lanes: [u32; 8]) -> Self {
            u32x8(lanes)
        }

        #[inline(always)]
        pub fn splat(lane: u32) -> Self {
            u32x8([lane; 8])
        }

        // Each lane that is equal adds three times its bit, so a third of the sum has the bits. The compiler compares
        // the lanes at once if all add numbers of one form, which their bits alone are not.
        #[inline(always)]
        pub fn simd_eq(self, other: Self) -> Mask {
            let mut sum = 0u32;
            for lane in 0..8 {
                sum += if self.0[lane] == other.0[lane] { 3 << lane } else { 0 };
            }
            Mask(u64::from(sum / 3))
        }
    }

    impl Mask {
        /// A bit for each lane, the first one the lowest.
        #[inline(always)]
        pub fn to_bitmask(self) -> u64 {
            self.0
        }
    }
}

#[cfg(test)]
mod tests {
    use super::prelude::u32x8;

    #[test]
    fn has_a_bit_for_each_equal_lane() {
        for bits in 0..256u32 {
            let lanes = std::array::from_fn(|lane| 7 + (bits >> lane & 1));
            let mask = u32x8::from_array(lanes).simd_eq(u32x8::splat(8));
            assert_eq!(mask.to_bitmask(), u64::from(bits));
        }
    }
}
