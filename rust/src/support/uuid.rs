//! Identifiers of 128 bits.

use std::fmt;

#[derive(Clone, Copy, Debug, PartialEq, Eq, Hash)]
pub struct Uuid(u128);

impl fmt::Display for Uuid {
    fn fmt(&self, f: &mut fmt::Formatter<'_>) -> fmt::Result {
        let digits = format!("{:032x}", self.0);
        let parts = [0..8, 8..12, 12..16, 16..20, 20..32].map(|part| &digits[part]);
        f.write_str(&parts.join("-"))
    }
}

impl Uuid {
    pub const fn from_u128(bits: u128) -> Self {
        Uuid(bits)
    }

    pub const fn nil() -> Self {
        Uuid(0)
    }

    pub const fn as_u128(self) -> u128 {
        self.0
    }
}
