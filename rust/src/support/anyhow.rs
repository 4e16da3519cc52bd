//! An error of any kind.

use std::error::Error;
use std::fmt;

/// What went wrong, as a text.
pub struct AnyError(String);

pub type Result<T, E = AnyError> = std::result::Result<T, E>;

impl<E: Error> From<E> for AnyError {
    fn from(error: E) -> Self {
        AnyError(error.to_string())
    }
}

impl fmt::Debug for AnyError {
    fn fmt(&self, f: &mut fmt::Formatter<'_>) -> fmt::Result {
        f.write_str(&self.0)
    }
}
