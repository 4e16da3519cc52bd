//! What the engine's sources take from Rattle's library and crates, over Rust's. This is written by hand, tested, and
//! trusted: each call does what the contract of its namesake says.

#[cfg(test)]
pub mod anyhow;
pub mod circular_buffer;
pub mod collections;
pub mod hash;
pub mod io;
pub mod simd;
pub mod uuid;
pub mod vec;

/// What each module of Rattle has at hand.
#[allow(unused_imports)]
pub mod prelude {
    pub use super::clone::TryClone;
    pub use super::vec::{CollectIn, Vec};
}

pub mod alloc {
    /// The allocator: Rust's own.
    #[derive(Clone, Copy, Debug, Default)]
    pub struct Global;

    /// Memory was refused.
    #[derive(Clone, Copy, Debug, PartialEq, Eq)]
    pub struct AllocError;

    impl std::fmt::Display for AllocError {
        fn fmt(&self, f: &mut std::fmt::Formatter<'_>) -> std::fmt::Result {
            f.write_str("memory was refused")
        }
    }

    impl std::error::Error for AllocError {}

    /// Memory was refused for a value, which comes back.
    #[derive(Debug)]
    pub struct AllocFailed<T>(pub T);
}

pub mod clone {
    use super::alloc::AllocError;

    /// A clone that may say that memory was refused; Rust's ends the process instead.
    pub trait TryClone: Clone {
        #[cfg(not(test))]
        #[inline(always)]
        fn try_clone(&self) -> Result<Self, AllocError> {
            Ok(self.clone())
        }

        // Some tests have types that refuse.
        #[cfg(test)]
        fn try_clone(&self) -> Result<Self, AllocError> {
            use std::panic::{AssertUnwindSafe, catch_unwind, resume_unwind};
            catch_unwind(AssertUnwindSafe(|| self.clone())).map_err(|why| match why.downcast() {
                Ok(refused) => *refused,
                Err(why) => resume_unwind(why),
            })
        }
    }

    impl<T: Clone> TryClone for T {}

    /// The clone. If it was refused, that unwinds, and no panic is reported.
    pub fn unless_refused<T>(clone: Result<T, AllocError>) -> T {
        clone.unwrap_or_else(|refused| std::panic::resume_unwind(Box::new(refused)))
    }
}

pub mod time {
    #[allow(unused_imports)]
    pub use std::time::Duration;

    /// What tells the system's monotonic time.
    pub trait Clock {
        /// The time since a fixed moment.
        fn monotonic(&self) -> std::io::Result<Duration>;

        /// The time since the year 1970.
        fn since_1970(&self) -> std::io::Result<Duration>;
    }
}

pub mod string {
    use super::alloc::{AllocError, Global};

    pub fn from_str(_: Global, text: &str) -> Result<String, AllocError> {
        let mut made = String::new();
        made.try_reserve_exact(text.len()).map_err(|_| AllocError)?;
        made.push_str(text);
        Ok(made)
    }
}
