//! A bounded in-memory cache, with the names and answers of moka 0.12's synchronous cache and an engine that is
//! generated from proved sources.
//!
//! - [`sync::Cache`] is shared by threads: a clone is another owner of the same cache, and calls take `&self`.
//! - [`unsync::Cache`] has one owner, whose calls take `&mut self`, and no locks around them.
//!
//! ```
//! use ravulemis::sync::Cache;
//! use std::time::Duration;
//!
//! let cache = Cache::builder()
//!     .max_capacity(10_000)
//!     .time_to_live(Duration::from_secs(600))
//!     .build();
//!
//! cache.insert("a key".to_string(), 7);
//! assert_eq!(cache.get("a key"), Some(7));
//!
//! // Of all threads that ask for a missing key at once one makes its value, and the others wait for it.
//! assert_eq!(cache.get_with("another".to_string(), || 8), 8);
//!
//! cache.invalidate("a key");
//! assert_eq!(cache.get("a key"), None);
//! ```
//!
//! # Values
//! A call hands out a clone of the value, so keep large ones behind an `Arc`. Keys are kept once, behind an `Arc` of
//! the cache's own, and are sought by any borrowed form, such as a `&str` for a `String`.
//!
//! # Bounds and maintenance
//! There is no thread of the cache's own: calls apply writes, reads and expiries in batches. What has expired or was
//! invalidated is found no more from that moment on, but leaves with one of the next batches, and between two of them a
//! cache may exceed its capacity by up to 64 entries in each shard. `run_pending_tasks` applies all that waits. Tables
//! grow with the entries and do not shrink again.
//!
//! A full cache evicts by [`EvictionPolicy`]: by default TinyLFU, which lets a new entry in only if it is asked for
//! more often than those that would leave for it. [`Expiry`] gives each entry a time of its own, and an eviction
//! listener is notified of each value that leaves, with its [`RemovalCause`].
//!
//! # Code of the caller's
//! Equal keys must have equal hashes, and weighers, expiries and predicates must give equal answers to equal arguments;
//! otherwise an answer may be wrong, but behaviour is never undefined. [`sync::Cache`] says what code runs under the
//! lock of a shard, and what follows if it panics.
#![cfg_attr(not(test), forbid(unsafe_code))]
#![cfg_attr(test, deny(unsafe_code))]

#[cfg(not(target_pointer_width = "64"))]
compile_error!("the engine's proofs hold for usize of 64 bits: this target has another width");

#[allow(dead_code, unused_imports, unused_labels, unused_variables, clippy::all)]
#[rustfmt::skip]
mod engine;
#[allow(dead_code, unused_imports, unused_labels, unused_variables, clippy::all)]
#[cfg(test)]
#[rustfmt::skip]
mod callers;
#[allow(dead_code, unused_imports, unused_labels, unused_variables, clippy::all)]
#[cfg(any(test, feature = "replay"))]
#[doc(hidden)]
#[rustfmt::skip]
pub mod replay;
#[allow(dead_code, clippy::all)]
mod support;

mod entry;
mod key;
#[cfg(test)]
mod look_ups;
mod making;
mod mark;
mod notices;
mod once;
pub mod policy;
#[cfg(test)]
mod random_calls;
#[cfg(test)]
mod random_store;
mod settings;
mod shard;
pub mod sync;
#[cfg(test)]
mod tests;
pub mod unsync;

/// Why a value left, as the listener is told.
///
/// ```
/// use ravulemis::RemovalCause;
///
/// assert!(RemovalCause::Expired.was_evicted() && RemovalCause::Size.was_evicted());
/// assert!(!RemovalCause::Explicit.was_evicted() && !RemovalCause::Replaced.was_evicted());
/// ```
pub use engine::moka_engine::RemovalCause;
/// Why `invalidate_entries_if` refused a predicate.
///
/// ```
/// use ravulemis::{PredicateError, sync::Cache};
///
/// let cache: Cache<u32, u32> = Cache::new(100);
/// let refused = cache.invalidate_entries_if(|key, _| key % 2 == 0);
/// assert_eq!(refused, Err(PredicateError::InvalidationClosuresDisabled));
/// ```
pub use engine::moka_parts::error::PredicateError;
pub use entry::Entry;
pub use policy::{EvictionPolicy, Expiry, Policy, Stats};
#[cfg(feature = "replay")]
#[doc(hidden)]
pub use support::alloc::Global;

/// What a listener is notified of. moka: `notification`.
pub mod notification {
    pub use crate::RemovalCause;
}

/// What is to be done with an entry, and what was. moka: `ops`.
pub mod ops {
    /// For `and_compute_with`.
    pub mod compute {
        pub use crate::entry::{CompResult, Op};
    }
}

// The README's example is tested with the others.
#[cfg(doctest)]
#[doc = include_str!("../README.md")]
struct Readme;
