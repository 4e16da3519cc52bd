//! Texts, which are keys and values here, and what caches of them are made with.

use crate::engine::moka_cache::Cache;
use crate::engine::moka_engine::*;
use crate::engine::moka_segments::SegmentedCache;
use crate::support::alloc::Global;
use crate::support::clone::unless_refused;
use crate::support::string::from_str;
use crate::tests::allocator::counting;
use std::cell::Cell;
use std::fmt;
use std::time::Duration;

pub type Texts = Engine<Text, Text, NoExpiry, Notices, NoPredicate>;
pub type Cached = Cache<Text, Text, NoExpiry, Notices, NoPredicate>;
pub type Segmented = SegmentedCache<Text, Text, NoExpiry, Notices, NoPredicate>;

thread_local! {
    /// How many texts were not dropped.
    pub static LIVE: Cell<u64> = const { Cell::new(0) };
    /// How often makers were called, and other closures.
    pub static MADE: Cell<u64> = const { Cell::new(0) };
    pub static CHOSEN: Cell<u64> = const { Cell::new(0) };
}

/// A text whose clone may be refused memory.
#[derive(PartialEq, Eq, PartialOrd, Ord, Hash)]
pub struct Text(String);

impl Text {
    pub fn new(text: String) -> Text {
        LIVE.set(LIVE.get() + 1);
        Text(text)
    }

    pub fn as_str(&self) -> &str {
        &self.0
    }
}

impl Clone for Text {
    fn clone(&self) -> Text {
        Text::new(unless_refused(from_str(Global, &self.0)))
    }
}

impl Drop for Text {
    fn drop(&mut self) {
        LIVE.set(LIVE.get() - 1);
    }
}

impl fmt::Debug for Text {
    fn fmt(&self, f: &mut fmt::Formatter<'_>) -> fmt::Result {
        f.write_str(&self.0)
    }
}

impl KeyTest<Text> for &str {
    fn is_key(&self, key: &Text) -> bool {
        *self == key.0
    }
}

/// What a maker gives.
pub fn made(value: Text) -> Text {
    MADE.set(MADE.get() + 1);
    value
}

/// What a closure answers that is no maker.
pub fn chosen<T>(answer: T) -> T {
    CHOSEN.set(CHOSEN.get() + 1);
    answer
}

/// A listener that keeps what it is notified of.
#[derive(Debug)]
pub struct Notices(pub Vec<(Text, Text, RemovalCause)>);

impl Listener<Text, Text> for Notices {
    fn notify(&mut self, key: Text, value: Text, cause: RemovalCause) {
        counting(false, || self.0.push((key, value, cause)));
    }
}

/// Counts identifiers up.
pub struct Ids(pub u128);

impl IdSource for Ids {
    fn next_id(&mut self) -> PredicateId {
        self.0 += 1;
        PredicateId::from_u128(self.0)
    }
}

/// Room for four texts, a listener, and support of predicates. All segments have the same.
pub fn config(_segment: u32) -> CacheConfig<NoExpiry, Notices, NoPredicate, NoWeigher> {
    CacheConfig::default()
        .max_capacity(4)
        .eviction_policy(EvictionPolicy::lru())
        .time_to_live(Duration::from_secs(1))
        .eviction_listener(Notices(Vec::new()))
        .support_invalidation_closures()
}
