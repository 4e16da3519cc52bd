//! What several tests make an engine or a cache with, and calls of an engine that they make.

use crate::engine::moka_cache::CountingListener;
use crate::engine::moka_engine::{
    CacheConfig, EVICTION_BATCH_SIZE, Engine, Expiry, FixedClock, IdSource, Instant, Listener, NoExpiry, PredicateFn,
    PredicateId, RemovalCause, Ticket, Weigher,
};
use std::cell::RefCell;
use std::fmt::Debug;
use std::hash::Hash;
use std::rc::Rc;
use std::time::Duration;

/// The moment at which caches are made.
pub(crate) const NOW: Instant = Instant(0);

/// Keeps the last notice.
#[derive(Default)]
pub(crate) struct Last {
    pub(crate) notice: Option<(u64, u64, RemovalCause)>,
}

impl Listener<u64, u64> for Last {
    fn notify(&mut self, key: u64, value: u64, cause: RemovalCause) {
        self.notice = Some((key, value, cause));
    }
}

/// Counts removals by their cause, and keeps the last notice.
pub(crate) type Counting = CountingListener<Last>;

/// Covers the keys below a bound.
#[derive(Debug)]
pub(crate) struct Below(pub(crate) u64);

impl PredicateFn<u64, u64> for Below {
    fn applies(&self, key: &u64, _: &u64) -> bool {
        *key < self.0
    }
}

/// Entries live for a hundred nanoseconds, and for fifty without being used.
pub(crate) fn config() -> CacheConfig<NoExpiry, Counting, Below> {
    CacheConfig::default()
        .time_to_live(Duration::from_nanos(100))
        .time_to_idle(Duration::from_nanos(50))
        .eviction_listener(CountingListener::new(Last::default()))
        .support_invalidation_closures()
}

/// Gives the same identifier each time.
pub(crate) struct OneId;

impl IdSource for OneId {
    fn next_id(&mut self) -> PredicateId {
        PredicateId::from_u128(1)
    }
}

/// An entry weighs as much as its key says.
pub(crate) struct ByKey;

impl<V> Weigher<u64, V> for ByKey {
    fn weigh(&self, key: &u64, _: &V) -> u32 {
        u32::try_from(*key).unwrap_or(u32::MAX)
    }
}

/// A letter, and how many seconds its entry lasts after it was put, after a read within ten seconds of that, and after
/// a later read.
#[derive(Clone, Copy, Debug)]
pub(crate) struct Lasting(
    pub(crate) char,
    pub(crate) Option<u64>,
    pub(crate) Option<u64>,
    pub(crate) Option<u64>,
);

/// What an expiry was asked about the entry with this key and letter.
#[derive(Debug, PartialEq)]
pub(crate) enum Asked {
    Create {
        key: u64,
        letter: char,
        now: Instant,
    },
    Read {
        key: u64,
        letter: char,
        now: Instant,
        left: Option<Duration>,
        modified: Instant,
    },
    Update {
        key: u64,
        letter: char,
        now: Instant,
        left: Option<Duration>,
    },
}

/// Answers as the value says, and keeps what it was asked. Clones share what they keep.
#[derive(Clone, Default)]
pub(crate) struct Recorder(Rc<RefCell<Vec<Asked>>>);

impl Recorder {
    /// What it was asked since the last `take`.
    pub(crate) fn take(&self) -> Vec<Asked> {
        self.0.take()
    }

    fn answer(&self, asked: Asked, seconds: Option<u64>) -> Option<Duration> {
        self.0.borrow_mut().push(asked);
        seconds.map(Duration::from_secs)
    }
}

impl Expiry<u64, Lasting> for Recorder {
    fn expire_after_create(&self, &key: &u64, value: &Lasting, now: Instant) -> Option<Duration> {
        let &Lasting(letter, seconds, ..) = value;
        self.answer(Asked::Create { key, letter, now }, seconds)
    }

    fn expire_after_read(
        &self,
        &key: &u64,
        value: &Lasting,
        now: Instant,
        left: Option<Duration>,
        modified: Instant,
    ) -> Option<Duration> {
        let &Lasting(letter, _, early, late) = value;
        let is_early = now.saturating_duration_since(modified) < Duration::from_secs(10);
        let asked = Asked::Read {
            key,
            letter,
            now,
            left,
            modified,
        };
        self.answer(asked, if is_early { early } else { late })
    }

    fn expire_after_update(
        &self,
        &key: &u64,
        value: &Lasting,
        now: Instant,
        left: Option<Duration>,
    ) -> Option<Duration> {
        let &Lasting(letter, seconds, ..) = value;
        let asked = Asked::Update { key, letter, now, left };
        self.answer(asked, seconds)
    }
}

/// Calls of an engine, with the arguments that most tests give.
pub(crate) trait Calls<K, V> {
    /// Inserts an entry and sends the operation, whose ticket is returned.
    fn put(&mut self, key: K, hash: u64, value: V, now: Instant) -> Ticket;

    /// Runs maintenance once.
    fn run(&mut self, now: Instant);
}

impl<K, V, X, L, P, W> Calls<K, V> for Engine<K, V, X, L, P, W>
where
    K: Eq + Hash + Debug,
    V: Debug,
    X: Expiry<K, V>,
    L: Listener<K, V>,
    P: PredicateFn<K, V>,
    W: Weigher<K, V>,
{
    fn put(&mut self, key: K, hash: u64, value: V, now: Instant) -> Ticket {
        let (ticket, _) = self.do_insert_with_hash(key, hash, value, now).unwrap();
        self.send(ticket).unwrap();
        ticket
    }

    fn run(&mut self, now: Instant) {
        self.run_pending_tasks(now, &mut FixedClock(now), None, 1, EVICTION_BATCH_SIZE);
    }
}
