//! What caches tell of themselves.

use super::texts::{Cached, Segmented, Text, Texts};
use crate::engine::moka_cache::Stats;
use crate::engine::moka_engine::{FixedClock, InsertRefused, Instant, Ticket};
use std::cell::Cell;

/// The hash that the engine is handed with each key: it finds keys by hashes of its own.
pub const HASH: u64 = 7;

/// What a cache tells after a call. What its segments tell is summed.
#[derive(Clone, Debug, PartialEq)]
pub struct Told {
    /// What the call's key has.
    pub value: Option<Text>,
    pub entries: u64,
    pub predicates: u64,
    pub outstanding: u64,
    pub oldest: Option<Ticket>,
    pub writes: usize,
    pub reads: usize,
    pub notices: usize,
    /// Hits, misses and loads.
    pub counted: [u64; 3],
}

/// A cache of texts.
pub trait Asked {
    /// The engines below it.
    fn engines(&self) -> Vec<&Texts>;

    /// What it counts, if it does.
    fn stats(&self) -> Stats;

    fn put(&mut self, key: Text, value: Text, now: Instant) -> Result<(), InsertRefused<Text, Text>>;

    /// Makes a run, and answers whether more is left to be done.
    fn run(&mut self, now: Instant) -> bool;

    fn told(&self, key: &Text, now: Instant) -> Told {
        let (engines, stats) = (self.engines(), self.stats());
        Told {
            value: engines.iter().find_map(|it| it.scanning_get(key, now).unwrap()),
            entries: engines.iter().map(|it| it.entry_count()).sum(),
            predicates: engines.iter().map(|it| it.invalidation_predicate_count()).sum(),
            outstanding: engines.iter().map(|it| it.outstanding()).sum(),
            oldest: engines.iter().find_map(|it| it.oldest_unsent()),
            writes: engines.iter().map(|it| it.queued_writes()).sum(),
            reads: engines.iter().map(|it| it.queued_reads()).sum(),
            notices: engines.iter().map(|it| it.listener().unwrap().0.len()).sum(),
            counted: [stats.hits, stats.misses, stats.loads],
        }
    }

    /// The visible entries, in the order of access, with the moments of their last write and access.
    fn entries(&self, now: Instant) -> String {
        let listed = self.engines().into_iter().flat_map(|it| it.snapshot(now));
        let entries: Vec<_> = listed
            .map(|it| (it.key, it.value, it.last_modified.0, it.last_accessed.0))
            .collect();
        format!("{entries:?}")
    }
}

/// Sends an operation, whose ticket has to be the next one.
pub fn send(cache: &mut Texts, ticket: Ticket) {
    thread_local!(static LAST: Cell<u64> = const { Cell::new(0) });
    let last = LAST.replace(ticket.0);
    assert!(ticket.0 == 1 || ticket.0 == last + 1, "a ticket was left out");
    cache.send(ticket).unwrap();
}

impl Asked for Texts {
    fn engines(&self) -> Vec<&Texts> {
        vec![self]
    }

    fn stats(&self) -> Stats {
        Stats::new()
    }

    fn put(&mut self, key: Text, value: Text, now: Instant) -> Result<(), InsertRefused<Text, Text>> {
        let (ticket, _) = self.do_insert_with_hash(key, HASH, value, now)?;
        send(self, ticket);
        Ok(())
    }

    fn run(&mut self, now: Instant) -> bool {
        self.run_pending_tasks(now, &mut FixedClock(now), None, 4, 384)
    }
}

macro_rules! asked {
    ($cache:ty, $it:ident => $engines:expr) => {
        impl Asked for $cache {
            fn engines(&self) -> Vec<&Texts> {
                let $it = self;
                $engines
            }

            fn stats(&self) -> Stats {
                self.stats()
            }

            fn put(&mut self, key: Text, value: Text, now: Instant) -> Result<(), InsertRefused<Text, Text>> {
                self.insert(key, value, now, &mut FixedClock(now))
            }

            fn run(&mut self, now: Instant) -> bool {
                self.run_pending_tasks(now, &mut FixedClock(now))
            }
        }
    };
}

asked!(Cached, it => vec![it.engine()]);
asked!(Segmented, it => [0, 1, 2].map(|index| it.segment(index).engine()).into());
