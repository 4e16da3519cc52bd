//! Tests of the housekeeper: when maintenance is due, and what its runs are given.

use crate::engine::moka_parts::housekeeper::{Clock, Housekeeper, HousekeeperConfig, InnerSync};
use crate::engine::moka_parts::policy::Instant;
use std::time::Duration;

const MILLISECOND: u64 = 1_000_000;

/// Keeps what the last run was given, and says whether it left more to do.
#[derive(Default)]
struct Recorder {
    given: Option<(Instant, Option<Duration>, u32, u32)>,
    leaves_more: bool,
}

impl InnerSync for Recorder {
    fn run_pending_tasks<C: Clock>(
        &mut self,
        now: Instant,
        clock: &mut C,
        timeout: Option<Duration>,
        max_log_sync_repeats: u32,
        eviction_batch_size: u32,
    ) -> bool {
        clock.now();
        self.given = Some((now, timeout, max_log_sync_repeats, eviction_batch_size));
        self.leaves_more
    }
}

/// Ticks with each reading.
#[derive(Default)]
struct Ticks(u64);

impl Clock for Ticks {
    fn now(&mut self) -> Instant {
        let now = Instant(self.0);
        self.0 += 1;
        now
    }
}

/// Of a cache with a listener.
fn housekeeper() -> Housekeeper {
    Housekeeper::new(true, HousekeeperConfig::default(), Instant(0))
}

#[test]
fn a_run_is_due_after_300_milliseconds() {
    let (before, now) = (Instant(300 * MILLISECOND - 1), Instant(300 * MILLISECOND));
    let housekeeper = housekeeper();
    assert!(!housekeeper.should_apply_reads(0, before));
    assert!(!housekeeper.should_apply_writes(0, before));
    assert!(housekeeper.should_apply_reads(0, now));
    assert!(housekeeper.should_apply_writes(0, now));
}

#[test]
fn no_run_is_due_once_automatic_runs_are_disabled() {
    let mut housekeeper = housekeeper();
    housekeeper.disable_auto_run();
    assert!(!housekeeper.copied().should_apply_writes(64, Instant(300 * MILLISECOND)));
}

#[test]
fn a_run_is_given_its_limits() {
    let (now, mut cache, mut clock) = (Instant(MILLISECOND), Recorder::default(), Ticks::default());
    assert!(housekeeper().try_run_pending_tasks(&mut cache, now, &mut clock));
    assert_eq!(cache.given, Some((now, Some(Duration::from_millis(100)), 4, 384)));
    assert_eq!(clock.0, 1);
}

#[test]
fn a_run_is_due_at_once_while_more_is_left() {
    let (now, mut cache, mut clock) = (Instant(MILLISECOND), Recorder::default(), Ticks::default());
    let mut housekeeper = housekeeper();
    cache.leaves_more = true;
    housekeeper.run_pending_tasks(&mut cache, now, &mut clock);
    assert!(housekeeper.should_apply_writes(0, now));

    cache.leaves_more = false;
    housekeeper.run_pending_tasks(&mut cache, now, &mut clock);
    assert!(!housekeeper.should_apply_writes(0, now));
    assert_eq!(clock.0, 2);
}
