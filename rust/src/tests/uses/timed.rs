//! Tests of callers of a cache that owns its clock. Each entry lasts for 100 nanoseconds, since it was written or used.
//! Most set a `FixedClock`, for which other tests have the cache compiled as well; one advances a `ManualClock`.

use super::NOW;
use crate::callers::moka_timed::ManualClock;
use crate::callers::moka_timed_uses::joined::put_and_find;
use crate::callers::moka_timed_uses::profiles::{self, Profiles};
use crate::callers::moka_timed_uses::restarted::{hand_over, save, start_again, start_again_within};
use crate::callers::moka_timed_uses::sessions::{Sessions, log_in, log_out, start, touch};
use crate::callers::moka_timed_uses::{borrowed, logins};
use crate::callers::moka_uses::invalidated::CountedIds;
use crate::engine::moka_engine::{FixedClock, Instant};
use crate::support::alloc::Global;
use std::time::Duration;

const LASTING: Duration = Duration::from_nanos(100);
const CLOCK: FixedClock = FixedClock(NOW);

/// The clock of a restart, at which the first of three sessions has ended.
const AFTER_RESTART: FixedClock = FixedClock(Instant(110));

type TestSessions = Sessions<FixedClock>;

fn sessions() -> TestSessions {
    start(Global, LASTING, CLOCK).expect("memory")
}

/// Sessions of three users, 20 nanoseconds apart.
fn three_sessions() -> TestSessions {
    let mut sessions = sessions();
    for user in 1..=3 {
        log_in(&mut sessions, user, user).expect("memory");
        sessions.clock = FixedClock(Instant(20 * user));
    }
    sessions
}

/// Asserts that the first of the three sessions has ended, and that the others go on.
fn assert_two_go_on(mut sessions: TestSessions) {
    assert_eq!(touch(&mut sessions, 1), None);
    assert_eq!(touch(&mut sessions, 2), Some(2));
    assert_eq!(touch(&mut sessions, 3), Some(3));
}

#[test]
fn sessions_end_if_they_are_not_used() {
    let mut sessions = sessions();
    log_in(&mut sessions, 1, 10).expect("memory");
    log_in(&mut sessions, 2, 20).expect("memory");

    sessions.clock = FixedClock(Instant(99));
    assert_eq!(touch(&mut sessions, 1), Some(10));
    assert_eq!(log_out(&mut sessions, 2), Some(20));
    assert_eq!(touch(&mut sessions, 2), None);

    sessions.clock = FixedClock(Instant(199));
    assert_eq!(touch(&mut sessions, 1), None);
}

#[test]
fn what_is_put_in_is_found() {
    let (put, found) = put_and_find(&mut sessions(), (1, 10), &1);
    put.expect("memory");
    assert_eq!(found, Ok(Some(10)));
}

#[test]
fn sessions_go_on_after_a_restart() {
    let saved = save(Global, &mut three_sessions()).expect("memory");
    assert_two_go_on(start_again(Global, LASTING, AFTER_RESTART, saved).expect("memory"));
}

#[test]
fn sessions_go_on_within_a_bound() {
    let saved = save(Global, &mut three_sessions()).expect("memory");
    assert_two_go_on(start_again_within(Global, LASTING, 2, AFTER_RESTART, saved).expect("memory"));
}

#[test]
fn sessions_are_handed_over() {
    assert_two_go_on(hand_over(Global, &mut three_sessions(), LASTING, AFTER_RESTART).expect("memory"));
}

#[test]
fn a_log_out_ends_all_sessions_of_a_user() {
    let mut logins = logins::start(Global, LASTING, CLOCK).expect("memory");
    let other = logins::Session { user: 8, token: 20 };
    logins::log_in(&mut logins, 1, logins::Session { user: 7, token: 10 }).expect("memory");
    logins::log_in(&mut logins, 2, other).expect("memory");

    logins::log_out(&mut logins, 7, &mut CountedIds(0)).expect("a free identifier");
    assert_eq!(logins::find(&mut logins, 1), Ok(None));
    assert_eq!(logins::find(&mut logins, 2), Ok(Some(other)));

    let saved = logins::save(Global, &mut logins).expect("memory");
    let saved: Vec<_> = saved.into_iter().map(|item| (item.key, item.value)).collect();
    assert_eq!(saved, [(2, other)]);
}

/// The profile of a user, which has this value if it has to be read.
fn profile_or_read(profiles: &mut Profiles<u64, ManualClock>, value: u64) -> u64 {
    profiles::profile(profiles, 1, || value).expect("memory")
}

#[test]
fn a_profile_is_read_again_when_it_has_expired() {
    let clock = ManualClock { now: NOW };
    let mut profiles = profiles::start(Global, LASTING, clock).expect("memory");
    assert_eq!(profile_or_read(&mut profiles, 10), 10);
    assert_eq!(profile_or_read(&mut profiles, 20), 10);
    profiles.clock.advance(LASTING);
    assert_eq!(profile_or_read(&mut profiles, 20), 20);
}

/// Has a price for tea.
fn prices() -> borrowed::Prices<FixedClock> {
    let mut prices = borrowed::start(Global, LASTING, CLOCK).expect("memory");
    borrowed::set(&mut prices, "tea".to_owned(), 3).expect("memory");
    prices
}

#[test]
fn a_price_is_found_by_a_text_until_it_expires() {
    let mut prices = prices();
    assert_eq!(borrowed::price(&mut prices, "tea"), Some(3));
    assert_eq!(borrowed::price(&mut prices, "te"), None);
    prices.clock = FixedClock(Instant(100));
    assert_eq!(borrowed::price(&mut prices, "tea"), None);

    borrowed::set(&mut prices, "tea".to_owned(), 4).expect("memory");
    assert_eq!(borrowed::price(&mut prices, "tea"), Some(4));
}

#[test]
fn a_price_is_removed_by_a_text() {
    let mut prices = prices();
    let hash = prices.hash_of(&"tea");
    assert!(prices.contains_key_by(&"tea", hash));
    assert_eq!(prices.remove_by(&"tea", hash).expect("memory"), Some(3));
    assert!(!prices.contains_key_by(&"tea", hash));
}

#[test]
fn a_price_is_invalidated_by_a_text() {
    let mut prices = prices();
    let hash = prices.hash_of(&"tea");
    prices.invalidate_by(&"tea", hash).expect("memory");
    assert!(!prices.contains_key_by(&"tea", hash));
}
