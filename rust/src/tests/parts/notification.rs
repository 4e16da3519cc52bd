//! Tests of listeners and of removal causes.

use crate::engine::moka_parts::notification::{Listener, NoListener, RemovalCause, RemovalNotifier};

/// Keeps what it was notified of last.
#[derive(Default)]
struct Last(Option<(u8, u64, RemovalCause)>);

impl Listener<u8, u64> for Last {
    fn notify(&mut self, key: u8, value: u64, cause: RemovalCause) {
        self.0 = Some((key, value, cause));
    }
}

#[test]
fn a_listener_is_notified() {
    let mut notifier = RemovalNotifier::new(Some(Last::default()));
    assert!(notifier.is_enabled());
    notifier.notify(2, 20, RemovalCause::Size);
    let heard = notifier.listener().and_then(|last| last.0);
    assert_eq!(heard, Some((2, 20, RemovalCause::Size)));
}

#[test]
fn a_listener_that_does_nothing_is_notified_too() {
    let mut notifier = RemovalNotifier::new(Some(NoListener));
    notifier.notify(1, 10, RemovalCause::Replaced);
    assert!(notifier.is_enabled());
}

#[test]
fn what_left_for_its_size_was_evicted() {
    assert!(RemovalCause::Size.was_evicted());
}
