//! What an expiry is told as entries are inserted, read and updated, and when they expire by its answers. moka:
//! `test_per_entry_expiration`.

use super::fixtures::{Asked, Calls, Lasting, NOW, Recorder};
use super::settings::{Chosen, assert_lasts_until, chosen};
use crate::engine::moka_engine::{FixedClock, Instant};
use std::time::Duration;

fn at(second: u64) -> Instant {
    NOW.saturating_add(Duration::from_secs(second))
}

/// A cache whose entries live for 16 seconds, and for 7 without being used, and what its expiry is asked.
struct Observed {
    cache: Chosen,
    recorder: Recorder,
}

/// Each step is made at a second, and leaves the entry to expire at the second `end`.
impl Observed {
    fn new() -> Self {
        let recorder = Recorder::default();
        let cache = chosen(recorder.clone());
        Observed { cache, recorder }
    }

    #[track_caller]
    fn insert(&mut self, key: u64, second: u64, value: Lasting, end: u64) {
        let (now, letter) = (at(second), value.0);
        self.cache.put(key, key, value, now);
        self.assert_asked(Asked::Create { key, letter, now }, key, now, end);
    }

    /// The expiry is told how many seconds the entry has left.
    #[track_caller]
    fn update(&mut self, key: u64, second: u64, value: Lasting, left: u64, end: u64) {
        let (now, letter) = (at(second), value.0);
        self.cache.put(key, key, value, now);
        let left = Some(Duration::from_secs(left));
        self.assert_asked(Asked::Update { key, letter, now, left }, key, now, end);
    }

    /// The expiry is told how many seconds the entry has left, and in which second it was last written.
    #[track_caller]
    fn read(&mut self, key: u64, second: u64, letter: char, (left, modified): (u64, u64), end: u64) {
        let now = at(second);
        let found = self.cache.get_with_hash(&key, key, false, now, &mut FixedClock(now));
        assert_eq!(found.unwrap().map(|entry| entry.value.0), Some(letter));
        let asked = Asked::Read {
            key,
            letter,
            now,
            left: Some(Duration::from_secs(left)),
            modified: at(modified),
        };
        self.assert_asked(asked, key, now, end);
    }

    /// The expiry was asked this and no more, and a run leaves this entry alone, which is visible until its end.
    #[track_caller]
    fn assert_asked(&mut self, asked: Asked, key: u64, now: Instant, end: u64) {
        self.cache.run(now);
        assert_eq!(self.recorder.take(), [asked]);
        assert_lasts_until(&self.cache, key, at(end));
        assert_eq!(self.cache.entry_count(), 1);
    }
}

#[test]
fn an_expiry_is_asked_once_about_each_write_and_read() {
    let mut it = Observed::new();
    it.insert(1, 100, Lasting('a', Some(1), None, None), 101);

    it.insert(2, 200, Lasting('b', None, Some(3), None), 207);
    it.read(2, 201, 'b', (6, 200), 204);

    it.insert(3, 300, Lasting('c', None, None, None), 307);
    it.read(3, 301, 'c', (6, 300), 308);
    it.update(3, 303, Lasting('d', Some(3), None, None), 7, 306);

    it.insert(4, 400, Lasting('e', None, None, None), 407);
    it.read(4, 401, 'e', (6, 400), 408);
    it.update(4, 403, Lasting('f', None, None, None), 7, 410);

    it.insert(5, 500, Lasting('g', Some(8), Some(8), None), 507);
    it.read(5, 505, 'g', (2, 500), 512);

    it.insert(6, 600, Lasting('h', Some(8), Some(9), Some(10)), 607);
    it.read(6, 605, 'h', (2, 600), 612);
    it.read(6, 611, 'h', (1, 600), 616);

    it.insert(7, 700, Lasting('i', Some(9), None, None), 707);
    it.update(7, 706, Lasting('j', Some(8), Some(9), Some(5)), 3, 713);
    it.read(7, 712, 'j', (1, 706), 719);
    it.read(7, 718, 'j', (1, 706), 722);
}
