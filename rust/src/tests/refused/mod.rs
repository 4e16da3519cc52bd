//! Each allocation of calls on texts is refused in turn. The call that asks for it says so, hands back what it should,
//! and has changed nothing but what it should. Once it is made again, all that follows is as if memory had not been
//! refused, and in the end each text is dropped.

mod engine;
mod many;
mod round;
mod segments;
mod synchronous;
mod texts;
mod told;

use super::allocator::{asked, refusing};
use std::collections::BTreeSet;
use texts::LIVE;

/// How many entries a cache has, how many notices its listener, and the hits, misses and loads.
type Counts = (u64, usize, [u64; 3]);

/// What happened while a cache was asked.
#[derive(Default)]
pub struct Log {
    /// What was told and listed.
    lines: Vec<String>,
    /// What was counted last.
    told: Counts,
    /// The calls that were refused.
    refused: Vec<String>,
}

/// Makes calls while this allocation is refused.
fn play(calls: fn(&mut Log), refused: u64) -> Log {
    let mut log = Log::default();
    refusing(refused, || calls(&mut log));
    assert_eq!(LIVE.get(), 0, "texts that were not dropped");
    log
}

/// Makes calls once for each allocation that they ask for, which is refused. All is as if none were, and exactly these
/// calls are refused.
fn refuse_each(calls: fn(&mut Log), told: Counts, wanted: impl IntoIterator<Item = impl Into<String>>) {
    let expected = play(calls, 0);
    assert_eq!(expected.told, told);
    let mut seen = BTreeSet::new();
    for number in 1..=asked() {
        let log = play(calls, number);
        assert_eq!(log.refused.len(), 1, "allocation {number}: {:?}", log.refused);
        for (line, expected) in log.lines.iter().zip(&expected.lines) {
            assert_eq!(line, expected, "allocation {number}: {:?}", log.refused);
        }
        assert_eq!(log.lines.len(), expected.lines.len());
        seen.extend(log.refused);
    }
    assert_eq!(seen, wanted.into_iter().map(Into::into).collect());
}
