//! The streams of operations that the bench drives caches by: that settings are followed, what is counted, and what
//! is refused.

use crate::callers::moka_bench::run;
use crate::support::alloc::Global;

/// Stands for no capacity, no time to live and no time to idle.
const NONE: u64 = u64::MAX;

/// The index of a word of the configuration, and the word.
type Setting = (usize, u64);

const CAPACITY: usize = 0;
const TIME_TO_LIVE: usize = 1;
const TIME_TO_IDLE: usize = 2;
const POLICY: usize = 3;
const EXPIRY: usize = 4;
const AUTOMATIC: usize = 5;
const HASHER: usize = 7;
const TEXTS: usize = 8;
const STEP: usize = 9;
const CACHE: usize = 10;
const LISTENER: usize = 11;
const WEIGHER: usize = 12;

const TINY_LFU: Setting = (POLICY, 0);
const LRU: Setting = (POLICY, 1);
const ENGINE: Setting = (CACHE, 0);
const SYNCHRONOUS: Setting = (CACHE, 1);
const FOLD: Setting = (HASHER, 0);
const SIP: Setting = (HASHER, 1);

/// No capacity, no times, LRU, runs by itself, and a step of a nanosecond.
const PLAIN: [u64; 16] = [NONE, NONE, NONE, 1, 0, 1, 0, 0, 0, 1, 0, 0, 0, 0, 0, 0];

// What `run` answers if it counts nothing.
const NOT_SERVED: u64 = 1;
const MALFORMED: u64 = 3;

#[derive(Clone, Copy, Debug, Default, PartialEq)]
struct Counts {
    hits: u64,
    misses: u64,
    inserts: u64,
    /// The sum of the values that were found.
    sum: u64,
    /// The entry count of the last run.
    entries: u64,
    notices: u64,
}

fn phase(operation: u64, argument: u64, words: &[u64]) -> Vec<u64> {
    [&[operation, words.len() as u64, argument, 0], words].concat()
}

fn gets(keys: &[u64]) -> Vec<u64> {
    phase(1, 0, keys)
}

/// Puts each key, with the number after it as its value.
fn puts(keys: &[u64]) -> Vec<u64> {
    phase(2, 0, keys)
}

/// Gets each key, and puts it if it is missing.
fn reads_through(keys: &[u64]) -> Vec<u64> {
    phase(3, 0, keys)
}

/// Puts the second number of each pair under the first.
fn puts_pairs(pairs: &[[u64; 2]]) -> Vec<u64> {
    phase(4, 0, pairs.as_flattened())
}

fn maintains() -> Vec<u64> {
    phase(5, 384, &[])
}

fn waits(nanoseconds: u64) -> Vec<u64> {
    phase(6, nanoseconds, &[])
}

/// Gets all keys, with a run of maintenance after every `each` of them and at the end.
fn gets_with_runs(each: u64, keys: &[u64]) -> Vec<u64> {
    phase(7, each, keys)
}

/// Puts all keys, with a run of maintenance after every `each` of them and at the end.
fn puts_with_runs(each: u64, keys: &[u64]) -> Vec<u64> {
    phase(8, each, keys)
}

fn bytes(words: &[u64]) -> Vec<u8> {
    words.iter().flat_map(|word| word.to_le_bytes()).collect()
}

/// Drives a cache, plain but for these settings, through a stream: the counts, or the answer if there are none.
fn drive(settings: &[Setting], stream: &[Vec<u64>]) -> Result<Counts, u64> {
    let mut config = PLAIN;
    for &(index, word) in settings {
        config[index] = word;
    }
    let untouched = [7; 64];
    let mut counted = untouched;
    let answer = run(Global, &bytes(&config), &bytes(&stream.concat()), &mut counted);
    if answer != 0 {
        assert_eq!(counted, untouched, "counts are written with the answer 0 alone");
        return Err(answer);
    }
    let (words, _) = counted.as_chunks::<8>();
    let word = |index: usize| u64::from_le_bytes(words[index]);
    Ok(Counts {
        hits: word(0),
        misses: word(1),
        inserts: word(2),
        sum: word(3),
        entries: word(4),
        notices: word(5),
    })
}

/// Engine and synchronous cache, with either hasher, count this.
#[track_caller]
fn assert_both_count(settings: &[Setting], stream: &[Vec<u64>], expected: Counts) {
    for (cache, hasher) in [(ENGINE, FOLD), (ENGINE, SIP), (SYNCHRONOUS, FOLD), (SYNCHRONOUS, SIP)] {
        let settings = [settings, &[cache, hasher]].concat();
        assert_eq!(drive(&settings, stream), Ok(expected), "with {settings:?}");
    }
}

#[test]
fn a_run_evicts_what_exceeds_the_capacity() {
    let stream = [
        reads_through(&[10, 20, 10, 30]),
        maintains(),
        gets_with_runs(2, &[20, 10, 30]),
        waits(5),
    ];
    let expected = Counts {
        hits: 3,
        misses: 4,
        inserts: 3,
        sum: 63,
        entries: 2,
        notices: 0,
    };
    assert_both_count(&[(CAPACITY, 2), LRU], &stream, expected);
}

/// Of two keys that are put, one is read five nanoseconds later, and both are read after another five.
fn aging() -> [Vec<u64>; 7] {
    [
        puts(&[10, 20]),
        maintains(),
        waits(5),
        gets(&[10]),
        waits(5),
        gets(&[10, 20]),
        maintains(),
    ]
}

#[test]
fn a_read_does_not_prolong_the_time_to_live() {
    let expected = Counts {
        hits: 1,
        misses: 2,
        inserts: 2,
        sum: 11,
        entries: 0,
        notices: 0,
    };
    assert_both_count(&[(TIME_TO_LIVE, 9)], &aging(), expected);
}

#[test]
fn a_read_prolongs_the_time_to_idle() {
    let expected = Counts {
        hits: 2,
        misses: 1,
        inserts: 2,
        sum: 22,
        entries: 1,
        notices: 0,
    };
    assert_both_count(&[(TIME_TO_IDLE, 9)], &aging(), expected);
}

/// One key is asked for four times before another one is put, and then both are read.
fn competing() -> [Vec<u64>; 5] {
    [
        reads_through(&[10, 10, 10, 10]),
        maintains(),
        puts(&[20]),
        maintains(),
        gets(&[10, 20]),
    ]
}

#[test]
fn tiny_lfu_keeps_what_was_asked_for_more_often() {
    let expected = Counts {
        hits: 4,
        misses: 2,
        inserts: 2,
        sum: 44,
        entries: 1,
        notices: 0,
    };
    assert_both_count(&[(CAPACITY, 1), TINY_LFU], &competing(), expected);
}

#[test]
fn lru_keeps_what_was_put_last() {
    let expected = Counts {
        hits: 4,
        misses: 2,
        inserts: 2,
        sum: 54,
        entries: 1,
        notices: 0,
    };
    assert_both_count(&[(CAPACITY, 1), LRU], &competing(), expected);
}

/// After two steps of three nanoseconds the first entry is as old as its time to live when it is read. The second put
/// is late enough for a run of maintenance, which would count an entry, but the cache starts none by itself.
#[test]
fn the_clock_makes_steps_and_no_run_starts_by_itself() {
    let stream = [puts(&[10]), waits(300_000_000), puts(&[20]), gets(&[10, 20])];
    let settings = [(TIME_TO_LIVE, 300_000_006), (AUTOMATIC, 0), (STEP, 3)];
    let expected = Counts {
        hits: 1,
        misses: 1,
        inserts: 2,
        sum: 21,
        entries: 0,
        notices: 0,
    };
    assert_both_count(&settings, &stream, expected);
}

/// There are ten texts, so 11 stands for the same one as 1. What is found counts as its last byte.
#[test]
fn texts_stand_for_numbers() {
    let stream = [reads_through(&[1, 2, 1]), maintains(), gets(&[11, 2]), maintains()];
    let expected = Counts {
        hits: 3,
        misses: 2,
        inserts: 2,
        sum: 148,
        entries: 2,
        notices: 0,
    };
    assert_eq!(drive(&[(TEXTS, 10)], &stream), Ok(expected));
}

#[test]
fn an_entry_expires_by_its_value() {
    let stream = [puts_pairs(&[[10, 5], [20, 70]]), waits(6), gets(&[10, 20]), maintains()];
    let expected = Counts {
        hits: 1,
        misses: 1,
        inserts: 2,
        sum: 70,
        entries: 1,
        notices: 0,
    };
    assert_eq!(drive(&[(EXPIRY, 1)], &stream), Ok(expected));
}

/// The entries weigh 12 and 16, and the capacity is 20.
#[test]
fn an_entry_is_evicted_if_both_weigh_too_much() {
    let stream = [puts(&[10, 14]), maintains(), gets(&[10, 14]), maintains()];
    let expected = Counts {
        hits: 1,
        misses: 1,
        inserts: 2,
        sum: 15,
        entries: 1,
        notices: 0,
    };
    assert_eq!(drive(&[(CAPACITY, 20), (WEIGHER, 1)], &stream), Ok(expected));
}

/// A value is replaced, and an entry evicted.
#[test]
fn a_listener_is_notified() {
    let stream = [puts(&[10, 10, 20]), maintains()];
    let expected = Counts {
        hits: 0,
        misses: 0,
        inserts: 3,
        sum: 0,
        entries: 1,
        notices: 2,
    };
    assert_eq!(drive(&[(CAPACITY, 1), (LISTENER, 1)], &stream), Ok(expected));
}

#[test]
fn an_unknown_policy_is_not_served() {
    let stream = [puts(&[10, 10, 20]), maintains()];
    assert_eq!(drive(&[(CAPACITY, 1), (POLICY, 2)], &stream), Err(NOT_SERVED));
}

#[test]
fn a_phase_that_is_cut_short_is_malformed() {
    let mut phase = gets(&[5, 6]);
    phase.pop();
    assert_eq!(drive(&[(CAPACITY, 1), LRU], &[phase]), Err(MALFORMED));
}

#[test]
fn more_is_put_between_two_runs_than_a_queue_can_hold() {
    let keys = Vec::from_iter(0..1000);
    let stream = [puts_with_runs(900, &keys)];
    let expected = Counts {
        inserts: 1000,
        entries: 1000,
        ..Counts::default()
    };
    for cache in [ENGINE, SYNCHRONOUS] {
        assert_eq!(drive(&[cache], &stream), Ok(expected), "with {cache:?}");
    }
}
