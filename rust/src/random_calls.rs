//! Random calls of the generated synchronous cache, whole and in segments, beside a plain map.

use crate::engine::moka_cache::{Cache, CompResult, Op};
use crate::engine::moka_engine::{
    CacheConfig, EvictionPolicy, FixedClock, IdSource, Instant, NoExpiry, NoListener, PredicateFn, PredicateId,
};
use crate::engine::moka_segments::SegmentedCache;
use crate::support::alloc::Global;
use crate::support::uuid::Uuid;
use std::collections::HashMap;
use std::time::Duration;

const KEYS: u64 = 60;
const CALLS: u64 = 40_000;
const TIME_TO_LIVE: u64 = 50;
const CAPACITY: u64 = 20;

/// Numbers that look random, the same in each run.
pub(crate) struct Numbers(pub(crate) u64);

impl Numbers {
    pub(crate) fn below(&mut self, most: u64) -> u64 {
        self.0 ^= self.0 << 13;
        self.0 ^= self.0 >> 7;
        self.0 ^= self.0 << 17;
        self.0 % most
    }
}

/// A map of values with the moments at which they were put.
struct Plain<K>(HashMap<K, (u64, u64)>);

impl<K: std::hash::Hash + Eq + Clone> Plain<K> {
    fn get(&self, key: &K, now: u64) -> Option<u64> {
        let (value, written) = self.0.get(key)?;
        (now < written + TIME_TO_LIVE).then_some(*value)
    }

    fn put(&mut self, key: &K, value: u64, now: u64) {
        self.0.insert(key.clone(), (value, now));
    }

    /// The visible entries, each as its value, when it was written and how long it lasts.
    fn entries(&self, now: u64) -> HashMap<K, (u64, u64, u64)> {
        let entries = self.0.iter().filter_map(|(key, (value, written))| {
            let end = written + TIME_TO_LIVE;
            (now < end).then(|| (key.clone(), (*value, *written, end - now)))
        });
        entries.collect()
    }

    fn visible(&self, now: u64) -> u64 {
        self.entries(now).len() as u64
    }
}

/// Counts its identifiers up.
struct Ids(u128);

impl IdSource for Ids {
    fn next_id(&mut self) -> PredicateId {
        self.0 += 1;
        Uuid::from_u128(self.0)
    }
}

/// Covers the keys below a bound.
struct Below(u64);

impl PredicateFn<u64, u64> for Below {
    fn applies(&self, key: &u64, _: &u64) -> bool {
        *key < self.0
    }
}

fn lives() -> CacheConfig {
    CacheConfig::default().time_to_live(Duration::from_nanos(TIME_TO_LIVE))
}

fn texts(now: u64) -> Cache<String, u64> {
    Cache::build(lives(), Global, Instant(now)).expect("memory")
}

fn list<T>(items: impl IntoIterator<Item = T>) -> crate::support::vec::Vec<T> {
    let mut all = crate::support::vec::Vec::new(Global);
    items.into_iter().for_each(|item| all.push(item).expect("memory"));
    all
}

#[test]
fn calls_by_text_agree_with_a_plain_map() {
    let (mut numbers, mut plain) = (Numbers(7), Plain(HashMap::new()));
    let mut cache = texts(0);
    for call in 0..CALLS {
        let now = call;
        let (at, clock) = (Instant(now), &mut FixedClock(Instant(now)));
        let key = format!("key {}", numbers.below(KEYS));
        let text = key.as_str();
        let hash = cache.hash_of(&text);
        let seen = plain.get(&key, now);
        match numbers.below(15) {
            0 | 1 => {
                cache.insert(key.clone(), call, at, clock).expect("memory");
                plain.put(&key, call, now);
            }
            2 | 3 => assert_eq!(cache.get_by(&text, hash, at, clock).expect("memory"), seen),
            4 => assert_eq!(cache.contains_key_by(&text, hash, at), seen.is_some()),
            5 => {
                let removed = cache.remove_by(&text, hash, at, clock).ok().flatten();
                assert!(seen.is_none() || removed == seen);
                plain.0.remove(&key);
            }
            6 => {
                assert!(cache.invalidate_by(&text, hash, at, clock).is_ok());
                plain.0.remove(&key);
            }
            7 => get_or_make(&mut cache, &mut plain, key, call, numbers.below(3)),
            8 | 9 => put_if_absent(&mut cache, &mut plain, key, call, numbers.below(4)),
            10 => {
                let twice = |old: Option<u64>| old.map_or(1, |old| old.wrapping_mul(2));
                let selected = cache.entry(key.clone());
                let entry = selected.and_upsert_with(twice, at, clock).expect("memory");
                assert_eq!(
                    (entry.value, entry.is_old_value_replaced),
                    (twice(seen), seen.is_some())
                );
                plain.put(&key, twice(seen), now);
            }
            11 => compute(&mut cache, &mut plain, key, call, numbers.below(3)),
            12 => list_all(&mut cache, &plain, call),
            13 => many(&mut cache, &mut plain, call, &mut numbers),
            _ => {
                let saved = cache.save(Global, at, clock).expect("memory");
                assert_eq!(saved.len() as u64, plain.visible(now));
                cache = texts(now);
                assert!(cache.restore(saved, at, clock).is_ok());
            }
        }
    }
}

/// A value that is made where there is none, by each call whose answer is that value.
fn get_or_make(cache: &mut Cache<String, u64>, plain: &mut Plain<String>, key: String, call: u64, choice: u64) {
    let (at, clock) = (Instant(call), &mut FixedClock(Instant(call)));
    let seen = plain.get(&key, call);
    // The fallible makers give a value to every other call.
    let made = (choice == 0 || call.is_multiple_of(2)).then_some(call);
    let found = match choice {
        0 => Some(cache.get_with(key.clone(), || call, at, clock).expect("memory")),
        1 => cache
            .optionally_get_with(key.clone(), || made, at, clock)
            .expect("memory"),
        _ => {
            let tried = cache.try_get_with(key.clone(), || made.ok_or("none"), at, clock);
            tried.expect("memory").ok()
        }
    };
    assert_eq!(found, seen.or(made));
    if let (None, Some(value)) = (seen, made) {
        plain.put(&key, value, call);
    }
}

/// The same by the calls whose answer is an entry.
fn put_if_absent(cache: &mut Cache<String, u64>, plain: &mut Plain<String>, key: String, call: u64, choice: u64) {
    let (at, clock, owned) = (Instant(call), &mut FixedClock(Instant(call)), key.clone());
    let seen = plain.get(&key, call);
    let made = (choice < 2 || call.is_multiple_of(2)).then_some(call);
    let (optionally, fallibly) = (|| made, || made.ok_or("none"));
    let found = match choice {
        0 => cache.entry(owned).or_insert(call, at, clock).ok(),
        1 => cache.entry(owned).or_insert_with(|| call, at, clock).ok(),
        2 => cache
            .entry(owned)
            .or_optionally_insert_with(optionally, at, clock)
            .expect("memory"),
        _ => cache
            .entry(owned)
            .or_try_insert_with(fallibly, at, clock)
            .expect("memory")
            .ok(),
    };
    let found = found.map(|entry| (entry.value, entry.is_fresh));
    assert_eq!(found, seen.or(made).map(|value| (value, seen.is_none())));
    if let (None, Some(value)) = (seen, made) {
        plain.put(&key, value, call);
    }
}

/// All visible entries, as `iter` lists them and, after a run of maintenance, `snapshot`.
fn list_all(cache: &mut Cache<String, u64>, plain: &Plain<String>, call: u64) {
    let (at, clock) = (Instant(call), &mut FixedClock(Instant(call)));
    let wanted = plain.entries(call);
    let listed: Vec<_> = cache.iter(at).expect("memory").collect();
    assert_eq!(listed.len(), wanted.len());
    assert!(listed.iter().all(|(key, value)| wanted[key].0 == *value));
    while cache.run_pending_tasks(at, clock) {}
    let entries = cache.snapshot(at).map(|it| {
        let left = it.remaining.expect("a time to live").as_nanos() as u64;
        (it.key.clone(), (*it.value, it.last_modified.0, left))
    });
    let entries: Vec<_> = entries.collect();
    assert_eq!((entries.len(), entries.into_iter().collect()), (wanted.len(), wanted));
}

fn compute(cache: &mut Cache<String, u64>, plain: &mut Plain<String>, key: String, call: u64, choice: u64) {
    let (at, clock) = (Instant(call), &mut FixedClock(Instant(call)));
    let seen = plain.get(&key, call);
    let choose = |old: Option<&u64>| {
        assert_eq!(old.copied(), seen);
        match choice {
            0 => Op::Nop,
            1 => Op::Put(call),
            _ => Op::Remove,
        }
    };
    let selected = cache.entry(key.clone());
    let done = selected.and_compute_with(choose, at, clock).expect("memory");
    let (is_put, is_removed) = (choice == 1, choice == 2);
    match done {
        CompResult::Inserted(entry) => assert!(is_put && seen.is_none() && entry.value == call),
        CompResult::ReplacedWith(entry) => assert!(is_put && seen.is_some() && entry.value == call),
        CompResult::Removed(entry) => assert!(is_removed && Some(entry.value) == seen),
        CompResult::StillNone(_) => assert!(!is_put && seen.is_none()),
        CompResult::Unchanged(entry) => assert!(choice == 0 && Some(entry.value) == seen),
    }
    if is_put {
        plain.put(&key, call, call);
    }
    if is_removed && seen.is_some() {
        plain.0.remove(&key);
    }
}

fn many(cache: &mut Cache<String, u64>, plain: &mut Plain<String>, call: u64, numbers: &mut Numbers) {
    let (at, clock) = (Instant(call), &mut FixedClock(Instant(call)));
    let keys: Vec<String> = (0..5).map(|_| format!("key {}", numbers.below(KEYS))).collect();
    let found = cache.get_many(Global, &keys, at, clock).expect("memory");
    let seen: Vec<_> = keys.iter().map(|key| plain.get(key, call)).collect();
    assert_eq!(found.as_slice(), seen);
    assert!(cache.invalidate_many(&keys[..2], at, clock).is_ok());
    plain.0.retain(|key, _| !keys[..2].contains(key));
    let items = keys[2..].iter().map(|key| (key.clone(), call));
    assert!(cache.insert_many(list(items), at, clock).is_ok());
    keys[2..].iter().for_each(|key| plain.put(key, call, call));
}

/// Segments that take predicates, with a capacity of all.
type Segments = SegmentedCache<u64, u64, NoExpiry, NoListener, Below>;

fn segments(count: u32, capacity: u64) -> Segments {
    let config = |_| lives().support_invalidation_closures();
    SegmentedCache::build(count, Some(capacity), config, Global, Instant(0)).expect("memory")
}

#[test]
fn calls_of_segments_agree_with_a_plain_map() {
    for count in [1, 3, 8] {
        let (mut numbers, mut plain) = (Numbers(9), Plain(HashMap::new()));
        let mut cache = segments(count, KEYS * u64::from(count));
        for call in 0..CALLS {
            let key = numbers.below(KEYS);
            match numbers.below(12) {
                0..=8 => call_by_key(&mut cache, &mut plain, key, call, &mut numbers),
                _ => call_of_all(&mut cache, &mut plain, key, call, &mut numbers),
            }
            let at_home = |index: &usize| cache.segment(*index).contains_key(&key, Instant(call));
            let homes: Vec<_> = (0..count as usize).filter(at_home).collect();
            let wanted = plain.get(&key, call).map(|_| cache.segment_of(&key));
            assert_eq!(homes, wanted.into_iter().collect::<Vec<_>>());
        }
    }
}

fn call_by_key(cache: &mut Segments, plain: &mut Plain<u64>, key: u64, call: u64, numbers: &mut Numbers) {
    let (at, clock) = (Instant(call), &mut FixedClock(Instant(call)));
    let seen = plain.get(&key, call);
    match numbers.below(8) {
        0..=2 => {
            assert!(cache.insert(key, call, at, clock).is_ok());
            plain.put(&key, call, call);
        }
        3 => assert_eq!(cache.get(&key, at, clock).expect("memory"), seen),
        4 => assert_eq!(cache.contains_key(&key, at), seen.is_some()),
        5 => {
            let removed = cache.remove(&key, at, clock).ok().flatten();
            assert!(seen.is_none() || removed == seen);
            plain.0.remove(&key);
        }
        6 => {
            assert!(cache.invalidate(&key, at, clock).is_ok());
            plain.0.remove(&key);
        }
        _ => {
            let made = match call % 3 {
                0 => cache.get_with(key, || call, at, clock).ok(),
                1 => cache.optionally_get_with(key, || Some(call), at, clock).ok().flatten(),
                _ => cache
                    .try_get_with(key, || Ok::<_, ()>(call), at, clock)
                    .ok()
                    .and_then(Result::ok),
            };
            assert_eq!(made, Some(seen.unwrap_or(call)));
            if seen.is_none() {
                plain.put(&key, call, call);
            }
        }
    }
}

fn call_of_all(cache: &mut Segments, plain: &mut Plain<u64>, key: u64, call: u64, numbers: &mut Numbers) {
    let (at, clock) = (Instant(call), &mut FixedClock(Instant(call)));
    match numbers.below(20) {
        0 => {
            cache.invalidate_all(at);
            plain.0.clear();
        }
        1 | 2 => {
            let covers = || Below(key / 4);
            assert!(
                cache
                    .invalidate_entries_if(covers, at, &mut Ids(u128::from(call) << 64))
                    .is_ok()
            );
            plain.0.retain(|kept, _| *kept >= key / 4);
        }
        3..=5 => {
            let listed: Vec<_> = cache.iter(at).expect("memory").collect();
            let wanted = plain.entries(call);
            assert_eq!(listed.len(), wanted.len());
            assert!(listed.iter().all(|(key, value)| wanted[key].0 == *value));
        }
        _ => {
            while cache.run_pending_tasks(at, clock) {}
            assert_eq!(cache.entry_count(), plain.visible(call));
            assert_eq!(cache.weighted_size(), plain.visible(call));
        }
    }
}

#[test]
fn full_segments_keep_to_their_capacity_and_find_no_old_value() {
    let (mut numbers, mut plain, mut hits) = (Numbers(5), Plain(HashMap::new()), 0);
    let mut cache = segments(3, CAPACITY);
    for call in 0..CALLS {
        let (at, clock) = (Instant(call), &mut FixedClock(Instant(call)));
        let key = numbers.below(KEYS);
        match numbers.below(3) {
            0 => {
                let found = cache.get(&key, at, clock).expect("memory");
                assert!(found.is_none() || found == plain.get(&key, call));
                hits += u64::from(found.is_some());
            }
            1 => {
                assert!(cache.insert(key, call, at, clock).is_ok());
                plain.put(&key, call, call);
            }
            _ => {
                while cache.run_pending_tasks(at, clock) {}
                assert!(cache.entry_count() <= CAPACITY);
            }
        }
    }
    assert!(hits > CALLS / 50, "only {hits} look-ups found a value");
}

/// Also when it is saved, and another one made of that.
#[test]
fn a_full_cache_keeps_what_was_used_last() {
    // Keys with their values, least recently used first.
    let (mut numbers, mut plain) = (Numbers(11), Vec::new());
    let empty = |at: Instant| -> Cache<u64, u64> {
        let config = CacheConfig::default().max_capacity(CAPACITY);
        Cache::build(config.eviction_policy(EvictionPolicy::lru()), Global, at).expect("memory")
    };
    let mut cache = empty(Instant(0));
    for call in 0..CALLS {
        let (at, clock) = (Instant(call), &mut FixedClock(Instant(call)));
        if numbers.below(10) == 0 {
            let saved = cache.save(Global, at, clock).expect("memory");
            cache = empty(at);
            assert!(cache.restore(saved, at, clock).is_ok());
            // A read counts once the write of its entry has been applied.
            while cache.run_pending_tasks(at, clock) {}
        }
        let key = numbers.below(KEYS);
        let place = plain.iter().position(|(kept, _)| *kept == key);
        let old = place.map(|place| plain.remove(place).1);
        match numbers.below(5) {
            0 => assert_eq!(cache.remove(&key, at, clock).ok(), Some(old)),
            1 | 2 => {
                assert_eq!(cache.get(&key, at, clock).expect("memory"), old);
                plain.extend(old.map(|value| (key, value)));
            }
            _ => {
                cache.insert(key, call, at, clock).expect("memory");
                plain.push((key, call));
            }
        }
        plain.drain(..plain.len().saturating_sub(CAPACITY as usize));
        while cache.run_pending_tasks(at, clock) {}
        let kept: Vec<_> = cache.snapshot(at).map(|it| (*it.key, *it.value)).collect();
        assert_eq!(kept, plain);
    }
}
