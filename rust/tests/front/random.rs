//! Random calls of both caches beside a plain map, with more weight than there is room for.

use ravulemis::ops::compute::{CompResult, Op};
use ravulemis::{Entry, EvictionPolicy, RemovalCause};
use std::cell::Cell;
use std::collections::{HashMap, HashSet};
use std::sync::mpsc::{self, Receiver};

const CALLS: u64 = 4_000;
const KEYS: u64 = 100;
const CAPACITY: u64 = 120;

type Told = Receiver<(u64, u64, RemovalCause)>;

/// Numbers that only look random, by xorshift.
struct Numbers(u64);

impl Numbers {
    fn below(&mut self, bound: u64) -> u64 {
        self.0 ^= self.0 << 13;
        self.0 ^= self.0 >> 7;
        self.0 ^= self.0 << 17;
        self.0 % bound
    }
}

/// Light ones, and some that are too heavy for any shard.
fn weight(value: u64) -> u32 {
    if value.is_multiple_of(89) {
        1000
    } else {
        value as u32 % 5 + 1
    }
}

/// What the cache may have. Each value is put there once in a run, so that it tells its key.
#[derive(Default)]
struct Plain {
    map: HashMap<u64, u64>,
    // What was invalidated since the last run of maintenance, by key.
    hidden: HashMap<u64, u64>,
    // What was put there and has not left, with the keys.
    there: HashMap<u64, u64>,
    evicted: HashSet<u64>,
}

impl Plain {
    fn put(&mut self, key: u64, value: u64) {
        self.map.insert(key, value);
        self.hidden.remove(&key);
        assert_eq!(self.there.insert(value, key), None);
    }

    fn hide(&mut self, covers: impl Fn(u64) -> bool) {
        self.hidden.extend(self.map.extract_if(|key, _| covers(*key)));
    }

    // The cache has the value that was put last, or none, and then for good.
    fn is_found(&mut self, key: u64, found: Option<u64>) {
        match found {
            Some(_) => assert_eq!(found, self.map.get(&key).copied(), "of key {key}"),
            None => _ = self.map.remove(&key),
        }
    }

    // What was invalidated is handed out too until it has left.
    fn is_removed(&mut self, key: u64, found: Option<u64>) {
        if found.is_none() || found != self.hidden.remove(&key) {
            self.is_found(key, found);
        }
        self.map.remove(&key);
    }

    // The call saw one value or none, and put one there or not.
    fn is_entered(&mut self, key: u64, saw: Option<u64>, put: Option<u64>, entry: &Entry<u64, u64>) {
        self.is_found(key, saw);
        let is_old_value_replaced = saw.is_some() && put.is_some();
        assert_eq!((*entry.key(), Some(*entry.value())), (key, put.or(saw)));
        assert_eq!(
            (entry.is_fresh(), entry.is_old_value_replaced()),
            (put.is_some(), is_old_value_replaced)
        );
        if let Some(value) = put {
            self.put(key, value);
        }
    }

    // A run of maintenance that the look-up of the last call made has evicted what that found.
    fn is_evicted(&mut self, key: u64, found: u64, told: &Told) {
        self.has_left(told);
        assert!(self.evicted.contains(&found), "{found} of key {key}");
    }

    // The closure saw one value or none, and answered this.
    fn is_computed(&mut self, key: u64, saw: Option<u64>, op: Op<u64>, answer: CompResult<u64, u64>, told: &Told) {
        match (op, saw, answer) {
            (Op::Put(value), None, CompResult::Inserted(entry))
            | (Op::Put(value), Some(_), CompResult::ReplacedWith(entry)) => {
                self.is_entered(key, saw, Some(value), &entry);
            }
            (Op::Nop, Some(_), CompResult::Unchanged(entry)) => self.is_entered(key, saw, None, &entry),
            (Op::Remove, Some(_), CompResult::Removed(entry)) => {
                self.is_entered(key, saw, None, &entry);
                self.map.remove(&key);
            }
            (Op::Nop | Op::Remove, None, CompResult::StillNone(none)) => {
                assert_eq!(*none, key);
                self.is_found(key, None);
            }
            (Op::Remove, Some(value), CompResult::StillNone(none)) => {
                assert_eq!(*none, key);
                self.is_found(key, saw);
                self.is_evicted(key, value, told);
                self.map.remove(&key);
            }
            (op, saw, answer) => panic!("{op:?} of {saw:?} was answered by {answer:?}"),
        }
    }

    // Each value leaves once, under its key.
    fn has_left(&mut self, told: &Told) {
        for (key, value, cause) in told.try_iter() {
            assert_eq!(self.there.remove(&value), Some(key), "{value} left as {cause:?}");
            if cause == RemovalCause::Size {
                self.evicted.insert(value);
            }
        }
    }

    // After a run of maintenance.
    fn has_run(&mut self, entries: &HashMap<u64, u64>, count: u64, size: u64) {
        let weights = entries.values().map(|value| u64::from(weight(*value)));
        assert_eq!((entries.len() as u64, weights.sum()), (count, size));
        assert!(size <= CAPACITY, "they weigh {size}");
        for (key, value) in entries {
            self.is_found(*key, Some(*value));
        }
        self.map.retain(|key, _| entries.contains_key(key));
        self.hidden.clear();
        let left: HashMap<_, _> = entries.iter().map(|(key, value)| (*value, *key)).collect();
        assert_eq!(self.there, left, "what was put there is there or was told");
    }
}

/// The tests of a cache, which is built by what this builder becomes.
macro_rules! tests {
    ($module:ident, $cache:path, $builder:expr, $asks:expr) => {
        mod $module {
            use super::*;
            use $cache as Cache;

            fn call(cache: &mut Cache<u64, u64>, plain: &mut Plain, key: u64, value: u64, choice: u64, told: &Told) {
                match choice {
                    0..3 => {
                        cache.insert(key, value);
                        plain.put(key, value);
                    }
                    3 | 4 => plain.is_found(key, cache.get(&key)),
                    5 if cache.contains_key(&key) => assert!(plain.map.contains_key(&key)),
                    5 => plain.is_found(key, None),
                    6 => plain.is_removed(key, cache.remove(&key)),
                    7 => {
                        cache.invalidate(&key);
                        plain.map.remove(&key);
                    }
                    8 => match cache.get_with(key, || value) {
                        made if made == value => plain.put(key, value),
                        found => plain.is_found(key, Some(found)),
                    },
                    _ => call_of_entry(cache, plain, key, value, told),
                }
            }

            fn call_of_entry(cache: &mut Cache<u64, u64>, plain: &mut Plain, key: u64, value: u64, told: &Told) {
                match value % 5 {
                    0 => {
                        // A shared cache asks again before it puts a value there.
                        let (saw, asked) = (Cell::new(None), Cell::new(0));
                        let replaces = |old: &u64| {
                            asked.set(asked.get() + 1);
                            assert!(asked.get() == 1 || saw.get() == Some(*old));
                            saw.set(Some(*old));
                            old.is_multiple_of(2)
                        };
                        let entry = cache.entry(key).or_insert_with_if(|| value, replaces);
                        match saw.get() {
                            Some(old) if !old.is_multiple_of(2) => plain.is_entered(key, Some(old), None, &entry),
                            Some(old) if asked.get() < $asks => {
                                plain.is_entered(key, Some(old), Some(value), &entry);
                                plain.is_evicted(key, old, told);
                            }
                            saw => plain.is_entered(key, saw, Some(value), &entry),
                        }
                    }
                    1 => {
                        let given = value.is_multiple_of(3).then_some(value);
                        let is_made = Cell::new(false);
                        let make = || {
                            is_made.set(true);
                            given
                        };
                        let entry = cache.entry_by_ref(&key).or_optionally_insert_with(make);
                        match (entry, is_made.get()) {
                            (Some(entry), true) => plain.is_entered(key, None, given, &entry),
                            (Some(entry), false) => plain.is_entered(key, Some(*entry.value()), None, &entry),
                            (None, is_made) => {
                                assert_eq!((is_made, given), (true, None));
                                plain.is_found(key, None);
                            }
                        }
                    }
                    op => {
                        let op = [Op::Nop, Op::Put(value), Op::Remove][op as usize - 2];
                        let mut saw = None;
                        let answer = cache.entry(key).and_compute_with(|there| {
                            saw = there.map(Entry::into_value);
                            op
                        });
                        plain.is_computed(key, saw, op, answer, told);
                    }
                }
            }

            fn run(cache: &mut Cache<u64, u64>, plain: &mut Plain, told: &Told) {
                cache.run_pending_tasks();
                plain.has_left(told);
                let entries = cache.iter().map(|(key, value)| (*key, value)).collect();
                plain.has_run(&entries, cache.entry_count(), cache.weighted_size());
            }

            fn agrees(mut cache: Cache<u64, u64>, told: &Told) {
                // With these a run that a look-up makes also evicts what the look-up found.
                let (mut numbers, mut plain) = (Numbers(14_520_126_549_339_523_386), Plain::default());
                for value in 1..=CALLS {
                    call(
                        &mut cache,
                        &mut plain,
                        numbers.below(KEYS),
                        value,
                        numbers.below(12),
                        told,
                    );
                    let choice = numbers.below(400);
                    match choice {
                        0 => {
                            cache.invalidate_all();
                            plain.hide(|_| true);
                        }
                        1 => {
                            cache
                                .invalidate_entries_if(|key, _| key.is_multiple_of(2))
                                .unwrap();
                            plain.hide(|key| key.is_multiple_of(2));
                        }
                        _ => {}
                    }
                    plain.has_left(told);
                    if choice > 390 || value == CALLS {
                        run(&mut cache, &mut plain, told);
                    }
                }
                let stats = cache.stats();
                assert!(stats.evicted > CALLS / 20 && stats.hits > CALLS / 20, "{stats:?}");
            }

            #[test]
            fn agrees_with_a_map() {
                for policy in [EvictionPolicy::tiny_lfu(), EvictionPolicy::lru()] {
                    let (sender, told) = mpsc::channel();
                    let builder = $builder
                        .max_capacity(CAPACITY)
                        .eviction_policy(policy)
                        .weigher(|_, value| weight(*value))
                        .support_invalidation_closures()
                        .eviction_listener(move |key, value, cause| sender.send((*key, value, cause)).unwrap());
                    agrees(builder.build(), &told);
                }
            }
        }
    };
}

tests!(shared, ravulemis::sync::Cache, Cache::builder().shards(4), 2);
tests!(owned, ravulemis::unsync::Cache, Cache::builder(), 1);
