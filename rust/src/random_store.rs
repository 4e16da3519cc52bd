//! Random steps of the generated store beside plain lists and maps, and each of its allocations refused in turn.

use crate::engine::moka_engine::DefaultHasher;
use crate::engine::moka_records::instant::Instant;
use crate::engine::moka_records::records::Record;
use crate::engine::moka_store::{Handle, IndexHash, Store, Update};
use crate::random_calls::Numbers;
use crate::support::alloc::{AllocError, Global};
use crate::tests::structures::{Growing, filled, made, refuse_each};
use std::collections::BTreeMap;

const STEPS: u64 = 20_000;
const KEYS: u64 = 80;

/// What a plain map keeps of a record.
#[derive(Clone, Copy, Debug, PartialEq)]
struct Kept {
    key: u64,
    value: u64,
    expires: Option<u64>,
    generation: u64,
    applied: u64,
}

/// A store, and the same in lists and maps.
struct Both {
    store: Store<u64, u64, DefaultHasher>,
    numbers: u64,
    /// The handle of each number that has a row.
    handles: BTreeMap<u64, Handle>,
    records: BTreeMap<u64, Kept>,
    /// Numbers and weights.
    access: Vec<(u64, u32)>,
    written: Vec<u64>,
    timers: BTreeMap<u64, u64>,
    cursor: Option<u64>,
}

impl Both {
    fn new() -> Self {
        Both {
            store: made(|| Store::new(Global, DefaultHasher::default(), true, true)),
            numbers: 0,
            handles: BTreeMap::new(),
            records: BTreeMap::new(),
            access: Vec::new(),
            written: Vec::new(),
            timers: BTreeMap::new(),
            cursor: None,
        }
    }

    fn hash(&self, key: u64) -> IndexHash {
        IndexHash::of(self.store.hash(&key))
    }

    fn is_member(&self, number: u64) -> bool {
        self.access.iter().any(|&(other, _)| other == number)
    }

    /// A record of the key, which has none.
    fn insert(&mut self, key: u64, value: u64, expires: Option<u64>) {
        self.store.reserve(1).expect("memory");
        let number = self.numbers;
        self.numbers += 1;
        let record = Record {
            number,
            key,
            hash: key,
            value,
            written: Instant(number),
            read: Instant(number),
            expires: expires.map(Instant),
            weight: 1,
            generation: 1,
            applied: 0,
        };
        let hash = self.hash(key);
        let handle = self.store.insert_new(record, hash);
        assert_eq!(handle.number, number);
        self.handles.insert(number, handle);
        self.records.insert(
            number,
            Kept {
                key,
                value,
                expires,
                generation: 1,
                applied: 0,
            },
        );
    }

    fn update(&mut self, handle: Handle, value: u64, expires: Option<u64>) {
        let kept = self.records.get_mut(&handle.number).expect("a record");
        let update = Update {
            value,
            now: Instant(0),
            expires: expires.map(Instant),
            weight: 1,
        };
        assert_eq!(self.store.update(handle, update), kept.value);
        *kept = Kept {
            value,
            expires,
            generation: kept.generation + 1,
            ..*kept
        };
    }

    fn apply(&mut self, handle: Handle) {
        let kept = self.records.get_mut(&handle.number).expect("a record");
        kept.applied = kept.generation;
        self.store.set_applied(handle, kept.generation);
    }

    fn admit(&mut self, handle: Handle, weight: u32) {
        self.store.admit(handle, weight);
        self.access.push((handle.number, weight));
        self.written.push(handle.number);
    }

    /// The cursor goes on to the number behind this one, which moves or leaves.
    fn pass(&mut self, number: u64) {
        if self.cursor == Some(number) {
            let place = self.written.iter().position(|&other| other == number).expect("a place");
            self.cursor = self.written.get(place + 1).copied();
        }
    }

    /// The number goes to the back of the access list, perhaps with another weight.
    fn renew_in_access(&mut self, number: u64, weight: Option<u32>) {
        let place = self
            .access
            .iter()
            .position(|&(other, _)| other == number)
            .expect("a place");
        let (_, before) = self.access.remove(place);
        self.access.push((number, weight.unwrap_or(before)));
    }

    fn renew_in_written(&mut self, number: u64) {
        self.pass(number);
        self.written.retain(|&other| other != number);
        self.written.push(number);
    }

    /// One of the moves of a member.
    fn move_member(&mut self, handle: Handle, kind: u64, weight: u32) {
        match kind {
            0 => {
                self.store.move_in_access(handle);
                self.renew_in_access(handle.number, None);
            }
            1 => {
                self.store.move_to_back(handle);
                self.renew_in_access(handle.number, None);
                self.renew_in_written(handle.number);
            }
            _ => {
                self.store.recount(handle, weight);
                self.renew_in_access(handle.number, Some(weight));
                self.renew_in_written(handle.number);
            }
        }
    }

    /// A member leaves both orders.
    fn forget_member(&mut self, number: u64) {
        self.pass(number);
        self.access.retain(|&(other, _)| other != number);
        self.written.retain(|&other| other != number);
        self.timers.remove(&number);
    }

    /// The record leaves the map alone, or the orders too.
    fn take(&mut self, handle: Handle, wholly: bool) {
        let kept = self.records.remove(&handle.number).expect("a record");
        let taken = if wholly {
            if self.is_member(handle.number) {
                self.forget_member(handle.number);
            }
            self.store.take_out(handle)
        } else {
            let hash = self.hash(kept.key);
            self.store.take_record(handle, hash)
        };
        assert_eq!(
            (taken.number, taken.key, taken.value),
            (handle.number, kept.key, kept.value)
        );
    }

    /// What is left of a number whose record left the map goes.
    fn forget(&mut self, handle: Handle) {
        if self.is_member(handle.number) {
            self.store.leave(handle);
            self.forget_member(handle.number);
        }
        self.store.forget(handle);
        self.handles.remove(&handle.number);
    }

    fn set_timer(&mut self, handle: Handle) {
        self.store.set_timer(handle);
        match self.records[&handle.number].expires {
            Some(at) => self.timers.insert(handle.number, at),
            None => self.timers.remove(&handle.number),
        };
    }

    /// Takes out all timers that are due.
    fn take_due(&mut self, now: u64) {
        while let Some(handle) = self.store.due(Instant(now)) {
            let at = self.timers.remove(&handle.number).expect("a timer");
            assert!(at <= now);
            assert!(self.is_member(handle.number));
        }
        assert!(self.timers.values().all(|&at| at > now));
    }

    /// One step with the number at this handle.
    fn step(&mut self, handle: Handle, random: &mut Numbers, now: u64) {
        let has_record = self.records.contains_key(&handle.number);
        let is_member = self.is_member(handle.number);
        let expires = (random.below(3) == 0).then(|| now + random.below(5_000));
        match random.below(10) {
            0 | 1 if has_record => self.update(handle, random.below(1_000), expires),
            2 if has_record => self.apply(handle),
            3 if has_record => self.take(handle, random.below(2) == 0),
            4 if has_record && is_member => self.set_timer(handle),
            5 if !has_record => self.forget(handle),
            6 if self.written.contains(&handle.number) => {
                self.store.set_cursor(Some(handle));
                self.cursor = Some(handle.number);
            }
            7 if random.below(20) == 0 => {
                self.store.set_cursor(None);
                self.cursor = None;
            }
            _ if is_member => self.move_member(handle, random.below(3), random.below(9) as u32),
            _ if has_record => self.admit(handle, random.below(9) as u32),
            _ => {}
        }
    }

    /// What the store says of one number.
    fn agrees_on(&self, handle: Handle) {
        let found = self
            .store
            .find(handle)
            .map(|it| (*it.key(), *it.value(), it.is_settled()));
        let kept = self.records.get(&handle.number);
        assert_eq!(found, kept.map(|it| (it.key, it.value, it.applied == it.generation)));
        assert!(self.store.has_row(handle));
        let counted = self.access.iter().find(|it| it.0 == handle.number).map(|it| it.1);
        assert_eq!(self.store.counted(handle), counted);
    }

    /// Which number the store finds under a key.
    fn agrees_on_key(&self, key: u64) {
        let found = self.store.find_by_key(&key, self.hash(key));
        let kept = self.records.iter().find(|(_, it)| it.key == key);
        assert_eq!(found.map(|(handle, _)| handle.number), kept.map(|(&number, _)| number));
    }

    /// That the store says the same of all that there is.
    fn agree(&self) {
        let (mut member, mut access) = (self.store.front(), Vec::new());
        while let Some((handle, weight)) = member {
            access.push((handle.number, weight));
            member = self.store.next(handle);
        }
        assert_eq!(access, self.access);
        let (mut member, mut written) = (self.store.front_written(), Vec::new());
        while let Some(handle) = member {
            written.push(handle.number);
            member = self.store.next_written(handle);
        }
        assert_eq!(written, self.written);
        assert_eq!(self.store.cursor().map(|it| it.number), self.cursor);
        assert_eq!(self.store.member_count(), self.access.len());
        assert_eq!(
            self.store.total_weight(),
            self.access.iter().map(|it| u128::from(it.1)).sum()
        );
        self.handles.values().for_each(|&handle| self.agrees_on(handle));
        (0..KEYS).for_each(|key| self.agrees_on_key(key));
        let keys = self.store.keys(Global).expect("memory");
        let (mut keys, mut expected): (Vec<u64>, Vec<u64>) = (
            keys.iter().copied().collect(),
            self.records.values().map(|it| it.key).collect(),
        );
        keys.sort_unstable();
        expected.sort_unstable();
        assert_eq!((keys, self.store.record_count()), (expected, self.records.len()));
    }
}

impl Growing for Both {
    fn used(&self) -> usize {
        self.handles.len()
    }

    fn reserve(&mut self, additional: usize) -> Result<(), AllocError> {
        self.store.reserve(additional)
    }

    /// Adds a member with a timer. One of each three leaves.
    fn add(&mut self, number: u64) {
        self.insert(number, 10 * number, Some(number));
        let handle = self.handles[&number];
        self.admit(handle, 1);
        self.set_timer(handle);
        if number % 3 == 2 {
            let before = self.handles[&(number - 1)];
            self.take(before, true);
            self.forget(before);
        }
    }

    fn assert_alike(&self) {
        self.agree();
    }
}

#[test]
fn is_as_it_was_after_a_refused_growth() {
    refuse_each(|| {
        let mut both = filled(Both::new(), 300);
        let timers = both.timers.clone();
        both.take_due(u64::MAX);
        (both.records, both.access, both.written, timers)
    });
}

#[test]
fn random_steps_agree_with_plain_lists() {
    let (mut random, mut both) = (Numbers(11), Both::new());
    for now in 0..STEPS {
        let key = random.below(KEYS);
        if !both.records.values().any(|it| it.key == key) {
            both.insert(key, now, (now % 2 == 0).then_some(now + 500));
        }
        let at = random.below(both.handles.len() as u64) as usize;
        let handle = *both.handles.values().nth(at).expect("a handle");
        both.step(handle, &mut random, now);
        if now % 64 == 0 {
            both.take_due(now);
            both.agree();
        }
    }
    both.agree();
    assert!(both.numbers > 1_000 && !both.access.is_empty() && !both.timers.is_empty());
}
