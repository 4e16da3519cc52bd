//! Calls with several texts at once, and a cache that is saved and made again. What a refused call has left is asked
//! for in another one.

use super::round::{Round, Step, build, show, sorted};
use super::texts::{Cached, Text, config};
use super::told::Asked;
use super::{Log, refuse_each};
use crate::engine::moka_cache::{Cache, GetManyRefused, InsertManyRefused, InvalidateManyRefused};
use crate::engine::moka_engine::{FixedClock, Instant};
use crate::support::alloc::Global;
use crate::support::vec::CollectIn;
use std::iter::once;

const LIST: Step<Cached> = ("iter", "", "*", |it, _, _, now, _| show(it.iter(now).map(sorted)));
const SAVE: Step<Cached> = ("save", "", "*", |it, _, _, now, at| show(it.save(Global, now, at)));

/// Three texts of a word.
fn texts(it: &Round<'_, Cached>, word: &str) -> [Text; 3] {
    [0, 1, 2].map(|index| Text::new(format!("{word} {}.{index}", it.number)))
}

fn insert_many(it: &mut Round<'_, Cached>) {
    let items = || texts(it, "key").into_iter().zip(texts(it, "value"));
    let (expected, items): (Vec<_>, _) = (items().collect(), items().collect_in(Global).unwrap());
    let before = it.begin(("insert_many", "key", ""));
    if let Err(refused) = it.refusable(|it, now, clock| it.insert_many(items, now, clock)) {
        let InsertManyRefused { done, refused, rest } = refused;
        let back: Vec<_> = once((refused.key, refused.value)).chain(rest).collect();
        assert_eq!(back, expected[done..]);
        it.refused("", before, |told| told.writes += done);
        let back = back.into_iter().collect_in(Global).unwrap();
        it.refusable(|it, now, clock| it.insert_many(back, now, clock)).unwrap();
    }
}

fn get_many(it: &mut Round<'_, Cached>, key: &'static str, expected: [Option<Text>; 3]) {
    let (before, keys) = (it.begin(("get_many", key, "")), texts(it, key));
    let found = match it.refusable(|it, now, clock| it.get_many(Global, &keys, now, clock)) {
        Ok(found) => found.into_std(),
        Err(GetManyRefused { found }) => {
            let (done, hits) = (found.len(), found.iter().flatten().count());
            it.refused("", before, |told| {
                told.counted[0] += hits as u64;
                told.counted[1] += (done - hits) as u64;
                told.reads += done;
            });
            let rest = it.refusable(|it, now, clock| it.get_many(Global, &keys[done..], now, clock));
            found.into_iter().chain(rest.unwrap()).collect()
        }
    };
    assert_eq!(found, expected);
}

fn invalidate_many(it: &mut Round<'_, Cached>) {
    let (before, keys) = (it.begin(("invalidate_many", "key", "")), texts(it, "key"));
    if let Err(refused) = it.refusable(|it, now, clock| it.invalidate_many(&keys, now, clock)) {
        let InvalidateManyRefused { done, refused } = refused;
        assert_eq!(refused.value, texts(it, "value")[done]);
        it.refused("", before, |told| {
            told.writes += done + 1;
            told.notices += done;
        });
        it.cache.put(keys[done].clone(), refused.value, it.now()).unwrap();
        it.refusable(|it, now, clock| it.invalidate_many(&keys[done..], now, clock))
            .unwrap();
    }
}

/// Makes again, from what is saved of it, the cache that has these entries.
fn restore(it: &mut Round<'_, Cached>, mut saved: Cached) {
    let now = it.now();
    let save = |cache: &mut Cached| cache.save(Global, now, &mut FixedClock(now)).unwrap();
    let (items, expected) = (save(&mut saved), save(&mut saved));
    let before = it.begin(("restore", "key", ""));
    if let Err(refused) = it.refusable(|it, now, clock| it.restore(items, now, clock)) {
        let back = once(refused.refused.item)
            .chain(refused.rest)
            .collect_in(Global)
            .unwrap();
        let done = expected.len() - back.len();
        assert_eq!(
            format!("{:?}", back.as_slice()),
            format!("{:?}", &expected.as_slice()[done..])
        );
        it.refused("", before, |told| told.writes += done);
        it.refusable(|it, now, clock| it.restore(back, now, clock)).unwrap();
    }
    it.finish();
    assert_eq!(it.cache.entries(now), saved.entries(now));
}

fn new(log: &mut Log) -> Round<'_, Cached> {
    Round::new(build(log, || Cache::build(config(0), Global, Instant(0))), log)
}

/// Takes each second texts out.
fn calls_with_several(log: &mut Log) {
    let mut round = new(log);
    for number in 0..12 {
        round.number = number;
        insert_many(&mut round);
        let values = texts(&round, "value").map(Some);
        get_many(&mut round, "key", values);
        get_many(&mut round, "none", [None, None, None]);
        round.make("key", &[LIST]);
        if number % 2 == 1 {
            invalidate_many(&mut round);
        }
        round.finish();
    }
    round.end();
}

/// Saves texts, and puts them into another cache.
fn calls_that_save(log: &mut Log) {
    let mut round = new(log);
    insert_many(&mut round);
    round.finish();
    round.make("key", &[SAVE]);
    let saved = round.cache;
    let mut round = new(log);
    restore(&mut round, saved);
    let values = texts(&round, "value").map(Some);
    get_many(&mut round, "key", values);
    round.finish();
}

#[test]
fn calls_with_several_texts_are_refused() {
    let wanted = ["build", "insert_many", "get_many", "iter", "invalidate_many"];
    refuse_each(calls_with_several, (4, 32, [36, 36, 0]), wanted);
}

#[test]
fn calls_that_save_are_refused() {
    refuse_each(
        calls_that_save,
        (3, 0, [3, 0, 0]),
        ["build", "insert_many", "save", "restore", "get_many"],
    );
}
