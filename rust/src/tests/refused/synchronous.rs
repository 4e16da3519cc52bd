//! The calls of the synchronous cache with one key or a form of it, those that make a value, and entry calls.

use super::round::{Answer, Call, Round, Step, build, show};
use super::texts::{Cached, Ids, Text, chosen, config, made};
use super::told::Asked;
use super::{Log, refuse_each};
use crate::engine::moka_cache::{Cache, CacheEntry, Op};
use crate::engine::moka_engine::{FixedClock, Instant, NoPredicate};
use crate::support::alloc::Global;
use std::convert::Infallible;

#[rustfmt::skip]
const STEPS: &[Step<Cached>] = &[
    ("get", "", "None", |it, key, _, now, clock| show(it.get(&key, now, clock))),
    ("insert", "first", "()", |it, key, value, now, _| show(it.put(key, value, now))),
    INSERT,
    ("get", "", "Some(value #)", |it, key, _, now, clock| show(it.get(&key, now, clock))),
    ("get_by", "", "Some(value #)", |it, key, _, now, clock| {
        show(it.get_by(&key.as_str(), it.hash_of(&key.as_str()), now, clock))
    }),
    ("invalidate_entries_if", "", "1", |it, _, _, now, _| {
        let registered = it.invalidate_entries_if(NoPredicate, now, &mut Ids(0));
        show(registered.map(|_| it.engine().invalidation_predicate_count()))
    }),
];

const INSERT: Step<Cached> = ("insert", "value", "()", |it, key, value, now, _| {
    show(it.put(key, value, now))
});

const INVALIDATE: Step<Cached> = ("invalidate", "", "()", |it, key, _, now, clock| {
    show(it.invalidate(&key, now, clock))
});

/// Ways to take a text out.
#[rustfmt::skip]
const REMOVALS: [Step<Cached>; 4] = [
    ("remove", "", "Some(value #)", |it, key, _, now, clock| show(it.remove(&key, now, clock))),
    INVALIDATE,
    ("remove_by", "", "Some(value #)", |it, key, _, now, clock| {
        show(it.remove_by(&key.as_str(), it.hash_of(&key.as_str()), now, clock))
    }),
    ("invalidate_by", "", "()", |it, key, _, now, clock| {
        show(it.invalidate_by(&key.as_str(), it.hash_of(&key.as_str()), now, clock))
    }),
];

const GONE: Step<Cached> = ("contains_key", "", "false", |it, key, _, now, _| {
    show(Ok::<_, Infallible>(it.contains_key(&key, now)))
});

const VALUE: [&str; 2] = ["made #", "made #"];
const ENTRY: [&str; 2] = ["(key #, made #, true, false)", "(key #, made #, false, false)"];
const UPSERT: [&str; 2] = ["(key #, made #, true, false)", "(key #, other #, true, true)"];

/// The calls that answer a value or an entry, and their answers: if the key is not there, and if it has a value.
#[rustfmt::skip]
const MAKERS: [(&str, [&str; 2], Call<Cached>); 8] = [
    ("get_with", VALUE, |it, key, value, now, clock| show(it.get_with(key, || made(value), now, clock))),
    ("optionally_get_with", VALUE, |it, key, value, now, clock| {
        show(it.optionally_get_with(key, || Some(made(value)), now, clock).map(Option::unwrap))
    }),
    ("try_get_with", VALUE, |it, key, value, now, clock| {
        show(it.try_get_with(key, || Ok::<_, u64>(made(value)), now, clock).map(Result::unwrap))
    }),
    ("or_insert", ENTRY, |it, key, value, now, clock| show(it.entry(key).or_insert(value, now, clock).map(parts))),
    ("or_insert_with", ENTRY, |it, key, value, now, clock| {
        show(it.entry(key).or_insert_with(|| made(value), now, clock).map(parts))
    }),
    ("or_optionally_insert_with", ENTRY, |it, key, value, now, clock| {
        let entry = it.entry(key).or_optionally_insert_with(|| Some(made(value)), now, clock);
        show(entry.map(|it| parts(it.unwrap())))
    }),
    ("or_try_insert_with", ENTRY, |it, key, value, now, clock| {
        let entry = it.entry(key).or_try_insert_with(|| Ok::<_, u64>(made(value)), now, clock);
        show(entry.map(|it| parts(it.unwrap())))
    }),
    ("and_upsert_with", UPSERT, |it, key, value, now, clock| {
        show(it.entry(key).and_upsert_with(|_| chosen(value), now, clock).map(parts))
    }),
];

/// Nothing is inserted when makers decline and fail.
#[rustfmt::skip]
const NOTHING: [Step<Cached>; 3] = [
    ("optionally_get_with", "", "None", |it, key, _, now, clock| {
        show(it.optionally_get_with(key, || None, now, clock))
    }),
    ("try_get_with", "", "Err(7)", |it, key, _, now, clock| {
        show(it.try_get_with(key, || Err::<_, u64>(7), now, clock))
    }),
    GONE,
];

const INSERTED: &str =
    "Inserted(CacheEntry { key: key #, value: value #, is_fresh: true, is_old_value_replaced: false })";
const REPLACED: &str =
    "ReplacedWith(CacheEntry { key: key #, value: made #, is_fresh: true, is_old_value_replaced: true })";
const UNCHANGED: &str =
    "Unchanged(CacheEntry { key: key #, value: made #, is_fresh: false, is_old_value_replaced: false })";
const REMOVED: &str =
    "Removed(CacheEntry { key: key #, value: made #, is_fresh: false, is_old_value_replaced: false })";

/// What is computed in turn of a key that is not there at first.
const COMPUTED: [Step<Cached>; 6] = [
    ("and_compute_with", "", "StillNone(key #)", leave),
    ("and_compute_with", "value", INSERTED, put),
    ("and_compute_with", "made", REPLACED, put),
    ("and_compute_with", "", UNCHANGED, leave),
    ("and_compute_with", "", REMOVED, take_out),
    ("and_compute_with", "", "StillNone(key #)", take_out),
];

/// Key and value of an entry, whether it was put, and whether it has replaced another one.
fn parts(entry: CacheEntry<Text, Text>) -> (Text, Text, bool, bool) {
    (entry.key, entry.value, entry.is_fresh, entry.is_old_value_replaced)
}

fn leave(it: &mut Cached, key: Text, _: Text, now: Instant, clock: &mut FixedClock) -> Answer {
    show(it.entry(key).and_compute_with(|_| chosen(Op::Nop), now, clock))
}

fn put(it: &mut Cached, key: Text, value: Text, now: Instant, clock: &mut FixedClock) -> Answer {
    show(it.entry(key).and_compute_with(|_| chosen(Op::Put(value)), now, clock))
}

fn take_out(it: &mut Cached, key: Text, _: Text, now: Instant, clock: &mut FixedClock) -> Answer {
    show(it.entry(key).and_compute_with(|_| chosen(Op::Remove), now, clock))
}

/// Takes two of three texts out, each in a way of its own.
fn calls_by_key(log: &mut Log) {
    let mut round = Round::new(build(log, || Cache::build(config(0), Global, Instant(0))), log);
    for number in 0..12 {
        round.number = number;
        round.make("key", STEPS);
        if let Some(way) = [None, Some(0), Some(1), None, Some(2), Some(3)][number as usize % 6] {
            round.make("key", &[REMOVALS[way], GONE]);
        }
        round.finish();
    }
    round.end();
}

/// Makes each call for a key that is not there and for one that is, while other keys fill the cache.
fn calls_with_makers(log: &mut Log) {
    let mut round = Round::new(build(log, || Cache::build(config(0), Global, Instant(0))), log);
    for number in 0..8 {
        round.number = number;
        round.make("kept", &[INSERT]);
        for (name, [made, found], call) in MAKERS {
            round.make(
                "key",
                &[
                    (name, "made", made, call),
                    (name, "other", found, call),
                    INVALIDATE,
                    GONE,
                ],
            );
        }
        round.make("nothing", &NOTHING);
        round.make("key", &COMPUTED);
        round.finish();
    }
    round.end();
}

#[test]
fn calls_by_key_are_refused() {
    let others = ["build", "insert", "get", "get_by", "invalidate_entries_if"];
    refuse_each(
        calls_by_key,
        (4, 20, [24, 12, 0]),
        others.into_iter().chain(REMOVALS.map(|it| it.0)),
    );
}

#[test]
fn calls_with_makers_are_refused() {
    let names = MAKERS.iter().map(|it| it.0).chain(["and_compute_with"]);
    let twice = names.flat_map(|it| [format!("{it} at the look-up"), format!("{it} at the insert")]);
    let others = ["build", "insert", "invalidate", "and_compute_with at the removal"].map(String::from);
    refuse_each(calls_with_makers, (4, 92, [88, 104, 64]), twice.chain(others));
}
