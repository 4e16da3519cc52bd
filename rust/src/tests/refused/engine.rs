//! The calls of the engine.

use super::round::{Answer, Round, Step, build, show, sorted};
use super::texts::{Ids, Text, Texts, config};
use super::told::{Asked, HASH, send};
use super::{Log, refuse_each};
use crate::engine::moka_cache::NotTold;
use crate::engine::moka_engine::{Entry, FixedClock, Instant, NoPredicate, NoTest};
use crate::support::alloc::Global;

#[rustfmt::skip]
const STEPS: &[Step<Texts>] = &[
    ("insert", "first", "()", |it, key, value, now, _| show(it.put(key, value, now))),
    ("insert", "value", "()", |it, key, value, now, _| show(it.put(key, value, now))),
    ("get", "", "Some((None, value #))", |it, key, _, now, clock| {
        show(it.get_with_hash(&key, HASH, false, now, clock).map(parts))
    }),
    ("get with key", "", "Some((Some(key #), value #))", |it, key, _, now, clock| {
        show(it.get_with_hash(&key, HASH, true, now, clock).map(parts))
    }),
    ("get unless ignored", "", "Some((Some(key #), value #))", |it, key, _, now, clock| {
        show(it.get_with_hash_and_ignore_if(&key, HASH, Some(&mut |_: &Text| false), true, now, clock).map(parts))
    }),
    ("get that ignores", "", "None", |it, key, _, now, clock| {
        show(it.get_with_hash_and_ignore_if(&key, HASH, Some(&mut |_: &Text| true), true, now, clock).map(parts))
    }),
    ("peek", "", "Some(value #)", |it, key, _, now, _| {
        show(it.get_with_hash_without_recording(&key, HASH, Some(&mut NoTest), now))
    }),
    ("scan", "", "Some(value #)", |it, key, _, now, _| show(it.scanning_get(&key, now))),
    ("keys", "", "*", |it, _, _, _, _| show(it.keys(0).map(|it| it.map(sorted)))),
    ("register", "", "1", |it, _, _, now, _| {
        let mut ids = Ids(0);
        let registered = it.invalidate_entries_if(NoPredicate, now, &mut ids);
        assert_eq!(registered.is_ok(), ids.0 == 1);
        show(registered.map(|_| it.invalidation_predicate_count()))
    }),
];

const REMOVAL: Step<Texts> = ("notify", "", "()", take_out);

/// Key and value of what is found.
fn parts(found: Option<Entry<Text, Text>>) -> Option<(Option<Text>, Text)> {
    found.map(|it| (it.key, it.value))
}

/// Takes an entry out, and notifies the listener of it.
fn take_out(it: &mut Texts, key: Text, _: Text, now: Instant, _: &mut FixedClock) -> Answer {
    let (entry, ticket) = it.remove_entry(&key, HASH).unwrap();
    send(it, ticket);
    let told = it.notify_invalidate(&entry, now);
    let value = entry.value;
    show(told.map_err(|error| NotTold { error, value }))
}

fn calls(log: &mut Log) {
    let mut round = Round::new(build(log, || config(0).build(Global, Instant(0))), log);
    for number in 0..12 {
        round.number = number;
        round.make("key", STEPS);
        if number % 3 == 2 {
            round.make("key", &[REMOVAL]);
        }
        round.finish();
    }
    round.end();
}

#[test]
#[rustfmt::skip]
fn calls_of_the_engine_are_refused() {
    let wanted = [
        "build", "insert", "notify", "get", "get with key", "get unless ignored", "peek", "scan", "keys", "register",
    ];
    refuse_each(calls, (4, 20, [0; 3]), wanted);
}
