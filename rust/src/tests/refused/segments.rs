//! The calls of a cache in segments.

use super::round::{Call, Round, Step, build, show, sorted};
use super::texts::{Ids, Segmented, config, made};
use super::told::Asked;
use super::{Log, refuse_each};
use crate::engine::moka_engine::{Instant, NoPredicate};
use crate::engine::moka_segments::SegmentedCache;
use crate::support::alloc::Global;

#[rustfmt::skip]
const STEPS: &[Step<Segmented>] = &[
    ("get", "", "None", |it, key, _, now, clock| show(it.get(&key, now, clock))),
    ("insert", "first", "()", |it, key, value, now, _| show(it.put(key, value, now))),
    ("insert", "value", "()", |it, key, value, now, _| show(it.put(key, value, now))),
    ("get", "", "Some(value #)", |it, key, _, now, clock| show(it.get(&key, now, clock))),
    ("invalidate_entries_if", "", "3", |it, _, _, now, _| {
        let mut ids = Ids(0);
        let registered = it.invalidate_entries_if(|| NoPredicate, now, &mut ids);
        assert!(!registered.as_ref().is_err_and(|it| it.done.len() as u128 != ids.0));
        show(registered.map(|it| it.len()).map_err(|it| (it.refused, it.done.len())))
    }),
    ("iter", "", "*", |it, _, _, now, _| show(it.iter(now).map(sorted))),
];

/// The calls with a maker.
#[rustfmt::skip]
const MAKERS: [(&str, Call<Segmented>); 3] = [
    ("get_with", |it, key, value, now, clock| show(it.get_with(key, || made(value), now, clock))),
    ("optionally_get_with", |it, key, value, now, clock| {
        show(it.optionally_get_with(key, || Some(made(value)), now, clock).map(Option::unwrap))
    }),
    ("try_get_with", |it, key, value, now, clock| {
        show(it.try_get_with(key, || Ok::<_, u64>(made(value)), now, clock).map(Result::unwrap))
    }),
];

#[rustfmt::skip]
const REMOVALS: [Step<Segmented>; 2] = [
    ("remove", "", "Some(value #)", |it, key, _, now, clock| show(it.remove(&key, now, clock))),
    ("invalidate", "", "()", |it, key, _, now, clock| show(it.invalidate(&key, now, clock))),
];

/// Makes a value of a key that is not there, and finds it. Each third text is taken out.
fn calls(log: &mut Log) {
    let make = || SegmentedCache::build(3, Some(6), config, Global, Instant(0));
    let mut round = Round::new(build(log, make), log);
    for number in 0..12 {
        round.number = number;
        round.make("key", STEPS);
        let (name, call) = MAKERS[number as usize % 3];
        round.make(
            "made by",
            &[(name, "made", "made #", call), (name, "other", "made #", call)],
        );
        if number % 3 == 2 {
            round.make("key", &[REMOVALS[number as usize % 2]]);
        }
        round.finish();
    }
    round.end();
}

#[test]
fn calls_in_segments_are_refused() {
    let makers = MAKERS.iter().map(|it| it.0);
    let twice = makers.flat_map(|it| [format!("{it} at the look-up"), format!("{it} at the insert")]);
    let others = [
        "build",
        "insert",
        "get",
        "remove",
        "invalidate",
        "iter",
        "invalidate_entries_if",
    ];
    refuse_each(calls, (6, 30, [24, 24, 12]), twice.chain(others.map(String::from)));
}
