//! Tests of what is printed of calls, of replies and of refusals.

use crate::engine::moka_parts::calls::{Call, DriveRefused, Reply, Ticket};
use crate::engine::moka_parts::error::{
    CapacityError, InsertError, InsertRefused, OutOfMemory, PredicateError, PredicateRefused, SendError,
};
use crate::engine::moka_parts::policy::{EvictionPolicy, Instant};
use crate::support::alloc::Global;
use crate::support::vec;
use std::fmt::Debug;

const NOW: Instant = Instant(0);

const INSERT: InsertRefused<u8, u8> = InsertRefused {
    error: InsertError::NumbersUsedUp,
    key: 1,
    value: 2,
};

const PREDICATE: PredicateRefused<u8> = PredicateRefused {
    error: PredicateError::NoFreeId,
    predicate: 3,
};

fn calls() -> [Call<u8, u8, u8>; 17] {
    let (key, hash, value, now) = (1, 1, 2, NOW);
    [
        Call::Insert { key, hash, value, now },
        Call::Send { ticket: Ticket(1) },
        Call::Get {
            key,
            hash,
            need_key: false,
            now,
        },
        Call::GetUnrecorded { key, hash, now },
        Call::Contains { key, hash, now },
        Call::Key { key, hash },
        Call::Scan { key, now },
        Call::Remove { key, hash, now: None },
        Call::InvalidateAll { now },
        Call::InvalidateIf { predicate: 3, now },
        Call::Run {
            now,
            limit: None,
            repeats: 1,
            batch: 1,
        },
        Call::RunIfDue { now },
        Call::DisableAutoRun,
        Call::Keys { segment: 0 },
        Call::Report,
        Call::Pending,
        Call::SetCapacity { capacity: None },
    ]
}

fn replies() -> [Reply<u8, u8, u8>; 18] {
    [
        Reply::Insert(Ok((Ticket(1), NOW))),
        Reply::Disabled { key: 1, value: 2 },
        Reply::Send(Ok(())),
        Reply::Get(Err(OutOfMemory)),
        Reply::GetUnrecorded(Ok(Some(2))),
        Reply::Contains(true),
        Reply::Key(Ok(Some(1))),
        Reply::Scan(Ok(Some(2))),
        Reply::Remove {
            removed: None,
            told: None,
        },
        Reply::InvalidateAll,
        Reply::InvalidateIf(Err(PREDICATE)),
        Reply::Run(false),
        Reply::RunIfDue,
        Reply::DisableAutoRun,
        Reply::Keys(Ok(None)),
        Reply::Report {
            count: 1,
            weight: 1,
            predicates: 0,
        },
        Reply::Pending {
            handed: 1,
            oldest: None,
            writes: 0,
            reads: 0,
        },
        Reply::SetCapacity(Ok(())),
    ]
}

#[track_caller]
fn assert_names(printed: impl Debug, names: &str) {
    assert_eq!(format!("{printed:?}"), names);
}

#[test]
fn calls_print_their_names() {
    assert_names(
        calls(),
        "[Insert, Send, Get, GetUnrecorded, Contains, Key, Scan, Remove, InvalidateAll, InvalidateIf, Run, RunIfDue, \
         DisableAutoRun, Keys, Report, Pending, SetCapacity]",
    );
}

#[test]
fn replies_print_their_names() {
    assert_names(
        replies(),
        "[Insert, Disabled, Send, Get, GetUnrecorded, Contains, Key, Scan, Remove, InvalidateAll, InvalidateIf, Run, \
         RunIfDue, DisableAutoRun, Keys, Report, Pending, SetCapacity]",
    );
}

#[test]
fn a_policy_prints_its_name() {
    assert_names(EvictionPolicy::lru(), "EvictionPolicy::Lru");
}

#[test]
fn refusals_print_their_reasons() {
    assert_eq!(INSERT.to_string(), "All tickets are used up");
    assert_eq!(PREDICATE.to_string(), "Cannot assign a new PredicateId to a predicate");
    assert_eq!(SendError::QueueFull.to_string(), "The queue of writes is full");
    let capacity = CapacityError::ZeroCapacity.to_string();
    assert_eq!(capacity, "A capacity cannot be changed from zero or to zero");
}

#[test]
fn a_refused_list_of_calls_prints_its_length() {
    let refused: DriveRefused<u8, u8, u8> = DriveRefused {
        error: OutOfMemory,
        calls: vec::Vec::from_array(Global, [Call::Report, Call::Pending]).expect("memory"),
    };
    assert_eq!(refused.to_string(), "Out of memory");
    assert_names(refused, "DriveRefused { error: OutOfMemory, calls: 2 }");
}
