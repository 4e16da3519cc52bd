//! Tests of what a replay prints of replies that no worked script calls forth.

use crate::engine::moka_parts::calls::{KvEntry, PredicateId, Reply, Ticket};
use crate::engine::moka_parts::error::OutOfMemory;
use crate::engine::moka_parts::policy::Instant;
use crate::replay::moka_script::print::{ReplayText, Total, is_refused_memory};
use crate::replay::moka_script::script::ScriptReply;
use crate::replay::moka_script::word::Word;
use crate::support::alloc::Global;

/// A removal of which nobody was notified for want of memory.
fn removed_in_silence() -> ScriptReply {
    let entry = KvEntry {
        key: 1,
        value: Word::new(Global, "a").expect("memory"),
        last_modified: Instant(0),
        last_accessed: Instant(0),
    };
    Reply::Remove {
        removed: Some((entry, Ticket(2))),
        told: Some(Err(OutOfMemory)),
    }
}

#[test]
fn prints_replies_and_the_total() {
    let replies = [
        removed_in_silence(),
        Reply::InvalidateIf(Ok(PredicateId::from_u128(10))),
    ];
    assert!(is_refused_memory(&replies[0]));
    let text = ReplayText {
        replies: &replies,
        notices: &[],
        total: Total { count: 4, weight: 5 },
    };
    let lines = [
        "removed a ticket 2",
        "refused memory",
        "predicate 00000000-0000-0000-0000-00000000000a",
        "count 4 weight 5",
    ];
    assert_eq!(text.to_string(), lines.join("\n"));
}
