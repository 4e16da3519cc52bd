//! Tests of the engine's parts: what a cache asks, is told, keeps and prints.

mod closures;
mod housekeeper;
mod invalidator;
mod maintenance;
mod moments;
mod notification;
mod records;
mod script;
mod texts;

use crate::engine::moka_parts::policy::Instant;
use crate::engine::moka_parts::records::Record;

/// A record that was written and read at the moment 0, and never expires.
pub(super) fn record<K, V>(key: K, value: V) -> Record<K, V> {
    Record {
        number: 1,
        key,
        hash: 1,
        value,
        written: Instant(0),
        read: Instant(0),
        expires: None,
        weight: 1,
        generation: 1,
        applied: 1,
    }
}
