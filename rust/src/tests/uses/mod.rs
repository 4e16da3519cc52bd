//! Tests of the callers of engine and caches, each of which shows one way to use them.

mod caches;
mod engines;
mod invalidated;
mod segments;
mod timed;

use crate::engine::moka_engine::Instant;

const NOW: Instant = Instant(0);
