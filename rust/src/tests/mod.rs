//! Tests of the generated engine, of the caches on it and of their callers.

/// The allocator of all tests, which refuses what it is told to.
mod allocator;
/// The caches on the engine: the synchronous one, whole and in segments, its saves, and one with a clock.
mod caches;
/// The engine.
pub(crate) mod engine;
/// The laws that the engine keeps, and those of its callers.
mod laws;
/// What the structures serve: expiry, predicates, listeners, maintenance, and what is printed.
mod parts;
/// Each allocation refused in turn, in calls on caches of texts.
mod refused;
/// The index, the order list, the table of records, the sketch, the tickets and the timer wheel.
pub(crate) mod structures;
/// Callers that show how the caches are used.
mod uses;
/// The streams of operations that the bench drives caches by.
mod workload;
