//! The front, by its public calls. One program, so that a cache of one key and value type is compiled once for all tests.

mod examples;
mod keys;
mod makers;
mod notices;
mod panics;
mod policy;
mod random;
mod sync;
mod types;
mod unsync;
mod waits;
