//! Tests of `BaseCache`, the engine.

mod expiry;
pub(crate) mod fixtures;
mod ignore_if;
mod large;
mod ownership;
mod settings;
