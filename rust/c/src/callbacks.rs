//! The caller's functions, each with its context.

use crate::Bytes;
use ravulemis::{Expiry, RemovalCause};
use std::ffi::c_void;
use std::time::{Duration, Instant};

pub type Listener = extern "C" fn(*mut c_void, *const c_void, usize, *const c_void, usize, i32);
pub type Weigh = extern "C" fn(*mut c_void, *const c_void, usize, *const c_void, usize) -> u32;
pub type Expire = extern "C" fn(*mut c_void, i32, *const c_void, usize, *const c_void, usize, u64) -> u64;
pub type Predicate = extern "C" fn(*mut c_void, *const c_void, usize, *const c_void, usize) -> i32;
pub type DropContext = extern "C" fn(*mut c_void);

const CREATED: i32 = 0;
const UPDATED: i32 = 1;
const READ: i32 = 2;

/// Of a time that does not end.
const NEVER: u64 = u64::MAX;

/// What a function of the caller's is handed.
#[derive(Clone, Copy)]
pub struct Context(pub *mut c_void);

// SAFETY: the header says that several threads may call a function at once, so the caller's context has to bear that.
unsafe impl Send for Context {}
// SAFETY: as above.
unsafe impl Sync for Context {}

/// The caller's listener.
pub struct Told(pub Listener, pub Context);

impl Told {
    pub fn tell(&self, key: &[u8], value: &[u8], cause: RemovalCause) {
        let cause = match cause {
            RemovalCause::Expired => 0,
            RemovalCause::Explicit => 1,
            RemovalCause::Replaced => 2,
            RemovalCause::Size => 3,
        };
        let (key_at, value_at) = (key.as_ptr().cast(), value.as_ptr().cast());
        (self.0)(self.1.0, key_at, key.len(), value_at, value.len(), cause);
    }
}

/// The caller's weigher.
pub struct Weighs(pub Weigh, pub Context);

impl Weighs {
    pub fn weigh(&self, key: &[u8], value: &[u8]) -> u32 {
        let (key_at, value_at) = (key.as_ptr().cast(), value.as_ptr().cast());
        (self.0)(self.1.0, key_at, key.len(), value_at, value.len())
    }
}

/// The caller's expiry.
pub struct Expires(pub Expire, pub Context);

impl Expires {
    fn ask(&self, event: i32, key: &[u8], value: &[u8], left: Option<Duration>) -> Option<Duration> {
        let remaining = left.map_or(NEVER, |left| u64::try_from(left.as_nanos()).unwrap_or(NEVER));
        let (key_at, value_at) = (key.as_ptr().cast(), value.as_ptr().cast());
        let answer = (self.0)(self.1.0, event, key_at, key.len(), value_at, value.len(), remaining);
        // What is left comes back as it came, also if it is as long as an answer can say.
        if answer == remaining {
            return left;
        }
        (answer != NEVER).then(|| Duration::from_nanos(answer))
    }
}

impl Expiry<Vec<u8>, Bytes> for Expires {
    fn expire_after_create(&self, key: &Vec<u8>, value: &Bytes, _: Instant) -> Option<Duration> {
        self.ask(CREATED, key, value, None)
    }

    fn expire_after_read(
        &self,
        key: &Vec<u8>,
        value: &Bytes,
        _: Instant,
        left: Option<Duration>,
        _: Instant,
    ) -> Option<Duration> {
        self.ask(READ, key, value, left)
    }

    fn expire_after_update(
        &self,
        key: &Vec<u8>,
        value: &Bytes,
        _: Instant,
        left: Option<Duration>,
    ) -> Option<Duration> {
        self.ask(UPDATED, key, value, left)
    }
}

/// The context of a predicate, and what drops it when nobody asks that any more.
pub struct Owned(pub Context, pub Option<DropContext>);

impl Owned {
    pub fn ask(&self, predicate: Predicate, key: &[u8], value: &[u8]) -> bool {
        let (key_at, value_at) = (key.as_ptr().cast(), value.as_ptr().cast());
        predicate(self.0.0, key_at, key.len(), value_at, value.len()) != 0
    }
}

impl Drop for Owned {
    fn drop(&mut self) {
        if let Some(drop_context) = self.1 {
            drop_context(self.0.0);
        }
    }
}
