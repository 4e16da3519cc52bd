//! What a cache is created with.

use crate::callbacks::{Context, Expire, Expires, Listener, Told, Weigh, Weighs};
use crate::{BAD_ARGUMENT, Bytes};
use ravulemis::EvictionPolicy;
use ravulemis::sync::{Cache, CacheBuilder};
use std::ffi::{c_char, c_void};
use std::ptr::null_mut;
use std::time::Duration;

const MAX_SHARDS: u32 = 1 << 16;
const MAX_INITIAL: u64 = 1 << 24;

type Builder = CacheBuilder<Vec<u8>, Bytes>;

#[repr(C)]
pub struct Settings {
    is_bounded: i32,
    policy: i32,
    max_capacity: u64,
    weigher: i32,
    shards: u32,
    initial_capacity: u64,
    time_to_live: u64,
    time_to_idle: u64,
    listener: Option<Listener>,
    context: *mut c_void,
    pub name: *const c_char,
    weigh: Option<Weigh>,
    weigh_context: *mut c_void,
    expire: Option<Expire>,
    expire_context: *mut c_void,
    pub supports_predicates: i32,
}

impl Default for Settings {
    fn default() -> Self {
        Settings {
            is_bounded: 0,
            policy: 0,
            max_capacity: 0,
            weigher: 0,
            shards: 0,
            initial_capacity: 0,
            time_to_live: 0,
            time_to_idle: 0,
            listener: None,
            context: null_mut(),
            name: null_mut(),
            weigh: None,
            weigh_context: null_mut(),
            expire: None,
            expire_context: null_mut(),
            supports_predicates: 0,
        }
    }
}

/// An empty cache with these settings and this name.
pub fn built(settings: &Settings, name: Option<&str>) -> Result<Cache<Vec<u8>, Bytes>, i32> {
    let mut builder = Builder::default().eviction_policy(match settings.policy {
        0 => EvictionPolicy::tiny_lfu(),
        1 => EvictionPolicy::lru(),
        _ => return Err(BAD_ARGUMENT),
    });
    if is_set(settings.supports_predicates)? {
        builder = builder.support_invalidation_closures();
    }
    if let Some(name) = name {
        builder = builder.name(name);
    }
    if let Some(listener) = settings.listener {
        let told = Told(listener, Context(settings.context));
        builder = builder.eviction_listener(move |key, value, cause| told.tell(&key, &value, cause));
    }
    builder = weighed(sized(builder, settings)?, settings)?;
    Ok(timed(builder, settings).build())
}

fn is_set(setting: i32) -> Result<bool, i32> {
    match setting {
        0 => Ok(false),
        1 => Ok(true),
        _ => Err(BAD_ARGUMENT),
    }
}

fn sized(mut builder: Builder, settings: &Settings) -> Result<Builder, i32> {
    if settings.shards > MAX_SHARDS || settings.initial_capacity > MAX_INITIAL {
        return Err(BAD_ARGUMENT);
    }
    match (is_set(settings.is_bounded)?, settings.max_capacity) {
        (true, most) => builder = builder.max_capacity(most),
        (false, 0) => (),
        // Without a word the cache would grow without end.
        (false, _) => return Err(BAD_ARGUMENT),
    }
    if settings.shards > 0 {
        builder = builder.shards(settings.shards as usize);
    }
    Ok(builder.initial_capacity(settings.initial_capacity as usize))
}

fn weighed(builder: Builder, settings: &Settings) -> Result<Builder, i32> {
    match (settings.weigher, settings.weigh) {
        (0, None) => Ok(builder),
        (1, None) => Ok(builder.weigher(|key: &Vec<u8>, value: &Bytes| {
            u32::try_from(key.len().saturating_add(value.len())).unwrap_or(u32::MAX)
        })),
        (2, Some(weigh)) => {
            let weighs = Weighs(weigh, Context(settings.weigh_context));
            Ok(builder.weigher(move |key: &Vec<u8>, value: &Bytes| weighs.weigh(key, value)))
        }
        _ => Err(BAD_ARGUMENT),
    }
}

fn timed(mut builder: Builder, settings: &Settings) -> Builder {
    if settings.time_to_live > 0 {
        builder = builder.time_to_live(Duration::from_nanos(settings.time_to_live));
    }
    if settings.time_to_idle > 0 {
        builder = builder.time_to_idle(Duration::from_nanos(settings.time_to_idle));
    }
    if let Some(expire) = settings.expire {
        builder = builder.expire_after(Expires(expire, Context(settings.expire_context)));
    }
    builder
}
