//! The cache for C: `include/ravulemis.h` says what each function does.

mod callbacks;
mod settings;

use callbacks::{Context, DropContext, Owned, Predicate};
use ravulemis::PredicateError;
use ravulemis::sync::Cache;
use settings::{Settings, built};
use std::ffi::{CStr, c_char, c_void};
use std::panic::{AssertUnwindSafe, catch_unwind};
use std::ptr;
use std::slice::from_raw_parts;
use std::sync::{Arc, Mutex, PoisonError, RwLock};

type Bytes = Arc<[u8]>;

const OK: i32 = 0;
const NOT_FOUND: i32 = 1;
const TRUNCATED: i32 = 2;
const BAD_ARGUMENT: i32 = -1;
const DESTROYED: i32 = -2;
const FAULT: i32 = -3;
const UNSUPPORTED: i32 = -4;

/// A cache until it is destroyed. It stays in memory afterwards, so that a later call is told.
pub struct Handle(RwLock<Option<Cache<Vec<u8>, Bytes>>>);

// All that were ever made. What is kept on purpose would be a leak to a checker, if nothing pointed to it.
static HANDLES: Mutex<Vec<&Handle>> = Mutex::new(Vec::new());

#[repr(C)]
pub struct Counts {
    hits: u64,
    misses: u64,
    expired: u64,
    explicit_removals: u64,
    replaced: u64,
    evicted: u64,
}

// The code of a call, and of one that panics.
fn coded(call: impl FnOnce() -> Result<i32, i32>) -> i32 {
    let answer = catch_unwind(AssertUnwindSafe(call)).unwrap_or(Err(FAULT));
    answer.unwrap_or_else(|code| code)
}

// SAFETY: the pointer is null or `ravulemis_create` handed it out; such a handle is never freed.
unsafe fn with_cache(cache: *const Handle, call: impl FnOnce(&Cache<Vec<u8>, Bytes>) -> Result<i32, i32>) -> i32 {
    coded(|| {
        let handle = unsafe { cache.as_ref() }.ok_or(BAD_ARGUMENT)?;
        // The lock is not held in the call, in which the listener may call again.
        let cache = handle.0.read().unwrap_or_else(PoisonError::into_inner).clone();
        call(&cache.ok_or(DESTROYED)?)
    })
}

// SAFETY: there are as many bytes there, or the pointer is null.
unsafe fn bytes<'a>(at: *const u8, length: usize) -> Result<&'a [u8], i32> {
    match (at.is_null(), length) {
        (_, 0) => Ok(&[]),
        (true, _) => Err(BAD_ARGUMENT),
        _ if isize::try_from(length).is_err() => Err(BAD_ARGUMENT),
        _ => Ok(unsafe { from_raw_parts(at, length) }),
    }
}

// SAFETY: as of `bytes`.
unsafe fn key_of<'a>(at: *const u8, length: usize) -> Result<&'a [u8], i32> {
    let key = unsafe { bytes(at, length) }?;
    if key.is_empty() { Err(BAD_ARGUMENT) } else { Ok(key) }
}

// Writes where the caller wants it. What is there may never have been set, so no reference is made to it.
// SAFETY: the pointer is null or may be written through.
unsafe fn hand_to<T>(at: *mut T, it: T) {
    if !at.is_null() {
        unsafe { at.write(it) };
    }
}

// SAFETY: there is room for as many bytes, or the pointer is null; the length's pointer is as of `hand_to`.
unsafe fn hand_out(value: &[u8], buffer: *mut u8, room: usize, length: *mut usize) -> i32 {
    let count = value.len().min(room);
    if count > 0 {
        unsafe { buffer.copy_from_nonoverlapping(value.as_ptr(), count) };
    }
    unsafe { hand_to(length, value.len()) };
    if count < value.len() { TRUNCATED } else { OK }
}

// The caller's text, or none if the pointer is null.
// SAFETY: the pointer is null or a NUL ends what is there, and that stays so while the text is used.
unsafe fn text<'a>(at: *const c_char) -> Result<Option<&'a str>, i32> {
    if at.is_null() {
        return Ok(None);
    }
    let text = unsafe { CStr::from_ptr(at) }.to_str();
    text.map(Some).map_err(|_| BAD_ARGUMENT)
}

/// # Safety
/// The pointer is null or may be written through.
#[unsafe(no_mangle)]
pub unsafe extern "C" fn ravulemis_settings_default(settings: *mut Settings) -> i32 {
    if settings.is_null() {
        return BAD_ARGUMENT;
    }
    unsafe { settings.write(Settings::default()) };
    OK
}

/// # Safety
/// Each pointer is null or one to what the header says.
#[unsafe(no_mangle)]
pub unsafe extern "C" fn ravulemis_create(settings: *const Settings, cache: *mut *mut Handle) -> i32 {
    coded(|| {
        let settings = unsafe { settings.as_ref() }.ok_or(BAD_ARGUMENT)?;
        if cache.is_null() {
            return Err(BAD_ARGUMENT);
        }
        let name = unsafe { text(settings.name) }?;
        let made = Handle(RwLock::new(Some(built(settings, name)?)));
        let made: &Handle = Box::leak(Box::new(made));
        HANDLES.lock().unwrap_or_else(PoisonError::into_inner).push(made);
        unsafe { cache.write(ptr::from_ref(made).cast_mut()) };
        Ok(OK)
    })
}

/// # Safety
/// The pointer is null or one of `ravulemis_create`.
#[unsafe(no_mangle)]
pub unsafe extern "C" fn ravulemis_destroy(cache: *mut Handle) -> i32 {
    coded(|| {
        let handle = unsafe { cache.as_ref() }.ok_or(BAD_ARGUMENT)?;
        let gone = handle.0.write().unwrap_or_else(PoisonError::into_inner).take();
        gone.map(|_| OK).ok_or(DESTROYED)
    })
}

/// # Safety
/// Each pointer is null or one to what the header says.
#[unsafe(no_mangle)]
pub unsafe extern "C" fn ravulemis_insert(
    cache: *mut Handle,
    key: *const u8,
    key_length: usize,
    value: *const u8,
    value_length: usize,
) -> i32 {
    let call = |cache: &Cache<Vec<u8>, Bytes>| {
        let (key, value) = unsafe { (key_of(key, key_length)?, bytes(value, value_length)?) };
        cache.insert(key.to_vec(), value.into());
        Ok(OK)
    };
    unsafe { with_cache(cache, call) }
}

/// # Safety
/// Each pointer is null or one to what the header says.
#[unsafe(no_mangle)]
pub unsafe extern "C" fn ravulemis_get(
    cache: *mut Handle,
    key: *const u8,
    key_length: usize,
    buffer: *mut u8,
    room: usize,
    value_length: *mut usize,
) -> i32 {
    let call = |cache: &Cache<Vec<u8>, Bytes>| {
        let key = unsafe { key_of(key, key_length) }?;
        if buffer.is_null() && room > 0 {
            return Err(BAD_ARGUMENT);
        }
        let value = cache.get(key).ok_or(NOT_FOUND)?;
        Ok(unsafe { hand_out(&value, buffer, room, value_length) })
    };
    unsafe { with_cache(cache, call) }
}

/// # Safety
/// Each pointer is null or one to what the header says.
#[unsafe(no_mangle)]
pub unsafe extern "C" fn ravulemis_contains(cache: *mut Handle, key: *const u8, key_length: usize) -> i32 {
    let call = |cache: &Cache<Vec<u8>, Bytes>| {
        let key = unsafe { key_of(key, key_length) }?;
        Ok(if cache.contains_key(key) { OK } else { NOT_FOUND })
    };
    unsafe { with_cache(cache, call) }
}

/// # Safety
/// Each pointer is null or one to what the header says.
#[unsafe(no_mangle)]
pub unsafe extern "C" fn ravulemis_remove(
    cache: *mut Handle,
    key: *const u8,
    key_length: usize,
    buffer: *mut u8,
    room: usize,
    value_length: *mut usize,
) -> i32 {
    let call = |cache: &Cache<Vec<u8>, Bytes>| {
        let key = unsafe { key_of(key, key_length) }?;
        if buffer.is_null() && room > 0 {
            return Err(BAD_ARGUMENT);
        }
        let value = cache.remove(key).ok_or(NOT_FOUND)?;
        Ok(unsafe { hand_out(&value, buffer, room, value_length) })
    };
    unsafe { with_cache(cache, call) }
}

/// # Safety
/// Each pointer is null or one to what the header says.
#[unsafe(no_mangle)]
pub unsafe extern "C" fn ravulemis_invalidate(cache: *mut Handle, key: *const u8, key_length: usize) -> i32 {
    let call = |cache: &Cache<Vec<u8>, Bytes>| {
        cache.invalidate(unsafe { key_of(key, key_length) }?);
        Ok(OK)
    };
    unsafe { with_cache(cache, call) }
}

/// # Safety
/// The pointer is null or one of `ravulemis_create`.
#[unsafe(no_mangle)]
pub unsafe extern "C" fn ravulemis_invalidate_all(cache: *mut Handle) -> i32 {
    let call = |cache: &Cache<Vec<u8>, Bytes>| {
        cache.invalidate_all();
        Ok(OK)
    };
    unsafe { with_cache(cache, call) }
}

/// # Safety
/// Each pointer is null or one to what the header says.
#[unsafe(no_mangle)]
pub unsafe extern "C" fn ravulemis_invalidate_if(
    cache: *mut Handle,
    predicate: Option<Predicate>,
    context: *mut c_void,
    drop_context: Option<DropContext>,
) -> i32 {
    // Whichever way the call ends, this drops the context, or the predicate that owns it by then.
    let owned = Owned(Context(context), drop_context);
    let call = move |cache: &Cache<Vec<u8>, Bytes>| {
        let predicate = predicate.ok_or(BAD_ARGUMENT)?;
        let hides = move |key: &Vec<u8>, value: &Bytes| owned.ask(predicate, key, value);
        match cache.invalidate_entries_if(hides) {
            Ok(_) => Ok(OK),
            Err(PredicateError::InvalidationClosuresDisabled) => Err(UNSUPPORTED),
            Err(_) => Err(FAULT),
        }
    };
    unsafe { with_cache(cache, call) }
}

/// # Safety
/// The pointer is null or one of `ravulemis_create`.
#[unsafe(no_mangle)]
pub unsafe extern "C" fn ravulemis_run_pending_tasks(cache: *mut Handle) -> i32 {
    let call = |cache: &Cache<Vec<u8>, Bytes>| {
        cache.run_pending_tasks();
        Ok(OK)
    };
    unsafe { with_cache(cache, call) }
}

/// # Safety
/// Each pointer is null or one to what the header says.
#[unsafe(no_mangle)]
pub unsafe extern "C" fn ravulemis_name(
    cache: *mut Handle,
    buffer: *mut c_char,
    room: usize,
    name_length: *mut usize,
) -> i32 {
    let call = |cache: &Cache<Vec<u8>, Bytes>| {
        if buffer.is_null() && room > 0 {
            return Err(BAD_ARGUMENT);
        }
        let name = cache.name().ok_or(NOT_FOUND)?;
        let with_end = [name.as_bytes(), b"\0"].concat();
        Ok(unsafe { hand_out(&with_end, buffer.cast(), room, name_length) })
    };
    unsafe { with_cache(cache, call) }
}

/// # Safety
/// Each pointer is null or one to what the header says.
#[unsafe(no_mangle)]
pub unsafe extern "C" fn ravulemis_size(cache: *mut Handle, entry_count: *mut u64, weighted_size: *mut u64) -> i32 {
    let call = |cache: &Cache<Vec<u8>, Bytes>| {
        unsafe {
            hand_to(entry_count, cache.entry_count());
            hand_to(weighted_size, cache.weighted_size());
        }
        Ok(OK)
    };
    unsafe { with_cache(cache, call) }
}

/// # Safety
/// Each pointer is null or one to what the header says.
#[unsafe(no_mangle)]
pub unsafe extern "C" fn ravulemis_count(cache: *mut Handle, counts: *mut Counts) -> i32 {
    let call = |cache: &Cache<Vec<u8>, Bytes>| {
        if counts.is_null() {
            return Err(BAD_ARGUMENT);
        }
        let stats = cache.stats();
        let all = Counts {
            hits: stats.hits,
            misses: stats.misses,
            expired: stats.expired,
            explicit_removals: stats.explicit,
            replaced: stats.replaced,
            evicted: stats.evicted,
        };
        unsafe { counts.write(all) };
        Ok(OK)
    };
    unsafe { with_cache(cache, call) }
}

#[unsafe(no_mangle)]
pub extern "C" fn ravulemis_message(code: i32) -> *const c_char {
    let text = match code {
        OK => c"done",
        NOT_FOUND => c"there is no value under the key, or no name",
        TRUNCATED => c"the buffer is too small",
        BAD_ARGUMENT => c"a wrong argument",
        DESTROYED => c"the cache was destroyed",
        FAULT => c"a fault of the library",
        UNSUPPORTED => c"the cache takes no predicates",
        _ => c"no code of the library",
    };
    text.as_ptr()
}

#[cfg(test)]
mod tests {
    use super::*;
    use std::ptr::null_mut;

    #[test]
    fn a_handle_stays_reachable() {
        let (settings, mut cache) = (Settings::default(), null_mut());
        assert_eq!(unsafe { ravulemis_create(&settings, &mut cache) }, OK);
        assert_eq!(unsafe { ravulemis_destroy(cache) }, OK);
        let handles = HANDLES.lock().unwrap();
        assert!(handles.iter().any(|kept| ptr::eq(*kept, cache)));
    }
}
