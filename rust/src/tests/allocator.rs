//! The allocator of the library's tests: the system's, which refuses one allocation of a thread when it is told to.
#![allow(unsafe_code)]

use std::alloc::{GlobalAlloc, Layout, System};
use std::cell::Cell;
use std::ptr;

struct Refusing;

#[global_allocator]
static REFUSING: Refusing = Refusing;

thread_local! {
    /// Whether this thread's allocations count.
    static COUNTS: Cell<bool> = const { Cell::new(false) };
    /// How many have counted.
    static ASKED: Cell<u64> = const { Cell::new(0) };
    /// Which of them is refused; none with 0.
    static REFUSED: Cell<u64> = const { Cell::new(0) };
}

// SAFETY: all is left to the system's, but for what is refused.
unsafe impl GlobalAlloc for Refusing {
    unsafe fn alloc(&self, layout: Layout) -> *mut u8 {
        if COUNTS.get() {
            ASKED.set(ASKED.get().wrapping_add(1));
            if ASKED.get() == REFUSED.get() {
                return ptr::null_mut();
            }
        }
        // SAFETY: as the caller's.
        unsafe { System.alloc(layout) }
    }

    unsafe fn dealloc(&self, at: *mut u8, layout: Layout) {
        // SAFETY: as the caller's.
        unsafe { System.dealloc(at, layout) }
    }
}

/// What calls answer while this allocation of theirs is refused, or none with 0.
pub fn refusing<R>(allocation: u64, calls: impl FnOnce() -> R) -> R {
    ASKED.set(0);
    REFUSED.set(allocation);
    calls()
}

/// How many allocations were asked for that count.
pub fn asked() -> u64 {
    ASKED.get()
}

/// Whether the allocation that is to be refused was asked for.
pub fn has_refused() -> bool {
    (1..=ASKED.get()).contains(&REFUSED.get())
}

/// What a call answers while allocations count, or do not.
pub fn counting<R>(counts: bool, call: impl FnOnce() -> R) -> R {
    struct Before(bool);
    impl Drop for Before {
        fn drop(&mut self) {
            COUNTS.set(self.0);
        }
    }
    let _before = Before(COUNTS.replace(counts));
    call()
}

/// Makes a call of this name, which says that it is refused if an allocation is, and only then.
pub fn refusable<T, E>(name: &str, call: impl FnOnce() -> Result<T, E>) -> Result<T, E> {
    let had_refused = has_refused();
    let answer = counting(true, call);
    let is_refused = has_refused() && !had_refused;
    assert_eq!(answer.is_err(), is_refused, "whether {name} says that it is refused");
    answer
}
