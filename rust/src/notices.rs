//! What the listener is notified of.

use crate::RemovalCause;
use crate::engine::moka_engine::Listener;
use crate::key::Key;
use std::any::Any;
use std::cell::{Cell, RefCell};
use std::collections::VecDeque;
use std::mem::{self, ManuallyDrop};
use std::panic::{AssertUnwindSafe, catch_unwind, resume_unwind};
use std::sync::atomic::{AtomicBool, Ordering};
use std::sync::{Arc, Condvar, Mutex, MutexGuard, PoisonError, Weak};
use std::{iter, thread};

/// The caller's listener.
pub(crate) type Told<K, V> = Arc<dyn Fn(Arc<K>, V, RemovalCause) + Send + Sync>;

type Notice<K, V> = (Arc<K>, V, RemovalCause);

/// A lock whose data is whole even after a panic.
pub(crate) fn locked<T>(mutex: &Mutex<T>) -> MutexGuard<'_, T> {
    mutex.lock().unwrap_or_else(PoisonError::into_inner)
}

// With so many notices waiting a caller that put one there waits for room or its turn to tell them, so that a slow
// listener is not left behind.
const MAX_WAITING: usize = 1024;
// After so many notices a thread hands its turn on to the next that puts one there, which waits for it.
const MAX_IN_TURN: usize = 256;

thread_local! {
    // Whether this thread is in a listener or a maker.
    static IS_AWAITED: Cell<bool> = const { Cell::new(false) };
    // There while the thread ends too, so nothing drops it: it has no memory but while a listener is called.
    static TELLING: RefCell<ManuallyDrop<Telling>> = const { RefCell::new(ManuallyDrop::new(Telling::NONE)) };
    // The same holds of this: it has no memory but while a wait is left out.
    static LEFT_OUT: RefCell<ManuallyDrop<LeftOut>> = const { RefCell::new(ManuallyDrop::new(LeftOut::NONE)) };
}

/// Whose listener this thread is calling: that of a cache, which has this address, within those of the outer ones.
struct Telling {
    cache: Option<usize>,
    outer: Vec<usize>,
    // Shards of these caches whose notices come next.
    next: VecDeque<(usize, usize)>,
}

impl Telling {
    const NONE: Self = Telling {
        cache: None,
        outer: Vec::new(),
        next: VecDeque::new(),
    };

    // Whether the notices of this shard may be told now. Otherwise they come next.
    #[inline]
    fn begins(&mut self, cache: usize, shard: usize) -> bool {
        if let Some(outer) = self.cache {
            if outer == cache || self.outer.contains(&cache) {
                if !self.next.contains(&(cache, shard)) {
                    self.next.push_back((cache, shard));
                }
                return false;
            }
            self.outer.push(outer);
        }
        self.cache = Some(cache);
        true
    }

    // The shard of the innermost cache that comes next. If there is none the telling ends.
    #[inline]
    fn go_on(&mut self, cache: usize) -> Option<usize> {
        if !self.next.is_empty() {
            let place = self.next.iter().position(|next| next.0 == cache);
            if let Some((_, shard)) = place.and_then(|place| self.next.remove(place)) {
                return Some(shard);
            }
        }
        self.cache = self.outer.pop();
        if self.cache.is_none() && self.next.capacity() + self.outer.capacity() > 0 {
            *self = Telling::NONE;
        }
        None
    }
}

/// Tells the notices of a shard of a cache, which has this address, and then of each for which this is called from
/// within the listener meanwhile: so that is never called within itself. Telling must not panic.
fn tell_in_turn(cache: usize, shard: usize, tell: impl Fn(usize)) {
    if TELLING.with_borrow_mut(|telling| telling.begins(cache, shard)) {
        tell(shard);
        while let Some(shard) = TELLING.with_borrow_mut(|telling| telling.go_on(cache)) {
            tell(shard);
        }
        make_waits();
    }
}

/// The shards of a cache whose notices a thread may have to wait for.
trait Tells {
    fn tell(self: Arc<Self>, shard: usize);
}

/// For which shards of which caches this thread has not waited since it was awaited.
struct LeftOut {
    waits: Vec<(Weak<dyn Tells>, usize)>,
    // How many of them are made, while they are. What is left out meanwhile is made too, but none twice: listeners of
    // caches that call each other would keep this thread.
    made: Option<usize>,
}

impl LeftOut {
    const NONE: Self = LeftOut {
        waits: Vec::new(),
        made: None,
    };

    fn note(&mut self, cache: Weak<dyn Tells>, shard: usize) {
        let is_noted = |(other, its): &(Weak<dyn Tells>, usize)| *its == shard && other.ptr_eq(&cache);
        if !self.waits.iter().any(is_noted) {
            self.waits.push((cache, shard));
        }
    }

    #[inline]
    fn begins(&mut self) -> bool {
        let begins = self.made.is_none() && !self.waits.is_empty();
        if begins {
            self.made = Some(0);
        }
        begins
    }

    fn go_on(&mut self) -> Option<(Weak<dyn Tells>, usize)> {
        let made = self.made.unwrap_or(0);
        let next = self.waits.get(made).cloned();
        match next {
            Some(_) => self.made = Some(made + 1),
            None => *self = LeftOut::NONE,
        }
        next
    }
}

/// Makes the waits that this thread has left out, unless it is still in a listener or a maker: so a slow listener is
/// not left behind by makers either. It tells notices too if the turn is free or comes to it.
#[inline]
pub(crate) fn make_waits() {
    if IS_AWAITED.get() || !LEFT_OUT.with_borrow_mut(|left_out| left_out.begins()) {
        return;
    }
    while let Some((cache, shard)) = LEFT_OUT.with_borrow_mut(|left_out| left_out.go_on()) {
        if let Some(cache) = cache.upgrade() {
            cache.tell(shard);
        }
    }
}

/// Makes the waits when it is dropped.
pub(crate) struct Waits;

impl Drop for Waits {
    fn drop(&mut self) {
        make_waits();
    }
}

/// While it is there this thread waits for no turn: in a listener or a maker others may wait for it.
pub(crate) struct Awaited {
    was_awaited: bool,
}

impl Awaited {
    pub fn new() -> Self {
        let was_awaited = IS_AWAITED.replace(true);
        Awaited { was_awaited }
    }
}

impl Drop for Awaited {
    fn drop(&mut self) {
        IS_AWAITED.set(self.was_awaited);
    }
}

/// What has left a shard in a call, in order. The first has a place of its own, so one alone needs no memory.
pub(crate) struct Left<K, V> {
    first: Notice<K, V>,
    more: Vec<Notice<K, V>>,
}

impl<K, V> Left<K, V> {
    fn of(first: Notice<K, V>) -> Self {
        let more = Vec::new();
        Left { first, more }
    }

    /// Adds what left later.
    pub fn append(&mut self, later: Self) {
        self.more.push(later.first);
        self.more.extend(later.more);
    }

    /// Drops all, each for itself, since two that panic at once would end the process. The first panic goes on then,
    /// unless another is under way.
    pub fn drop_each(self) {
        let mut first = None;
        for (key, value, _) in iter::once(self.first).chain(self.more) {
            drop_caught(key, &mut first);
            drop_caught(value, &mut first);
        }
        match first {
            Some(panic) if thread::panicking() => mem::forget(panic),
            Some(panic) => resume_unwind(panic),
            None => (),
        }
    }
}

// Drops a key or a value. A panic is the first, or forgotten: its own drop may panic too.
fn drop_caught<T>(left: T, first: &mut Option<Box<dyn Any + Send>>) {
    if let Err(panic) = catch_unwind(AssertUnwindSafe(|| drop(left))) {
        match first {
            None => *first = Some(panic),
            Some(_) => mem::forget(panic),
        }
    }
}

/// Notices that wait until the lock of their shard is released, and the listener that is then notified, in order.
pub(crate) struct Notices<K, V> {
    listener: Told<K, V>,
    queue: Mutex<Queue<K, V>>,
    // There is room again, or nobody has the turn.
    changed: Condvar,
    // Whether the listener has, for whichever shard of the cache.
    has_panicked: Arc<AtomicBool>,
}

struct Queue<K, V> {
    waiting: VecDeque<Notice<K, V>>,
    // Whether a thread has the turn to tell.
    is_taken: bool,
    // Whether it has told so many that the next may have the turn.
    is_offered: bool,
    // How many threads wait for a change.
    blocked: usize,
}

impl<K, V> Notices<K, V> {
    pub fn new(listener: Told<K, V>, has_panicked: Arc<AtomicBool>) -> Self {
        let queue = Mutex::new(Queue {
            waiting: VecDeque::new(),
            is_taken: false,
            is_offered: false,
            blocked: 0,
        });
        Notices {
            listener,
            queue,
            changed: Condvar::new(),
            has_panicked,
        }
    }

    /// Puts there what has left. Whoever does that has to `deliver` when the lock of the shard is released.
    pub fn put(&self, left: Left<K, V>) {
        let mut queue = locked(&self.queue);
        queue.waiting.push_back(left.first);
        if !left.more.is_empty() {
            queue.waiting.extend(left.more);
        }
    }

    /// Notifies the listener of what waits. If another thread does that, it goes on with these; if the listener itself
    /// made the call, they follow the notice that it is given now. A wait that this thread may not make is left out.
    pub fn deliver(&self, leave_out: impl FnOnce()) {
        let Some(mut queue) = self.take_turn(leave_out) else {
            return;
        };
        let mut told = 0;
        // One who is blocked looks again before it waits again, so it takes the turn that is left to it.
        while told < MAX_IN_TURN || queue.blocked == 0 {
            let Some(notice) = queue.waiting.pop_front() else {
                break;
            };
            if queue.waiting.len() + 1 == MAX_WAITING && queue.blocked > 0 {
                self.changed.notify_all();
            }
            told += 1;
            queue.is_offered = told >= MAX_IN_TURN;
            drop(queue);
            self.tell(notice);
            queue = locked(&self.queue);
        }
        (queue.is_taken, queue.is_offered) = (false, false);
        if queue.waiting.is_empty() && queue.waiting.capacity() > MAX_WAITING {
            queue.waiting = VecDeque::new();
        }
        if queue.blocked > 0 {
            self.changed.notify_all();
        }
    }

    // Takes the turn to tell, or leaves the notices to the thread that has it.
    fn take_turn(&self, leave_out: impl FnOnce()) -> Option<MutexGuard<'_, Queue<K, V>>> {
        let mut queue = locked(&self.queue);
        while queue.is_taken {
            if queue.waiting.len() < MAX_WAITING && !queue.is_offered {
                return None;
            }
            if IS_AWAITED.get() {
                drop(queue);
                leave_out();
                return None;
            }
            queue.blocked += 1;
            queue = self.changed.wait(queue).unwrap_or_else(PoisonError::into_inner);
            queue.blocked -= 1;
        }
        queue.is_taken = true;
        Some(queue)
    }

    // A listener that panicked is notified no more. Nothing panics here, so the turn is always given back.
    fn tell(&self, notice: Notice<K, V>) {
        let _awaited = Awaited::new();
        let told = catch_unwind(AssertUnwindSafe(move || {
            if self.has_panicked.load(Ordering::Relaxed) {
                Left::of(notice).drop_each();
            } else {
                let (key, value, cause) = notice;
                (self.listener)(key, value, cause);
            }
        }));
        if let Err(panic) = told {
            self.has_panicked.store(true, Ordering::Relaxed);
            // Its drop may panic too.
            mem::forget(panic);
        }
    }
}

/// The notices of all shards of a cache. No two shards share a cache line.
pub(crate) struct AllNotices<K, V>(Box<[OfShard<K, V>]>);

#[repr(align(128))]
struct OfShard<K, V>(Notices<K, V>);

impl<K, V> AllNotices<K, V> {
    pub fn new(listener: &Told<K, V>, shards: usize) -> Self {
        let has_panicked = Arc::default();
        let notices = || OfShard(Notices::new(Arc::clone(listener), Arc::clone(&has_panicked)));
        AllNotices(iter::repeat_with(notices).take(shards).collect())
    }

    pub fn of(&self, shard: usize) -> &Notices<K, V> {
        &self.0[shard].0
    }
}

impl<K: 'static, V: 'static> AllNotices<K, V> {
    /// Notifies the listener of what left a shard, or if this thread is in it, when it has returned.
    pub fn tell(self: &Arc<Self>, shard: usize) {
        tell_in_turn(Arc::as_ptr(self).addr(), shard, |shard| {
            self.of(shard).deliver(|| {
                let weak = Arc::downgrade(self);
                LEFT_OUT.with_borrow_mut(|left_out| left_out.note(weak, shard));
            });
        });
    }
}

impl<K: 'static, V: 'static> Tells for AllNotices<K, V> {
    // If the cache has gone meanwhile what waits goes here. A panic of its drop is nobody's.
    fn tell(self: Arc<Self>, shard: usize) {
        AllNotices::tell(&self, shard);
        let mut panic = None;
        drop_caught(self, &mut panic);
        mem::forget(panic);
    }
}

/// The engine's listener. It keeps what leaves until the lock of the shard is released: only then the caller's listener
/// may be notified, and keys and values be dropped, since their `Drop`, too, may wait for other threads.
pub(crate) struct Teller<K, V> {
    is_keeping: bool,
    // Whether something is to be done when the lock is released.
    is_due: AtomicBool,
    left: Mutex<Option<Left<K, V>>>,
}

impl<K, V> Teller<K, V> {
    pub fn new(has_listener: bool) -> Self {
        Teller {
            is_keeping: has_listener || mem::needs_drop::<K>() || mem::needs_drop::<V>(),
            is_due: AtomicBool::new(false),
            left: Mutex::new(None),
        }
    }

    /// Keeps what leaves.
    pub fn leaves(&self, key: Arc<K>, value: V, cause: RemovalCause) {
        if self.is_keeping {
            self.remind();
            keep(&mut locked(&self.left), (key, value, cause));
        }
    }

    /// Something is to be done when the lock is released.
    pub fn remind(&self) {
        self.is_due.store(true, Ordering::Relaxed);
    }

    #[inline]
    pub fn is_due(&self) -> bool {
        self.is_due.load(Ordering::Relaxed)
    }

    /// What has left since this was last asked.
    pub fn take(&self) -> Option<Left<K, V>> {
        self.is_due.store(false, Ordering::Relaxed);
        locked(&self.left).take()
    }
}

fn keep<K, V>(left: &mut Option<Left<K, V>>, notice: Notice<K, V>) {
    match left {
        Some(left) => left.more.push(notice),
        None => *left = Some(Left::of(notice)),
    }
}

impl<K, V> Listener<Key<'_, K>, V> for Teller<K, V> {
    fn notify(&mut self, key: Key<'_, K>, value: V, cause: RemovalCause) {
        if let (true, Some(key)) = (self.is_keeping, key.into_shared()) {
            *self.is_due.get_mut() = true;
            keep(
                self.left.get_mut().unwrap_or_else(PoisonError::into_inner),
                (key, value, cause),
            );
        }
    }
}

#[cfg(test)]
mod tests {
    use super::*;

    #[test]
    fn the_memory_of_many_notices_is_given_back() {
        let notices = Notices::new(Arc::new(|_, _, _| {}), Arc::default());
        let notice = |key| (Arc::new(key), 'a', RemovalCause::Size);
        notices.put(Left {
            first: notice(0),
            more: (1..5000).map(notice).collect(),
        });
        notices.deliver(|| ());
        let queue = locked(&notices.queue);
        assert!(queue.waiting.is_empty() && queue.waiting.capacity() <= MAX_WAITING);
    }

    #[test]
    fn a_wait_that_is_left_out_is_made_once() {
        let notices = || {
            Arc::new(AllNotices::<u32, u32>::new(
                &(Arc::new(|_, _, _| {}) as Told<u32, u32>),
                2,
            ))
        };
        let (one, other) = (notices(), notices());
        let mut left_out = LeftOut::NONE;
        let note = |left_out: &mut LeftOut, it: &Arc<AllNotices<u32, u32>>, shard| {
            let weak = Arc::downgrade(it);
            left_out.note(weak, shard);
        };
        assert!(!left_out.begins());
        for shard in [1, 0, 1] {
            note(&mut left_out, &one, shard);
        }
        assert!(left_out.begins() && !left_out.begins());
        let mut made = Vec::new();
        while let Some((_, shard)) = left_out.go_on() {
            made.push(shard);
            note(&mut left_out, &one, shard);
            note(&mut left_out, &other, 1);
        }
        assert_eq!(made, [1, 0, 1]);
        assert!(!left_out.begins() && Arc::weak_count(&one) == 0);
    }

    #[test]
    fn a_shard_comes_next_once() {
        let mut telling = Telling::NONE;
        assert!(telling.begins(1, 0));
        for shard in [0, 1, 0, 1] {
            assert!(!telling.begins(1, shard));
        }
        assert_eq!(telling.next, [(1, 0), (1, 1)]);
    }
}
