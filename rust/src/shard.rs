//! The generated synchronous cache with a clock. This is the one module that calls it.
//!
//! Each call of the front is one or two of its calls, and what those cannot have:
//!
//! - Panics of the caller's own code. The engine compares keys, weighs, asks the expiry, and clones what it looks up,
//!   only before it changes anything. So these harm nothing, and a mark says whether a panic came later: in a run, or
//!   where a value that was taken out is cloned for the listener. Look-ups and removals go by calls with a test of the
//!   key; an insert goes by the address of the key that is kept, which is looked up before, by a key that stands for a
//!   test (`kept`): the engine hands out no key by a test.
//! - Makers and entry calls. Its `get_with`, `entry` and their kin look a key up and put it there in one call, by the
//!   key's own `Eq` and at one moment, that of their start. Here a call looks it up by a test, and puts it under the key
//!   that is kept; and a caller's maker may take longer than an entry lasts, so the value is put there at a moment after
//!   it, by `insert`; nor is a panic of the maker one in mid-call.
//! - The clock. If nothing can expire no call need read it, so this is not the cache that owns its clock.
//! - Scans. Its `iter` hands out all entries at once; here a lock is held for one at a time, so its engine makes them.

use crate::engine::moka_cache;
use crate::engine::moka_engine::{
    BaseCache, Clock, ExpirationPolicy, HousekeeperConfig, IdSource, Instant, PredicateId,
};
use crate::engine::moka_parts::error::PredicateError;
use crate::engine::moka_parts::key_test::KeyTest;
use crate::key::{Carried, Key, Test, address, note_comparison};
use crate::mark::Mark;
use crate::notices::{Left, Teller};
use crate::once::Once;
use crate::policy::Asked;
use crate::settings::{Settings, Testing, Tests, Weighing};
use crate::support::alloc::Global;
use crate::support::uuid::Uuid;
use crate::{Entry, RemovalCause, Stats};
use moka_cache::{CountingListener, NotTold};
use std::alloc::{Layout, handle_alloc_error};
use std::borrow::Borrow;
use std::cell::OnceCell;
use std::hash::Hash;
use std::mem;
use std::sync::Arc;
use std::sync::atomic::{AtomicU64, Ordering::Relaxed};
use std::time::Duration;

// The listener is there always, since it counts.
type Told<K, V> = CountingListener<Teller<K, V>>;
type Cache<K, V> =
    moka_cache::Cache<Key<'static, K>, V, Asked<K, V>, Told<K, V>, Testing<K, V>, Weighing<K, V>, Carried>;

// If no entry can expire the clock is read once in so many calls: a moment then says only when a run is due, and a
// reading makes an insert a quarter to a half dearer.
const CALLS_A_READING: u32 = 64;
// A run of maintenance asks predicates about so many entries, and each step of a single pass lets so many leave.
const ENTRIES_A_RUN: u64 = 384;
// A visit makes so many runs of a single pass at most.
const RUNS_A_VISIT: u32 = 16;
// A call makes a run if the last one was so many nanoseconds ago. A shard that had no call for so long has one due.
const QUIET: u64 = 300_000_000;
const HASH_OF_NO_KEY: u64 = 0xb5ad_4ece_da1c_e2a9;

/// Nanoseconds since the cache was built. What the engine reads of it sets the mark: a run that a call makes reads it
/// before its first pass, and only from then on runs the caller's own code in the middle of a change, except where a
/// value is taken out.
struct Elapsed {
    start: std::time::Instant,
    mark: Mark,
}

impl Elapsed {
    #[inline]
    fn read(&self) -> Instant {
        Instant(u64::try_from(self.start.elapsed().as_nanos()).unwrap_or(u64::MAX))
    }
}

impl Clock for Elapsed {
    #[inline]
    fn now(&mut self) -> Instant {
        self.mark.set();
        self.read()
    }
}

/// Gives the one identifier that the front has chosen.
struct Chosen(u128);

impl IdSource for Chosen {
    fn next_id(&mut self) -> PredicateId {
        Uuid::from_u128(self.0)
    }
}

// Whether a kept key is the one that is sought. The shard's calls take the key and make their tests of it themselves: a
// test that is written in a caller which is generic over a maker would be another type, and the engine's look-up
// another function, for each maker.
#[inline]
fn is_same<K: Borrow<Q>, Q: Eq + ?Sized>(kept: &Arc<K>, key: &Q) -> bool {
    (**kept).borrow() == key
}

/// A test of the caller's in a call that may change something, before or after it is asked.
struct ByTest<'a, F> {
    test: F,
    mark: &'a Mark,
}

impl<K: Eq + Hash, F: Fn(&Arc<K>) -> bool> KeyTest<Key<'static, K>> for ByTest<'_, F> {
    #[inline]
    fn is_key(&self, key: &Key<'static, K>) -> bool {
        note_comparison();
        self.mark.before_changes(|| key.shared().is_some_and(&self.test))
    }
}

/// A test of the caller's in a call that changes nothing.
struct Passing<F>(F);

impl<K: Eq + Hash, F: Fn(&Arc<K>) -> bool> KeyTest<Key<'static, K>> for Passing<F> {
    #[inline]
    fn is_key(&self, key: &Key<'static, K>) -> bool {
        note_comparison();
        key.shared().is_some_and(&self.0)
    }
}

/// When the next visit to a shard is due, for all shards of a cache. One is due so often that each shard has one in the
/// time after which it is quiet.
#[derive(Clone)]
pub(crate) struct Visits {
    next: Arc<AtomicU64>,
    every: u64,
}

impl Visits {
    /// Those of so many shards. None is due if there is one alone. Also where nothing can expire values are hidden, by
    /// `invalidate_all` and predicates; there a shard looks whether one is due when it reads the clock, so that this
    /// costs other calls nothing.
    pub fn new(shards: u32) -> Self {
        let every = if shards > 1 {
            QUIET / u64::from(shards)
        } else {
            u64::MAX
        };
        Visits {
            next: Arc::new(AtomicU64::new(every)),
            every,
        }
    }

    fn next(&self) -> Instant {
        Instant(self.next.load(Relaxed))
    }

    // Whether one is due at this moment. Then who asks makes it.
    fn take(&self, now: Instant) -> bool {
        let (due, next) = (self.next(), now.0.saturating_add(self.every));
        due <= now && self.next.compare_exchange(due.0, next, Relaxed, Relaxed).is_ok()
    }
}

/// A cache with one owner.
pub(crate) struct Shard<K: 'static, V> {
    cache: Cache<K, V>,
    clock: Elapsed,
    // The same as the clock's, for a test in a call that borrows the clock.
    mark: Mark,
    // The moment of the last call. It never goes back, and each invalidation has one of its own.
    now: Instant,
    calls_until_reading: u32,
    // No visit is due before this moment.
    visit_at: Instant,
    visits: Visits,
    is_visit_due: bool,
    // Look-ups of nobody's, and reads of what a call had looked up before.
    unasked: u64,
    rereads: u64,
    is_timed: bool,
    settings: Arc<Settings<K, V>>,
    capacity: Option<u64>,
    // What was counted beside the cache: by caches that a panic ended, of makers and of what was refused.
    counted: Stats,
}

impl<K: Eq + Hash + 'static, V> Shard<K, V> {
    /// An empty shard of this capacity. With equal starts all shards tell the same moments.
    pub fn new(
        settings: Arc<Settings<K, V>>,
        capacity: Option<u64>,
        visits: Visits,
        start: std::time::Instant,
    ) -> Self {
        let mark = Mark::default();
        let clock = Elapsed {
            start,
            mark: mark.clone(),
        };
        Shard {
            cache: cache(&settings, settings.initial_capacity, capacity, &clock),
            clock,
            mark,
            now: Instant(0),
            calls_until_reading: 0,
            visit_at: Instant(0),
            visits,
            is_visit_due: false,
            unasked: 0,
            rereads: 0,
            is_timed: settings.is_timed(),
            settings,
            capacity,
            counted: Stats::default(),
        }
    }

    /// Empties the shard if a panic left its cache in the middle of a call.
    #[inline]
    pub fn recover(&mut self) {
        if self.is_broken() {
            self.empty();
        }
    }

    #[cold]
    fn empty(&mut self) {
        // The initial room is not asked for again, since it may be refused while the old cache is there.
        let empty = cache(&self.settings, None, self.capacity, &self.clock);
        self.counted = self.stats();
        (self.unasked, self.rereads) = (0, 0);
        self.cache = empty;
        self.mark.clear();
    }

    // Makes a call that changes the cache. A panic of the caller's own code leaves the mark, unless it came before.
    #[inline]
    fn change<R>(&mut self, call: impl FnOnce(&mut Cache<K, V>, &mut Elapsed) -> R) -> R {
        self.mark.set();
        let answer = call(&mut self.cache, &mut self.clock);
        self.mark.clear();
        answer
    }

    // The moment of this call.
    #[inline]
    fn read_clock(&mut self) -> Instant {
        if self.is_timed || self.calls_until_reading == 0 {
            self.now = self.now.max(self.clock.read());
            self.calls_until_reading = CALLS_A_READING;
            if self.now >= self.visit_at {
                self.plan_visit();
            }
        }
        self.calls_until_reading -= 1;
        self.now
    }

    // The caller is to visit another shard when the lock of this one is released, unless that of another shard is.
    #[cold]
    fn plan_visit(&mut self) {
        let is_due = self.visits.take(self.now);
        self.visit_at = self.visits.next();
        if is_due {
            self.is_visit_due = true;
            if let Some(teller) = self.teller() {
                teller.remind();
            }
        }
    }

    /// Lets what is due leave, if no call has come for so long that it would have. No call goes on here with what a run
    /// of a single pass leaves, so some more are made.
    pub fn visit(&mut self)
    where
        V: Clone,
    {
        let now = self.clock.read();
        if now.0.saturating_sub(self.now.0) < QUIET {
            return;
        }
        self.now = now;
        let runs = if self.has_single_passes() { RUNS_A_VISIT } else { 1 };
        for _ in 0..runs {
            let before = self.left();
            self.run_what_is_due(now);
            if self.left() - before < ENTRIES_A_RUN {
                break;
            }
        }
    }

    // Whether the runs that calls start make a single pass (`housekeeping`).
    fn has_single_passes(&self) -> bool {
        self.settings.listener.is_some()
    }

    // How many entries have left by runs of maintenance, or were taken out.
    fn left(&self) -> u64 {
        let left = self.cache.removals();
        left.expired.saturating_add(left.explicit).saturating_add(left.size)
    }

    // Makes the run that is due at a moment, if one is. The cache has no call for it alone. This one finds nothing, at
    // the address of no key. A key whose hash is a small number would become popular by it, if that were 0.
    fn run_what_is_due(&mut self, now: Instant)
    where
        V: Clone,
    {
        let _nothing = self.change(|cache, clock| cache.get(&Key::at(HASH_OF_NO_KEY, 0), now, clock));
        self.unasked += 1;
        self.keep_bound(now);
    }

    // A moment after all writes before this call, and before all after it.
    fn moment_between(&mut self) -> Instant {
        let between = self.clock.read().max(Instant(self.now.0.saturating_add(1)));
        self.now = Instant(between.0.saturating_add(1));
        between
    }

    // A moment for a call that changes nothing.
    fn glance(&self) -> Instant {
        if !self.is_timed {
            return self.now;
        }
        self.now.max(self.clock.read())
    }

    // The key that is kept and equals this. Nothing changes, so a panic of the caller's `Eq` harms nothing.
    #[inline]
    fn kept(&self, hash: u64, key: &K) -> Option<Arc<K>>
    where
        K: Sync,
    {
        let test: Test<'_, K> = &|kept| kept == key;
        let sought = Key::sought(hash, &test);
        let found = self.cache.engine().get_key_with_hash(&sought, hash)?;
        found.shared().map(Arc::clone)
    }

    // A clone of a key's value, which counts as a read.
    #[inline]
    fn get_by(&mut self, hash: u64, test: impl Fn(&Arc<K>) -> bool) -> Option<V>
    where
        V: Clone,
    {
        let now = self.read_clock();
        let mark = &self.mark;
        // A hit that makes a run looks for its place anew: the test is asked again, after the mark was set.
        let found = self.cache.get_by(&ByTest { test, mark }, hash, now, &mut self.clock);
        mark.clear();
        self.keep_bound(now);
        found.ok().flatten()
    }

    /// A clone of a key's value, which counts as a read.
    #[inline]
    pub fn get<Q>(&mut self, hash: u64, key: &Q) -> Option<V>
    where
        K: Borrow<Q>,
        Q: Eq + ?Sized,
        V: Clone,
    {
        self.get_by(hash, |kept| is_same(kept, key))
    }

    /// The same beside the key that is kept, if one is, whether its value is visible or not.
    #[inline]
    pub fn seek<Q>(&mut self, hash: u64, key: &Q) -> (Option<Arc<K>>, Option<V>)
    where
        K: Borrow<Q>,
        Q: Eq + ?Sized,
        V: Clone,
    {
        // The look-up hands out no key, so that which passes is noted. The value is that of the first.
        let passed = OnceCell::new();
        let value = self.get_by(hash, |kept| {
            let is_key = is_same(kept, key);
            if is_key {
                passed.get_or_init(|| Arc::clone(kept));
            }
            is_key
        });
        (passed.into_inner(), value)
    }

    /// A clone of a key's value with the key that is kept, which counts as a read.
    #[inline]
    pub fn get_entry<Q>(&mut self, hash: u64, key: &Q) -> Option<(Arc<K>, V)>
    where
        K: Borrow<Q>,
        Q: Eq + ?Sized,
        V: Clone,
    {
        let (kept, value) = self.seek(hash, key);
        Some((kept?, value?))
    }

    /// A clone of a key's value, for a call whose look-up was counted before: a read, but no second look-up.
    pub fn get_again(&mut self, hash: u64, key: &K) -> Option<V>
    where
        V: Clone,
    {
        // A test of its own, so that the engine's look-up may stand in `get` itself: this is seldom called.
        let value = self.get_by(hash, |kept| is_same(kept, key));
        match value {
            Some(_) => self.rereads += 1,
            None => self.unasked += 1,
        }
        value
    }

    /// A clone of a key's value with the key that is kept; nothing is recorded.
    pub fn peek(&self, hash: u64, key: &K) -> Option<(Arc<K>, V)>
    where
        K: Sync,
        V: Clone,
    {
        let key = self.kept(hash, key)?;
        let value = self.scan(hash, &key)?;
        Some((key, value))
    }

    pub fn contains<Q>(&self, hash: u64, key: &Q) -> bool
    where
        K: Borrow<Q>,
        Q: Eq + ?Sized,
    {
        let test = |kept: &Arc<K>| is_same(kept, key);
        self.cache.contains_key_by(&Passing(test), hash, self.glance())
    }

    // A value for which memory was refused leaves at once.
    #[cold]
    fn refuse(&mut self, key: Key<'static, K>, value: V) {
        if let (Some(key), Some(teller)) = (key.into_shared(), self.teller()) {
            teller.leaves(key, value, RemovalCause::Size);
            self.counted.evicted += 1;
        }
    }

    /// Puts a value under a key. One for which memory is refused leaves at once, and the listener is notified. A key
    /// that equals the one that is kept comes back.
    #[inline]
    pub fn insert(&mut self, hash: u64, key: Arc<K>, value: V) -> Option<Arc<K>>
    where
        K: Sync,
    {
        let Some(kept) = self.kept(hash, &key) else {
            self.insert_kept(hash, key, value);
            return None;
        };
        self.insert_kept(hash, kept, value);
        Some(key)
    }

    /// The same under the key that is kept, if one is.
    #[inline]
    pub fn insert_kept(&mut self, hash: u64, key: Arc<K>, value: V) {
        let (key, now) = (Key::kept(hash, key), self.read_clock());
        if let Err(refused) = self.change(|cache, clock| cache.insert(key, value, now, clock)) {
            self.refuse(refused.key, refused.value);
        }
        self.keep_bound(now);
    }

    // One heavy entry may take the room of more light ones than leave in a single pass, or within the engine's limit of
    // a run: if the run of this call has left more than the capacity, the rest leaves too.
    #[inline]
    fn keep_bound(&mut self, now: Instant) {
        if self.capacity.is_some_and(|most| self.cache.weighted_size() > most) {
            self.make_room(now);
        }
    }

    #[cold]
    fn make_room(&mut self, now: Instant) {
        self.change(|cache, clock| cache.run_pending_tasks(now, clock));
    }

    /// The entry of a key, the one that is kept if one is, with a value that is made and put there; none if the maker
    /// gives none. A maker that panics has changed nothing.
    pub fn put_made(
        &mut self,
        hash: u64,
        key: Arc<K>,
        is_replaced: bool,
        init: Once<'_, (), Option<V>>,
    ) -> Option<Entry<K, V>>
    where
        V: Clone,
    {
        // The load has failed until the value is there.
        self.counted.load_failures += 1;
        let value = init.call(())?;
        self.insert_kept(hash, Arc::clone(&key), value.clone());
        self.counted.load_failures -= 1;
        self.counted.loads += 1;
        Some(Entry::put(key, value, is_replaced))
    }

    /// Takes a key's entry out, and hands out its value, also one that has expired. The listener is notified.
    pub fn remove<Q>(&mut self, hash: u64, key: &Q) -> Option<V>
    where
        K: Borrow<Q>,
        Q: Eq + ?Sized,
        V: Clone,
    {
        let now = self.read_clock();
        let mark = &self.mark;
        let test = |kept: &Arc<K>| is_same(kept, key);
        mark.set();
        let removed = self.cache.remove_by(&ByTest { test, mark }, hash, now, &mut self.clock);
        mark.clear();
        self.keep_bound(now);
        removed.unwrap_or_else(|NotTold { value, .. }| Some(value))
    }

    /// The same by the key that is kept, if one is.
    pub fn remove_kept(&mut self, hash: u64, key: &Arc<K>) -> Option<V>
    where
        V: Clone,
    {
        let (key, now) = (Key::at(hash, address(key)), self.read_clock());
        let removed = self.change(|cache, clock| cache.remove(&key, now, clock));
        self.keep_bound(now);
        removed.unwrap_or_else(|NotTold { value, .. }| Some(value))
    }

    pub fn invalidate_all(&mut self) {
        let now = self.moment_between();
        self.change(|cache, _| cache.invalidate_all(now));
        // The next call looks whether a run is due.
        self.calls_until_reading = 0;
    }

    /// Registers a predicate. First it makes the run that is due: each look-up asks all predicates that no run has done
    /// with yet, so in a shard that has no other calls these must not pile up.
    pub fn invalidate_entries_if(&mut self, predicate: Tests<K, V>, id: u128) -> Result<(), PredicateError>
    where
        V: Clone,
    {
        if !self.settings.takes_closures {
            return Err(PredicateError::InvalidationClosuresDisabled);
        }
        if self.capacity == Some(0) {
            // Nothing is here that it could hide, and no run would be done with it.
            return Ok(());
        }
        self.calls_until_reading = 0;
        let now = self.read_clock();
        self.run_what_is_due(now);
        let now = self.moment_between();
        let given = self.change(|cache, _| cache.invalidate_entries_if(Testing(predicate), now, &mut Chosen(id)));
        given.map(|_| ()).map_err(|refused| refused.error)
    }

    /// Makes a run of maintenance. How many more there may be to make: so many go round the entries twice, after which
    /// no predicate covers one.
    pub fn run_pending_tasks(&mut self) -> u64 {
        self.calls_until_reading = 0;
        let now = self.read_clock();
        let has_more = self.change(|cache, clock| cache.run_pending_tasks(now, clock));
        if has_more {
            2 * (self.entry_count() / ENTRIES_A_RUN + 1)
        } else {
            0
        }
    }

    /// The keys that are kept, visible or not, with their hashes.
    pub fn keys(&self) -> Vec<(u64, Arc<K>)> {
        let Ok(Some(keys)) = self.cache.engine().keys(0) else {
            // As everywhere in Rust: to give none would be a wrong answer.
            handle_alloc_error(Layout::new::<Key<'static, K>>())
        };
        let with_hash = |key: Key<'static, K>| Some((key.hash(), key.into_shared()?));
        keys.into_std().into_iter().filter_map(with_hash).collect()
    }

    /// A clone of the value of a kept key, if it is visible; nothing is recorded.
    pub fn scan(&self, hash: u64, key: &Arc<K>) -> Option<V>
    where
        V: Clone,
    {
        let key = Key::at(hash, address(key));
        self.cache.engine().scanning_get(&key, self.glance()).ok()?
    }

    /// What was counted.
    pub fn stats(&self) -> Stats {
        let (looks, left) = (self.cache.stats(), self.cache.removals());
        Stats {
            hits: looks.hits.saturating_sub(self.rereads),
            misses: looks.misses.saturating_sub(self.unasked),
            expired: left.expired,
            explicit: left.explicit,
            replaced: left.replaced,
            evicted: left.size,
            ..Stats::default()
        } + self.counted
    }
}

impl<K: 'static, V> Shard<K, V> {
    /// Whether a panic left the cache in the middle of a change, so that the next call that may change it empties it.
    pub fn is_broken(&self) -> bool {
        self.mark.is_set()
    }

    /// How many entries the last run left, none in a shard that is to be emptied.
    pub fn entry_count(&self) -> u64 {
        if self.is_broken() { 0 } else { self.cache.entry_count() }
    }

    /// Their weight.
    pub fn weighted_size(&self) -> u64 {
        if self.is_broken() {
            0
        } else {
            self.cache.weighted_size()
        }
    }

    #[inline]
    fn teller(&self) -> Option<&Teller<K, V>> {
        let counting = self.cache.engine().listener()?;
        Some(&counting.listener)
    }

    /// Whether something is to be done when the lock of the shard is released.
    #[inline]
    pub fn has_rest(&self) -> bool {
        self.teller().is_some_and(Teller::is_due)
    }

    /// What left since it was last taken: the listener is to be notified of it, or it is to be dropped.
    pub fn take_left(&self) -> Option<Left<K, V>> {
        self.teller()?.take()
    }

    /// Whether another shard is to be visited since this was last asked.
    pub fn take_visit(&mut self) -> bool {
        mem::take(&mut self.is_visit_due)
    }
}

// The engine's own limit of a run does not count the time of the caller's listener, which is notified after the run. So
// the runs that calls start make a single pass then, which leaves the rest to the next calls, but for what exceeds the
// capacity.
fn housekeeping(has_listener: bool) -> HousekeeperConfig {
    let mut config = HousekeeperConfig::default();
    if has_listener {
        config.maintenance_task_timeout = Duration::ZERO;
    }
    config
}

fn cache<K: 'static, V>(
    settings: &Settings<K, V>,
    room: Option<usize>,
    capacity: Option<u64>,
    clock: &Elapsed,
) -> Cache<K, V> {
    let has_listener = settings.listener.is_some();
    let mut expirations = ExpirationPolicy::default();
    if let Some(duration) = settings.time_to_live {
        expirations.set_time_to_live(duration);
    }
    if let Some(duration) = settings.time_to_idle {
        expirations.set_time_to_idle(duration);
    }
    if let Some(expiry) = &settings.expiry {
        expirations.set_expiry(Asked {
            expiry: Arc::clone(expiry),
            mark: clock.mark.clone(),
            start: clock.start,
        });
    }
    let weigher = settings.weigher.clone();
    let engine = BaseCache::new(
        Global,
        None,
        capacity,
        room,
        Carried,
        weigher.map(|weigher| Weighing::new(weigher, capacity, clock.mark.clone())),
        settings.eviction_policy,
        Some(CountingListener::new(Teller::new(has_listener))),
        expirations,
        housekeeping(has_listener),
        settings.takes_closures,
        clock.read(),
        1,
    );
    Cache::new(engine.unwrap_or_else(|_| panic!("no memory for the initial capacity of a cache")))
}
