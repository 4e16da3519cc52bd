//! Values that are being made: one maker for all that wait on a key.

use crate::notices::{Awaited, Waits, locked};
use std::any::{Any, TypeId};
use std::sync::{Arc, Condvar, Mutex, MutexGuard, PoisonError};
use std::thread::{self, ThreadId};

/// What a maker came to.
pub(crate) enum Outcome<V> {
    /// A value, with whether it was made now.
    Made { value: V, is_fresh: bool },
    /// No value, by the maker's choice.
    Nothing,
    /// An error, which all that wait share.
    Failed(Arc<dyn Any + Send + Sync>),
}

impl<V: Clone> Outcome<V> {
    // What one who waited is told: its value was made by another.
    fn told(&self) -> Self {
        match self {
            Outcome::Made { value, .. } => Outcome::Made {
                value: value.clone(),
                is_fresh: false,
            },
            Outcome::Nothing => Outcome::Nothing,
            Outcome::Failed(error) => Outcome::Failed(Arc::clone(error)),
        }
    }
}

enum State<V> {
    Going,
    Done(Arc<Outcome<V>>),
    // The maker panicked, or went without an answer for others: one of those who wait is the next.
    Left,
}

/// What is made: for a key, with its hash, by makers of one kind. An error of one type is not shared with those who ask
/// for another.
pub(crate) struct Wanted<K> {
    pub hash: u64,
    pub key: Arc<K>,
    pub kind: TypeId,
}

impl<K> Clone for Wanted<K> {
    fn clone(&self) -> Self {
        let key = Arc::clone(&self.key);
        Wanted { key, ..*self }
    }
}

impl<K: Eq> Wanted<K> {
    fn is(&self, other: &Self) -> bool {
        (self.hash, self.kind) == (other.hash, other.kind) && self.key == other.key
    }
}

struct Making<K, V> {
    wanted: Wanted<K>,
    maker: ThreadId,
    state: Mutex<State<V>>,
    ended: Condvar,
}

impl<K, V> Making<K, V> {
    // What it is in when it has ended. The maker itself would wait for ever.
    fn wait(&self) -> MutexGuard<'_, State<V>> {
        assert!(
            self.maker != thread::current().id(),
            "a maker or closure asked for its own key, by a call that waits for it"
        );
        let state = locked(&self.state);
        let ended = self.ended.wait_while(state, |state| matches!(state, State::Going));
        ended.unwrap_or_else(PoisonError::into_inner)
    }
}

/// The makers of a shard that are on their way: few, so they are in no order. The caller's `Eq` runs only if one
/// joins, and its `Hash` never, so that a panic of either cannot keep a making from ending.
pub(crate) struct Makers<K, V>(Mutex<Vec<Arc<Making<K, V>>>>);

impl<K, V> Default for Makers<K, V> {
    fn default() -> Self {
        Makers(Mutex::default())
    }
}

/// A making on its way. It ends with this, also if the maker panics.
pub(crate) struct Ending<'a, K, V> {
    makers: &'a Makers<K, V>,
    making: Arc<Making<K, V>>,
    // In this order: when none waits for this thread it makes the waits that it has left out.
    _awaited: Awaited,
    _waits: Waits,
}

impl<'a, K, V> Ending<'a, K, V> {
    fn of(makers: &'a Makers<K, V>, making: Arc<Making<K, V>>) -> Self {
        let _awaited = Awaited::new();
        Ending {
            makers,
            making,
            _awaited,
            _waits: Waits,
        }
    }

    /// Who asks from now on does not join.
    pub fn close(&self) {
        locked(&self.makers.0).retain(|making| !Arc::ptr_eq(making, &self.making));
    }

    // Whether another waits, once none can join.
    fn is_awaited(&self) -> bool {
        Arc::strong_count(&self.making) > 1
    }
}

impl<K, V> Drop for Ending<'_, K, V> {
    fn drop(&mut self) {
        self.close();
        let mut state = locked(&self.making.state);
        if matches!(*state, State::Going) {
            *state = State::Left;
        }
        self.making.ended.notify_all();
    }
}

impl<K: Eq, V: Clone> Makers<K, V> {
    // The making of what is wanted, and whether the caller is its maker.
    fn join(&self, wanted: &Wanted<K>) -> (Arc<Making<K, V>>, bool) {
        let mut makers = locked(&self.0);
        if let Some(making) = makers.iter().find(|making| making.wanted.is(wanted)) {
            return (Arc::clone(making), false);
        }
        let making = Arc::new(Making {
            wanted: wanted.clone(),
            maker: thread::current().id(),
            state: Mutex::new(State::Going),
            ended: Condvar::new(),
        });
        makers.push(Arc::clone(&making));
        (making, true)
    }

    /// The outcome of `make`, which is called by one of those who want it at a time; the others wait for it. If it
    /// panics or finds a value, one of them is the next: what was found may be gone when another asks.
    ///
    /// # Panics
    /// If `make` calls this for the same.
    pub fn once(&self, wanted: &Wanted<K>, make: impl FnOnce(&Ending<'_, K, V>) -> Outcome<V>) -> Outcome<V> {
        loop {
            let (making, is_maker) = self.join(wanted);
            if is_maker {
                let ending = Ending::of(self, making);
                let outcome = make(&ending);
                ending.close();
                let is_found = matches!(outcome, Outcome::Made { is_fresh: false, .. });
                if !is_found && ending.is_awaited() {
                    let told = Arc::new(outcome.told());
                    *locked(&ending.making.state) = State::Done(told);
                }
                return outcome;
            }
            let outcome = match &*making.wait() {
                State::Done(outcome) => Arc::clone(outcome),
                State::Going | State::Left => continue,
            };
            // The others need not wait for this clone.
            return outcome.told();
        }
    }

    /// Calls `change` when no other that was called by this for the key is on its way.
    ///
    /// # Panics
    /// If `change` calls this for the same key.
    pub fn alone<R>(&self, hash: u64, key: Arc<K>, change: impl FnOnce() -> R) -> R {
        let kind = TypeId::of::<Makers<(), ()>>();
        let wanted = Wanted { hash, key, kind };
        loop {
            let (making, is_maker) = self.join(&wanted);
            if is_maker {
                let _ending = Ending::of(self, making);
                return change();
            }
            drop(making.wait());
        }
    }
}
