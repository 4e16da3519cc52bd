//! Which of two equal keys is kept, handed out and told of.

use ravulemis::ops::compute::{CompResult, Op};
use ravulemis::{Entry, Expiry, RemovalCause};
use std::borrow::Borrow;
use std::cell::Cell;
use std::hash::{Hash, Hasher};
use std::sync::{Arc, mpsc};
use std::time::{Duration, Instant};

/// What keys are equal by, and a borrowed form of them.
#[derive(PartialEq, Eq, Hash)]
struct Name(u32);

/// A key whose number is not compared. The first that is put there has 1, and each later one 2.
pub struct Key {
    name: Name,
    id: u32,
}

impl PartialEq for Key {
    fn eq(&self, other: &Self) -> bool {
        self.name == other.name
    }
}

impl Eq for Key {}

impl Hash for Key {
    fn hash<H: Hasher>(&self, state: &mut H) {
        self.name.hash(state);
    }
}

impl Borrow<Name> for Key {
    fn borrow(&self) -> &Name {
        &self.name
    }
}

impl ToOwned for Name {
    type Owned = Key;

    fn to_owned(&self) -> Key {
        key(self.0, 2)
    }
}

pub fn key(name: u32, id: u32) -> Key {
    Key { name: Name(name), id }
}

/// What has a name: another borrowed form of keys, which need not be `Sync`.
trait Named {
    fn name(&self) -> Name;
}

impl Named for Key {
    fn name(&self) -> Name {
        Name(self.name.0)
    }
}

impl Named for Cell<u32> {
    fn name(&self) -> Name {
        Name(self.get())
    }
}

impl PartialEq for dyn Named + '_ {
    fn eq(&self, other: &Self) -> bool {
        self.name() == other.name()
    }
}

impl Eq for dyn Named + '_ {}

impl Hash for dyn Named + '_ {
    fn hash<H: Hasher>(&self, state: &mut H) {
        self.name().hash(state);
    }
}

impl<'a> Borrow<dyn Named + 'a> for Key {
    fn borrow(&self) -> &(dyn Named + 'a) {
        self
    }
}

impl ToOwned for dyn Named + '_ {
    type Owned = Key;

    fn to_owned(&self) -> Key {
        key(self.name().0, 2)
    }
}

const OLD: u32 = 0;
const NEW: u32 = 1;

/// The old value has expired when it is put there.
struct OldExpires;

impl Expiry<Key, u32> for OldExpires {
    fn expire_after_create(&self, _: &Key, value: &u32, _: Instant) -> Option<Duration> {
        (*value == OLD).then_some(Duration::ZERO)
    }

    fn expire_after_update(&self, _: &Key, value: &u32, _: Instant, _: Option<Duration>) -> Option<Duration> {
        (*value == OLD).then_some(Duration::ZERO)
    }
}

/// How the old value is there when the call is made.
#[derive(Clone, Copy, Debug, PartialEq)]
enum There {
    Visible,
    Invalidated,
    ByExpiry,
    // So is the new one, as soon as it is put there.
    PastTimeToLive,
}

const ALL: [There; 4] = [
    There::Visible,
    There::Invalidated,
    There::ByExpiry,
    There::PastTimeToLive,
];

impl There {
    // As what the old value leaves by a run of maintenance, or else if a new one is put there: as in moka, this does
    // not ask for its own expiry.
    fn cause(self, by_run: bool) -> RemovalCause {
        match self {
            There::ByExpiry if by_run => RemovalCause::Expired,
            There::Visible | There::ByExpiry => RemovalCause::Replaced,
            There::Invalidated => RemovalCause::Explicit,
            There::PastTimeToLive => RemovalCause::Expired,
        }
    }

    // As what leaves that is taken out at the end.
    fn last_cause(self) -> RemovalCause {
        match self {
            There::PastTimeToLive => RemovalCause::Expired,
            _ => RemovalCause::Explicit,
        }
    }
}

/// What a call is to do.
#[derive(Clone, Copy, PartialEq)]
enum Kind {
    /// Puts a value there, and makes no look-up that counts.
    Insert,
    /// Puts a value there if none is visible.
    Find,
    /// Puts a value there.
    Put,
}

/// What was seen of a call: the numbers of the keys that it handed out, that an iterator then gave, and that the
/// listener was told of, the last of them when the entry had been taken out. The latter with values.
#[derive(Debug, PartialEq)]
struct Seen {
    handed: Option<u32>,
    listed: Vec<(u32, u32)>,
    told: Vec<(u32, u32, RemovalCause)>,
}

/// What is to be seen. `runs` says that the look-up of the call makes a run of maintenance.
fn expected(kind: Kind, there: There, runs: bool, is_shared: bool) -> Seen {
    if kind == Kind::Find && there == There::Visible {
        return Seen {
            handed: Some(1),
            listed: vec![(1, OLD)],
            told: vec![(1, OLD, RemovalCause::Explicit)],
        };
    }
    // A shared cache hands out the key that is put there.
    let put = if is_shared { 2 } else { 1 };
    let has_left = runs && kind != Kind::Insert && there != There::Visible;
    let kept = if has_left { put } else { 1 };
    Seen {
        handed: (kind != Kind::Insert).then_some(put),
        listed: if there == There::PastTimeToLive {
            vec![]
        } else {
            vec![(kept, NEW)]
        },
        told: vec![(1, OLD, there.cause(has_left)), (kept, NEW, there.last_cause())],
    }
}

/// What a case came to that ended before a run of maintenance is due by time alone: one that did not is made again.
fn in_time<R>(mut case: impl FnMut() -> R) -> R {
    loop {
        let start = Instant::now();
        let seen = case();
        if start.elapsed() < Duration::from_millis(300) {
            return seen;
        }
    }
}

fn id(entry: Entry<Key, u32>) -> Option<u32> {
    Some(entry.key().id)
}

/// The tests of a cache, which is built by what this builder becomes.
macro_rules! tests {
    ($module:ident, $cache:path, $builder:expr, $is_shared:expr) => {
        mod $module {
            use super::*;
            use $cache as Cache;

            type Told = mpsc::Receiver<(u32, u32, RemovalCause)>;
            type Call = fn(&mut Cache<Key, u32>) -> Option<u32>;

            fn put_old(cache: &mut Cache<Key, u32>, there: There, reads: u32) {
                cache.insert(key(1, 1), OLD);
                for _ in 0..reads {
                    assert_eq!(cache.get(&Name(9)), None);
                }
                if there == There::Invalidated {
                    cache.invalidate_all();
                }
                assert_eq!(cache.contains_key(&Name(1)), there == There::Visible);
            }

            // A cache with the old value, and with reads that wait.
            fn with_old(there: There, reads: u32) -> (Cache<Key, u32>, Told) {
                let (sender, told) = mpsc::channel();
                let builder = $builder.eviction_listener(move |key: Arc<Key>, value, cause| {
                    sender.send((key.id, value, cause)).unwrap();
                });
                let builder = match there {
                    There::Visible | There::Invalidated => builder,
                    There::ByExpiry => builder.expire_after(OldExpires),
                    There::PastTimeToLive => builder.time_to_live(Duration::ZERO),
                };
                let mut cache = builder.build();
                put_old(&mut cache, there, reads);
                (cache, told)
            }

            fn seen(call: Call, there: There, reads: u32) -> Seen {
                let (mut cache, told) = with_old(there, reads);
                let handed = call(&mut cache);
                let listed = cache.iter().map(|(key, value)| (key.id, value)).collect();
                cache.invalidate(&Name(1));
                let told_of = told.try_iter().collect();
                cache.run_pending_tasks();
                assert!(told.try_recv().is_err(), "there was one entry of the key");
                assert_eq!((cache.entry_count(), cache.iter().count()), (0, 0));
                Seen {
                    handed,
                    listed,
                    told: told_of,
                }
            }

            #[test]
            fn the_first_key_is_kept_while_its_record_is_there() {
                let calls: [(&str, Kind, Call); 14] = [
                    ("insert", Kind::Insert, |it| {
                        it.insert(key(1, 2), NEW);
                        None
                    }),
                    ("or_insert", Kind::Find, |it| {
                        id(it.entry(key(1, 2)).or_insert(NEW))
                    }),
                    ("or_insert by a reference", Kind::Find, |it| {
                        id(it.entry_by_ref(&Name(1)).or_insert(NEW))
                    }),
                    ("or_optionally_insert_with", Kind::Find, |it| {
                        id(it.entry(key(1, 2)).or_optionally_insert_with(|| Some(NEW))?)
                    }),
                    ("or_optionally_insert_with by a reference", Kind::Find, |it| {
                        id(it
                            .entry_by_ref(&Name(1))
                            .or_optionally_insert_with(|| Some(NEW))?)
                    }),
                    ("or_try_insert_with", Kind::Find, |it| {
                        id(it.entry(key(1, 2)).or_try_insert_with(|| Ok::<_, ()>(NEW)).ok()?)
                    }),
                    ("or_try_insert_with by a reference", Kind::Find, |it| {
                        id(it
                            .entry_by_ref(&Name(1))
                            .or_try_insert_with(|| Ok::<_, ()>(NEW))
                            .ok()?)
                    }),
                    ("or_insert_with_if to find", Kind::Find, |it| {
                        id(it.entry(key(1, 2)).or_insert_with_if(|| NEW, |_| false))
                    }),
                    ("or_insert_with_if", Kind::Put, |it| {
                        id(it.entry(key(1, 2)).or_insert_with_if(|| NEW, |_| true))
                    }),
                    ("or_insert_with_if by a reference", Kind::Put, |it| {
                        id(it.entry_by_ref(&Name(1)).or_insert_with_if(|| NEW, |_| true))
                    }),
                    ("and_upsert_with", Kind::Put, |it| {
                        id(it.entry(key(1, 2)).and_upsert_with(|_| NEW))
                    }),
                    ("and_upsert_with by a reference", Kind::Put, |it| {
                        id(it.entry_by_ref(&Name(1)).and_upsert_with(|_| NEW))
                    }),
                    ("and_compute_with", Kind::Put, |it| {
                        id(it.entry(key(1, 2)).and_compute_with(|_| Op::Put(NEW)).unwrap())
                    }),
                    ("and_compute_with by a reference", Kind::Put, |it| {
                        id(it
                            .entry_by_ref(&Name(1))
                            .and_compute_with(|_| Op::Put(NEW))
                            .unwrap())
                    }),
                ];
                for (name, kind, call) in calls {
                    for there in ALL {
                        for reads in [0, 64] {
                            let seen = in_time(|| seen(call, there, reads));
                            let expected = expected(kind, there, reads > 0, $is_shared);
                            assert_eq!(seen, expected, "{name}, {there:?}, {reads} reads");
                        }
                    }
                }
            }

            #[test]
            fn a_hit_after_64_reads_makes_a_run() {
                let hit: Call = |it| id(it.entry_by_ref(&Name(1)).or_insert(NEW));
                let counts = [0, 64].map(|reads| {
                    in_time(|| {
                        let (mut cache, _told) = with_old(There::Visible, reads);
                        let before = cache.entry_count();
                        assert_eq!(hit(&mut cache), Some(1));
                        (before, cache.entry_count())
                    })
                });
                assert_eq!(counts, [(0, 0), (0, 1)]);
            }

            // The key that the closure sees, and what the call answers.
            fn computed(cache: &mut Cache<Key, u32>, op: Op<u32>) -> (Option<u32>, (&'static str, u32)) {
                let mut saw = None;
                let answer = cache.entry(key(1, 2)).and_compute_with(|there| {
                    saw = there.and_then(id);
                    op
                });
                let answered = match &answer {
                    CompResult::Inserted(entry) => ("inserted", entry.key().id),
                    CompResult::ReplacedWith(entry) => ("replaced", entry.key().id),
                    CompResult::Removed(entry) => ("removed", entry.key().id),
                    CompResult::StillNone(key) => ("still none", key.id),
                    CompResult::Unchanged(entry) => ("unchanged", entry.key().id),
                };
                (saw, answered)
            }

            #[test]
            fn a_closure_sees_the_key_that_is_kept() {
                let answered = |there, op| in_time(|| computed(&mut with_old(there, 0).0, op));
                let put = if $is_shared { 2 } else { 1 };
                assert_eq!(answered(There::Visible, Op::Nop), (Some(1), ("unchanged", 1)));
                assert_eq!(answered(There::Visible, Op::Remove), (Some(1), ("removed", 1)));
                assert_eq!(
                    answered(There::Visible, Op::Put(NEW)),
                    (Some(1), ("replaced", put))
                );
                for there in &ALL[1..] {
                    assert_eq!(answered(*there, Op::Nop), (None, ("still none", put)));
                    assert_eq!(answered(*there, Op::Remove), (None, ("still none", put)));
                    assert_eq!(answered(*there, Op::Put(NEW)), (None, ("inserted", put)));
                }
            }

            fn calls_by(it: &mut Cache<Key, u32>, name: &dyn Named) {
                assert!(it.contains_key(name));
                assert_eq!(it.get(name), Some(OLD));
                assert_eq!(it.get_with_by_ref(name, || NEW), OLD);
                assert_eq!(it.optionally_get_with_by_ref(name, || None), Some(OLD));
                assert_eq!(it.try_get_with_by_ref(name, || Err("no")).ok(), Some(OLD));
                assert_eq!(id(it.entry_by_ref(name).or_insert(NEW)), Some(1));
                assert_eq!((it.remove(name), it.get(name)), (Some(OLD), None));
                // By an owned key that is made.
                assert_eq!(id(it.entry_by_ref(name).or_insert(NEW)), Some(2));
                it.invalidate(name);
                assert!(!it.contains_key(name));
            }

            #[test]
            fn a_borrowed_form_need_not_be_sync() {
                calls_by(&mut with_old(There::Visible, 0).0, &Cell::new(1_u32));
            }
        }
    };
}

tests!(shared, ravulemis::sync::Cache, Cache::builder().shards(1), true);
tests!(owned, ravulemis::unsync::Cache, Cache::builder(), false);
