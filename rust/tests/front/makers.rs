//! Makers of a value and closures of an entry: who waits for whom, what they share, and what they may ask for.

use crate::waits::{Watched, ends, watched, with_one_who_waits};
use ravulemis::Entry;
use ravulemis::ops::compute::Op;
use ravulemis::sync::Cache;
use std::panic::{AssertUnwindSafe, catch_unwind};
use std::sync::{Arc, Barrier};
use std::thread;

const OWN_KEY: &str = "a maker or closure asked for its own key, by a call that waits for it";

/// What the panic of a call says.
fn panic_of<R>(call: impl FnOnce() -> R) -> Option<String> {
    let panic = catch_unwind(AssertUnwindSafe(call)).err()?;
    let text = panic.downcast_ref::<&str>().map(ToString::to_string);
    text.or_else(|| panic.downcast_ref::<String>().cloned())
}

#[test]
fn makers_of_different_errors_run_at_the_same_time() {
    assert!(ends(|| {
        let (cache, both) = (Cache::<u32, u32>::new(100), Barrier::new(2));
        thread::scope(|scope| {
            let number = scope.spawn(|| {
                cache.try_get_with(1, || {
                    both.wait();
                    Err(7)
                })
            });
            let text = scope.spawn(|| {
                cache.try_get_with(1, || {
                    both.wait();
                    Err("refused")
                })
            });
            assert_eq!(number.join().unwrap(), Err(Arc::new(7)));
            assert_eq!(text.join().unwrap(), Err(Arc::new("refused")));
        });
        let stats = cache.stats();
        assert_eq!((stats.misses, stats.load_failures, cache.get(&1)), (2, 2, None));
    }));
}

#[test]
fn one_who_waits_shares_that_there_is_nothing() {
    let cache = Cache::<Watched, u32>::new(100);
    let answers = with_one_who_waits(
        &cache,
        |cache, key, wait| {
            cache.optionally_get_with(key, || {
                wait();
                None
            })
        },
        |cache, key| cache.optionally_get_with(key, || unreachable!("a second maker")),
    );
    assert_eq!(answers, (None, None));
    let stats = cache.stats();
    assert_eq!((stats.misses, stats.loads, stats.load_failures), (2, 0, 1));
}

#[test]
fn the_entry_of_one_who_waited_is_not_fresh() {
    let cache = Cache::<Watched, u32>::new(100);
    let (made, shared) = with_one_who_waits(
        &cache,
        |cache, key, wait| {
            cache.entry(key).or_insert_with(|| {
                wait();
                7
            })
        },
        |cache, key| cache.entry(key).or_insert_with(|| unreachable!("a second maker")),
    );
    let told = [made, shared].map(|it| (it.is_fresh(), it.is_old_value_replaced(), it.into_value()));
    assert_eq!(told, [(true, false, 7), (false, false, 7)]);
    assert_eq!(cache.stats().loads, 1);
}

#[test]
fn the_value_that_is_not_to_be_replaced_is_handed_out() {
    let (cache, mut tests) = (Cache::<u32, _>::new(100), 0);
    cache.insert(1, 'a');
    // First before the maker's turn, and then in it: meanwhile another value comes.
    let replaces = |_: &char| {
        tests += 1;
        if tests == 2 {
            cache.insert(1, 'b');
        }
        tests == 1
    };
    let entry = cache
        .entry(1)
        .or_insert_with_if(|| unreachable!("a value that stays"), replaces);
    assert_eq!((entry.is_fresh(), entry.into_value(), tests), (false, 'a', 2));
    assert_eq!(cache.get(&1), Some('b'));
}

#[test]
fn a_load_ends_after_what_came_for_its_key_meanwhile() {
    type Call = fn(&Cache<u32, u32>);
    let calls: [(&str, Call, u64); 5] = [
        ("invalidate", |it| it.invalidate(&1), 0),
        ("remove", |it| assert_eq!(it.remove(&1), None), 0),
        ("invalidate_all", |it| it.invalidate_all(), 0),
        (
            "invalidate_entries_if",
            |it| _ = it.invalidate_entries_if(|_, _| true).unwrap(),
            0,
        ),
        ("insert", |it| it.insert(1, 8), 1),
    ];
    for (name, call, replaced) in calls {
        let cache = Cache::<u32, u32>::builder().support_invalidation_closures().build();
        let other = cache.clone();
        let make = || {
            assert!(ends(move || call(&other)), "{name}");
            7
        };
        assert_eq!((cache.get_with(1, make), cache.get(&1)), (7, Some(7)), "{name}");
        cache.run_pending_tasks();
        assert_eq!((cache.get(&1), cache.entry_count()), (Some(7), 1), "{name}");
        assert_eq!((cache.stats().loads, cache.stats().replaced), (1, replaced), "{name}");
    }
}

#[test]
fn a_closure_that_panics_gives_its_turn_to_one_who_waits() {
    let cache = Cache::<Watched, u32>::new(100);
    let (first, second) = with_one_who_waits(
        &cache,
        |cache, key, wait| {
            panic_of(|| {
                cache.entry(key).and_compute_with(|_| {
                    wait();
                    panic!("a closure that panics")
                })
            })
        },
        |cache, key| {
            let put = |there: Option<Entry<Watched, u32>>| {
                assert!(there.is_none());
                Op::Put(7)
            };
            cache.entry(key).and_compute_with(put).unwrap().into_value()
        },
    );
    assert_eq!((first.as_deref(), second), (Some("a closure that panics"), 7));
    assert_eq!(cache.get(&watched(1).0), Some(7));
}

// Calls of each kind for a key without a value.
fn goes_on(cache: &Cache<u32, u32>) {
    assert_eq!(cache.optionally_get_with(1, || None), None);
    assert_eq!(cache.try_get_with(1, || Err("no")), Err(Arc::new("no")));
    assert_eq!(cache.get_with(1, || 7), 7);
    let entry = cache
        .entry(1)
        .and_upsert_with(|old| old.map_or(0, Entry::into_value) + 1);
    assert_eq!((entry.into_value(), cache.remove(&1)), (8, Some(8)));
}

#[test]
fn a_maker_or_closure_that_asks_for_its_own_key_panics() {
    type Call = fn(&Cache<u32, u32>);
    let calls: [(&str, Call); 12] = [
        ("get_with", |it| {
            it.get_with(1, || it.get_with(1, || 0));
        }),
        ("get_with_by_ref", |it| {
            it.get_with_by_ref(&1, || it.get_with_by_ref(&1, || 0));
        }),
        ("get_with by way of another key", |it| {
            it.get_with(1, || it.get_with(2, || it.get_with(1, || 0)));
        }),
        ("get_with in or_insert_with", |it| {
            it.entry(1).or_insert_with(|| it.get_with(1, || 0));
        }),
        ("or_insert in get_with", |it| {
            it.get_with(1, || it.entry(1).or_insert(0).into_value());
        }),
        ("optionally_get_with", |it| {
            it.optionally_get_with(1, || it.optionally_get_with(1, || None));
        }),
        ("try_get_with", |it| {
            let again = || it.try_get_with(1, || Err("no")).map_err(|error| *error);
            _ = it.try_get_with(1, again);
        }),
        ("or_try_insert_with", |it| {
            let again = || it.entry(1).or_try_insert_with(|| Err("no"));
            _ = it
                .entry(1)
                .or_try_insert_with(|| again().map(Entry::into_value).map_err(|error| *error));
        }),
        ("and_upsert_with", |it| {
            let again = || it.entry(1).and_upsert_with(|_| 0).into_value();
            it.entry(1).and_upsert_with(|_| again());
        }),
        ("and_compute_with", |it| {
            let again = || it.entry_by_ref(&1).and_compute_with(|_| Op::Nop);
            it.entry(1).and_compute_with(|_| {
                again();
                Op::Nop
            });
        }),
        ("and_try_compute_with", |it| {
            let again = || it.entry(1).and_try_compute_with(|_| Err("no"));
            _ = it.entry(1).and_try_compute_with(|_| again().map(|_| Op::Nop));
        }),
        ("and_upsert_with in and_compute_with by way of another key", |it| {
            let again = || it.entry(1).and_upsert_with(|_| 0).into_value();
            let other = || it.entry(2).and_upsert_with(|_| again()).into_value();
            it.entry(1).and_compute_with(|_| Op::Put(other()));
        }),
    ];
    for (name, call) in calls {
        let cache = Cache::<u32, u32>::new(100);
        let asked = cache.clone();
        let ended = ends(move || {
            assert_eq!(panic_of(|| call(&asked)).as_deref(), Some(OWN_KEY));
            assert_eq!(asked.iter().count(), 0);
            goes_on(&asked);
        });
        assert!(ended, "{name}");
        assert!(ends(move || goes_on(&cache)), "{name}, and another thread after it");
    }
}

#[test]
fn one_who_waits_is_next_where_a_maker_asked_for_its_own_key() {
    let cache = Cache::<Watched, u32>::new(100);
    let (first, second) = with_one_who_waits(
        &cache,
        |cache, key, wait| {
            panic_of(|| {
                cache.get_with(key.clone(), || {
                    wait();
                    cache.get_with(key, || 0)
                })
            })
        },
        |cache, key| cache.get_with(key, || 7),
    );
    assert_eq!((first.as_deref(), second), (Some(OWN_KEY), 7));
    assert_eq!((cache.stats().loads, cache.stats().load_failures), (1, 1));
}

#[test]
fn a_maker_that_asked_for_its_own_key_may_go_on() {
    let cache = Cache::<Watched, u32>::new(100);
    let answers = with_one_who_waits(
        &cache,
        |cache, key, wait| {
            cache.get_with(key.clone(), || {
                wait();
                assert_eq!(panic_of(|| cache.get_with(key, || 0)).as_deref(), Some(OWN_KEY));
                7
            })
        },
        |cache, key| cache.get_with(key, || unreachable!("a second maker")),
    );
    assert_eq!(answers, (7, 7));
    assert_eq!((cache.stats().loads, cache.stats().load_failures), (1, 0));
}

#[test]
fn a_maker_or_closure_may_ask_for_its_own_key_by_a_call_of_another_kind() {
    type Call = fn(&Cache<u32, u32>) -> u32;
    let calls: [(&str, Call); 5] = [
        ("get_with in and_compute_with", |it| {
            let put = |_| Op::Put(it.get_with(1, || 7) + 1);
            it.entry(1).and_compute_with(put).unwrap().into_value()
        }),
        ("and_upsert_with in get_with", |it| {
            it.get_with(1, || it.entry(1).and_upsert_with(|_| 7).into_value() + 1)
        }),
        ("optionally_get_with in get_with", |it| {
            it.get_with(1, || it.optionally_get_with(1, || Some(7)).unwrap() + 1)
        }),
        ("try_get_with in get_with", |it| {
            it.get_with(1, || it.try_get_with(1, || Ok::<_, String>(7)).unwrap() + 1)
        }),
        ("try_get_with with another error", |it| {
            let number = || it.try_get_with(1, || Ok::<_, u32>(7));
            it.try_get_with(1, || Ok::<_, String>(number().unwrap() + 1)).unwrap()
        }),
    ];
    for (name, call) in calls {
        let cache = Cache::<u32, u32>::new(100);
        let asked = cache.clone();
        assert!(ends(move || assert_eq!(call(&asked), 8)), "{name}");
        assert_eq!((cache.get(&1), cache.stats().replaced), (Some(8), 1), "{name}");
    }
}

#[test]
fn a_maker_or_closure_may_ask_for_another_key_and_another_cache_for_its_own() {
    assert!(ends(|| {
        let [cache, other] = [(); 2].map(|()| Cache::<Watched, u32>::new(100));
        let [one, two] = [1, 2].map(|number| watched(number).0);
        let make = || cache.get_with(two.clone(), || 3) + other.get_with(one.clone(), || 4);
        assert_eq!(cache.get_with(one.clone(), make), 7);
        let add = |cache: &Cache<Watched, u32>, key: &Watched| {
            let entry = cache
                .entry_by_ref(key)
                .and_upsert_with(|old| old.map_or(0, Entry::into_value) + 1);
            entry.into_value()
        };
        let entry = cache
            .entry_by_ref(&one)
            .and_upsert_with(|_| add(&cache, &two) + add(&other, &one));
        assert_eq!(entry.into_value(), 9);
    }));
}
