//! Tests of the engine's structures, each beside a plain one that does the same. Each allocation is refused in turn as
//! they are filled.

mod index;
mod order_list;
mod outstanding;
mod record_table;
mod sketch;
mod wheel;

use super::allocator::{asked, counting, has_refused, refusable, refusing};
use crate::support::alloc::AllocError;

/// Numbers that look random, the same in each run.
struct Random(u64);

impl Random {
    /// The next number, of 31 bits.
    fn next(&mut self) -> u64 {
        self.0 = self
            .0
            .wrapping_mul(6_364_136_223_846_793_005)
            .wrapping_add(1_442_695_040_888_963_407);
        self.0 >> 33
    }

    fn below(&mut self, bound: u64) -> u64 {
        self.next() % bound
    }
}

/// A structure that grows, beside a plain one.
pub(crate) trait Growing {
    /// How much of the room that was made is used.
    fn used(&self) -> usize;

    fn reserve(&mut self, additional: usize) -> Result<(), AllocError>;

    /// Adds a member or two, for which there is room. Others may move or leave then.
    fn add(&mut self, number: u64);

    fn assert_alike(&self);
}

/// What a call answers that asks for no memory.
fn unasked<R>(call: impl FnOnce() -> R) -> R {
    let before = asked();
    let answer = counting(true, call);
    assert_eq!(asked(), before, "memory that was asked for");
    answer
}

/// What a call answers, if need be the second one.
pub(crate) fn made<T>(new: impl Fn() -> Result<T, AllocError>) -> T {
    refusable("new", &new)
        .or_else(|_| refusable("new", &new))
        .expect("memory")
}

/// Adds members to a structure in so many steps, before each of which room is made for two to seven. A call that is
/// refused changes nothing and takes no room away, and the next one succeeds.
pub(crate) fn filled<G: Growing>(mut both: G, steps: u64) -> G {
    let mut fit = 0;
    for number in 0..steps {
        let additional = 2 + number as usize % 6;
        assert!(both.reserve(usize::MAX).is_err());
        if refusable("reserve", || both.reserve(additional)).is_err() {
            both.assert_alike();
            unasked(|| both.reserve(fit - both.used())).expect("the room that was made before");
            refusable("reserve", || both.reserve(additional)).expect("memory");
        }
        unasked(|| both.reserve(additional)).expect("the room that was made");
        fit = fit.max(both.used() + additional);
        both.add(number);
    }
    both.assert_alike();
    both
}

/// Makes calls once for each allocation that they ask for, which is refused. They end as if none were.
pub(crate) fn refuse_each<T: PartialEq>(calls: impl Fn() -> T) {
    let expected = refusing(0, &calls);
    let growths = asked();
    assert!(growths > 2, "{growths} growths");
    for growth in 1..=growths {
        assert!(refusing(growth, &calls) == expected, "growth {growth} changes the end");
        assert!(has_refused(), "growth {growth} is not asked for");
    }
}
