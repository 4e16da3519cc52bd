//! Tests of `moka_wheel`: the timer wheel beside a map of its timers, also at moments that go back.

use super::{Growing, Random, filled, made, refuse_each, unasked};
use crate::engine::moka_wheel::TimerWheel;
use crate::support::alloc::{AllocError, Global};
use std::collections::BTreeMap;

const STEPS: u64 = 200;

/// All slots are below this: they come behind 2,049 heads of the wheel's lists, and are used again.
const SLOTS: u32 = 6_144;

/// Mostly a moment on or beside the border of one of so many levels.
fn moment(random: &mut Random, levels: u64) -> u64 {
    let border = 1 << (8 * random.below(levels));
    let byte = random.below(256);
    match random.below(16) {
        0 => 0,
        1 if levels == 8 => u64::MAX - byte,
        2..=4 => border - 1,
        5..=7 => border,
        8..=10 => border + 1,
        11..=13 => border.wrapping_mul(byte),
        _ => random.next(),
    }
}

/// A wheel, and the number and the moment of the timer in each slot.
struct Both {
    wheel: TimerWheel,
    timers: BTreeMap<u32, (u64, u64)>,
}

impl Both {
    fn new() -> Self {
        Both {
            wheel: made(|| TimerWheel::new(Global)),
            timers: BTreeMap::new(),
        }
    }

    fn schedule(&mut self, number: u64, at: u64) {
        self.wheel.reserve(1).expect("memory");
        let slot = unasked(|| self.wheel.schedule(number, at));
        assert!((1..SLOTS).contains(&slot), "slot {slot}");
        assert_eq!(self.timers.insert(slot, (number, at)), None, "slot {slot} was in use");
    }

    /// The slot of a timer, counted round.
    fn slot(&self, number: u64) -> u32 {
        let place = number as usize % self.timers.len();
        *self.timers.keys().nth(place).expect("a timer")
    }

    fn reschedule(&mut self, slot: u32, at: u64) {
        self.wheel.reschedule(slot, at);
        self.timers.entry(slot).and_modify(|timer| timer.1 = at);
    }

    fn deschedule(&mut self, slot: u32) {
        let number = self.wheel.deschedule(slot);
        assert_eq!(self.timers.remove(&slot).map(|timer| timer.0), Some(number));
    }

    /// Takes out all timers that are due, and no others.
    fn advance_to(&mut self, now: u64) {
        while let Some(due) = self.wheel.advance(now) {
            assert!(due.at <= now, "due at {}, but taken out at {now}", due.at);
            assert_eq!(self.timers.remove(&due.slot), Some((due.number, due.at)));
        }
        assert!(self.timers.values().all(|&(_, at)| at > now), "left at {now}");
    }

    fn step(&mut self, random: &mut Random, number: u64) {
        let at = moment(random, 8);
        let now = moment(random, 8 * number / STEPS + 1);
        let slot = self.timers.keys().nth(random.below(8) as usize).copied();
        match (random.below(8), slot) {
            (0..=3, _) => self.schedule(number, at),
            (4, Some(slot)) => self.reschedule(slot, at),
            (5, Some(slot)) => self.deschedule(slot),
            _ => self.advance_to(now),
        }
        self.assert_alike();
    }
}

impl Growing for Both {
    fn used(&self) -> usize {
        self.timers.len()
    }

    fn reserve(&mut self, additional: usize) -> Result<(), AllocError> {
        self.wheel.reserve(additional)
    }

    fn add(&mut self, number: u64) {
        let at = number << (number % 52);
        self.schedule(2 * number, at);
        self.schedule(2 * number + 1, at + 1);
        match number % 8 {
            0 => self.advance_to(number),
            1 => self.reschedule(self.slot(number / 3), at),
            _ => self.deschedule(self.slot(number / 2)),
        }
    }

    /// Which timers there are shows once they are due.
    fn assert_alike(&self) {
        assert_eq!(self.wheel.len(), self.timers.len());
    }
}

#[test]
fn takes_out_just_what_is_due() {
    let mut random = Random(1);
    for _ in 0..50 {
        let mut both = Both::new();
        for number in 0..STEPS {
            both.step(&mut random, number);
        }
        // More timers than slots can name are refused, which changes nothing.
        assert!(both.wheel.reserve(1 << 32).is_err());
        both.advance_to(u64::MAX);
        assert_eq!(both.wheel.len(), 0);
    }
}

#[test]
fn is_as_it_was_after_a_refused_growth() {
    refuse_each(|| {
        // Room for the heads of the lists is doubled at once, and then after 2,049 timers.
        let mut both = filled(Both::new(), 3_000);
        let timers = both.timers.clone();
        both.advance_to(u64::MAX);
        both.assert_alike();
        timers
    });
}
