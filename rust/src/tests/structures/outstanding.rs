//! Tests of `Outstanding`: items that are handed out under tickets, beside a map of them.

use super::{Growing, filled, made, refuse_each};
use crate::engine::moka_structures::Outstanding;
use crate::support::alloc::{AllocError, Global};
use crate::tests::allocator::counting;
use std::collections::BTreeMap;

/// The same items in both, by their tickets.
struct Both {
    out: Outstanding<u64>,
    map: BTreeMap<u64, u64>,
    /// How many were handed out: no room is promised for those that came back.
    handed_out: usize,
}

impl Both {
    fn new() -> Self {
        Both {
            out: made(|| Outstanding::new(Global)),
            map: BTreeMap::new(),
            handed_out: 0,
        }
    }

    fn take(&mut self, ticket: u64) {
        assert_eq!(self.out.take(ticket), self.map.remove(&ticket), "ticket {ticket}");
    }
}

impl Growing for Both {
    fn used(&self) -> usize {
        self.handed_out
    }

    fn reserve(&mut self, additional: usize) -> Result<(), AllocError> {
        self.out.reserve(additional)
    }

    /// Hands an item out, although memory for it may be refused. Others come back.
    fn add(&mut self, ticket: u64) {
        counting(true, || self.out.hand_out(ticket, 10 * ticket));
        self.map.insert(ticket, 10 * ticket);
        self.handed_out += 1;
        self.assert_alike();
        match ticket % 7 {
            0 => self.take(ticket),
            1 | 2 => self.take(ticket / 2),
            _ => {}
        }
    }

    fn assert_alike(&self) {
        for ticket in 0..=self.handed_out as u64 {
            assert_eq!(self.out.get(ticket), self.map.get(&ticket).copied(), "ticket {ticket}");
        }
        assert_eq!(self.out.oldest(), self.map.keys().next().copied());
        assert_eq!(self.out.len(), self.map.len());
        assert_eq!(self.out.is_empty(), self.map.is_empty());
    }
}

#[test]
fn items_come_back_even_after_a_refused_growth() {
    refuse_each(|| {
        let mut both = filled(Both::new(), 300);
        let left = both.map.clone();
        left.keys().for_each(|&ticket| both.take(ticket));
        both.assert_alike();
        left
    });
}
