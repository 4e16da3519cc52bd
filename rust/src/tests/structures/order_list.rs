//! Tests of `moka_structures`: the order list beside a vector of its members.

use super::{Growing, Random, filled, made, refuse_each, unasked};
use crate::engine::moka_structures::OrderList;
use crate::support::alloc::{AllocError, Global};
use std::iter::successors;

/// A slot, and the number in it.
type Member = (u32, u64);

/// The same members in a list and in a vector.
struct Both {
    list: OrderList<u64>,
    vec: Vec<Member>,
}

impl Both {
    fn new() -> Self {
        Both {
            list: made(|| OrderList::new(Global, 0)),
            vec: Vec::new(),
        }
    }

    /// The list's members, from the front to the back.
    fn members(&self) -> impl Iterator<Item = Member> + Clone {
        successors(self.list.front(), |&(slot, _)| self.list.next(slot))
    }

    fn push(&mut self, number: u64) {
        self.list.reserve(1).expect("memory");
        let slot = unasked(|| self.list.push_back(number));
        self.vec.push((slot, number));
    }

    /// Takes the member at a place, counted round, out of the vector; the list has the same one there.
    fn take(&mut self, place: usize) -> Option<Member> {
        let taken = (!self.vec.is_empty()).then(|| self.vec.remove(place % self.vec.len()));
        assert_eq!(self.members().cycle().nth(place), taken);
        taken
    }

    fn move_to_back(&mut self, place: usize) {
        if let Some((slot, number)) = self.take(place) {
            self.list.move_to_back(slot);
            self.vec.push((slot, number));
        }
    }

    fn unlink(&mut self, place: usize) {
        if let Some((slot, number)) = self.take(place) {
            assert_eq!(self.list.unlink(slot), number);
        }
    }

    /// Pushes the number, or else moves or unlinks a member.
    fn step(&mut self, random: &mut Random, number: u64) {
        let choice = random.next();
        let place = (choice / 4 % 100) as usize;
        match choice % 4 {
            0 => self.push(number),
            1 | 2 => self.move_to_back(place),
            _ => self.unlink(place),
        }
    }
}

impl Growing for Both {
    fn used(&self) -> usize {
        self.vec.len()
    }

    fn reserve(&mut self, additional: usize) -> Result<(), AllocError> {
        self.list.reserve(additional)
    }

    fn add(&mut self, number: u64) {
        self.push(number);
        if !number.is_multiple_of(4) {
            self.push(!number);
            self.move_to_back(number as usize / 3);
            self.unlink(number as usize / 2);
        }
    }

    fn assert_alike(&self) {
        // A list that goes on behind the last member must not go on for ever.
        let members: Vec<_> = self.members().take(self.vec.len() + 1).collect();
        assert_eq!(members, self.vec);
        assert_eq!(self.list.len(), self.vec.len());
        assert_eq!(self.list.is_empty(), self.vec.is_empty());
    }
}

#[test]
fn agrees_with_a_vector() {
    let mut random = Random(1);
    let mut both = Both::new();
    for number in 0..10_000 {
        both.step(&mut random, number);
        if number % 50 == 0 {
            both.assert_alike();
        }
    }
}

#[test]
fn is_as_it_was_after_a_refused_growth() {
    refuse_each(|| filled(Both::new(), 300).vec);
}
