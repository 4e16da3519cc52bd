//! Tests of `moka_table`, beside a map of its rows. `random_store` has others, of the store that is built on it.

use super::{Growing, filled, refuse_each, unasked};
use crate::engine::moka_parts::records::Record;
use crate::engine::moka_table::table::RecordTable;
use crate::support::alloc::{AllocError, Global};
use crate::tests::parts::record;
use std::collections::BTreeMap;

/// A table, and the number at each place.
struct Both {
    table: RecordTable<u64, u64>,
    numbers: BTreeMap<usize, u64>,
    /// How many rows have fitted since the last one was added.
    capacity: usize,
}

impl Both {
    fn new() -> Self {
        Both {
            table: RecordTable::new(Global),
            numbers: BTreeMap::new(),
            capacity: 0,
        }
    }

    fn insert(&mut self, number: u64) {
        let record = Record {
            number,
            ..record(number, 10 * number)
        };
        let place = unasked(|| self.table.insert(record));
        assert_eq!(self.numbers.insert(place, number), None, "place {place} was in use");
    }

    fn remove(&mut self, place: usize) {
        assert_eq!(Some(self.table.take(place).number), self.numbers.remove(&place));
        self.table.forget(place);
    }
}

impl Growing for Both {
    fn used(&self) -> usize {
        self.numbers.len()
    }

    fn reserve(&mut self, additional: usize) -> Result<(), AllocError> {
        self.table.reserve(additional)
    }

    fn add(&mut self, number: u64) {
        self.capacity = self.table.capacity();
        self.insert(2 * number);
        if !number.is_multiple_of(4) {
            self.insert(2 * number + 1);
            self.remove(number as usize / 2);
        }
    }

    fn assert_alike(&self) {
        for place in 0..self.capacity {
            let number = self.numbers.get(&place).copied();
            assert_eq!(self.table.number(place), number, "place {place}");
            let value = number
                .and_then(|number| self.table.find(place, number))
                .map(|it| *it.value());
            assert_eq!(value, number.map(|it| 10 * it), "place {place}");
        }
        assert_eq!(self.table.len(), self.numbers.len());
        assert_eq!(self.table.capacity(), self.capacity);
    }
}

#[test]
fn is_as_it_was_after_a_refused_growth() {
    refuse_each(|| {
        let both = filled(Both::new(), 300);
        (both.numbers, both.capacity)
    });
}
