//! Rows in slots, a hash index from id to slot, and ids and rows at random.

use std::collections::HashMap;
use std::hash::{BuildHasherDefault, Hasher};

const SLOTS: usize = 65_536;

/// So many rows a table opens with.
const ROWS: u64 = 40_000;

pub type Row = [i64; 16];

/// A row, and what else a version has: nobody reads it, but it takes as much of the caches.
#[derive(Clone, Copy)]
#[allow(dead_code)]
struct Version {
    id: u64,
    row: Row,
    birth: u64,
    death: Option<u64>,
}

/// A hash of one multiplication.
#[derive(Default)]
struct IdHasher(u64);

impl Hasher for IdHasher {
    fn finish(&self) -> u64 {
        self.0
    }

    fn write(&mut self, _: &[u8]) {}

    fn write_u64(&mut self, id: u64) {
        self.0 = (id ^ (id >> 32))
            .wrapping_mul(0x9E37_79B9_7F4A_7C15)
            .rotate_left(26);
    }
}

pub struct Table {
    slots: Vec<Option<Version>>,
    index: HashMap<u64, u32, BuildHasherDefault<IdHasher>>,
    stamp: u64,
}

impl Table {
    /// Rows 1, 2, .. in the slots 0, 1, ..
    pub fn new() -> Table {
        let mut random = Random(0);
        let mut slots: Vec<_> = (1..=ROWS)
            .map(|id| {
                Some(Version {
                    id,
                    row: random.row(),
                    birth: id,
                    death: None,
                })
            })
            .collect();
        slots.resize(SLOTS, None);
        let index = (1..=ROWS).map(|id| (id, id as u32 - 1)).collect();
        Table {
            slots,
            index,
            stamp: ROWS,
        }
    }

    pub fn get(&self, id: u64) -> Option<Row> {
        let slot = self.index.get(&id)?;
        self.slots[*slot as usize].map(|version| version.row)
    }

    /// Puts another row in place of the one of this id.
    pub fn update(&mut self, id: u64, row: Row) -> bool {
        let Some(slot) = self.index.get(&id) else {
            return false;
        };
        self.stamp += 1;
        self.slots[*slot as usize] = Some(Version {
            id,
            row,
            birth: self.stamp,
            death: None,
        });
        true
    }
}

/// Numbers at random: the same seed always gives the same ones.
pub struct Random(pub u64);

impl Random {
    /// An id of an opening row.
    pub fn id(&mut self) -> u64 {
        self.0 = self
            .0
            .wrapping_mul(0x5851_F42D_4C95_7F2D)
            .wrapping_add(0x1405_7B7E_F767_814F);
        1 + (self.0 >> 33) % ROWS
    }

    /// A row of numbers from 1 to 40,000 in six columns.
    pub fn row(&mut self) -> Row {
        let mut row = [0; 16];
        row[..6].fill_with(|| self.id() as i64);
        row
    }
}
