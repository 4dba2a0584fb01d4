//! The ops of a vertical delta, counted: every op of every list that is read, once for each plane.
use super::delta::Items;
use super::{be32, Sizes};
use crate::faults::broken;
use std::collections::BTreeSet;

/// The most ops of a column.
const MOST_IN_COLUMN: usize = 255;

/// The ops counted so far; the other fields are for wrong counts alone.
#[derive(Default)]
pub struct Count {
    ops: u64,
    seen: BTreeSet<usize>,
    left_out: bool,
}

impl Count {
    /// Goes on to the list of a plane, which begins at a place of DLTA; it may be the picture's last plane.
    pub fn list(&mut self, place: usize, last: bool) {
        if broken("ops-without-last-plane") {
            self.left_out = last;
        }
        if broken("ops-of-shared-list-once") {
            self.left_out = !self.seen.insert(place);
        }
    }

    /// Counts an op by its first byte and its rows, which may be in the last column; so many bytes of DLTA stand behind its first ones.
    pub fn op(&mut self, first: usize, rows: usize, last: bool, behind: usize) {
        let counted = match first {
            _ if cfg!(feature = "faults") && self.left_out => 0,
            _ if last && broken("ops-without-last-column") => 0,
            0 if rows == 0 && broken("ops-without-sames-of-none") => 0,
            1..=127 if broken("ops-without-skips") => 0,
            128 if broken("ops-without-uniqs-of-none") => 0,
            _ if broken("ops-of-overlap-once") && !self.seen.insert(behind) => 0,
            _ if broken("ops-by-rows") => rows as u64,
            _ => 1,
        };
        self.ops += counted;
    }

    /// Passes over a plane whose list pointer is 0.
    pub fn not_read(&mut self, columns: usize) {
        if broken("ops-of-pointer-0") {
            self.ops += 1;
        }
        if broken("ops-of-columns-not-read") {
            self.ops += columns as u64;
        }
    }

    /// Passes over the list pointers of planes that the picture doesn't have.
    pub fn not_there(&mut self, pointers: &[u8]) {
        if broken("ops-of-planes-not-there") {
            self.ops += pointers.chunks_exact(4).filter(|pointer| be32(pointer) != 0).count() as u64;
        }
    }

    /// How many they are.
    pub fn total(self) -> u64 {
        match self.ops {
            ops if broken("ops-one-less") => ops.saturating_sub(1),
            ops if broken("ops-wrap") => ops % 65_536,
            ops => ops,
        }
    }
}

/// The most ops that the lists of a delta can have, by its pointers: 255 for each column of each plane that is read.
pub fn most(dlta: &[u8], sizes: Sizes, items: Items) -> u64 {
    let read = (0..sizes.planes).filter(|plane| be32(&dlta[4 * plane..]) != 0).count();
    let in_column = if broken("most-ops-254") { MOST_IN_COLUMN - 1 } else { MOST_IN_COLUMN };
    (in_column * items.columns(sizes) * read) as u64
}
