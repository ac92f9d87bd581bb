//! What was seen of spacings of no lines: descriptors that were passed over, and the plain rest of frames.

use crate::library::{NEXT_DESCRIPTOR, STRIP};
use crate::pages::RAM;
use std::ops::AddAssign;

/// Byte 26 of a record: 512 descriptors in a row were passed over.
const PLAIN_REST: u8 = 8;

/// How many lines and questions there were.
#[derive(Clone, Copy, Default)]
pub struct ZeroSpacings {
    /// Lines that passed over descriptors and came to one that has lines.
    pub passed: u64,
    /// Lines that passed over all 512.
    pub met: u64,
    /// Lines in the plain rest, behind such a line.
    pub rest: u64,
    /// Questions for cells and pixels while the record is in the plain rest.
    pub asked: u64,
}

impl ZeroSpacings {
    /// A line that was drawn: the record before and after it, and the cells that it read.
    pub fn line(&mut self, before: &[u8], after: &[u8], reads: u32) {
        let [from, to] =
            [before, after].map(|record| usize::from(record[NEXT_DESCRIPTOR]) + 256 * usize::from(record[NEXT_DESCRIPTOR + 1]));
        let cells = (to + RAM - from % RAM) % RAM;
        if before[STRIP] & PLAIN_REST != 0 {
            self.rest += 1;
        } else if after[STRIP] & PLAIN_REST != 0 {
            self.met += 1;
        } else if cells > 2 || cells == 0 && reads >= RAM as u32 {
            self.passed += 1;
        }
    }

    pub fn question(&mut self, record: &[u8]) {
        self.asked += u64::from(record.get(STRIP).is_some_and(|flags| flags & PLAIN_REST != 0));
    }

    /// Are there any of each?
    pub fn of_all_sorts(&self) -> bool {
        [self.passed, self.met, self.rest, self.asked].iter().all(|&number| number > 0)
    }
}

impl AddAssign for ZeroSpacings {
    fn add_assign(&mut self, more: ZeroSpacings) {
        self.passed += more.passed;
        self.met += more.met;
        self.rest += more.rest;
        self.asked += more.asked;
    }
}
