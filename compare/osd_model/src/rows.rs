//! Sets of code rows.

use core::iter::successors;

use crate::draw::END_OF_LINE;
use crate::{RamWords, RAM_WORDS};

/// A set of code rows, each named by the RAM word it starts at.
pub(crate) struct RowSet([u64; RAM_WORDS / 64]);

impl RowSet {
    pub(crate) const EMPTY: RowSet = RowSet([0; RAM_WORDS / 64]);

    #[inline]
    pub(crate) fn insert(&mut self, row: u16) {
        self.0[usize::from(row / 64) % (RAM_WORDS / 64)] |= 1 << (row % 64);
    }

    pub(crate) fn insert_all(&mut self, rows: &RowSet) {
        for (bits, more) in self.0.iter_mut().zip(rows.0) {
            *bits |= more;
        }
    }

    #[inline]
    pub(crate) fn contains(&self, row: usize) -> bool {
        self.0[row / 64 % (RAM_WORDS / 64)] >> (row % 64) & 1 != 0
    }

    /// Does a row of the set, of at most `codes` codes, read this word as a
    /// code? Goes back from the word over all starts that would reach it.
    pub(crate) fn read_word(&self, ram: &RamWords, codes: usize, word: u16) -> bool {
        let mut start = usize::from(word) % RAM_WORDS;
        for _ in 0..codes {
            if self.contains(start) {
                return true;
            }
            start = (start + RAM_WORDS - 1) % RAM_WORDS;
            if ram[start][1] == END_OF_LINE {
                return false;
            }
        }
        false
    }

    /// Does a row of the set hold a code with this high byte? Each row is
    /// searched only as far as the next row's start: that one sees the rest,
    /// and so no word is visited twice.
    pub(crate) fn use_character(&self, ram: &RamWords, codes: usize, high: u8) -> bool {
        let mut starts = self.starts();
        let Some(first) = starts.next() else {
            return false;
        };
        let mut row = first;
        for next in starts {
            if row_uses_character(ram, row, codes.min(next - row), high) {
                return true;
            }
            row = next;
        }
        row_uses_character(ram, row, codes.min(first + RAM_WORDS - row), high)
    }

    /// All rows of at most `codes` codes that hold one with this high byte.
    #[cold]
    #[inline(never)]
    pub(crate) fn using(ram: &RamWords, codes: u16, high: u8) -> RowSet {
        let mut using = RowSet::of_high(ram, high);
        let mut open = RowSet::of_high(ram, END_OF_LINE);
        open.0.iter_mut().for_each(|bits| *bits = !*bits);
        let mut seen = 1;
        while seen < codes && codes > 0 {
            let more = seen.min(codes - seen);
            let further = using.ahead(more);
            let open_further = open.ahead(more);
            for i in 0..8 {
                using.0[i] |= open.0[i] & further.0[i];
                open.0[i] &= open_further.0[i];
            }
            seen += more;
        }
        if codes == 0 { return RowSet::EMPTY }
        using
    }

    fn of_high(ram: &RamWords, high: u8) -> RowSet {
        let flags = ram.map(|word| u8::from(word[1] == high));
        let mut set = RowSet::EMPTY;
        for (bits, flags) in set.0.iter_mut().zip(flags.as_chunks::<64>().0) {
            let mut bytes = [0; 8];
            for (byte, eight) in bytes.iter_mut().zip(flags.as_chunks().0) {
                *byte = (u64::from_le_bytes(*eight).wrapping_mul(0x0102_0408_1020_4080) >> 56) as u8;
            }
            *bits = u64::from_le_bytes(bytes);
        }
        set
    }

    fn ahead(&self, words: u16) -> RowSet {
        let mut set = RowSet::EMPTY;
        for i in 0..8 {
            set.0[i] = self.0[i] >> words | self.0[(i + 1) % 8] << (64 - words);
        }
        set
    }

    /// The rows in ascending order.
    #[inline]
    fn starts(&self) -> impl Iterator<Item = usize> + '_ {
        self.0.iter().enumerate().flat_map(|(index, &bits)| {
            let rest = |bits: u64| (bits != 0).then_some(bits);
            successors(rest(bits), move |bits| rest(bits & (bits - 1))).map(move |bits| 64 * index + bits.trailing_zeros() as usize)
        })
    }
}

#[inline]
pub(crate) fn row_uses_character(ram: &RamWords, row: usize, codes: usize, high: u8) -> bool {
    for place in row..row + codes {
        match ram[place % RAM_WORDS][1] {
            END_OF_LINE => return false,
            code if code == high => return true,
            _ => {}
        }
    }
    false
}

/// How many
#[cold]
#[inline(never)]
pub(crate) fn reach(ram: &RamWords, codes: u16, word: u16) -> u16 {
    let word = usize::from(word);
    (1..codes).find(|&back| ram[(word + RAM_WORDS - usize::from(back)) % RAM_WORDS][1] == END_OF_LINE).unwrap_or(codes)
}
