//! Which of the frame's remaining lines read a RAM cell.
//!
//! Nothing is drawn for the answer, and no line is looked at by itself: the
//! strips are walked, each in constant time. All lines of a strip read the cell
//! as a code, or those that show its slice read it as such, or none does.
//! Descriptors repeat after a round of RAM, and so do their lines: the first
//! round is walked and the frame's last one, and what lies between is skipped.

use core::ops::Range;

use crate::cell::UserSlice;
use crate::frame::{Characters, Descriptor, Frame, Steps, Strip};
use crate::registers::Registers;
use crate::rows::{reach, row_uses_character, RowSet};
use crate::{RamWords, RAM_WORDS};

/// The remaining lines that read a cell, counted from 0 for the next line.
#[derive(Clone, Copy, PartialEq, Eq, Debug)]
pub struct Touched {
    /// The first that reads it, in whatever role.
    pub first: u16,
    /// The last that does.
    pub last: u16,
    /// Does any read it as descriptor, whatever else reads it?
    pub as_descriptor: bool,
}

pub(crate) fn touched(registers: &Registers, frame: &Frame, ram: &RamWords, cell: u16) -> Option<Touched> {
    if frame.left == 0 || frame.in_plain_rest() {
        return None;
    }
    let mut walk = Walk::new(registers, frame, ram, cell);
    walk.strip_on_screen(frame.strip);
    walk.descriptors(usize::from(frame.next_descriptor()));
    walk.touched()
}

/// The walk over the frame's remaining strips.
struct Walk<'a> {
    rows: Rows<'a>,
    slice: UserSlice,
    /// CH as it stands.
    height: u8,
    steps: Steps,
    /// The line at which the next strip begins.
    line: u32,
    /// Lines of the frame left.
    end: u32,
    /// Lines that read the cell, from the first to the last; none yet if empty.
    span: Range<u32>,
    as_descriptor: bool,
}

impl<'a> Walk<'a> {
    fn new(registers: &Registers, frame: &Frame, ram: &'a RamWords, cell: u16) -> Walk<'a> {
        let codes = if registers.display_on() { registers.codes_per_line() } else { 0 };
        let mut slice = UserSlice::at(cell);
        if !has_code(ram, slice.code) { slice = UserSlice::at(1023) }
        let height = registers.height();
        let steps = slice.steps(height);
        Walk {
            rows: Rows { ram, codes, word: cell / 2, reach: None, character: slice.code, using: None, looks: 0 },
            slice,
            height,
            steps,
            line: 0,
            end: u32::from(frame.left),
            span: u32::MAX..0,
            as_descriptor: false,
        }
    }

    /// What is left of the strip on screen, with its own height.
    fn strip_on_screen(&mut self, strip: Strip) {
        if let Strip::Characters(characters) = strip {
            let steps = self.slice.steps(characters.height);
            self.characters(characters, steps);
        }
        self.line += u32::from(strip.lines_left());
    }

    /// All other strips.
    fn descriptors(&mut self, next: usize) {
        let first = self.line;
        self.round(next);
        let lines = self.line - first;
        // Were all passed over, none is read any more.
        if lines > 0 && self.line < self.end {
            // In a round the cell is read as a descriptor at least.
            let skipped = (self.end - self.line) / lines * lines;
            self.line += skipped;
            self.span.end += skipped;
            self.round(next);
        }
    }

    /// A round of descriptors, as far as the frame goes.
    fn round(&mut self, next: usize) {
        let word = usize::from(self.rows.word);
        if next <= word {
            self.strips(next..word);
            self.descriptor();
            self.strips(word..RAM_WORDS);
            self.strips(0..next);
        } else {
            self.strips(next..RAM_WORDS);
            self.strips(0..word);
            self.descriptor();
            self.strips(word..next);
        }
    }

    fn descriptor(&mut self) {
        self.as_descriptor |= self.line < self.end;
        self.touch(0..1);
    }

    fn strips(&mut self, words: Range<usize>) {
        for &word in &self.rows.ram[words] {
            if self.line >= self.end {
                return;
            }
            let strip = Descriptor::of(word).strip(self.height);
            if let Strip::Characters(characters) = strip {
                self.characters(characters, self.steps);
            }
            self.line += u32::from(strip.lines_left());
        }
    }

    /// The lines of a strip that read the cell as a code or as a slice.
    #[inline(always)]
    fn characters(&mut self, strip: Characters, steps: Steps) {
        if !strip.enabled {
            return;
        }
        let lines = strip.lines_showing(steps);
        if self.rows.reads_code(strip.row) {
            self.touch(0..Strip::Characters(strip).lines_left());
        } else if !lines.is_empty() && self.rows.uses_character(strip.row) {
            self.touch(lines);
        }
    }

    /// Lines of the next strip read the cell, as far as the frame has them.
    #[inline(always)]
    fn touch(&mut self, lines: Range<u8>) {
        let [first, end] = [lines.start, lines.end].map(|line| (self.line + u32::from(line)).min(self.end));
        if first < end {
            self.span = self.span.start.min(first)..self.span.end.max(end);
        }
    }

    fn touched(self) -> Option<Touched> {
        let Range { start: first, end } = self.span;
        (end > 0).then(|| Touched { first: first as u16, last: (end - 1) as u16, as_descriptor: self.as_descriptor })
    }
}

/// Which code rows read the cell. Found out where it is first asked.
struct Rows<'a> {
    ram: &'a RamWords,
    /// Codes of a row at the most; 0 where none is read.
    codes: u16,
    /// RAM word of the cell.
    word: u16,
    /// How many words in a row, back from the cell's own, can start a row that
    /// reads it as a code.
    reach: Option<u16>,
    /// High byte of the code of the cell's user character.
    character: u8,
    looks: u8,
    /// Rows that have such a code.
    using: Option<RowSet>,
}

impl Rows<'_> {
    #[inline(always)]
    fn reads_code(&mut self, row: u16) -> bool {
        let back = self.word.wrapping_sub(row) % RAM_WORDS as u16;
        back < self.codes && back < self.reach()
    }

    #[inline(always)]
    fn uses_character(&mut self, row: u16) -> bool {
        let (ram, codes, character) = (self.ram, self.codes, self.character);
        if self.looks < 4 {
            self.looks += 1;
            return row_uses_character(ram, row.into(), codes.into(), character);
        }
        self.using.get_or_insert_with(|| RowSet::using(ram, codes, character)).contains(row.into())
    }

    #[inline(always)]
    fn reach(&mut self) -> u16 {
        let (ram, codes, word) = (self.ram, self.codes, self.word);
        *self.reach.get_or_insert_with(|| reach(ram, codes, word))
    }
}

fn has_code(ram: &RamWords, high: u8) -> bool {
    let h = u16::from(high) << 8;
    ram.iter().fold(0, |found, &w| found | u16::from(u16::from_le_bytes(w) & 0xFF00 == h)) != 0
}
