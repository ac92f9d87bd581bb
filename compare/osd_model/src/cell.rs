//! Cell questions: does the rest of the frame read this RAM cell?
//!
//! Nothing is drawn for the answer. The strips are walked once, each in
//! constant time, and leave the set of code rows that will be shown. Whether
//! a row of that set reads the cell is then found by going over RAM at most
//! once, however many strips share or overlap their rows.

use crate::draw::{ALL_USER_CELLS, END_OF_LINE, FIRST_USER, USER_CELLS};
use crate::frame::{next_word, Descriptor, Frame, Steps, Strip};
use crate::registers::Registers;
use crate::rows::RowSet;
use crate::RamWords;

pub(crate) fn is_read(registers: &Registers, frame: &Frame, ram: &RamWords, cell: u16) -> bool {
    let word = cell / 2;
    let slice = UserSlice::at(cell);
    let mut left = frame.left;
    if left == 0 || frame.in_plain_rest() {
        return false;
    }
    let mut shown = ShownRows::NONE;
    left -= shown.add_strip(frame.strip, left, &slice);

    // This ends within 512 descriptors, passed over or not: they go round all
    // of RAM and so meet the word in question, if the frame is long enough.
    let height = registers.height();
    let mut whole = RowSet::EMPTY;
    let mut next = frame.next_descriptor();
    while left > 0 {
        if next == word {
            return true;
        }
        let descriptor = Descriptor::at(ram, next);
        next = next_word(next);
        let lines = u16::from(descriptor.lines(height));
        if lines > left {
            // The frame's end cuts this one short.
            shown.add_strip(descriptor.strip(height), left, &slice);
            break;
        }
        left -= lines;
        if descriptor.shows_codes() {
            whole.insert(descriptor.row());
        }
    }
    // Whole strips of one height all show the slice, or none does.
    let show_slice = slice.steps(height).meet(1, u16::from(height));
    shown.add_rows(&whole, show_slice);

    if !registers.display_on() {
        return false;
    }
    let codes = usize::from(registers.codes_per_line());
    shown.rows.read_word(ram, codes, word) || shown.slice_rows.use_character(ram, codes, slice.code)
}

/// Code rows that lines to come will show.
struct ShownRows {
    rows: RowSet,
    /// Those of them shown at the slice in question.
    slice_rows: RowSet,
}

impl ShownRows {
    const NONE: ShownRows = ShownRows { rows: RowSet::EMPTY, slice_rows: RowSet::EMPTY };

    /// Adds what the strip shows in the frame's `left` lines; answers the
    /// number of its lines.
    fn add_strip(&mut self, strip: Strip, left: u16, slice: &UserSlice) -> u16 {
        let lines = u16::from(strip.lines_left()).min(left);
        if let Strip::Characters(strip) = strip {
            if strip.enabled && lines > 0 {
                self.rows.insert(strip.row);
                let steps = slice.steps(strip.height);
                if steps.meet(strip.step(1), strip.step(lines)) {
                    self.slice_rows.insert(strip.row);
                }
            }
        }
        lines
    }

    fn add_rows(&mut self, rows: &RowSet, show_slice: bool) {
        self.rows.insert_all(rows);
        if show_slice {
            self.slice_rows.insert_all(rows);
        }
    }
}

/// The user character slice that a cell belongs to.
pub(crate) struct UserSlice {
    /// High byte of the character's code.
    pub(crate) code: u8,
    /// 1 to 18. None: the cell is one of a character's first two, which are
    /// never read as a slice, or lies behind all user characters.
    slice: Option<u16>,
}

impl UserSlice {
    pub(crate) fn at(cell: u16) -> UserSlice {
        let (character, place) = (cell / USER_CELLS, cell % USER_CELLS);
        if cell < ALL_USER_CELLS && place >= 2 {
            UserSlice { code: FIRST_USER + character as u8, slice: Some(place / 2) }
        } else {
            UserSlice { code: END_OF_LINE, slice: None }
        }
    }

    /// The steps at which a strip of this height shows the slice.
    pub(crate) fn steps(&self, height: u8) -> Steps {
        match self.slice {
            Some(slice) => Steps::of_slice(slice, height),
            None => Steps::NONE,
        }
    }
}
