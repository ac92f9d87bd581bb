//! The walk of a frame: descriptors, strips, and which slice a line shows.

use core::ops::Range;

use crate::{RamWords, RAM_LEN, RAM_WORDS};

/// Lines show slices 1 to this.
pub(crate) const LAST_SLICE: u16 = 18;

/// The two bytes that define a strip.
#[derive(Clone, Copy)]
pub(crate) struct Descriptor {
    low: u8,
    high: u8,
}

impl Descriptor {
    #[inline]
    pub(crate) fn at(ram: &RamWords, word: u16) -> Descriptor {
        Descriptor::of(ram[usize::from(word) % RAM_WORDS])
    }

    #[inline]
    pub(crate) fn of([low, high]: [u8; 2]) -> Descriptor {
        Descriptor { low, high }
    }

    /// Lines of the strip, under the present CH; 0 where it is passed over.
    #[inline]
    pub(crate) fn lines(self, height: u8) -> u8 {
        if self.is_spacing() {
            self.low
        } else {
            height << u8::from(self.zoom())
        }
    }

    /// RAM word of a character strip's first code.
    #[inline]
    pub(crate) fn row(self) -> u16 {
        u16::from_be_bytes([self.high & 3, self.low]) / 2
    }

    /// A character strip that displays its codes.
    #[inline]
    pub(crate) fn shows_codes(self) -> bool {
        self.high & 0xC0 == 0xC0
    }

    #[inline]
    fn is_spacing(self) -> bool {
        self.high & 0x80 == 0
    }

    /// A spacing of no lines, which gives way to the next descriptor at once.
    #[inline]
    fn is_passed_over(self) -> bool {
        self.is_spacing() && self.low == 0
    }

    #[inline]
    fn zoom(self) -> bool {
        self.high & 0x20 != 0
    }

    /// The strip before its first line.
    #[inline]
    pub(crate) fn strip(self, height: u8) -> Strip {
        if self.is_spacing() {
            return Strip::Spacing(self.lines(height));
        }
        Strip::Characters(Characters { row: self.row(), height, zoom: self.zoom(), enabled: self.shows_codes(), drawn: 0 })
    }
}

/// A strip of characters on screen.
#[derive(Clone, Copy, PartialEq, Eq, Debug)]
pub(crate) struct Characters {
    /// RAM word of the first code.
    pub(crate) row: u16,
    /// CH as the strip's first line found it, 1 to 63.
    pub(crate) height: u8,
    /// Every step is shown on two lines (ZY).
    pub(crate) zoom: bool,
    /// Codes are read and shown at all (DE).
    pub(crate) enabled: bool,
    /// Lines already drawn.
    pub(crate) drawn: u8,
}

impl Characters {
    /// The step n of the line that comes `ahead` lines after those drawn.
    #[inline]
    pub(crate) fn step(self, ahead: u16) -> u16 {
        let line = u16::from(self.drawn) + ahead;
        if self.zoom {
            line.div_ceil(2)
        } else {
            line
        }
    }

    /// Those of its lines still to be drawn, counted from 0, that show one of
    /// these steps.
    #[inline]
    pub(crate) fn lines_showing(self, steps: Steps) -> Range<u8> {
        let [start, end] = [steps.first - 1, steps.last.min(u16::from(self.height))]
            .map(|step| ((step as u8) << u8::from(self.zoom)).saturating_sub(self.drawn));
        start..end
    }
}

/// The strip on screen. One with no line left gives way to the next
/// descriptor at the next line.
#[derive(Clone, Copy, PartialEq, Eq, Debug)]
pub(crate) enum Strip {
    /// Lines still to be drawn.
    Spacing(u8),
    Characters(Characters),
}

impl Strip {
    /// Lines of this strip still to be drawn.
    #[inline]
    pub(crate) fn lines_left(self) -> u8 {
        match self {
            Strip::Spacing(left) => left,
            Strip::Characters(strip) => (strip.height << u8::from(strip.zoom)).saturating_sub(strip.drawn),
        }
    }

    #[inline]
    fn finish_line(&mut self) {
        match self {
            // None is left where descriptors are exhausted.
            Strip::Spacing(left) => *left = left.saturating_sub(1),
            Strip::Characters(strip) => strip.drawn += 1,
        }
    }
}

/// A running or finished frame.
#[derive(Clone, Copy, PartialEq, Eq, Debug)]
pub(crate) struct Frame {
    /// Below 64; tells when flashing characters are hidden.
    pub(crate) number: u8,
    /// Lines still to be drawn, at most 2,048.
    pub(crate) left: u16,
    /// Cell of the next descriptor. The lowest bit, and those above a cell's
    /// ten, do not count, but stay while no descriptor is read.
    pub(crate) descriptor: u16,
    pub(crate) strip: Strip,
    /// All descriptors were passed over at one line: none is read any more, and
    /// the rest of the frame is plain. Counts where the strip on screen is over.
    pub(crate) exhausted: bool,
}

impl Frame {
    pub(crate) const STOPPED: Frame = Frame { number: 0, left: 0, descriptor: 0, strip: Strip::Spacing(0), exhausted: false };

    pub(crate) fn begin(number: u8, lines: u16, descriptor: u16) -> Frame {
        Frame { number, left: lines, descriptor, ..Frame::STOPPED }
    }

    /// RAM word of the next descriptor.
    #[inline]
    pub(crate) fn next_descriptor(&self) -> u16 {
        self.descriptor / 2 % RAM_WORDS as u16
    }

    #[inline]
    pub(crate) fn in_plain_rest(&self) -> bool {
        self.exhausted && self.strip.lines_left() == 0
    }

    /// Where the strip on screen is over, reads descriptors up to one that has
    /// lines; answers the cells read.
    #[inline]
    pub(crate) fn enter_strip(&mut self, ram: &RamWords, height: u8) -> u32 {
        if self.strip.lines_left() > 0 {
            self.exhausted = false;
            return 0;
        }
        if self.exhausted {
            self.strip = Strip::Spacing(0);
            return 0;
        }
        let first = self.next_descriptor();
        let passed = passed_over(ram, first);
        let word = first + passed;
        if passed < RAM_WORDS as u16 {
            self.strip = Descriptor::at(ram, word).strip(height);
            self.descriptor = 2 * next_word(word);
            2 * u32::from(passed) + 2
        } else {
            self.strip = Strip::Spacing(0);
            self.descriptor = 2 * first;
            self.exhausted = true;
            RAM_LEN as u32
        }
    }

    /// Goes on to the next line. A line must be left.
    #[inline]
    pub(crate) fn finish_line(&mut self) {
        self.left -= 1;
        self.strip.finish_line();
    }
}

/// How many descriptors in a row, from this word on and around the end of RAM,
/// are passed over: at most all of them.
#[inline]
fn passed_over(ram: &RamWords, first: u16) -> u16 {
    let (before, from) = ram.split_at(usize::from(first) % RAM_WORDS);
    let stays = |&word: &[u8; 2]| !Descriptor::of(word).is_passed_over();
    from.iter().chain(before).position(stays).unwrap_or(RAM_WORDS) as u16
}

/// The word after this one, around the end of RAM.
#[inline]
pub(crate) fn next_word(word: u16) -> u16 {
    (word + 1) % RAM_WORDS as u16
}

/// The slice that step n of a strip shows: n × 18 / height, halves up, and 1
/// where that is 0, so that a tall letter has its top line.
#[inline]
pub(crate) fn slice_of_step(step: u16, height: u8) -> u16 {
    let height = u16::from(height);
    ((36 * step + height) / (2 * height)).max(1)
}

/// The steps that show one slice: `first..=last`, empty if `first > last`.
#[derive(Clone, Copy)]
pub(crate) struct Steps {
    first: u16,
    last: u16,
}

impl Steps {
    pub(crate) const NONE: Steps = Steps { first: 1, last: 0 };

    /// [`slice_of_step`] turned round, for slices from 1 on: slice 1 has the
    /// steps that round to 0 too.
    #[inline]
    pub(crate) fn of_slice(slice: u16, height: u8) -> Steps {
        let height = u16::from(height);
        let first = if slice == 1 { 1 } else { ((2 * slice - 1) * height).div_ceil(36) };
        Steps { first, last: ((2 * slice + 1) * height - 1) / 36 }
    }

    /// Is one of them in `from..=to`?
    #[inline]
    pub(crate) fn meet(self, from: u16, to: u16) -> bool {
        self.first.max(from) <= self.last.min(to)
    }
}
