//! Spacings of no lines in a session: descriptors that are passed over, and the plain rest of a frame behind 512 of them.

use super::Session;
use crate::library::{Library, Place, NEXT_DESCRIPTOR};
use crate::pages::{all_zero_spacings, characters, is_zero_spacing, spacing, zero_page, RAM};
use crate::random::Random;

/// Calls of a session on its page of zero spacings.
const STEPS: u32 = 60;
const WORDS: usize = RAM / 2;

/// Nothing but zero spacings. Answers P.
fn nothing_else(random: &mut Random, ram: &mut [u8]) -> u8 {
    all_zero_spacings(random, ram);
    random.below(8) as u8
}

/// A strip of one line, or of CH, behind 511 zero spacings.
fn behind_511(random: &mut Random, ram: &mut [u8]) -> u8 {
    let p = nothing_else(random, ram);
    let last = 32 * usize::from(p) + WORDS - 1;
    match random.below(2) {
        0 => spacing(ram, last, 1),
        _ => characters(ram, last, random.below(WORDS as u64) as usize, true, false),
    }
    p
}

impl<L: Library> Session<'_, L> {
    /// What every session meets: a line that passes over 511, one that meets all 512, behind it lines, questions and stores in the plain
    /// rest, and a start in it.
    pub(super) fn plain_rest(&mut self) {
        let p = self.other_page(behind_511);
        self.display_page(p);
        self.start(40);
        self.questions();
        for _ in 0..2 {
            self.line();
        }
        // The strip goes; where it has lines left they come first.
        self.store_zero_spacing();
        while self.model.lines_left() > 1 && self.random.below(24) > 0 {
            self.questions();
            self.line();
        }

        let p = self.other_page(nothing_else);
        self.display_page(p);
        self.start(12);
        self.questions();
        self.line();
        for _ in 0..4 {
            self.questions();
            self.line();
            self.store_strip();
            self.questions();
            self.line();
            self.control(p);
            let refused = self.random.pick(&[0, 2049, 65_537]);
            self.start(refused);
        }
        self.start(3);
        self.line();
        self.questions();
        self.line();
    }

    /// Calls of all sorts on a page of zero spacings.
    pub(super) fn zero_spacings(&mut self) {
        let p = self.other_page(zero_page);
        self.display_page(p);
        self.start_short();
        for _ in 0..STEPS {
            match self.random.below(24) {
                0..=9 => self.draw(),
                10..=12 => self.question(),
                13 => self.questions(),
                14..=15 => self.near_pixel(),
                16 => self.store_strip(),
                17..=18 => self.store_zero_spacing(),
                19 => self.transfer(),
                20 => self.control(p),
                21 if self.random.one_in(4) => self.reset(),
                21 => self.display_page(p),
                22 if self.random.one_in(2) => {
                    let p = self.other_page(zero_page);
                    self.control(p);
                }
                // Any number of lines: refused ones end no plain rest.
                _ if self.random.one_in(2) => self.frame_start(),
                _ => self.start_short(),
            }
        }
    }

    /// A frame of a page of zero spacings during which nothing is stored: some pixels of each line are as they were drawn.
    pub(super) fn still_zero_frame(&mut self) {
        let p = self.other_page(zero_page);
        self.display_page(p);
        let lines = 1 + self.random.below(24) as u32;
        let frame = self.start_any(lines);
        for y in 0..lines {
            let line = self.line();
            for _ in 0..3 {
                let x = self.random.below(line.len() as u64) as u32;
                self.ask_drawn(&line, Place { lines, frame, x, y });
            }
        }
    }

    /// A frame start, mostly of few lines.
    fn start_short(&mut self) {
        let lines = self.random.pick(&[1, 2, 3, 9, 30, 30, 300, 2048]);
        self.start(lines);
    }

    /// Word of the next descriptor.
    fn next_descriptor(&self) -> usize {
        let record = self.device.get();
        (usize::from(record[NEXT_DESCRIPTOR]) + 256 * usize::from(record[NEXT_DESCRIPTOR + 1])) / 2 % WORDS
    }

    /// Cells about the next descriptor, and any; and a pixel.
    fn questions(&mut self) {
        let next = 2 * self.next_descriptor() as u32;
        let any = self.random.below(RAM as u64) as u32;
        for cell in [next, next + 1, (next + 2) % RAM as u32, (next + RAM as u32 - 2) % RAM as u32, any] {
            self.ask(cell);
        }
        self.near_pixel();
    }

    /// A pixel, mostly of the first lines: each may pass over 511 descriptors.
    fn near_pixel(&mut self) {
        let lines = self.random.pick(&[1, 2, 30, 2048]);
        let near = lines.min(self.random.pick(&[1, 4, 40, 40, 40, 2048]));
        let [x, y] = [self.model.width() as u32, near].map(|end| self.random.below(u64::from(end)) as u32);
        let frame = self.frame_number();
        self.ask_pixel([None; 3], Place { lines, frame, x, y });
    }

    /// A store of two bytes at a word, over the bus.
    fn store_word(&mut self, word: usize, bytes: [u8; 2]) {
        let [high, low] = (2 * (word % WORDS) as u16).to_be_bytes();
        for (kind, byte) in [(0, 0), (1, 0xBA), (1, high), (1, low), (1, bytes[0]), (1, bytes[1]), (3, 0)] {
            self.event(kind, byte);
        }
    }

    /// A strip at the next descriptor or about it, or anywhere.
    fn store_strip(&mut self) {
        let (next, any) = (self.next_descriptor(), self.random.below(WORDS as u64) as usize);
        let word = self.random.pick(&[next, next, next + 1, next + WORDS - 1, any]);
        let low = self.random.byte();
        let bytes = self.random.pick(&[[1, 0], [low, 0], [0, 0x80], [low, 0xC0], [low, 0xC1], [0, 0xC0], [low, 0xE2]]);
        self.store_word(word, bytes);
    }

    /// A zero spacing in the place of some other descriptor; often of the only one that there is.
    fn store_zero_spacing(&mut self) {
        let others: Vec<usize> = (0..WORDS).filter(|&word| !is_zero_spacing(&self.model_ram, word)).collect();
        let word = if others.is_empty() { 0 } else { self.random.pick(&others) };
        let high = self.random.byte() & 0x7F;
        self.store_word(word, [0, high]);
    }

    /// Register 3FF3: OSD, FBK and flashing, with this P or another one.
    fn control(&mut self, p: u8) {
        let p = if self.random.one_in(4) { self.random.byte() & 7 } else { p };
        let control = self.random.byte() & 0xF8 | p;
        for (kind, byte) in [(0, 0), (1, 0xBA), (1, 0x3F), (1, 0xF3), (1, control), (3, 0)] {
            self.event(kind, byte);
        }
    }
}
