//! Questions for single pixels in a session.

use super::{packed, Session};
use crate::lent::Lent;
use crate::library::{Library, Place, FRAME_NUMBER, REGISTERS};
use crate::pages::{random_page, seam_page, FONT, RAM};
use crate::random::Random;
use osd_model::{DEVICE_LEN, NOT_TAKEN};

impl<L: Library> Session<'_, L> {
    /// A pixel of any frame, in mid-frame too, mostly with the buffers that it needs.
    pub(super) fn pixel(&mut self) {
        let lines = match self.random.below(6) {
            0 => self.random.pick(&[0, 1, 2048, 2049, 65_535, 65_536, 65_541, u32::MAX]),
            _ => self.about(2049),
        };
        let (x, y) = (self.about(self.model.width() as u32), self.about(lines));
        let frame = self.frame_number();
        let wrong = [DEVICE_LEN, RAM, FONT].map(|len| self.random.one_in(16).then(|| self.wrong_length(len)));
        self.ask_pixel(wrong, Place { lines, frame, x, y });
    }

    /// A number below `end`; now and then one just about it, or one that is below it as soon as its upper bits are lost.
    fn about(&mut self, end: u32) -> u32 {
        let below = self.random.below(u64::from(end.max(1))) as u32;
        match self.random.below(24) {
            0 => end.wrapping_sub(1),
            1 => end,
            2 => end.wrapping_add(1),
            3 => below | 1 << self.random.pick(&[8, 16, 17, 24, 31]),
            4 => self.random.next() as u32,
            _ => below,
        }
    }

    /// Any frame number, small ones too.
    pub(super) fn frame_number(&mut self) -> u32 {
        self.random.next() as u32 >> self.random.pick(&[0, 16, 26])
    }

    /// A pixel, with a record, RAM and font of these lengths where they are wrong. A record of the right length has the session's
    /// registers, and often any other bytes: they do not count.
    pub(super) fn ask_pixel(&mut self, wrong: [Option<usize>; 3], place: Place) -> u32 {
        let other_record = self.random.one_in(2).then_some(DEVICE_LEN);
        let lens = [wrong[0].or(other_record), wrong[1], wrong[2]];
        let [mut record, ram, font] = lens.map(|len| len.map(|len| Lent::new(&mut self.random, len)));
        if let (Some(record), None) = (&mut record, wrong[0]) {
            record.get_mut()[REGISTERS].copy_from_slice(&self.device.get()[REGISTERS]);
        }
        let others: Vec<&Lent> = [&record, &ram, &font].into_iter().flatten().collect();
        let before: Vec<Vec<u8>> = others.iter().map(|lent| lent.get().to_vec()).collect();

        let (ram, font) = (ram.as_ref().unwrap_or(&self.ram), font.as_ref().unwrap_or(&self.font));
        let model = if wrong[0].is_some() { NOT_TAKEN } else { self.model_pixel(ram.get(), font.get(), place) };
        let ours = self.library.pixel(record.as_ref().unwrap_or(&self.device), ram, font, place);
        for (lent, before) in others.into_iter().zip(&before) {
            self.same("pixel: a lent buffer", lent.get(), before);
            self.same("bytes around the buffers", lent.guards_hold(), true);
        }
        self.check("pixel", ours, model);
        self.zero_spacings.question(self.device.get());
        ours
    }

    fn model_pixel(&self, ram: &[u8], font: &[u8], Place { lines, frame, x, y }: Place) -> u32 {
        packed(self.model.pixel(ram, font, lines, frame, x, y).map(u32::from))
    }

    /// Every choice of what can be wrong with a question for a pixel: the first refusal of their order is given.
    pub(super) fn refused_pixels(&mut self) {
        for wrong in 0..32 {
            let is_wrong = |bit: u32| wrong >> bit & 1 == 1;
            let lens = [(0, DEVICE_LEN), (1, RAM), (2, FONT)].map(|(bit, len)| is_wrong(bit).then(|| self.wrong_length(len)));
            let (width, right) = (self.model.width() as u32, 1 + self.random.below(2048) as u32);
            // Lost where a number is cut to 16 bits.
            let upper = 1 << self.random.pick(&[16, 17, 24, 31]);
            let lines = if is_wrong(3) { self.random.pick(&[0, 2049, right | upper, u32::MAX]) } else { right };
            let [mut x, mut y] = [width, right].map(|end| self.random.below(u64::from(end)) as u32);
            if is_wrong(4) {
                let (number, end) = if self.random.one_in(2) { (&mut x, width) } else { (&mut y, right) };
                *number = self.random.pick(&[end, end + 1, *number | upper, u32::MAX]);
            }
            let frame = self.frame_number();
            let ours = self.ask_pixel(lens, Place { lines, frame, x, y });
            let first = [255, 1, 2, 6, 11].into_iter().zip(0..).find(|&(_, bit)| is_wrong(bit));
            self.same("order of a pixel's refusals", ours >> 16, first.map_or(0, |(refusal, _)| refusal));
        }
    }

    /// A frame during which nothing is stored: of each line some pixels are asked for, of one line all, and are as they were drawn.
    pub(super) fn still_frame(&mut self) {
        let p = self.other_page(random_page);
        self.display_page(p);
        // To any of the frame numbers.
        for _ in 0..self.random.below(64) {
            self.start(1);
        }
        let lines = 1 + self.random.below(60) as u32;
        let frame = self.start_any(lines);
        let whole = self.random.below(u64::from(lines)) as u32;
        for y in 0..lines {
            let line = self.line();
            let width = line.len() as u32;
            let columns: Vec<u32> = match y == whole {
                true => (0..width).collect(),
                false => (0..4).map(|_| self.random.below(u64::from(width)) as u32).collect(),
            };
            for x in columns {
                self.ask_drawn(&line, Place { lines, frame, x, y });
            }
        }
    }

    /// Characters side by side, in the frame number that is next: of each line the leftmost pixel of every character, a cut one too, is
    /// asked for, and is as it was drawn.
    pub(super) fn seams(&mut self) {
        let p = self.other_page(seam_page);
        let [ld, dd, ch] = [(4, 16), (4, 8), (1, 63)].map(|(least, numbers)| least + self.random.below(numbers) as u8);
        let fbk = if self.random.one_in(4) { 0x40 } else { 0 };
        let flash_mode = self.random.byte() & 0x30;
        self.settings(&[ld, dd, ch, 0x80 | fbk | flash_mode | p]);
        let lines = 12;
        let frame = self.start_any(lines);
        for y in 0..lines {
            let line = self.line();
            for x in (3 * (u32::from(dd) + 8)..line.len() as u32).step_by(12) {
                self.ask_drawn(&line, Place { lines, frame, x, y });
            }
        }
    }

    /// Another page in the RAM. Answers its P.
    pub(super) fn other_page(&mut self, page: fn(&mut Random, &mut [u8]) -> u8) -> u8 {
        self.model_ram = vec![0; RAM];
        let p = page(&mut self.random, &mut self.model_ram);
        self.ram = Lent::copy_of(&mut self.random, &self.model_ram);
        p
    }

    /// Starts a frame. Answers its number, or any that is the same modulo 64.
    pub(super) fn start_any(&mut self, lines: u32) -> u32 {
        self.start(lines);
        u32::from(self.device.get()[FRAME_NUMBER]) + 64 * self.random.below(1 << 26) as u32
    }

    /// A pixel of the line that was drawn last.
    pub(super) fn ask_drawn(&mut self, line: &[u8], place: Place) {
        let ours = self.library.pixel(&self.device, &self.ram, &self.font, place);
        self.same("pixel, and as it was drawn", ours, u32::from(line[place.x as usize]));
        self.check("pixel of a drawn line", ours, self.model_pixel(&self.model_ram, &self.model_font, place));
        self.zero_spacings.question(self.device.get());
    }

    /// Draws a line into a buffer of its length, and answers its pixels.
    pub(super) fn line(&mut self) -> Vec<u8> {
        let mut line = Lent::new(&mut self.random, self.model.width());
        let mut model_line = line.get().to_vec();
        let model = packed(self.model.draw(&self.model_ram, &self.model_font, &mut model_line));
        let before = self.device.get().to_vec();
        let ours = self.library.draw(&mut self.device, &self.ram, &self.font, &mut line);
        self.same("line", line.get(), &model_line[..]);
        self.same("bytes around the line", line.guards_hold(), true);
        self.check("draw", ours, model);
        self.drawn(&before, ours);
        model_line
    }
}
