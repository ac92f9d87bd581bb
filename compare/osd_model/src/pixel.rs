//! One pixel of a frame, asked for by itself.
//!
//! A second reading of the rules, apart from the line drawing: the strip that
//! the line falls in, the slice that the line shows, the code that the column
//! falls in, the bit of its glyph, the colour. Addresses are in cells, as the
//! rules have them.

use crate::draw::{font_words, FontWords};
use crate::registers::Registers;
use crate::{ram_words, Device, RamWords, Refusal, DEVICE_LEN, FRAME_NUMBERS, MAX_LINES, RAM_LEN, RAM_WORDS};

/// Pixels across a character.
const COLUMNS: usize = 12;
/// FBLK of a pixel.
const BLANKING: u8 = 8;
/// High byte of the code that ends a line.
const END_OF_LINE: u8 = 0xFF;

impl Device {
    /// The pixel at column `x` of line `y`, both from 0, of a frame of `lines`
    /// lines that starts with P as it stands, of this number modulo 64. RAM,
    /// registers and font stay put through the frame. The frame that the
    /// device is in does not matter.
    pub fn pixel(&self, ram: &[u8], font: &[u8], lines: u32, frame: u32, x: u32, y: u32) -> Result<u8, Refusal> {
        pixel(&self.registers, ram, font, lines, frame, x, y)
    }
}

/// [`Device::pixel`] of a device record, of which only the registers are
/// looked at. Answers the refusal's number times 65,536 plus the pixel.
pub fn pixel_bytes(device: &[u8; DEVICE_LEN], ram: &[u8], font: &[u8], lines: u32, frame: u32, x: u32, y: u32) -> u32 {
    match pixel(&Registers::of_record(device), ram, font, lines, frame, x, y) {
        Ok(pixel) => u32::from(pixel),
        Err(refusal) => u32::from(refusal.number()) << 16,
    }
}

#[inline]
fn pixel(registers: &Registers, ram: &[u8], font: &[u8], lines: u32, frame: u32, x: u32, y: u32) -> Result<u8, Refusal> {
    let ram = ram_words(ram)?;
    let font = font_words(font)?;
    if lines == 0 || lines > MAX_LINES {
        return Err(Refusal::FrameLines);
    }
    if x >= registers.width() as u32 || y >= lines {
        return Err(Refusal::NoSuchPixel);
    }
    if !registers.display_on() {
        return Ok(0);
    }
    let plain = registers.plain_pixel();
    let Some(row) = row_of_line(registers, ram, y) else {
        return Ok(plain);
    };
    let Some(column) = (x as usize).checked_sub(registers.text_start()) else {
        return Ok(plain);
    };
    let Some([attributes, _]) = code(ram, row.address, column / COLUMNS) else {
        return Ok(plain);
    };
    let hidden = registers.flash_hidden((frame % u32::from(FRAME_NUMBERS)) as u8);
    let text = Text { ram, font, row, hidden };
    Ok(text.colour(attributes, column, plain))
}

/// What a line of a character strip shows.
struct Row {
    /// Cell of the first code.
    address: usize,
    /// 1 to 18.
    slice: usize,
}

/// The row of line `y` of the frame; none in a spacing strip, with DE 0, or
/// where no descriptor has lines.
#[inline]
fn row_of_line(registers: &Registers, ram: &RamWords, y: u32) -> Option<Row> {
    let height = u32::from(registers.height());
    let mut descriptor = usize::from(registers.first_descriptor());
    // 512 in a row are all that there are, since RAM stays put: then no line comes to a strip.
    if (0..RAM_WORDS).all(|place| is_passed_over(word(ram, descriptor + 2 * place))) {
        return None;
    }
    // The line's number in the strip, from 1.
    let mut j = y + 1;
    loop {
        let [low, high] = word(ram, descriptor);
        let (characters, enabled, zoom) = (high & 0x80 != 0, high & 0x40 != 0, high & 0x20 != 0);
        if characters {
            let lines = if zoom { 2 * height } else { height };
            if j <= lines {
                let n = if zoom { j.div_ceil(2) } else { j };
                let slice = ((36 * n + height) / (2 * height)).max(1) as usize;
                let address = usize::from(high & 3) * 256 + usize::from(low);
                return enabled.then_some(Row { address, slice });
            }
            j -= lines;
        } else {
            let lines = u32::from(low);
            if j <= lines {
                return None;
            }
            j -= lines;
        }
        descriptor = (descriptor + 2) % RAM_LEN;
    }
}

/// A spacing descriptor of no lines.
#[inline]
fn is_passed_over([low, high]: [u8; 2]) -> bool {
    high & 0x80 == 0 && low == 0
}

/// The code at this place of a row; none where the line ends there or before.
#[inline]
fn code(ram: &RamWords, row: usize, place: usize) -> Option<[u8; 2]> {
    let ended = (0..=place).any(|before| word(ram, row + 2 * before)[1] == END_OF_LINE);
    (!ended).then(|| word(ram, row + 2 * place))
}

/// The characters of a line, side by side: columns count from the first one's
/// leftmost on, and none is asked about from the end of line on.
struct Text<'a> {
    ram: &'a RamWords,
    font: &'a FontWords,
    row: Row,
    /// Flashing characters are.
    hidden: bool,
}

impl Text<'_> {
    /// The pixel in this column of the character with these attributes.
    #[inline]
    fn colour(&self, attributes: u8, column: usize, plain: u8) -> u8 {
        let (bk3, bk1) = (attributes & 8 != 0, attributes & 2 != 0);
        if self.is_foreground(column) {
            BLANKING | attributes >> 4 & 7
        } else if !bk3 {
            BLANKING | attributes & 7
        } else if bk1 && column > 0 && self.is_foreground(column - 1) {
            // The same character cast it, or the one before in its last column.
            BLANKING
        } else {
            plain
        }
    }

    /// Does its character draw this column as foreground? A hidden or blank one
    /// draws none.
    #[inline]
    fn is_foreground(&self, column: usize) -> bool {
        let [attributes, number] = word(self.ram, self.row.address + 2 * (column / COLUMNS));
        let slice = self.row.slice;
        let bits = u16::from_le_bytes(match number {
            0..=127 => self.font[(36 * usize::from(number) + 2 * (slice - 1)) / 2],
            128..=153 => word(self.ram, 38 * usize::from(number - 128) + 2 * slice),
            _ => [0, 0],
        });
        let flashes = attributes & 0x80 != 0;
        !(flashes && self.hidden) && bits >> (COLUMNS - 1 - column % COLUMNS) & 1 == 1
    }
}

/// The two bytes at a cell, whose lowest bit is taken as 0, around the end of RAM.
#[inline]
fn word(ram: &RamWords, cell: usize) -> [u8; 2] {
    ram[cell / 2 % RAM_WORDS]
}
