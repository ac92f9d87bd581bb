//! On-screen display controller of the STV9425/26 family, in software.
//!
//! A [`Device`] takes the host's two-wire bus events, keeps sixteen registers,
//! walks a frame strip by strip over 1,024 lent RAM cells and draws each scan
//! line from those and a lent font. A pixel of a frame can be asked for by
//! itself. A logger's capture of the bus is fed to it in chunks, with a
//! [`Feed`] between them. A font is kept as a [`font_file`]. Every call checks
//! the lent buffers first; a refused call changes nothing, but an unknown slave
//! address leaves the device deaf, and a bad kind in a capture leaves what came
//! before it and shuts the feed.

#![no_std]
#![forbid(unsafe_code)]
#![warn(missing_docs)]

mod bus;
mod bytes;
mod cell;
mod draw;
mod feed;
pub mod font_file;
mod frame;
mod pixel;
mod registers;
mod rows;
#[cfg(test)]
mod tests;
mod touched;

pub use bus::Event;
pub use bytes::{bus_bytes, DEVICE_LEN, NOT_TAKEN};
pub use feed::{feed_bytes, Fed, Feed, FEED_LEN};
pub use pixel::pixel_bytes;
pub use touched::Touched;

use bus::Bus;
use frame::Frame;
use registers::Registers;

/// Bytes of RAM that every call needs to be lent.
pub const RAM_LEN: usize = 1024;
/// Bytes of the font that drawing needs to be lent.
pub const FONT_LEN: usize = 4608;
/// Lines of the longest frame.
pub const MAX_LINES: u32 = 2048;
/// Pixels of the widest line.
pub const MAX_WIDTH: usize = 768;

const FRAME_NUMBERS: u8 = 64;
const RAM_WORDS: usize = RAM_LEN / 2;

/// Lent RAM as descriptors and codes see it: pairs of low and high byte.
type RamWords = [[u8; 2]; RAM_WORDS];

/// Why a call was refused. The discriminants are the specification's numbers
/// (its number 7 belongs to the bench program and has no place here).
#[derive(Clone, Copy, PartialEq, Eq, Debug)]
#[repr(u8)]
pub enum Refusal {
    /// The lent RAM is not [`RAM_LEN`] bytes long.
    RamLength = 1,
    /// The lent font is not [`FONT_LEN`] bytes long.
    FontLength = 2,
    /// The line buffer is shorter than the line.
    LineBuffer = 3,
    /// No frame runs, or all its lines are drawn.
    NoLineLeft = 4,
    /// A host byte or a fetch while the bus is idle.
    Idle = 5,
    /// A frame cannot have this number of lines.
    FrameLines = 6,
    /// The cell asked about is outside RAM.
    NoSuchCell = 8,
    /// The feed is shut, or a bad kind has shut it.
    FeedShut = 9,
    /// The output has no room for all events that the chunk completes.
    OutputRoom = 10,
    /// The pixel asked for is outside the frame.
    NoSuchPixel = 11,
    /// An unknown slave address, or any host byte or fetch while deaf.
    NotAddressed = 12,
    /// A host byte while reading.
    Reading = 13,
    /// A fetch while an address or write data is due.
    Writing = 14,
    /// A font file or its font is not as long as it must be.
    FileLength = 15,
    /// The checks of a font file's block are wrong.
    BlockChecks = 16,
    /// A font file's block has another number, used length or padding.
    BlockFormat = 17,
}

impl Refusal {
    /// The specification's number.
    #[must_use]
    pub const fn number(self) -> u8 {
        self as u8
    }

    /// The byte a host sees on the bus with this refusal: the released bus
    /// reads as ones.
    #[must_use]
    pub const fn bus_byte(self) -> u8 {
        match self {
            Refusal::Idle | Refusal::NotAddressed | Refusal::Reading | Refusal::Writing => 255,
            _ => 0,
        }
    }
}

/// The controller. RAM, font and line buffers stay with the caller.
#[derive(Clone, Copy, PartialEq, Eq, Debug)]
pub struct Device {
    bus: Bus,
    /// Address counter, below 0x4000.
    counter: u16,
    registers: Registers,
    /// Number that the next accepted frame start takes, below 64.
    next_frame: u8,
    frame: Frame,
}

impl Default for Device {
    fn default() -> Self {
        Self::fresh()
    }
}

impl Device {
    /// A device as after power-up and reset.
    #[must_use]
    pub const fn fresh() -> Device {
        Device { bus: Bus::Idle, counter: 0, registers: Registers::RESET, next_frame: 0, frame: Frame::STOPPED }
    }

    /// Resets registers, bus, counter and frame numbering, and stops the frame.
    pub fn reset(&mut self) {
        *self = Device::fresh();
    }

    /// Starts a frame of `lines` lines, breaking off a running one.
    pub fn frame_start(&mut self, lines: u32) -> Result<(), Refusal> {
        // The only narrowing, and behind the test at full width.
        let lines = match lines {
            1..=MAX_LINES => lines as u16,
            _ => return Err(Refusal::FrameLines),
        };
        self.frame = Frame::begin(self.next_frame, lines, self.registers.first_descriptor());
        self.next_frame = (self.next_frame + 1) % FRAME_NUMBERS;
        Ok(())
    }

    /// Draws the frame's next line into the first [`width`](Self::width) bytes
    /// of `line` and answers how many RAM cells it read, at most 1,268.
    pub fn draw(&mut self, ram: &[u8], font: &[u8], line: &mut [u8]) -> Result<u32, Refusal> {
        let ram = ram_words(ram)?;
        let font = draw::font_words(font)?;
        if self.frame.left == 0 {
            return Err(Refusal::NoLineLeft);
        }
        let line = line.get_mut(..self.registers.width()).ok_or(Refusal::LineBuffer)?;

        let descriptor_reads = self.frame.enter_strip(ram, self.registers.height());
        let reads = draw::line(&self.registers, &self.frame, ram, font, line);
        self.frame.finish_line();
        Ok(descriptor_reads + reads)
    }

    /// Will the frame's remaining lines read this RAM cell, with RAM and
    /// registers as they stand?
    pub fn cell(&self, ram: &[u8], cell: u32) -> Result<bool, Refusal> {
        let ram = ram_words(ram)?;
        if cell >= RAM_LEN as u32 {
            return Err(Refusal::NoSuchCell);
        }
        Ok(cell::is_read(&self.registers, &self.frame, ram, cell as u16))
    }

    /// Which of the frame's remaining lines read this RAM cell, with RAM and
    /// registers as they stand? None if no line does.
    pub fn touched(&self, ram: &[u8], cell: u32) -> Result<Option<Touched>, Refusal> {
        let ram = ram_words(ram)?;
        if cell >= RAM_LEN as u32 {
            return Err(Refusal::NoSuchCell);
        }
        Ok(touched::touched(&self.registers, &self.frame, ram, cell as u16))
    }

    /// Pixels of a line under the present registers: 12 to 768.
    #[must_use]
    pub fn width(&self) -> usize {
        self.registers.width()
    }

    /// Lines of the running frame still to be drawn; 0 without a frame.
    #[must_use]
    pub fn lines_left(&self) -> u32 {
        u32::from(self.frame.left)
    }
}

/// RAM of the one accepted length, as words.
#[inline]
fn ram_words(ram: &[u8]) -> Result<&RamWords, Refusal> {
    match ram.as_chunks() {
        (words, []) => words.try_into().map_err(|_| Refusal::RamLength),
        _ => Err(Refusal::RamLength),
    }
}
