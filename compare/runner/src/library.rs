//! The calls of include/osd.h on lent buffers: of the proved library, or of what stands in for it.

use crate::lent::Lent;
use crate::linked;
use std::ops::Range;

/// The most bytes of a chunk.
pub const CHUNK_MAX: usize = 65_534;

/// Where a device's record holds its registers, the frame number, the lines left, the next descriptor's address and the strip on screen.
pub const REGISTERS: Range<usize> = 4..20;
pub const FRAME_NUMBER: usize = 21;
pub const LINES_LEFT: usize = 22;
pub const NEXT_DESCRIPTOR: usize = 24;
pub const STRIP: usize = 26;

/// Which pixel is asked for: column x of line y, in a frame of these lines and this number.
#[derive(Clone, Copy, Debug)]
pub struct Place {
    pub lines: u32,
    pub frame: u32,
    pub x: u32,
    pub y: u32,
}

pub trait Library {
    fn fresh(&mut self, device: &mut Lent) -> u32;
    fn reset(&mut self, device: &mut Lent) -> u32;
    fn bus(&mut self, device: &mut Lent, ram: &mut Lent, kind: u8, byte: u8) -> u32;
    fn frame_start(&mut self, device: &mut Lent, lines: u32) -> u32;
    fn draw(&mut self, device: &mut Lent, ram: &Lent, font: &Lent, line: &mut Lent) -> u32;
    fn cell(&mut self, device: &Lent, ram: &Lent, cell: u32) -> u32;
    fn pixel(&mut self, device: &Lent, ram: &Lent, font: &Lent, place: Place) -> u32;
    fn feed_fresh(&mut self, feed: &mut Lent) -> u32;
    fn feed(&mut self, device: &mut Lent, feed: &mut Lent, ram: &mut Lent, chunk: &Lent, out: &mut Lent) -> u32;
    fn font_write(&mut self, font: &Lent, file: &mut Lent) -> u32;
    fn font_read(&mut self, file: &Lent, font: &mut Lent) -> u32;

    /// The calls that follow belong to this seed's session; with `made_up`, nobody says what all of them answer and leave.
    fn session(&mut self, seed: u64, made_up: bool);

    /// Are calls of this session made here, so that they can be compared? Else they are only written down.
    fn compares(&self) -> bool;
}

/// The proved library.
pub struct Linked;

impl Library for Linked {
    fn fresh(&mut self, device: &mut Lent) -> u32 {
        linked::fresh(device.get_mut())
    }

    fn reset(&mut self, device: &mut Lent) -> u32 {
        linked::reset(device.get_mut())
    }

    fn bus(&mut self, device: &mut Lent, ram: &mut Lent, kind: u8, byte: u8) -> u32 {
        linked::bus(device.get_mut(), ram.get_mut(), kind, byte)
    }

    fn frame_start(&mut self, device: &mut Lent, lines: u32) -> u32 {
        linked::frame_start(device.get_mut(), lines)
    }

    fn draw(&mut self, device: &mut Lent, ram: &Lent, font: &Lent, line: &mut Lent) -> u32 {
        linked::draw(device.get_mut(), ram.get(), font.get(), line.get_mut())
    }

    fn cell(&mut self, device: &Lent, ram: &Lent, cell: u32) -> u32 {
        linked::cell(device.get(), ram.get(), cell)
    }

    fn pixel(&mut self, device: &Lent, ram: &Lent, font: &Lent, place: Place) -> u32 {
        linked::pixel(device.get(), ram.get(), font.get(), place)
    }

    fn feed_fresh(&mut self, feed: &mut Lent) -> u32 {
        linked::feed_fresh(feed.get_mut())
    }

    fn feed(&mut self, device: &mut Lent, feed: &mut Lent, ram: &mut Lent, chunk: &Lent, out: &mut Lent) -> u32 {
        linked::feed(device.get_mut(), feed.get_mut(), ram.get_mut(), chunk.get(), out.get_mut())
    }

    fn font_write(&mut self, font: &Lent, file: &mut Lent) -> u32 {
        linked::font_write(font.get(), file.get_mut())
    }

    fn font_read(&mut self, file: &Lent, font: &mut Lent) -> u32 {
        linked::font_read(file.get(), font.get_mut())
    }

    fn session(&mut self, _seed: u64, _made_up: bool) {}

    fn compares(&self) -> bool {
        true
    }
}
