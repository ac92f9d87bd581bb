//! The sample page: the demo's font and bus traffic (crates/demo/stdin), drawn as one frame with the font by way of a font file.
//! ports/run/sample.c does the same in C.

use crate::font_files::FILE;
use crate::lent::Lent;
use crate::library::{Library, Place};
use crate::pages::{FONT, RAM};
use crate::random::Random;

pub const LINES: u32 = 216;
pub const WIDTH: usize = 384;
/// Columns from the pixel asked for to that of the next line.
const STEP: u32 = 53;

/// CRC-32, as zip and Ethernet have it.
struct Digest(u32);

impl Digest {
    fn add(&mut self, bytes: &[u8]) {
        for &byte in bytes {
            self.0 ^= u32::from(byte);
            for _ in 0..8 {
                self.0 = self.0 >> 1 ^ if self.0 & 1 == 1 { 0xEDB8_8320 } else { 0 };
            }
        }
    }
}

/// Draws the page, and asks about every cell in the middle of the frame and for one pixel of each line. Answers the digest of all
/// lines and answers.
pub fn play<L: Library>(library: &mut L, page: &[u8]) -> u32 {
    let (font, traffic) = page.split_at(FONT);
    let mut random = Random::new(0);
    let mut device = Lent::new(&mut random, 32);
    let mut ram = Lent::copy_of(&mut random, &[0; RAM]);
    let stored = Lent::copy_of(&mut random, font);
    let mut file = Lent::new(&mut random, FILE);
    let mut font = Lent::new(&mut random, FONT);
    let mut digest = Digest(!0);
    library.session(0, false);
    assert_eq!(library.font_write(&stored, &mut file), 0);
    assert_eq!(library.font_read(&file, &mut font), 0);
    assert_eq!(library.fresh(&mut device), 0);
    for event in traffic.chunks_exact(2) {
        assert_eq!(library.bus(&mut device, &mut ram, event[0], event[1]), 0);
    }
    assert_eq!(library.frame_start(&mut device, LINES), 0);
    for drawn in 0..LINES {
        if drawn == LINES / 2 {
            for cell in 0..RAM as u32 {
                digest.add(&library.cell(&device, &ram, cell).to_le_bytes());
            }
        }
        let mut line = Lent::copy_of(&mut random, &[0; WIDTH]);
        digest.add(&library.draw(&mut device, &ram, &font, &mut line).to_le_bytes());
        digest.add(line.get());
        let place = Place { lines: LINES, frame: 0, x: drawn * STEP % WIDTH as u32, y: drawn };
        digest.add(&library.pixel(&device, &ram, &font, place).to_le_bytes());
    }
    !digest.0
}
