//! Pages in RAM: structured ones, and noise.

use crate::random::Random;

pub const RAM: usize = 1024;
pub const FONT: usize = 4608;

/// High bytes of codes.
pub const END_OF_LINE: u8 = 0xFF;
pub const FIRST_USER: u8 = 0x80;

fn put(ram: &mut [u8], word: usize, low: u8, high: u8) {
    let at = 2 * (word % (RAM / 2));
    ram[at] = low;
    ram[at + 1] = high;
}

/// A descriptor of a strip of characters at a word of RAM.
pub fn characters(ram: &mut [u8], word: usize, row: usize, enabled: bool, zoom: bool) {
    let address = 2 * (row % (RAM / 2));
    let high = 0x80 | u8::from(enabled) << 6 | u8::from(zoom) << 5 | (address >> 8) as u8;
    put(ram, word, address as u8, high);
}

pub fn spacing(ram: &mut [u8], word: usize, lines: u8) {
    put(ram, word, lines, 0);
}

/// A spacing of no lines, whose high bits 6 to 0 do not matter.
pub fn zero_spacing(random: &mut Random, ram: &mut [u8], word: usize) {
    put(ram, word, 0, random.byte() & 0x7F);
}

/// Is it one?
pub fn is_zero_spacing(ram: &[u8], word: usize) -> bool {
    let at = 2 * (word % (RAM / 2));
    ram[at] == 0 && ram[at + 1] & 0x80 == 0
}

pub fn code(ram: &mut [u8], word: usize, attributes: u8, high: u8) {
    put(ram, word, attributes, high);
}

/// A page as a host would write it: some descriptors, some rows, some end of line codes; or noise; or in between. Answers its P.
pub fn random_page(random: &mut Random, ram: &mut [u8]) -> u8 {
    random.fill(ram);
    let p = random.below(8) as u8;
    if random.one_in(3) {
        return p;
    }
    let descriptors = 1 + random.below(40) as usize;
    let first = 32 * usize::from(p);
    let rows = 1 + random.below(6) as usize;
    let start = random.below(512) as usize;
    let columns = 1 + random.below(64) as usize;
    for row in 0..rows {
        for column in 0..columns {
            let high = match random.below(8) {
                0 => FIRST_USER + random.below(26) as u8,
                1 => random.byte(),
                _ => random.below(128) as u8,
            };
            code(ram, start + row * (columns + 1) + column, random.byte(), high);
        }
        code(ram, start + row * (columns + 1) + columns, random.byte(), END_OF_LINE);
    }
    for i in 0..descriptors {
        if random.one_in(8) {
            zero_spacing(random, ram, first + i);
        } else if random.one_in(3) {
            spacing(ram, first + i, random.below(30) as u8);
        } else {
            let row = start + random.below(rows as u64) as usize * (columns + 1);
            let skipped = if random.one_in(8) { columns } else { 0 };
            characters(ram, first + i, row + skipped, !random.one_in(8), random.one_in(4));
        }
    }
    p
}

/// A page on which characters meet: all of its strips show one row, often over the end of RAM, of every kind of character, most of them
/// shadowed. One row in three ends early. Answers its P.
pub fn seam_page(random: &mut Random, ram: &mut [u8]) -> u8 {
    random.fill(ram);
    let p = random.below(8) as u8;
    let row = if random.one_in(2) { 506 + random.below(6) } else { random.below(512) } as usize;
    for place in 0..64 {
        let high = random.byte() & random.pick(&[0x7F, 0x9F, 0xFF]);
        code(ram, row + place, random.byte() | random.pick(&[0, 0x0A, 0x0A]), high);
    }
    if random.one_in(3) {
        code(ram, row + random.below(20) as usize, random.byte(), END_OF_LINE);
    }
    for strip in 0..32 {
        characters(ram, 32 * usize::from(p) + strip, row, true, random.one_in(4));
    }
    p
}

/// RAM of zero spacings alone.
pub fn all_zero_spacings(random: &mut Random, ram: &mut [u8]) {
    for word in 0..RAM / 2 {
        zero_spacing(random, ram, word);
    }
}

/// A strip of any kind, mostly of few lines.
fn any_strip(random: &mut Random, ram: &mut [u8], word: usize, row: usize) {
    match random.below(4) {
        0 => spacing(ram, word, random.pick(&[1, 1, 2, 30])),
        _ => characters(ram, word, row, !random.one_in(6), random.one_in(4)),
    }
}

/// A page of zero spacings: nothing but them; or one other descriptor, often where all 511 of them come first; or a few anywhere; or from
/// the first descriptor on strips with runs of them between. Answers its P.
pub fn zero_page(random: &mut Random, ram: &mut [u8]) -> u8 {
    all_zero_spacings(random, ram);
    let p = random.below(8) as u8;
    let first = 32 * usize::from(p);
    let row = random.below(512) as usize;
    match random.below(6) {
        0 => {}
        1 | 2 => {
            let other = random.below(512) as usize;
            let passed = random.pick(&[511, 511, 510, 0, 1, 2, other]);
            // Its row is one of zero spacings: black characters of the font.
            any_strip(random, ram, first + passed, row);
        }
        3 => {
            for _ in 0..1 + random.below(12) {
                let word = random.below(512) as usize;
                any_strip(random, ram, word, row);
            }
        }
        _ => {
            for place in 0..random.below(20) as usize {
                code(ram, row + place, random.byte(), random.byte() & random.pick(&[0x7F, 0x9F, 0xFF]));
            }
            let mut word = first;
            for _ in 0..1 + random.below(24) {
                let few = random.below(12) as usize;
                word += random.pick(&[0, 0, 1, 1, 2, few, 100]);
                any_strip(random, ram, word, row);
                word += 1;
            }
        }
    }
    p
}
