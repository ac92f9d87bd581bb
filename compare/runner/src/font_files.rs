//! Font files on the proved library: a font that is written is read again, and every single damage of a file is refused. Answers, fonts and
//! files are those of the model, and a refused call leaves them as they were.

use crate::lent::Lent;
use crate::library::{Library, Linked};
use crate::linked;
use crate::pages::FONT;
use crate::random::Random;
use osd_model::font_file;
use std::fmt::Arguments;
use std::process::exit;

pub const FILE: usize = 5120;

const BLOCK: usize = 512;
const BLOCKS: usize = 10;
const LAST: usize = BLOCKS - 1;
/// Where number, used length, font and checks begin in a block, and the padding of the last one.
const NUMBER: usize = 0;
const USED: usize = 2;
const PAYLOAD: usize = 4;
const PADDING: usize = 76;
const CHECKS: usize = 508;

/// Answers; the place of the block comes to the latter two.
const WRONG_LENGTH: u32 = 15 << 16;
const WRONG_CHECKS: u32 = 16 << 16;
const OTHER_FORMAT: u32 = 17 << 16;

fn require(holds: bool, otherwise: Arguments) {
    if !holds {
        println!("font file, {otherwise}");
        exit(1);
    }
}

/// Changes the block at this place, and makes its checks right again.
fn forge(file: &mut [u8], place: usize, change: impl FnOnce(&mut [u8])) {
    let (checked, checks) = file[place * BLOCK..][..BLOCK].split_at_mut(CHECKS);
    change(checked);
    let sum: u32 = checked.iter().map(|&byte| u32::from(byte)).sum();
    let by_position: u32 = checked.iter().zip(1..).map(|(&byte, position)| u32::from(byte) * position).sum();
    checks[..2].copy_from_slice(&(sum as u16).to_le_bytes());
    checks[2..].copy_from_slice(&(by_position as u16).to_le_bytes());
}

/// Puts another number or used length into the block at this place.
fn forge_field(file: &mut [u8], place: usize, field: usize, number: usize) {
    forge(file, place, |block| block[field..field + 2].copy_from_slice(&(number as u16).to_le_bytes()));
}

/// Bytes of font in the block at this place.
fn used_len(place: usize) -> usize {
    if place == LAST {
        PADDING - PAYLOAD
    } else {
        CHECKS - PAYLOAD
    }
}

fn copy_block(file: &mut [u8], from: usize, to: usize) {
    file.copy_within(from * BLOCK..(from + 1) * BLOCK, to * BLOCK);
}

fn exchange_blocks(file: &mut [u8], place: usize, other: usize) {
    for byte in 0..BLOCK {
        file.swap(place * BLOCK + byte, other * BLOCK + byte);
    }
}

/// Sorts of damage.
pub const SORTS: u64 = 14;

/// Damages a file, as a bad card does it or a writer that has the checks right. One sort leaves the good file of another font, and some
/// others do it by chance.
pub fn damage(random: &mut Random, file: &mut [u8], sort: u64) {
    let [byte, other_byte] = [0, 1].map(|_| random.below(FILE as u64) as usize);
    let [place, other_place] = [0, 1].map(|_| random.below(BLOCKS as u64) as usize);
    let number = random.below(1 << 16) as usize;
    let bit = 1 << random.below(8);
    let used = used_len(place);
    match sort {
        0 => file[place * BLOCK + random.pick(&[number % PAYLOAD, CHECKS + number % 4, number % BLOCK])] ^= bit,
        1 => file[byte] = random.byte(),
        2 => file.swap(byte, other_byte),
        3 => file.swap(byte, (byte + 1) % FILE),
        4 => exchange_blocks(file, place, other_place),
        5 => copy_block(file, other_place, place),
        6 => file[place * BLOCK..][..BLOCK].fill(random.pick(&[0, 0xFF])),
        7 => file[place * BLOCK + CHECKS..][..4].rotate_left(random.pick(&[1, 2])),
        8 => forge_field(file, place, NUMBER, random.pick(&[other_place, place + 256, 10, number])),
        9 => forge_field(file, place, USED, random.pick(&[0, 72, 504, used - 1, used + 1, used ^ 256, number])),
        10 => {
            let byte = random.pick(&[PADDING, CHECKS - 1, PADDING + number % (CHECKS - PADDING)]);
            forge(file, LAST, |block| block[byte] |= bit);
        }
        11 => forge(file, LAST, |block| block[PADDING..].fill(bit)),
        12 => forge(file, place, |block| block[PAYLOAD + number % (PADDING - PAYLOAD)] ^= bit),
        // Two bad blocks, the first of which has its checks right.
        _ => {
            let place = place.min(LAST - 1);
            forge_field(file, place, NUMBER, 10 + number % 1000);
            file[(place + 1) * BLOCK + number % BLOCK] ^= bit;
        }
    }
}

/// A font of noise, of a byte with little noise, or of a byte.
fn random_font(random: &mut Random) -> Vec<u8> {
    let mut font = vec![random.pick(&[0, 0xFF, 0x80]); FONT];
    match random.below(4) {
        0 => {}
        1 => {
            for _ in 0..random.below(100) {
                font[random.below(FONT as u64) as usize] = random.byte();
            }
        }
        _ => random.fill(&mut font),
    }
    font
}

/// Both calls, of the library between guards and of the model.
struct Both {
    file: Lent,
    font: Lent,
    model_file: Vec<u8>,
    model_font: Vec<u8>,
}

impl Both {
    /// A font, and a file of any bytes.
    fn new(random: &mut Random, font: &[u8]) -> Both {
        let (file, font) = (Lent::new(random, FILE), Lent::copy_of(random, font));
        Both { model_file: file.get().to_vec(), model_font: font.get().to_vec(), file, font }
    }

    fn change_file(&mut self, change: impl FnOnce(&mut [u8])) {
        change(&mut self.model_file);
        self.file.get_mut().copy_from_slice(&self.model_file);
    }

    fn same(&self, what: Arguments, answer: u32, model: u32) {
        require(answer == model, format_args!("{what}: the library answers {answer:06X}, the model {model:06X}"));
        require(self.file.get() == self.model_file, format_args!("{what}: another file than the model's"));
        require(self.font.get() == self.model_font, format_args!("{what}: another font than the model's"));
        let held = self.file.guards_hold() && self.font.guards_hold();
        require(held, format_args!("{what}: bytes around the buffers changed"));
    }

    fn write(&mut self, what: Arguments) {
        let model = font_file::write_bytes(&self.model_font, &mut self.model_file);
        let answer = Linked.font_write(&self.font, &mut self.file);
        self.same(format_args!("{what}, written"), answer, model);
        require(answer == 0, format_args!("{what}: writing answers {answer:06X}"));
    }

    fn read(&mut self, what: Arguments) -> u32 {
        let model = font_file::read_bytes(&self.model_file, &mut self.model_font);
        let answer = Linked.font_read(&self.file, &mut self.font);
        self.same(format_args!("{what}, read"), answer, model);
        answer
    }
}

/// A random font, written and read; and its file, damaged in all ways: what is accepted is what the writer gives for it. Answers how many
/// damaged files were read.
pub fn made_up(seed: u64) -> u64 {
    let mut random = Random::new(!seed << 24);
    let font = random_font(&mut random);
    let mut both = Both::new(&mut random, &font);
    both.write(format_args!("seed {seed}"));
    let file = both.model_file.clone();
    both.model_font.fill(0xA5);
    both.font.get_mut().fill(0xA5);
    let answer = both.read(format_args!("seed {seed}"));
    require(answer == 0 && both.model_font == font, format_args!("seed {seed}: it is not read as it was written"));
    for sort in (0..SORTS).chain(0..SORTS) {
        both.change_file(|damaged| {
            damaged.copy_from_slice(&file);
            damage(&mut random, damaged, sort);
            if random.one_in(4) {
                let other = random.below(SORTS);
                damage(&mut random, damaged, other);
            }
        });
        let what = format_args!("seed {seed}, damage {sort}");
        if both.read(what) == 0 {
            let accepted = both.model_file.clone();
            both.change_file(|file| file.fill(0xA5));
            both.write(what);
            require(both.model_file == accepted, format_args!("{what}: accepted, and written in another way"));
        }
    }
    2 * SORTS
}

/// A file that is damaged in one way after the other, and refused each time.
struct Refused {
    both: Both,
    good: Vec<u8>,
    /// The font, before and behind each call.
    font: Vec<u8>,
    count: u64,
}

impl Refused {
    /// The file of a font in which no byte is as its neighbour, and the last, beside the padding, is not 0.
    fn new(seed: u64) -> Refused {
        let mut random = Random::new(seed);
        let mut font = vec![0; FONT];
        let mut beside = 0;
        for byte in font.iter_mut().rev() {
            beside += 1 + random.below(255);
            *byte = beside as u8;
        }
        let mut both = Both::new(&mut random, &font);
        both.write(format_args!("seed {seed}"));
        let good = both.model_file.clone();
        // Another font, which would be noticed where it is written over.
        font.rotate_left(1);
        both = Both { font: Lent::copy_of(&mut random, &font), model_font: font.clone(), ..both };
        Refused { both, good, font, count: 0 }
    }

    /// Reads the file as it now is.
    fn read(&mut self, expected: u32, what: Arguments) {
        let answer = self.both.read(what);
        require(answer == expected, format_args!("{what}: both answer {answer:06X} for {expected:06X}"));
        require(self.both.model_font == self.font, format_args!("{what}: refused, and changes the font"));
        self.count += 1;
    }

    /// Reads the good file with this damage.
    fn damaged(&mut self, damage: impl FnOnce(&mut [u8]), expected: u32, what: Arguments) {
        self.both.change_file(|file| {
            file.copy_from_slice(&self.good);
            damage(file);
        });
        self.read(expected, what);
    }
}

/// Every other value of every byte of a file. Answers how many there were.
pub fn changed_bytes(seed: u64) -> u64 {
    let mut refused = Refused::new(seed);
    for byte in 0..FILE {
        for change in 1..=255 {
            let value = refused.good[byte] ^ change;
            refused.both.model_file[byte] = value;
            refused.both.file.get_mut()[byte] = value;
            refused.read(WRONG_CHECKS + (byte / BLOCK) as u32, format_args!("{value:02X} at byte {byte}"));
        }
        refused.both.model_file[byte] = refused.good[byte];
        refused.both.file.get_mut()[byte] = refused.good[byte];
    }
    refused.count
}

/// Every two neighbours among the bytes of font and padding that are not equal exchanged, also the last of a block with the first of the
/// next. Answers how many there were.
pub fn exchanged_neighbours(seed: u64) -> u64 {
    let mut refused = Refused::new(seed);
    let payload: Vec<usize> = (0..FILE).filter(|byte| (PAYLOAD..CHECKS).contains(&(byte % BLOCK))).collect();
    for (&first, &second) in payload.iter().zip(&payload[1..]) {
        if refused.good[first] != refused.good[second] {
            let what = format_args!("bytes {first} and {second} exchanged");
            refused.damaged(|file| file.swap(first, second), WRONG_CHECKS + (first / BLOCK) as u32, what);
        }
    }
    // Each byte of the font has another one behind it, or the padding.
    require(refused.count == FONT as u64, format_args!("{} exchanged neighbours", refused.count));
    refused.count
}

/// Makes a block bad, so that it is refused with this number.
fn spoil(file: &mut [u8], place: usize, refusal: u32) {
    match refusal {
        16 => file[place * BLOCK + 200] ^= 0x10,
        _ => forge_field(file, place, NUMBER, 300 + place),
    }
}

/// Blocks that have their checks right and another number, used length or padding, or another place; and files with two faults, of which
/// the first in the order of the tests is told. Answers how many there were.
pub fn other_formats(seed: u64) -> u64 {
    let mut refused = Refused::new(seed);
    for place in 0..BLOCKS {
        let told = |refusal: u32| (refusal << 16) + place as u32;
        for (field, right) in [(NUMBER, place), (USED, used_len(place))] {
            let others = (0..600).chain((1..256).map(|high| 256 * high + right % 256)).chain([0xFFFF]);
            for number in others.filter(|&number| number != right) {
                let what = format_args!("{number} at byte {field} of block {place}");
                refused.damaged(|file| forge_field(file, place, field, number), told(17), what);
            }
        }
        for other in (0..BLOCKS).filter(|&other| other != place) {
            let what = format_args!("block {other} in the place of {place}");
            refused.damaged(|file| copy_block(file, other, place), told(17), what);
        }
        for other in place + 1..BLOCKS {
            let what = format_args!("blocks {place} and {other} exchanged");
            refused.damaged(|file| exchange_blocks(file, place, other), told(17), what);
            for (first, second) in [(16, 16), (16, 17), (17, 16), (17, 17)] {
                let what = format_args!("{first} in block {place} and {second} in block {other}");
                let damage = |file: &mut [u8]| {
                    spoil(file, place, first);
                    spoil(file, other, second);
                };
                refused.damaged(damage, told(first), what);
            }
        }
        let damage = |file: &mut [u8]| {
            spoil(file, place, 17);
            spoil(file, place, 16);
        };
        refused.damaged(damage, told(16), format_args!("17 and 16 in block {place}"));
    }
    for byte in PADDING..CHECKS {
        for value in [1, 2, 4, 8, 16, 32, 64, 128, 255] {
            let what = format_args!("{value:02X} in byte {byte} of block {LAST}");
            refused.damaged(|file| forge(file, LAST, |block| block[byte] = value), OTHER_FORMAT + LAST as u32, what);
        }
    }
    refused.damaged(|file| file.fill(0), OTHER_FORMAT, format_args!("nothing but 0"));
    refused.count
}

/// Buffers of other lengths, of which some are right as soon as their upper bits are lost: both calls are refused, and change nothing.
pub fn lengths(seed: u64) {
    let good = Refused::new(seed).good;
    let lens = |right: usize| [0, 1, right - BLOCK, right - 1, right, right + 1, right + BLOCK, 2 * right, right + 65_536];
    for font_len in lens(FONT).into_iter().chain([FILE]) {
        for file_len in lens(FILE).into_iter().chain([FONT]) {
            if (font_len, file_len) == (FONT, FILE) {
                continue;
            }
            let mut font = vec![0xA5; font_len];
            let mut file: Vec<u8> = good.iter().copied().cycle().take(file_len).collect();
            let what = format_args!("a font of {font_len} bytes and a file of {file_len}");
            let answers = [linked::font_read(&file, &mut font), font_file::read_bytes(&file, &mut font)];
            require(answers == [WRONG_LENGTH; 2], format_args!("{what}: reading answers {answers:?}"));
            require(font == vec![0xA5; font_len], format_args!("{what}: refused, and changes the font"));
            file.fill(0x5A);
            let answers = [linked::font_write(&font, &mut file), font_file::write_bytes(&font, &mut file)];
            require(answers == [WRONG_LENGTH; 2], format_args!("{what}: writing answers {answers:?}"));
            require(file == vec![0x5A; file_len], format_args!("{what}: refused, and changes the file"));
        }
    }
}
