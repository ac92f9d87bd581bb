//! The specification's worked examples and edges, and the fast paths against
//! a slow model that takes the specification word by word.

extern crate std;
use std::ops::Range;
use std::vec;
use std::vec::Vec;

use crate::bus::Event::{self, Byte, Fetch, Start, Stop};
use crate::frame::{slice_of_step, Characters, Steps};
use crate::registers::Registers;
use crate::{bus_bytes, feed_bytes, pixel_bytes, Device, Feed, Refusal, DEVICE_LEN, FEED_LEN, FONT_LEN, RAM_LEN};

fn blank() -> (Device, Vec<u8>, Vec<u8>, Vec<u8>) {
    (Device::fresh(), vec![0; RAM_LEN], vec![0; FONT_LEN], vec![0xEE; 800])
}

fn poke(device: &mut Device, ram: &mut [u8], address: u16, bytes: &[u8]) {
    let [high, low] = address.to_be_bytes();
    device.bus(ram, Start).unwrap();
    for &byte in [0xBA, high, low].iter().chain(bytes) {
        assert_eq!(device.bus(ram, Byte(byte)), Ok(0));
    }
    device.bus(ram, Stop).unwrap();
}

fn peek(device: &mut Device, ram: &mut [u8], address: u16, count: usize) -> Vec<u8> {
    poke(device, ram, address, &[]);
    device.bus(ram, Start).unwrap();
    device.bus(ram, Byte(0xBB)).unwrap();
    (0..count).map(|_| device.bus(ram, Fetch).unwrap()).collect()
}

/// The bench program's example: one character, then the end of the line.
fn example() -> (Device, Vec<u8>, Vec<u8>, Vec<u8>) {
    let (mut device, mut ram, mut font, line) = blank();
    ram[..8].copy_from_slice(&[0x04, 0xC0, 0x00, 0x00, 0x71, 0x41, 0x00, 0xFF]);
    font[2340..2342].copy_from_slice(&[0x0F, 0x08]);
    let registers = [4, 4, 0x12, 0x80, 0, 0, 0, 0, 0, 0, 0, 0, 0, 0, 0, 0];
    poke(&mut device, &mut ram, 0x3FF0, &registers);
    (device, ram, font, line)
}

/// Which of these cells the frame's remaining lines read.
fn cells_left(device: &Device, ram: &[u8], cells: Range<u32>) -> Vec<u32> {
    cells.filter(|&cell| device.cell(ram, cell).unwrap()).collect()
}

fn hex(line: &[u8]) -> std::string::String {
    line.iter().map(|pixel| std::format!("{pixel:X}")).collect()
}

#[test]
fn worked_example() {
    let (mut device, ram, font, mut line) = example();
    device.frame_start(1).unwrap();
    assert_eq!(device.width(), 60);
    assert_eq!(device.draw(&ram, &font, &mut line), Ok(6));
    assert_eq!(hex(&line[..60]), "000000000000000000000000000000000000F9999999FFFF000000000000");
    assert!(line[60..].iter().all(|&byte| byte == 0xEE));
}

#[test]
fn shadow_and_flash() {
    let (mut device, mut ram, font, mut line) = example();
    let font = {
        let mut font = font;
        font[2340..2342].copy_from_slice(&[0x0E, 0x0A]); // A0E: 1010 0000 1110
        font
    };
    ram[4] = 0xFA; // flashing, white, shadowed
    device.frame_start(1).unwrap();
    device.draw(&ram, &font, &mut line).unwrap();
    assert_eq!(hex(&line[36..48]), "F8F80000FFF8");
    poke(&mut device, &mut ram, 0x3FF3, &[0xE0]); // FBK, flash mode 2
    for number in 1..64 {
        device.frame_start(1).unwrap();
        assert_eq!(device.draw(&ram, &font, &mut line), Ok(6));
        let shown = if number < 16 { "F8F88888FFF8" } else { "888888888888" };
        assert_eq!(hex(&line[36..48]), shown);
    }
}

#[test]
fn slices() {
    let table = [(18, 1, 1), (18, 18, 18), (36, 2, 1), (36, 35, 18), (37, 1, 1), (63, 1, 1), (63, 2, 1), (1, 1, 18), (12, 1, 2)];
    for (height, step, slice) in table {
        assert_eq!(slice_of_step(step, height), slice);
    }
    for height in 1..64 {
        for slice in 1..19 {
            for step in 1..=u16::from(height) {
                let shown = Steps::of_slice(slice, height).meet(step, step);
                assert_eq!(shown, slice_of_step(step, height) == slice);
            }
        }
    }
}

#[test]
fn every_line_shows_a_slice_from_1_to_18() {
    for (height, zoom) in (1..64).flat_map(|height| [(height, false), (height, true)]) {
        for drawn in 0..height << u8::from(zoom) {
            let strip = Characters { row: 0, height, zoom, enabled: true, drawn };
            assert!((1..=18).contains(&slice_of_step(strip.step(1), height)));
        }
    }
}

/// Request K2. CH, ZY's bit, and how many lines from the first on show slice 1.
const TALL: [(u8, u8, u32); 6] = [(36, 0, 2), (37, 0, 3), (63, 0, 5), (36, 0x20, 4), (37, 0x20, 6), (63, 0x20, 10)];

/// The example's page with CH, ZY and a character of choice: slice 1 of font
/// character 65 and of user character 1 is 80F, slice 2 is 001; the user
/// character's first two cells hold FFF.
fn tall(height: u8, zoom: u8, code: u8) -> (Device, Vec<u8>, Vec<u8>, Vec<u8>) {
    let (mut device, mut ram, mut font, line) = example();
    poke(&mut device, &mut ram, 0x3FF2, &[height]);
    (ram[1], ram[5]) = (0xC0 | zoom, code);
    ram[38..44].copy_from_slice(&[0xFF, 0x0F, 0x0F, 0x08, 0x01, 0x00]);
    font[2342] = 0x01;
    (device, ram, font, line)
}

#[test]
fn tall_letters_have_their_top_line() {
    for (height, zoom, lines) in TALL {
        for (code, reads) in [(0x41, 4), (0x81, 6)] {
            let (mut device, ram, font, mut line) = tall(height, zoom, code);
            device.frame_start(lines + 1).unwrap();
            for drawn in 0..=lines {
                let descriptor = if drawn == 0 { 2 } else { 0 };
                assert_eq!(device.draw(&ram, &font, &mut line), Ok(descriptor + reads));
                let slice = if drawn < lines { "F9999999FFFF" } else { "99999999999F" };
                assert_eq!(hex(&line[36..48]), slice);
            }
        }
    }
}

#[test]
fn first_cells_of_a_tall_user_character() {
    for (height, zoom, lines) in TALL {
        let (mut device, ram, font, mut line) = tall(height, zoom, 0x81);
        // Every line of these frames shows slice 1.
        for frame in 1..=lines {
            device.frame_start(frame).unwrap();
            for _ in 0..frame {
                assert_eq!(cells_left(&device, &ram, 38..44), [40, 41]);
                device.draw(&ram, &font, &mut line).unwrap();
            }
            assert!(cells_left(&device, &ram, 38..44).is_empty());
        }
        // The frame's end does not cut this strip.
        device.frame_start(2 * u32::from(height)).unwrap();
        assert_eq!(cells_left(&device, &ram, 38..44), [40, 41, 42, 43]);
        for _ in 0..lines {
            device.draw(&ram, &font, &mut line).unwrap();
        }
        assert_eq!(cells_left(&device, &ram, 38..44), [42, 43]);
    }
}

#[test]
fn first_cells_as_descriptors_and_codes() {
    let (mut device, mut ram, font, mut line) = tall(37, 0x20, 0x80);
    let mut left = |ram: &[u8], frame, drawn, cells| {
        device.frame_start(frame).unwrap();
        for _ in 0..drawn {
            device.draw(ram, &font, &mut line).unwrap();
        }
        cells_left(&device, ram, cells)
    };
    // Character 0: its first cells are the strip's descriptor, slice 1 is that
    // of line 75.
    assert_eq!(left(&ram, 2, 0, 0..4), [0, 1, 2, 3]);
    assert_eq!(left(&ram, 2, 1, 0..4), [2, 3]);
    assert!(left(&ram, 74, 6, 0..4).is_empty());
    assert_eq!(left(&ram, 75, 6, 0..4), [2, 3]);
    // Character 1: its first cells are the code that ends its row.
    ram[0] = 36;
    ram[36..40].copy_from_slice(&[0x71, 0x81, 0x00, 0xFF]);
    assert_eq!(left(&ram, 2, 0, 38..42), [38, 39, 40, 41]);
    assert_eq!(left(&ram, 2, 1, 38..42), [38, 39, 40, 41]);
    assert_eq!(left(&ram, 7, 6, 38..42), [38, 39]);
}

/// Request K4. CH, ZY's bit, the strip's lines, and how many of them from the
/// first on show slice 1.
const STRIPS: [(u8, u8, u32, u32); 8] = [
    (1, 0, 1, 0),
    (18, 0, 18, 1),
    (37, 0, 37, 3),
    (63, 0, 63, 5),
    (1, 0x20, 2, 0),
    (18, 0x20, 36, 2),
    (37, 0x20, 74, 6),
    (63, 0x20, 126, 10),
];

/// A page P of spacings of one line, and codes from cell 1000 on, behind all
/// user characters: this one, then the end of the line.
fn spacings(page: u8, height: u8, code: u8) -> (Device, Vec<u8>, Vec<u8>, Vec<u8>) {
    let (mut device, _, font, line) = blank();
    let mut ram = vec![1; RAM_LEN];
    poke(&mut device, &mut ram, 0x3FF0, &[4, 4, height, 0x80 | page]);
    ram[1000..1004].copy_from_slice(&[0x71, code, 0x00, 0xFF]);
    (device, ram, font, line)
}

/// First cell and code of every user character.
fn user_characters() -> impl Iterator<Item = (u16, u8)> {
    (0..26).map(|number| (38 * number, 0x80 + number as u8))
}

#[test]
fn first_cells_of_every_user_character() {
    for (first, code) in user_characters() {
        let cells = u32::from(first)..u32::from(first) + 4;
        for (height, zoom, lines, top) in STRIPS {
            // Page 1 is cells 64 and 65: character 1, but not its first cells.
            let (mut device, mut ram, font, mut line) = spacings(1, height, code);
            ram[64..66].copy_from_slice(&[0xE8, 0xC3 | zoom]);
            device.frame_start(lines).unwrap();
            for drawn in 0..lines {
                let slice_1 = if drawn < top { cells.start + 2..cells.end } else { 0..0 };
                assert_eq!(cells_left(&device, &ram, cells.clone()), Vec::from_iter(slice_1));
                let descriptor = if drawn == 0 { 2 } else { 0 };
                assert_eq!(device.draw(&ram, &font, &mut line), Ok(descriptor + 6));
            }
            assert!(cells_left(&device, &ram, cells.clone()).is_empty());
        }
    }
}

#[test]
fn first_cells_of_every_user_character_as_a_descriptor() {
    for (first, code) in user_characters() {
        let cells = u32::from(first)..u32::from(first) + 2;
        let page = (first / 64).min(7);
        let before = u32::from(first - 64 * page) / 2;
        for (height, zoom, lines, _) in STRIPS {
            // The character itself is on screen, or another one.
            for code in [code, 0x41] {
                let (mut device, mut ram, font, mut line) = spacings(page as u8, height, code);
                ram[usize::from(first)..][..2].copy_from_slice(&[0xE8, 0xC3 | zoom]);
                device.frame_start(before + lines + 1).unwrap();
                for drawn in 0..before + lines + 1 {
                    let read = if drawn <= before { cells.clone() } else { 0..0 };
                    assert_eq!(cells_left(&device, &ram, cells.clone()), Vec::from_iter(read));
                    device.draw(&ram, &font, &mut line).unwrap();
                }
                assert!(cells_left(&device, &ram, cells.clone()).is_empty());
            }
        }
    }
}

#[test]
fn first_cells_of_every_user_character_as_a_code() {
    for (first, code) in user_characters() {
        let cells = u32::from(first)..u32::from(first) + 2;
        let [high, low] = first.to_be_bytes();
        for (height, zoom, lines, _) in STRIPS {
            for code in [code, 0x41] {
                let (mut device, mut ram, font, mut line) = spacings(1, height, code);
                ram[64..66].copy_from_slice(&[low, 0xC0 | zoom | high]);
                ram.copy_within(1000..1004, usize::from(first));
                // Behind the strip comes a line of spacing.
                device.frame_start(lines + 1).unwrap();
                for drawn in 0..lines + 1 {
                    let read = if drawn < lines { cells.clone() } else { 0..0 };
                    assert_eq!(cells_left(&device, &ram, cells.clone()), Vec::from_iter(read));
                    device.draw(&ram, &font, &mut line).unwrap();
                }
                assert!(cells_left(&device, &ram, cells.clone()).is_empty());
            }
        }
    }
}

#[test]
fn text_start_and_codes() {
    let registers = |ld, dd| {
        let mut registers = Registers::RESET;
        registers.store(0, ld);
        registers.store(1, dd);
        registers
    };
    assert_eq!(registers(63, 3).text_start(), 36);
    assert_eq!(registers(63, 3).codes_per_line(), 61);
    assert_eq!(registers(63, 8).text_start(), 48);
    assert_eq!(registers(63, 255).text_start(), 789);
    assert_eq!(registers(63, 255).codes_per_line(), 0);
    // W 60, DD 5: the second character is cut to 9 columns.
    assert_eq!(registers(4, 5).codes_per_line(), 2);
    assert_eq!(60 - (registers(4, 5).text_start() + 12), 9);
}

#[test]
fn user_character_25_slice_18() {
    let (mut device, mut ram, font, mut line) = example();
    ram[4..6].copy_from_slice(&[0x71, 0x80 | 25]);
    ram[986..988].copy_from_slice(&[0x01, 0xF8]);
    poke(&mut device, &mut ram, 0x3FF2, &[1]); // CH 1: slice 18 only
    device.frame_start(1).unwrap();
    assert_eq!(cells_left(&device, &ram, 0..1024), [0, 1, 4, 5, 6, 7, 986, 987]);
    assert_eq!(device.draw(&ram, &font, &mut line), Ok(8));
    assert_eq!(hex(&line[36..48]), "F9999999999F");
    assert_eq!(device.cell(&ram, 0), Ok(false));
}

#[test]
fn most_reads_and_wrap_over_1023() {
    let (mut device, mut ram, font, mut line) = blank();
    for word in ram.chunks_exact_mut(2) {
        word.copy_from_slice(&[0x00, 0x80]); // user character 0
    }
    ram[..2].copy_from_slice(&[0xFE, 0xC3]); // codes from 1022 on, then 0
    poke(&mut device, &mut ram, 0x3FF1, &[0, 0x12, 0x80]);
    device.frame_start(2).unwrap();
    // The second code is the descriptor's cells 0 and 1, all background.
    ram[1] = 0xC3;
    assert_eq!(device.draw(&ram, &font, &mut line), Ok(244));
    ram[0] = 0x10; // codes at 784: nothing but user characters
    assert_eq!(device.frame_start(2), Ok(()));
    assert_eq!(device.draw(&ram, &font, &mut line), Ok(246));
    assert_eq!(device.draw(&ram, &font, &mut line), Ok(244));
}

#[test]
fn descriptors_once_around() {
    let (mut device, mut ram, ..) = spacings(3, 18, 0x41); // from cell 192
    ram[1000..1004].fill(1); // no codes, but spacings of one line like all others
    for (lines, next_to_last, last) in [(510, false, false), (511, true, false), (512, true, true), (2048, true, true)] {
        device.frame_start(lines).unwrap();
        assert_eq!(device.cell(&ram, 189), Ok(next_to_last));
        assert_eq!(device.cell(&ram, 190), Ok(last));
    }
}

#[test]
fn registers_over_the_bus() {
    let (mut device, mut ram, ..) = blank();
    let reset = [0x3F, 8, 0x12, 0, 0x22, 0x33, 0x28, 0x0A];
    assert_eq!(peek(&mut device, &mut ram, 0x3FF0, 8), reset);
    poke(&mut device, &mut ram, 0x3FEF, &[0xFF; 18]); // wraps into cell 0
    assert_eq!(ram[..2], [0xFF, 0]);
    let kept = peek(&mut device, &mut ram, 0x3FEF, 18);
    assert_eq!(kept[0], 0);
    assert_eq!(kept[1..17], Registers::KEPT);
    assert_eq!(kept[17], 0xFF);
    assert_eq!(peek(&mut device, &mut ram, 0xFFFF, 2), [0xFF, 0xFF]);
    device.reset();
    assert_eq!(device, Device::fresh());
}

#[test]
fn addresses_cut_short_and_deafness() {
    let (mut device, mut ram, ..) = blank();
    poke(&mut device, &mut ram, 0x0010, &[]);
    for event in [Start, Byte(0xBA), Byte(0x01), Start] {
        assert_eq!(device.bus(&mut ram, event), Ok(0));
    }
    ram[0x10] = 77;
    assert_eq!(device.bus(&mut ram, Byte(0xBB)), Ok(0));
    let before = device;
    assert_eq!(device.bus(&mut ram, Byte(1)), Err(Refusal::Reading));
    assert_eq!(device, before);
    assert_eq!(device.bus(&mut ram, Fetch), Ok(77));
    assert_eq!(device.bus(&mut ram, Start), Ok(0));
    for event in [Byte(0xBC), Byte(0xBA), Fetch] {
        assert_eq!(device.bus(&mut ram, event), Err(Refusal::NotAddressed));
    }
    assert_eq!(device.bus(&mut ram, Stop), Ok(0));
    assert_eq!(device.bus(&mut ram, Byte(0xBA)), Err(Refusal::Idle));
}

#[test]
fn numbers_and_bus_bytes_of_refusals() {
    for (refusal, number, byte) in [
        (Refusal::RamLength, 1, 0),
        (Refusal::FontLength, 2, 0),
        (Refusal::LineBuffer, 3, 0),
        (Refusal::NoLineLeft, 4, 0),
        (Refusal::Idle, 5, 255),
        (Refusal::FrameLines, 6, 0),
        (Refusal::NoSuchCell, 8, 0),
        (Refusal::FeedShut, 9, 0),
        (Refusal::OutputRoom, 10, 0),
        (Refusal::NoSuchPixel, 11, 0),
        (Refusal::NotAddressed, 12, 255),
        (Refusal::Reading, 13, 255),
        (Refusal::Writing, 14, 255),
        (Refusal::FileLength, 15, 0),
        (Refusal::BlockChecks, 16, 0),
        (Refusal::BlockFormat, 17, 0),
    ] {
        assert_eq!((refusal.number(), refusal.bus_byte()), (number, byte));
    }
}

#[test]
fn refusals_and_their_order() {
    let (mut device, mut ram, font, mut line) = example();
    let fresh = device;
    for event in [Start, Byte(0), Fetch, Stop] {
        let answer = device.bus(&mut ram[1..], event);
        assert_eq!(answer, Err(Refusal::RamLength));
    }
    for lines in [0, 2049, 65_536, 65_537, u32::MAX] {
        assert_eq!(device.frame_start(lines), Err(Refusal::FrameLines));
    }
    assert_eq!(device, fresh);
    let mut draw = |device: &mut Device, ram_len: usize, font_len: usize, line_len: usize| {
        let ram = if ram_len > 1024 { &[0; 1025] } else { &ram[..ram_len] };
        let answer = device.draw(ram, &font[..font_len], &mut line[..line_len]);
        answer.map_err(Refusal::number)
    };
    assert_eq!(draw(&mut device, 1023, 0, 0), Err(1));
    assert_eq!(draw(&mut device, 1025, 0, 0), Err(1));
    assert_eq!(draw(&mut device, 1024, 4607, 0), Err(2));
    assert_eq!(draw(&mut device, 1024, 4608, 0), Err(4));
    device.frame_start(2).unwrap();
    let started = device;
    assert_eq!(draw(&mut device, 1024, 4608, 59), Err(3));
    assert_eq!(device, started);
    assert_eq!(draw(&mut device, 1024, 4608, 60), Ok(6));
    assert_eq!(draw(&mut device, 1024, 4608, 59), Err(3)); // in mid-frame
    assert_eq!(draw(&mut device, 1024, 4608, 60), Ok(4));
    assert_eq!(draw(&mut device, 1024, 4608, 0), Err(4));
    assert_eq!(device.cell(&ram[1..], 5000), Err(Refusal::RamLength));
    assert_eq!(device.cell(&ram, 1024), Err(Refusal::NoSuchCell));
    assert_eq!(device.cell(&ram, 65_536), Err(Refusal::NoSuchCell));
    assert_eq!(device.cell(&ram, 0), Ok(false));
}

/// Small xorshift generator.
struct Noise(u64);

impl Noise {
    fn next(&mut self) -> u64 {
        self.0 ^= self.0 << 13;
        self.0 ^= self.0 >> 7;
        self.0 ^= self.0 << 17;
        self.0 >> 11
    }

    fn below(&mut self, end: u64) -> u64 {
        self.next() % end
    }

    fn byte(&mut self) -> u8 {
        self.next() as u8
    }

    /// RAM of noise, or of strips, user characters or spacings one more than the
    /// other; or of zero spacings but for few words, or for none.
    fn ram(&mut self) -> Vec<u8> {
        let mut ram: Vec<u8> = (0..RAM_LEN).map(|_| self.byte()).collect();
        let style = self.below(6);
        let others = [0, 1, 2, 9, 60][self.below(5) as usize];
        for word in ram.chunks_exact_mut(2) {
            match (style, self.below(8)) {
                (1, 0..7) => word[1] |= 0xC0,
                (2, 0..4) => word[1] = 0x80 | self.below(27) as u8,
                (2, 4) => word[1] = 0xFF,
                (3, 0..6) => (word[0], word[1]) = (self.below(6) as u8, word[1] & 0x7F),
                (4, 0..6) => (word[0], word[1]) = (0, word[1] & 0x7F),
                (5, _) if self.below(512) >= others => (word[0], word[1]) = (0, word[1] & 0x7F),
                _ => {}
            }
        }
        ram
    }

    /// A device record of noise, mostly in a bus state that there is; in one
    /// round of three the address counter is at a register.
    fn record(&mut self, round: usize) -> [u8; DEVICE_LEN] {
        let mut bytes = [0; DEVICE_LEN];
        bytes.fill_with(|| self.byte());
        bytes[0] %= 9;
        if round.is_multiple_of(3) {
            (bytes[2], bytes[3]) = (0xF0 | bytes[2], 0xFF);
        }
        bytes
    }

    fn register(&mut self, number: u16) -> u8 {
        match (number, self.below(4)) {
            (1, 0..3) => self.below(40) as u8,
            (2, 0..2) => self.below(8) as u8,
            (3, 0..3) => self.byte() | 0x80,
            _ => self.byte(),
        }
    }
}

/// The specification word by word: addresses in cells, pixels one by one,
/// reads as a list.
#[derive(Clone)]
struct Slow {
    bus: u8,
    held: u8,
    counter: usize,
    registers: [u8; 16],
    next: u32,
    number: u32,
    left: u32,
    descriptor: usize,
    /// Low byte, high byte, CH, line j of the last line drawn.
    strip: Option<(u8, u8, usize, usize)>,
    /// 512 descriptors in a row were passed over.
    rest: bool,
}

impl Slow {
    fn fresh() -> Slow {
        let mut registers = [0; 16];
        registers[..8].copy_from_slice(&[0x3F, 8, 0x12, 0, 0x22, 0x33, 0x28, 0x0A]);
        Slow { bus: 0, held: 0, counter: 0, registers, next: 0, number: 0, left: 0, descriptor: 0, strip: None, rest: false }
    }

    fn bus(&mut self, ram: &mut [u8], event: Event) -> (u8, u8) {
        let at = self.counter;
        match (event, self.bus) {
            (Start, _) => self.bus = 1,
            (Stop, _) => self.bus = 0,
            (Byte(0xBA), 1) => self.bus = 2,
            (Byte(0xBB), 1) => self.bus = 5,
            (Byte(_), 1) => {
                self.bus = 6;
                return (12, 255);
            }
            (Byte(byte), 2) => (self.bus, self.held) = (3, byte),
            (Byte(byte), 3) => {
                self.counter = usize::from(self.held) % 64 * 256 + usize::from(byte);
                self.bus = 4;
            }
            (Byte(byte), 4) => {
                self.counter = (at + 1) % 0x4000;
                if at < 0x400 {
                    ram[at] = byte;
                }
                if at >= 0x3FF0 {
                    let kept = [0xFF, 0xFF, 0x3F, 0xF7, 0xF7, 0x77, 0xFF, 0x0F];
                    let kept = kept.get(at - 0x3FF0).copied().unwrap_or(0xFF);
                    self.registers[at - 0x3FF0] = byte & kept;
                }
            }
            (Fetch, 5) => {
                self.counter = (at + 1) % 0x4000;
                return match at {
                    0..0x400 => (0, ram[at]),
                    0x3FF0.. => (0, self.registers[at - 0x3FF0]),
                    _ => (0, 0),
                };
            }
            (Byte(_) | Fetch, 6) => return (12, 255),
            (Byte(_), 5) => return (13, 255),
            (Fetch, 1..=4) => return (14, 255),
            _ => return (5, 255),
        }
        (0, 0)
    }

    fn start(&mut self, lines: u32) {
        self.number = self.next;
        self.next = (self.next + 1) % 64;
        self.left = lines;
        self.descriptor = usize::from(self.registers[3] % 8) * 64;
        self.strip = None;
        self.rest = false;
    }

    /// The slow model of a device record whose numbers are in their range, but
    /// for the descriptor's address.
    fn of_record(record: &[u8; DEVICE_LEN]) -> Slow {
        let number = |at: usize| usize::from(record[at]) + 256 * usize::from(record[at + 1]);
        let (flags, lines) = (record[26], record[27]);
        let strip = match flags & 1 {
            0 => (lines, 0, 0, 0),
            _ => {
                let high = 128 | (flags & 4) << 4 | (flags & 2) << 4 | record[29];
                (record[28], high, usize::from(lines), number(30))
            }
        };
        let mut registers = [0; 16];
        registers.copy_from_slice(&record[4..20]);
        Slow {
            registers,
            next: u32::from(record[20]),
            number: u32::from(record[21]),
            left: number(22) as u32,
            descriptor: number(24),
            strip: Some(strip),
            rest: flags & 8 != 0,
            ..Slow::fresh()
        }
    }

    /// Bytes 20 to 31 of the device's record.
    fn frame_bytes(&self) -> [u8; 12] {
        let [left, descriptor] = [self.left as usize, self.descriptor].map(|number| (number as u16).to_le_bytes());
        let rest = 8 * u8::from(self.rest);
        let strip = match self.strip {
            None => [rest, 0, 0, 0, 0, 0],
            Some((low, high, _, j)) if high < 128 => [rest, low - j as u8, 0, 0, 0, 0],
            Some((low, high, ch, j)) => {
                let flags = 1 | (high & 32) >> 4 | (high & 64) >> 4;
                let [scan_low, scan_high] = (j as u16).to_le_bytes();
                [rest | flags, ch as u8, low & 0xFE, high & 3, scan_low, scan_high]
            }
        };
        let mut bytes = [0; 12];
        (bytes[0], bytes[1]) = (self.next as u8, self.number as u8);
        bytes[2..4].copy_from_slice(&left);
        bytes[4..6].copy_from_slice(&descriptor);
        bytes[6..].copy_from_slice(&strip);
        bytes
    }

    /// Lines of a strip; a zero spacing has none.
    fn height((low, high, ch, _): (u8, u8, usize, usize)) -> usize {
        match (high & 128 != 0, high & 32 != 0) {
            (false, _) => usize::from(low),
            (true, false) => ch,
            (true, true) => 2 * ch,
        }
    }

    /// The strip of the next line, with the line's j; reads descriptors where
    /// the strip on screen is over. None in the plain rest of a frame.
    fn strip_of_line(&mut self, ram: &[u8], reads: &mut Vec<usize>) -> Option<(u8, u8, usize, usize)> {
        if let Some((low, high, ch, j)) = self.strip.filter(|&strip| strip.3 < Slow::height(strip)) {
            // Counts where the strip on screen is over.
            self.rest = false;
            return Some((low, high, ch, j + 1));
        }
        if self.rest {
            return None;
        }
        for _ in 0..512 {
            let d = self.descriptor / 2 * 2 % 1024;
            reads.extend([d, d + 1]);
            self.descriptor = (d + 2) % 1024;
            let strip = (ram[d], ram[d + 1], usize::from(self.registers[2]).max(1), 1);
            if Slow::height(strip) > 0 {
                return Some(strip);
            }
        }
        self.rest = true;
        None
    }

    /// Pixels and the list of cells read.
    fn line(&mut self, ram: &[u8], font: &[u8]) -> (Vec<u8>, Vec<usize>) {
        let r = self.registers.map(usize::from);
        let mut reads = vec![];
        self.strip = self.strip_of_line(ram, &mut reads);
        self.left -= 1;

        let (osd, fbk, mode) = (r[3] & 128 != 0, (r[3] >> 6 & 1) as u8, r[3] >> 4 & 3);
        let width = 12 * (r[0] % 64 + 1);
        let mut line = vec![if osd { 8 * fbk } else { 0 }; width];
        // The bytes of a spacing in the plain rest.
        let (low, high, ch, j) = self.strip.unwrap_or((0, 0, 0, 0));
        let (characters, de, zy) = (high & 128 != 0, high & 64 != 0, high & 32 != 0);
        if !(osd && characters && de) {
            return (line, reads);
        }
        let n = if zy { j.div_ceil(2) } else { j };
        let slice = ((36 * n + ch) / (2 * ch)).max(1);
        let hidden = self.number >= [64, 32, 16, 48][mode];
        let mut address = (usize::from(high % 4) * 256 + usize::from(low)) & !1;
        let mut x = 3 * (r[1].max(4) + 8);
        // Did the character just to the left draw foreground in its last column?
        let mut ends = false;
        while x < width {
            reads.extend([address, address + 1]);
            let (attributes, code) = (ram[address], usize::from(ram[address + 1]));
            address = (address + 2) % 1024;
            let bytes = match code {
                0..128 => {
                    let at = 36 * code + 2 * (slice - 1);
                    [font[at], font[at + 1]]
                }
                128..154 => {
                    let at = 38 * (code - 128) + 2 * slice;
                    reads.extend([at, at + 1]);
                    [ram[at], ram[at + 1]]
                }
                255 => break,
                _ => [0, 0],
            };
            let px = |k: usize| bytes[k / 8] >> (k % 8) & 1 == 1;
            let hide = hidden && attributes & 128 != 0;
            let bk = attributes % 16;
            for column in 0..12.min(width - x) {
                let k = 11 - column;
                let casts = if column == 0 { ends } else { px(k + 1) && !hide };
                line[x + column] = if px(k) && !hide {
                    8 + attributes / 16 % 8
                } else if bk < 8 {
                    8 + bk
                } else if bk & 2 != 0 && casts {
                    8
                } else {
                    8 * fbk
                };
            }
            ends = px(0) && !hide;
            x += 12;
        }
        (line, reads)
    }

    fn remaining_reads(&self, ram: &[u8], font: &[u8]) -> Vec<bool> {
        let mut rest = self.clone();
        let mut read = vec![false; 1024];
        while rest.left > 0 {
            for cell in rest.line(ram, font).1 {
                read[cell] = true;
            }
        }
        read
    }
}

#[test]
fn same_as_the_slow_model() {
    let mut noise = Noise(0x9E37_79B9_7F4A_7C15);
    for _round in 0..400 {
        let mut ram = noise.ram();
        let font: Vec<u8> = (0..FONT_LEN).map(|_| noise.byte()).collect();
        let (mut fast, mut slow) = (Device::fresh(), Slow::fresh());
        let mut slow_ram = ram.clone();
        let mut bytes = fast.to_bytes();
        let mut bytes_ram = ram.clone();
        let mut events: Vec<Event> = vec![];
        for number in 0..4 {
            let byte = noise.register(number);
            events.extend([Start, Byte(0xBA), Byte(0x3F), Byte(0xF0 + number as u8), Byte(byte)]);
        }
        for _step in 0..300 {
            for event in events.drain(..) {
                let answer = match fast.bus(&mut ram, event) {
                    Ok(byte) => (0, byte),
                    Err(refusal) => (refusal.number(), refusal.bus_byte()),
                };
                assert_eq!(answer, slow.bus(&mut slow_ram, event));
                let (kind, byte) = match event {
                    Start => (0, 0),
                    Byte(byte) => (1, byte),
                    Fetch => (2, 0),
                    Stop => (3, 0),
                };
                let packed = bus_bytes(&mut bytes, &mut bytes_ram, kind, byte);
                assert_eq!(packed, u32::from(answer.0) * 65536 + u32::from(answer.1));
                assert_eq!(bytes, fast.to_bytes());
            }
            assert_eq!(ram, slow_ram);
            assert_eq!(ram, bytes_ram);
            match noise.below(40) {
                0..2 => {
                    let lines = [1, 3, 40, 300, 2048][noise.below(5) as usize];
                    fast.frame_start(lines).unwrap();
                    slow.start(lines);
                }
                2..5 => {
                    let number = noise.below(4) as u16;
                    let byte = noise.register(number);
                    let address = 0xF0 + number as u8;
                    events.extend([Start, Byte(0xBA), Byte(0xFF), Byte(address), Byte(byte)]);
                }
                5..9 => {
                    let (high, low) = (noise.below(4) as u8, noise.byte());
                    events.extend([Start, Byte(0xBA), Byte(high), Byte(low), Byte(noise.byte())]);
                }
                9..13 => events.push(match noise.below(6) {
                    0 => Start,
                    1 => Byte(0xBA),
                    2 => Byte(0xBB),
                    3 => Byte(noise.byte()),
                    4 => Fetch,
                    _ => Stop,
                }),
                13 => {
                    let read = slow.remaining_reads(&ram, &font);
                    for (cell, &read) in read.iter().enumerate() {
                        assert_eq!(fast.cell(&ram, cell as u32), Ok(read), "cell {cell}");
                    }
                }
                _ if slow.left == 0 => {
                    let answer = fast.draw(&ram, &font, &mut [0; 768]);
                    assert_eq!(answer, Err(Refusal::NoLineLeft));
                }
                _ => {
                    let mut line = [0xA5; 770];
                    let answer = fast.draw(&ram, &font, &mut line);
                    let (pixels, reads) = slow.line(&ram, &font);
                    assert_eq!(line[..pixels.len()], pixels);
                    assert!(line[pixels.len()..].iter().all(|&byte| byte == 0xA5));
                    assert_eq!(answer, Ok(reads.len() as u32));
                }
            }
            assert_eq!(Device::from_bytes(&fast.to_bytes()), fast);
            bytes = fast.to_bytes();
            assert_eq!(bytes[20..], slow.frame_bytes());
        }
    }
}

#[test]
fn any_bytes_make_a_device() {
    let mut noise = Noise(0x1234_5678_9ABC_DEF1);
    for round in 0..40_000 {
        let mut bytes = noise.record(round);
        let mut device = Device::from_bytes(&bytes);
        assert_eq!(Device::from_bytes(&device.to_bytes()), device);
        bytes[4..20].copy_from_slice(&device.to_bytes()[4..20]); // else a fetch reads unused bits
        let mut ram = noise.ram();
        let mut bytes_ram = ram.clone();
        for cell in 0..8 {
            device.cell(&ram, 100 * cell).unwrap();
        }
        for _ in 0..4 {
            let (kind, byte) = (noise.below(4) as u8, noise.byte());
            let event = [Start, Byte(byte), Fetch, Stop][usize::from(kind)];
            let answer = match device.bus(&mut ram, event) {
                Ok(byte) => u32::from(byte),
                Err(refusal) => u32::from(refusal.number()) << 16 | 255,
            };
            assert_eq!(bus_bytes(&mut bytes, &mut bytes_ram, kind, byte), answer);
            assert_eq!(Device::from_bytes(&bytes), device);
        }
        assert_eq!(ram, bytes_ram);
        for _ in 0..200 {
            let _ = device.draw(&ram, &[0; FONT_LEN], &mut [0; 768]);
        }
    }
    let short = bus_bytes(&mut [0; DEVICE_LEN], &mut [], 1, 0);
    assert_eq!(short, 65_536);
}

/// Feed, device and RAM, and the same as records: every chunk goes to both.
#[derive(Clone, PartialEq, Debug)]
struct Fed {
    feed: Feed,
    device: Device,
    ram: Vec<u8>,
    feed_record: [u8; FEED_LEN],
    record: [u8; DEVICE_LEN],
}

impl Fed {
    fn fresh() -> Fed {
        let (device, ram, ..) = blank();
        Fed { feed: Feed::fresh(), device, ram, feed_record: [0, 0], record: device.to_bytes() }
    }

    /// The refusal's number, and the output bytes written; those behind them must stay.
    fn feed(&mut self, chunk: &[u8], room: usize) -> (u8, Vec<u8>) {
        let mut out = vec![0xEE; room];
        let (mut bytes_out, mut bytes_ram) = (out.clone(), self.ram.clone());
        let answer = self.device.feed(&mut self.feed, &mut self.ram, chunk, &mut out);
        let refusal = answer.refusal.map_or(0, Refusal::number);
        let packed = feed_bytes(&mut self.record, &mut self.feed_record, &mut bytes_ram, chunk, &mut bytes_out);
        assert_eq!(packed, u32::from(refusal) << 16 | answer.written as u32);
        assert_eq!(Feed::from_bytes(&self.feed_record), self.feed);
        assert_eq!(Device::from_bytes(&self.record), self.device);
        assert_eq!((&bytes_ram, &bytes_out), (&self.ram, &out));
        assert!(out[answer.written..].iter().all(|&byte| byte == 0xEE));
        out.truncate(answer.written);
        (refusal, out)
    }

    /// Feeds each chunk with the room that it needs; answers the joined outputs.
    fn feed_all<'a>(&mut self, chunks: impl IntoIterator<Item = &'a [u8]>) -> Vec<u8> {
        let mut joined = vec![];
        for chunk in chunks {
            joined.extend(self.feed(chunk, chunk.len() + 1).1);
        }
        joined
    }
}

fn logged(events: &[Event]) -> Vec<u8> {
    let kind_and_byte = |&event: &Event| match event {
        Start => [0, 0xA0],
        Byte(byte) => [1, byte],
        Fetch => [2, 0xA2],
        Stop => [3, 0xA3],
    };
    events.iter().flat_map(kind_and_byte).collect()
}

/// Stores two bytes and reads them back; a byte for a reading device and one
/// for an unknown slave are not acknowledged.
fn capture() -> Vec<u8> {
    let address = [Start, Byte(0xBA), Byte(0x01), Byte(0x23)];
    let mut events = address.to_vec();
    events.extend([Byte(0x55), Byte(0x66), Stop]);
    events.extend(address);
    events.extend([Start, Byte(0xBB), Fetch, Byte(0x77), Fetch, Start, Byte(0xBC), Stop]);
    logged(&events)
}

#[test]
fn a_capture_fed_whole() {
    let mut fed = Fed::fresh();
    let mut expected = [1, 0].repeat(19);
    expected[26..32].copy_from_slice(&[1, 0x55, 0, 255, 1, 0x66]);
    expected[34..36].copy_from_slice(&[0, 255]);
    assert_eq!(fed.feed(&capture(), 38), (0, expected));
    assert_eq!(fed.ram[0x123..0x125], [0x55, 0x66]);
    assert_eq!(fed.feed, Feed::Open);
}

#[test]
fn a_capture_cut_anywhere() {
    let good = capture();
    let mut captures = vec![good.clone(), good[..27].to_vec(), vec![]];
    for bad in [0, 10, good.len() - 2] {
        let mut capture = good.clone();
        capture[bad] = 4;
        captures.push(capture);
    }
    for capture in captures {
        let mut whole = Fed::fresh();
        let out = whole.feed_all([&capture[..]]);
        let same = |what: &str, chunks: Vec<&[u8]>| {
            let mut cut = Fed::fresh();
            assert_eq!(cut.feed_all(chunks), out, "{what}");
            assert_eq!(cut, whole, "{what}");
        };
        for place in 0..=capture.len() {
            same(&std::format!("cut at {place}"), vec![&capture[..place], &[], &capture[place..]]);
        }
        same("single bytes", capture.chunks(1).collect());
        same("threes", capture.chunks(3).collect());
    }
}

#[test]
fn refusals_of_a_feed_and_their_order() {
    let mut fed = Fed::fresh();
    fed.feed(&[0], 0);
    let bad = [9, 9, 9]; // the held start's byte, then a bad kind
    for ram_len in [0, 1023, 1025] {
        let mut other = Fed { ram: vec![7; ram_len], ..fed.clone() };
        for (chunk, room) in [(&bad[..], 4), (&bad, 3), (&[], 0)] {
            assert_eq!(other.feed(chunk, room), (1, vec![]));
        }
        assert_eq!(other, Fed { ram: vec![7; ram_len], ..fed });
        other.feed = Feed::Shut;
        other.feed_record = [2, 0];
        assert_eq!(other.feed(&bad, 3), (1, vec![]));
    }
    let before = fed.clone();
    assert_eq!(fed.feed(&bad, 3), (10, vec![]));
    assert_eq!(fed, before);
    assert_eq!(fed.feed(&bad, 4), (9, vec![1, 0]));
    let shut = fed.clone();
    for room in [0, 3, 4] {
        assert_eq!(fed.feed(&bad, room), (9, vec![]));
    }
    assert_eq!(fed, shut);
}

#[test]
fn room_of_the_output() {
    let transfer = logged(&[Start, Byte(0xBA), Byte(0), Byte(0), Byte(9)]);
    let mut fed = Fed::fresh();
    for room in [0, 2, 9] {
        assert_eq!(fed.feed(&transfer, room), (10, vec![]));
        assert_eq!(fed, Fed::fresh());
    }
    assert_eq!(fed.feed(&transfer[..9], 7), (10, vec![]));
    // The half that is held costs no room until it is completed.
    assert_eq!(fed.feed(&transfer[..9], 8), (0, [1, 0].repeat(4)));
    assert_eq!(fed.feed, Feed::Half(1));
    assert_eq!(fed.feed(&[], 0), (0, vec![]));
    for room in [0, 1] {
        assert_eq!(fed.feed(&transfer[9..], room), (10, vec![]));
    }
    assert_eq!(fed.feed, Feed::Half(1));
    // A longer output is fine, and its later bytes stay.
    assert_eq!(fed.feed(&transfer[9..], 50), (0, vec![1, 0]));
    assert_eq!(fed.ram[0], 9);
    // Kinds are not looked at before there is room: a bad one too needs it.
    assert_eq!(fed.feed(&[7, 7], 1), (10, vec![]));
    assert_eq!(fed.feed(&[7, 7], 2), (9, vec![]));
}

#[test]
fn a_bad_kind_shuts_the_feed() {
    // First, and behind it nothing is taken, whatever it is.
    let mut fed = Fed::fresh();
    assert_eq!(fed.feed(&[4, 0, 0, 0, 1, 0xBA, 3], 6), (9, vec![]));
    assert_eq!((fed.feed, fed.feed_record, fed.device), (Feed::Shut, [2, 0], Device::fresh()));
    // Last: the events before it stand.
    let mut fed = Fed::fresh();
    assert_eq!(fed.feed(&[0, 0, 1, 0xBA, 255, 0], 6), (9, vec![1, 0, 1, 0]));
    assert_eq!(fed.device.to_bytes()[0], 3);
    // Across a cut: what is held is no event yet.
    let mut fed = Fed::fresh();
    assert_eq!(fed.feed(&[0, 0, 4], 2), (0, vec![1, 0]));
    assert_eq!((fed.feed, fed.feed_record), (Feed::Half(4), [1, 4]));
    assert_eq!(fed.feed(&[], 0), (0, vec![]));
    assert_eq!(fed.feed(&[1], 1), (10, vec![]));
    assert_eq!(fed.feed(&[1, 3, 0], 4), (9, vec![]));
    assert_eq!((fed.feed, fed.feed_record), (Feed::Shut, [2, 0]));
    // Shut until it is made anew; an empty chunk is refused too.
    for chunk in [&[][..], &[3], &[3, 0]] {
        assert_eq!(fed.feed(chunk, 2), (9, vec![]));
    }
    (fed.feed, fed.feed_record) = (Feed::fresh(), [0, 0]);
    assert_eq!(fed.feed(&[1, 0xBB], 2), (0, vec![1, 0]));
}

#[test]
fn an_event_that_is_not_acknowledged() {
    let mut fed = Fed::fresh();
    let events = [Byte(0xBA), Fetch, Start, Byte(0x42), Byte(0xBA), Fetch, Stop];
    let expected = vec![0, 255, 0, 255, 1, 0, 0, 255, 0, 255, 0, 255, 1, 0];
    assert_eq!(fed.feed(&logged(&events), 14), (0, expected));
    assert_eq!(fed.feed, Feed::Open);
    // A fetch before each byte of a transfer; then reads, and a byte between them.
    let events = [Start, Fetch, Byte(0xBA), Fetch, Byte(0), Fetch, Byte(9), Fetch, Byte(7), Fetch];
    assert_eq!(fed.feed(&logged(&events), 20), (0, [1, 0, 0, 255].repeat(5)));
    let events = [Start, Byte(0xBB), Fetch, Byte(0xBB), Byte(0xBA), Fetch];
    assert_eq!(fed.feed(&logged(&events), 12), (0, vec![1, 0, 1, 0, 1, 0, 0, 255, 0, 255, 1, 0]));
    assert_eq!((fed.ram[9], &fed.record[..4]), (7, &[6, 0, 12, 0][..]));
}

#[test]
fn any_bytes_make_a_feed() {
    let mut ram = vec![0; RAM_LEN];
    for state in 0..=255 {
        for second in 0..=255 {
            let bytes = [state, second];
            let feed = Feed::from_bytes(&bytes);
            let expected = match state {
                0 => Feed::Open,
                1 => Feed::Half(second),
                _ => Feed::Shut,
            };
            assert_eq!(feed, expected);
            assert_eq!(Feed::from_bytes(&feed.to_bytes()), feed);
            // A refused call leaves the record as it was, an accepted one in its normal form.
            let mut left = bytes;
            let answer = feed_bytes(&mut [0; DEVICE_LEN], &mut left, &mut ram, &[], &mut []);
            match feed {
                Feed::Shut => assert_eq!((answer, left), (9 << 16, bytes)),
                _ => assert_eq!((answer, left), (0, feed.to_bytes())),
            }
            let mut left = bytes;
            let answer = feed_bytes(&mut [0; DEVICE_LEN], &mut left, &mut ram, &[0, 0, 0], &mut [0; 3]);
            match feed {
                Feed::Open => assert_eq!((answer, left), (2, [1, 0])),
                Feed::Half(_) => assert_eq!((answer, left), (10 << 16, bytes)),
                Feed::Shut => assert_eq!((answer, left), (9 << 16, bytes)),
            }
        }
    }
}

#[test]
fn same_as_bus_events() {
    let mut noise = Noise(0x0123_4567_89AB_CDEF);
    for round in 0..20_000 {
        let mut record = noise.record(round);
        // Mostly runs of one kind, as transfers have them.
        let mut kind = 0;
        let mut capture = vec![];
        for _ in 0..noise.below(40) {
            if noise.below(4) == 0 {
                kind = noise.below(if round % 4 == 0 { 6 } else { 4 }) as u8;
            }
            let byte = if noise.below(3) == 0 { 0xBA | noise.byte() & 1 } else { noise.byte() };
            capture.extend([kind, byte]);
        }
        capture.truncate(capture.len() - capture.len().min(round % 2));
        let (feed_record, chunk) = match &capture[..] {
            [kind, rest @ ..] if noise.below(2) == 0 => ([1, *kind], rest),
            all => ([0, noise.byte()], all),
        };
        let device = Device::from_bytes(&record);
        record[4..20].copy_from_slice(&device.to_bytes()[4..20]); // else a fetch reads unused bits
        let mut fed = Fed { feed: Feed::from_bytes(&feed_record), device, ram: noise.ram(), feed_record, record };
        let mut ram = fed.ram.clone();

        let events = capture.chunks_exact(2);
        let (mut left, mut refusal) = (events.remainder().first().map_or([0, 0], |&kind| [1, kind]), 0);
        let mut out = vec![];
        for event in events {
            if event[0] > 3 {
                (left, refusal) = ([2, 0], 9);
                break;
            }
            let answer = bus_bytes(&mut record, &mut ram, event[0], event[1]);
            out.extend([u8::from(answer < 65_536), answer as u8]);
        }
        assert_eq!(fed.feed(chunk, capture.len() + 5), (refusal, out));
        assert_eq!((fed.feed_record, fed.record, fed.ram), (left, record, ram));
    }
}

/// Request K5. Pixels of a line of frame 0, asked for one by one.
fn asked(device: &Device, ram: &[u8], font: &[u8], columns: Range<u32>, line: u32) -> std::string::String {
    hex(&columns.map(|x| device.pixel(ram, font, 2048, 0, x, line).unwrap()).collect::<Vec<u8>>())
}

#[test]
fn pixels_of_the_worked_example() {
    let (mut device, mut ram, font, _) = example();
    let shown = "000000000000000000000000000000000000F9999999FFFF000000000000";
    assert_eq!(asked(&device, &ram, &font, 0..60, 0), shown);
    for (x, digit) in (0..).zip(shown.chars()) {
        let pixel = device.pixel(&ram, &font, 1, 0, x, 0).unwrap();
        assert_eq!(u32::from(pixel), digit.to_digit(16).unwrap());
    }
    // Its 17 other lines are background; behind it all descriptors are zero spacings.
    let background = "000000000000000000000000000000000000999999999999000000000000";
    for line in 1..18 {
        assert_eq!(asked(&device, &ram, &font, 0..60, line), background);
    }
    let plain = "0".repeat(60);
    assert_eq!(asked(&device, &ram, &font, 0..60, 18), plain);
    // FBK: plain pixels are black with FBLK 1.
    poke(&mut device, &mut ram, 0x3FF3, &[0xC0]);
    assert_eq!(asked(&device, &ram, &font, 0..60, 0), shown.replace('0', "8"));
    assert_eq!(asked(&device, &ram, &font, 0..60, 18), "8".repeat(60));
    // OSD 0: nothing at all, FBK or not.
    poke(&mut device, &mut ram, 0x3FF3, &[0x40]);
    assert_eq!(asked(&device, &ram, &font, 0..60, 0), plain);
    // DE 0: a strip as high as before, and plain.
    poke(&mut device, &mut ram, 0x3FF3, &[0x80]);
    ram[1] = 0x80;
    for line in 0..18 {
        assert_eq!(asked(&device, &ram, &font, 0..60, line), plain);
    }
}

#[test]
fn pixels_with_shadow_and_flash() {
    let (mut device, mut ram, mut font, _) = example();
    font[2340..2342].copy_from_slice(&[0x0E, 0xFA]); // A0E: 1010 0000 1110, and bits that do not count
    ram[4] = 0xFA; // flashing, white, shadowed
    for mode in 0..4 {
        poke(&mut device, &mut ram, 0x3FF3, &[0xC0 | mode << 4]);
        for frame in (0..300).chain([65_535, 65_536, 65_536 + 47, u32::MAX - 16, u32::MAX]) {
            let line: Vec<u8> = (36..48).map(|x| device.pixel(&ram, &font, 1, frame, x, 0).unwrap()).collect();
            let shown = frame % 64 < [64, 32, 16, 48][usize::from(mode)];
            assert_eq!(hex(&line), if shown { "F8F88888FFF8" } else { "888888888888" });
        }
    }
    // A blank slice, behind a character that ends in foreground.
    font[2340] = 0x0F;
    ram[4..10].copy_from_slice(&[0x7A, 0x41, 0x7A, 0x42, 0x00, 0xFF]);
    poke(&mut device, &mut ram, 0x3FF3, &[0x80]);
    assert_eq!(asked(&device, &ram, &font, 36..60, 0), "F8F80000FFFF800000000000");
}

#[test]
fn pixels_of_cut_characters_and_none() {
    // W 60, DD 5: the second character is cut to 9 columns. Below 4 DD is 4.
    let (mut device, mut ram, mut font, _) = example();
    font[2340..2342].copy_from_slice(&[0x55, 0x05]);
    ram[6..10].copy_from_slice(&[0x71, 0x41, 0x00, 0xFF]);
    for (dd, shown) in [
        (3, "9F9F9F9F9F9F9F9F9F9F9F9F"),
        (4, "9F9F9F9F9F9F9F9F9F9F9F9F"),
        (5, "0009F9F9F9F9F9F9F9F9F9F9"),
        (11, "0000000000000000000009F9"),
        (12, "000000000000000000000000"),
        (255, "000000000000000000000000"),
    ] {
        poke(&mut device, &mut ram, 0x3FF1, &[dd]);
        assert_eq!(asked(&device, &ram, &font, 36..60, 0), shown, "DD {dd}");
    }
}

#[test]
fn pixels_of_tall_letters() {
    for (height, zoom, lines) in TALL {
        for code in [0x41, 0x81] {
            let (device, ram, font, _) = tall(height, zoom, code);
            for line in 0..=lines {
                let slice = if line < lines { "F9999999FFFF" } else { "99999999999F" };
                assert_eq!(asked(&device, &ram, &font, 36..48, line), slice);
            }
        }
    }
}

#[test]
fn a_page_by_p_as_it_stands() {
    // Page 3 is the example's; page 0 is spacing.
    let (mut device, mut ram, font, _) = example();
    ram.copy_within(0..2, 192);
    ram[..2].copy_from_slice(&[9, 0]);
    poke(&mut device, &mut ram, 0x3FF3, &[0x83]);
    assert_eq!(asked(&device, &ram, &font, 36..48, 0), "F9999999FFFF");
    // A running frame goes on with the page that it took; the question does not.
    device.frame_start(9).unwrap();
    poke(&mut device, &mut ram, 0x3FF3, &[0x80]);
    assert_eq!(asked(&device, &ram, &font, 36..48, 0), "000000000000");
}

#[test]
fn refusals_of_a_pixel_and_their_order() {
    let (mut device, mut ram, font, _) = example();
    let (long_ram, long_font) = (vec![0; RAM_LEN + 1], vec![0; FONT_LEN + 1]);
    let rams = [(&ram[..], false), (&[], true), (&ram[1..], true), (&long_ram, true)];
    let fonts = [(&font[..], false), (&[], true), (&font[1..], true), (&long_font, true)];
    // Lines that are the ones asked for where they are cut to 16 bits.
    let frames = [1, 2, 300, 2048, 0, 2049, 65_535, 65_536, 65_536 + 1, 65_536 + 300, 1 << 31, u32::MAX];
    for ((ram, bad_ram), (font, bad_font)) in rams.into_iter().flat_map(|ram| fonts.map(|font| (ram, font))) {
        for lines in frames {
            for x in [0, 59, 60, 61, 767, 768, 65_535, 65_536, 65_536 + 36, (1 << 31) + 36, u32::MAX] {
                for y in [0, 1, 2, 299, 300, 2047, 2048, 65_535, 65_536, 65_536 + 1, 1 << 31, u32::MAX] {
                    let answer = device.pixel(ram, font, lines, 0, x, y).map_err(Refusal::number);
                    let expected = match (bad_ram, bad_font, lines) {
                        (true, ..) => Err(1),
                        (_, true, _) => Err(2),
                        (.., 0 | 2049..) => Err(6),
                        _ if x >= 60 || y >= lines => Err(11),
                        _ => Ok(()),
                    };
                    assert_eq!(answer.map(|_| ()), expected, "{lines} lines, column {x}, line {y}");
                }
            }
        }
    }
    // W goes with LD, whatever VSP and HSP are.
    for ld in [0, 1, 62, 63] {
        for polarity in [0, 0x40, 0x80, 0xC0] {
            poke(&mut device, &mut ram, 0x3FF0, &[ld | polarity]);
            let width = device.width() as u32;
            assert_eq!(device.pixel(&ram, &font, 1, 0, width - 1, 0), Ok(0));
            assert_eq!(device.pixel(&ram, &font, 1, 0, width, 0), Err(Refusal::NoSuchPixel));
        }
    }
}

#[test]
fn a_pixel_of_any_record() {
    let mut noise = Noise(0x2545_F491_4F6C_DD1D);
    let font: Vec<u8> = (0..FONT_LEN).map(|_| noise.byte()).collect();
    for round in 0..4000 {
        let ram = noise.ram();
        let mut record = noise.record(round);
        record[7] |= if round % 8 == 0 { 0 } else { 0x80 };
        let device = Device::from_bytes(&record);
        let (lines, frame) = (noise.below(2050) as u32, noise.next() as u32);
        let (x, y) = (noise.below(device.width() as u64 + 2) as u32, noise.below(2050) as u32);
        let answer = match device.pixel(&ram, &font, lines, frame, x, y) {
            Ok(pixel) => u32::from(pixel),
            Err(refusal) => u32::from(refusal.number()) << 16,
        };
        assert_eq!(pixel_bytes(&record, &ram, &font, lines, frame, x, y), answer);
        // Of the record only the registers count.
        let others = noise.record(round + 1);
        record[..4].copy_from_slice(&others[..4]);
        record[20..].copy_from_slice(&others[20..]);
        assert_eq!(pixel_bytes(&record, &ram, &font, lines, frame, x, y), answer);
        assert_eq!(pixel_bytes(&record, &ram[1..], &font[1..], 0, frame, x, y), 1 << 16);
    }
}

/// Draws a frame of this number and asks for all pixels of one line of
/// `every`: with the device that draws, since its frame does not matter.
fn asked_as_drawn(device: &Device, ram: &[u8], font: &[u8], lines: u32, frame: u32, every: u32) {
    let mut drawing = Device { next_frame: (frame % 64) as u8, ..*device };
    drawing.frame_start(lines).unwrap();
    let mut line = vec![0xEE; device.width()];
    for y in 0..lines {
        drawing.draw(ram, font, &mut line).unwrap();
        if y % every > 0 {
            continue;
        }
        for (x, &pixel) in (0..).zip(&line) {
            assert_eq!(drawing.pixel(ram, font, lines, frame, x, y), Ok(pixel), "column {x}, line {y}, frame {frame}");
        }
    }
}

/// Codes of all kinds from this word on, around the end of RAM.
fn codes(noise: &mut Noise, ram: &mut [u8], word: usize, count: usize) {
    for word in word..word + count {
        let high = match noise.below(4) {
            0 => 0x80 + noise.below(26) as u8,
            1 => 0x9A + noise.below(101) as u8,
            _ => noise.below(128) as u8,
        };
        ram[2 * (word % 512)..][..2].copy_from_slice(&[noise.byte(), high]);
    }
}

#[test]
fn pixels_as_drawn_of_every_kind_of_strip() {
    let mut noise = Noise(0x0BAD_5EED_0BAD_5EED);
    let font: Vec<u8> = (0..FONT_LEN).map(|_| noise.byte()).collect();
    for (height, mode) in [0, 1, 12, 18, 37, 63].into_iter().flat_map(|height| (0..4).map(move |mode| (height, mode))) {
        for (ld, dd) in [(4, 5), (12, 4), (7, 9), (0, 4), (9, 255)] {
            let mut ram: Vec<u8> = (0..RAM_LEN).map(|_| noise.byte()).collect();
            let page = noise.below(8) as u8;
            // Rows: over the end of RAM; of an end of line; of three codes and an
            // end of line; on and on.
            for (word, count) in [(507, 20), (300, 0), (310, 3), (320, 180)] {
                codes(&mut noise, &mut ram, word, count);
            }
            for end in [300, 313] {
                ram[2 * end..][..2].copy_from_slice(&[noise.byte(), 0xFF]);
            }
            let row = |word: usize, bits: u8| [(2 * word) as u8 | 1, 0x80 | bits | (word / 128) as u8];
            let strips = [
                [0, 0x7F],
                row(507, 0x40),
                [2, 0],
                row(320, 0),
                row(300, 0x40),
                row(310, 0x60),
                row(321, 0x44), // bits 4 to 2 do not count
                row(322, 0x20),
                row(508, 0x78),
            ];
            for (place, strip) in strips.into_iter().enumerate() {
                ram[64 * usize::from(page) + 2 * place..][..2].copy_from_slice(&strip);
            }
            let (mut device, ..) = blank();
            let osd = if ld == 7 && mode == 2 { 0 } else { 0x80 };
            let settings = [ld | noise.byte() & 0xC0, dd, height, osd | noise.byte() & 0x40 | mode << 4 | page];
            poke(&mut device, &mut [0; RAM_LEN], 0x3FF0, &settings);
            // To the end of the last strip and some lines on, whatever is there.
            let lines = 3 + 9 * u32::from(height.max(1)) + noise.below(20) as u32;
            let frame = noise.below(64) as u32 + [0, 0, 64, 65_536, u32::MAX - 63][noise.below(5) as usize];
            asked_as_drawn(&device, &ram, &font, lines, frame, 1);
        }
    }
}

#[test]
fn pixels_as_drawn_of_every_frame_number() {
    let mut noise = Noise(0x5DEE_CE66_D1CE_4E5B);
    let font: Vec<u8> = (0..FONT_LEN).map(|_| noise.byte()).collect();
    let (mut device, mut ram, ..) = blank();
    codes(&mut noise, &mut ram, 100, 20);
    ram[..2].copy_from_slice(&[200, 0xC0]);
    for frame in (0..64).flat_map(|number| [number, number + 64, number + 128, number + 65_536, number + (1 << 31)]) {
        for mode in 0..4 {
            poke(&mut device, &mut ram, 0x3FF0, &[9, 4, 3, 0x80 | mode << 4]);
            asked_as_drawn(&device, &ram, &font, 3, frame, 1);
        }
    }
}

#[test]
fn pixels_as_drawn_over_noise() {
    let mut noise = Noise(0xD1B5_4A32_D192_ED03);
    for round in 0..300 {
        let ram = noise.ram();
        let font: Vec<u8> = (0..FONT_LEN).map(|_| noise.byte()).collect();
        let mut record = noise.record(round);
        for number in 0..4 {
            record[4 + usize::from(number)] = noise.register(number);
        }
        let device = Device::from_bytes(&record);
        let lines = [1, 7, 64, 700, 2048][noise.below(5) as usize];
        asked_as_drawn(&device, &ram, &font, lines, noise.next() as u32, 1 + lines / 8);
    }
}

/// Request K6. Bus states, as a record has them: written out again, so that the
/// table does not lean on the code that it tests.
const IDLE: u8 = 0;
const DEAF: u8 = 1;
const SLAVE_ADDRESS: u8 = 2;
const HIGH_BYTE: u8 = 3;
const LOW_BYTE: u8 = 4;
const WRITING: u8 = 5;
const READING: u8 = 6;

/// For each state: refusal number and next state with the host bytes BA and BB,
/// with any other host byte, and with a fetch.
const HEARD: [(u8, [(u8, u8); 4]); 7] = [
    (IDLE, [(5, IDLE), (5, IDLE), (5, IDLE), (5, IDLE)]),
    (DEAF, [(12, DEAF), (12, DEAF), (12, DEAF), (12, DEAF)]),
    (SLAVE_ADDRESS, [(0, HIGH_BYTE), (0, READING), (12, DEAF), (14, SLAVE_ADDRESS)]),
    (HIGH_BYTE, [(0, LOW_BYTE), (0, LOW_BYTE), (0, LOW_BYTE), (14, HIGH_BYTE)]),
    (LOW_BYTE, [(0, WRITING), (0, WRITING), (0, WRITING), (14, LOW_BYTE)]),
    (WRITING, [(0, WRITING), (0, WRITING), (0, WRITING), (14, WRITING)]),
    (READING, [(13, READING), (13, READING), (13, READING), (0, READING)]),
];

/// The high byte that the state before the low byte holds; its upper bits do
/// not count.
const HELD: u8 = 0xC2;

/// A device in mid-frame and RAM, led to a bus state over the bus with the
/// counter at an address.
fn led_to(state: u8, address: u16) -> Fed {
    let (mut device, mut ram, font, mut line) = example();
    for (cell, byte) in (0..).zip(&mut ram[8..]) {
        *byte = cell as u8 ^ 0x5A;
    }
    poke(&mut device, &mut ram, 0x3FF8, &[1, 2, 3, 4, 5, 6, 7, 8]);
    device.frame_start(9).unwrap();
    device.draw(&ram, &font, &mut line).unwrap();
    poke(&mut device, &mut ram, address, &[]);
    let [high, low] = address.to_be_bytes();
    let events: &[Event] = match state {
        IDLE => &[],
        DEAF => &[Start, Byte(0x42)],
        SLAVE_ADDRESS => &[Start],
        HIGH_BYTE => &[Start, Byte(0xBA)],
        LOW_BYTE => &[Start, Byte(0xBA), Byte(HELD)],
        WRITING => &[Start, Byte(0xBA), Byte(high), Byte(low)],
        _ => &[Start, Byte(0xBB)],
    };
    for &event in events {
        let _ = device.bus(&mut ram, event);
    }
    let record = device.to_bytes();
    assert_eq!((record[0], &record[2..4]), (state, &[low, high][..]));
    Fed { device, ram, record, ..Fed::fresh() }
}

/// The number by the table; byte, record and RAM by the rules for what is
/// acknowledged, and as before for what is not. The record may have any bytes.
fn heard(before: &Fed, event: Event) -> (u8, u8, [u8; DEVICE_LEN], Vec<u8>) {
    let (mut record, mut ram) = (before.record, before.ram.clone());
    let held = record[1];
    let (state, places) = *HEARD.get(usize::from(record[0])).unwrap_or(&HEARD[0]);
    assert!(state == record[0] || record[0] > READING && state == IDLE);
    let (number, next) = match event {
        Start => (0, SLAVE_ADDRESS),
        Stop => (0, IDLE),
        Byte(0xBA) => places[0],
        Byte(0xBB) => places[1],
        Byte(_) => places[2],
        Fetch => places[3],
    };
    if number > 0 {
        if next != state {
            record[0] = next;
        }
        return (number, 255, record, ram);
    }
    (record[0], record[1]) = (next, 0);
    let at = (usize::from(record[3]) * 256 + usize::from(record[2])) % 0x4000;
    let up = ((at as u16 + 1) % 0x4000).to_le_bytes();
    let mut answer = 0;
    match (state, event) {
        (HIGH_BYTE, Byte(byte)) => record[1] = byte,
        (LOW_BYTE, Byte(byte)) => (record[2], record[3]) = (byte, held % 64),
        (WRITING, Byte(byte)) => {
            match at {
                0..0x400 => ram[at] = byte,
                0x3FF0.. => record[4 + at % 16] = byte & Registers::KEPT[at % 16],
                _ => {}
            }
            record[2..4].copy_from_slice(&up);
        }
        (READING, Fetch) => {
            answer = match at {
                0..0x400 => ram[at],
                0x3FF0.. => record[4 + at % 16],
                _ => 0,
            };
            record[2..4].copy_from_slice(&up);
        }
        _ => {}
    }
    (0, answer, record, ram)
}

/// Start, all host bytes, fetch and stop.
fn every_event() -> impl Iterator<Item = Event> {
    (0..=255).map(Byte).chain([Start, Fetch, Stop])
}

#[test]
fn every_event_in_every_state() {
    for address in [0x0000, 0x0123, 0x03FF, 0x0400, 0x3FEF, 0x3FF3, 0x3FF8, 0x3FFF] {
        for (state, _) in HEARD {
            let before = led_to(state, address);
            for event in every_event() {
                let (number, byte, record, ram) = heard(&before, event);
                let what = std::format!("{event:?} in state {state}, counter {address:04X}");

                let mut left = before.clone();
                let answer = left.device.bus(&mut left.ram, event).map_err(|no| (no.number(), no.bus_byte()));
                assert_eq!(answer, if number == 0 { Ok(byte) } else { Err((number, 255)) }, "{what}");
                assert_eq!((left.device.to_bytes(), &left.ram), (record, &ram), "{what}");

                let mut left = before.clone();
                let capture = logged(&[event]);
                let answer = bus_bytes(&mut left.record, &mut left.ram, capture[0], capture[1]);
                assert_eq!(answer, u32::from(number) * 65_536 + u32::from(byte), "{what}");
                assert_eq!((left.record, &left.ram), (record, &ram), "{what}");

                // A logger sees no number.
                let mut left = before.clone();
                let output = if number == 0 { vec![1, byte] } else { vec![0, 255] };
                assert_eq!(left.feed(&capture, 2), (0, output), "{what}");
                assert_eq!((left.record, &left.ram), (record, &ram), "{what}");
            }
        }
    }
}

#[test]
fn refusals_of_a_bus_event_and_their_order() {
    for (state, _) in HEARD {
        let before = led_to(state, 0x0123);
        for event in every_event() {
            let capture = logged(&[event]);
            for ram_len in [0, RAM_LEN - 1, RAM_LEN + 1, 2 * RAM_LEN] {
                let mut left = Fed { ram: vec![7; ram_len], ..before.clone() };
                assert_eq!(left.device.bus(&mut left.ram, event), Err(Refusal::RamLength));
                assert_eq!(bus_bytes(&mut left.record, &mut left.ram, capture[0], capture[1]), 65_536);
                assert_eq!(left, Fed { ram: vec![7; ram_len], ..before.clone() });
            }
        }
        // No event, so none of the bus's refusals, nor 1.
        for kind in 4..=255 {
            for ram_len in [RAM_LEN, RAM_LEN - 1] {
                let mut left = before.clone();
                assert_eq!(bus_bytes(&mut left.record, &mut left.ram[..ram_len], kind, 0xBA), 255 * 65_536);
                assert_eq!(left, before);
            }
        }
    }
}

/// A record in this state with byte 1 not 0; all else is noise.
fn made_up(noise: &mut Noise, state: u8, address: u16) -> Fed {
    let mut record = noise.record(1);
    record[0] = state;
    record[1] = 1 + noise.below(255) as u8;
    record[2..4].copy_from_slice(&address.to_le_bytes());
    Fed { record, ram: noise.ram(), ..Fed::fresh() }
}

/// Addresses that count modulo 4000, in RAM, at registers and elsewhere.
const MADE_UP_COUNTERS: [u16; 12] =
    [0x0000, 0x03FF, 0x0400, 0x3FEF, 0x3FF5, 0x3FFF, 0x4000, 0x7FF3, 0x7FFF, 0x8123, 0xBFF2, 0xFFFF];

/// What is acknowledged writes bytes 0 and 1 anew, the counter where it is set
/// or counts, modulo 4000, and a stored register with its kept bits; no other
/// byte changes, and a fetch reads a register as it stands. What is refused
/// writes byte 0 at an unknown slave address, and else nothing.
#[test]
fn every_event_on_made_up_records() {
    let mut noise = Noise(0xC0DE_C0DE_0000_0006);
    for state in 0..=255 {
        for address in MADE_UP_COUNTERS {
            let before = made_up(&mut noise, state, address);
            let random = noise.byte();
            let others = [0, 0x3F, 0xBC, 0xFF, random].map(Byte);
            for event in [Start, Byte(0xBA), Byte(0xBB), Fetch, Stop].into_iter().chain(others) {
                let (number, byte, record, ram) = heard(&before, event);
                let what = std::format!("{event:?} in state {state}, counter {address:04X}");
                let capture = logged(&[event]);

                let mut left = before.clone();
                let answer = bus_bytes(&mut left.record, &mut left.ram, capture[0], capture[1]);
                assert_eq!(answer, u32::from(number) * 65_536 + u32::from(byte), "{what}");
                assert_eq!((left.record, &left.ram), (record, &ram), "{what}");

                let (mut left, mut out) = (before.clone(), [7; 3]);
                let answer = feed_bytes(&mut left.record, &mut left.feed_record, &mut left.ram, &capture, &mut out);
                assert_eq!((answer, left.feed_record), (2, [0, 0]), "{what}");
                assert_eq!(out, [u8::from(number == 0), byte, 7], "{what}");
                assert_eq!((left.record, &left.ram), (record, &ram), "{what}");
            }
            // Refused before the bus is looked at: another length of the RAM, and a kind that there is not.
            let bad = 4 + noise.below(252) as u8;
            for (kind, ram_len, number) in [(1, RAM_LEN - 1, 1), (2, 0, 1), (bad, RAM_LEN, 255), (bad, 0, 255)] {
                let mut left = before.clone();
                assert_eq!(bus_bytes(&mut left.record, &mut left.ram[..ram_len], kind, random), number * 65_536);
                assert_eq!((left.record, &left.ram), (before.record, &before.ram));
            }
        }
    }
}

/// Request K7. A code's attributes and high byte. Its twelve pixels, with . for
/// plain: as the first character, and behind one that ends in foreground. Does
/// it end in foreground itself?
type Kind = ([u8; 2], &'static str, &'static str, bool);

/// Characters of [`seams`] that are not hidden.
const SHOWN: [Kind; 25] = [
    // solid; BK1 alone is a colour; white on white has an end that is not foreground
    ([0x71, 0x01], "99999FF999F9", "99999FF999F9", false),
    ([0x71, 0x02], "99999FF9999F", "99999FF9999F", true),
    ([0x71, 0x83], "F9999FF999F9", "F9999FF999F9", false),
    ([0x72, 0x84], "FAAAAFFAAAAF", "FAAAAFFAAAAF", true),
    ([0x77, 0x81], "FFFFFFFFFFFF", "FFFFFFFFFFFF", false),
    ([0x77, 0x82], "FFFFFFFFFFFF", "FFFFFFFFFFFF", true),
    // transparent
    ([0x78, 0x81], ".....FF...F.", ".....FF...F.", false),
    ([0x7D, 0x82], ".....FF....F", ".....FF....F", true),
    ([0x7C, 0x03], "F....FF...F.", "F....FF...F.", false),
    ([0x79, 0x04], "F....FF....F", "F....FF....F", true),
    // shadowed; BK2 and BK0 do not count; foreground may be black; shadow in the last column is no foreground
    ([0x7A, 0x01], ".....FF8..F8", "8....FF8..F8", false),
    ([0x7F, 0x02], ".....FF8...F", "8....FF8...F", true),
    ([0x7B, 0x03], "F8...FF8..F8", "F8...FF8..F8", false),
    ([0x7E, 0x04], "F8...FF8...F", "F8...FF8...F", true),
    ([0x7E, 0x81], ".....FF8..F8", "8....FF8..F8", false),
    ([0x7A, 0x82], ".....FF8...F", "8....FF8...F", true),
    ([0x7F, 0x83], "F8...FF8..F8", "F8...FF8..F8", false),
    ([0x7B, 0x84], "F8...FF8...F", "F8...FF8...F", true),
    ([0x0A, 0x01], ".....888..88", "8....888..88", false),
    ([0x0A, 0x02], ".....888...8", "8....888...8", true),
    // blank
    ([0x71, 0x9A], "999999999999", "999999999999", false),
    ([0x78, 0xFE], "............", "............", false),
    ([0x7A, 0x9A], "............", "8...........", false),
    ([0x7B, 0xFE], "............", "8...........", false),
    ([0x0E, 0xC0], "............", "8...........", false),
];

/// Flashing characters in their hidden time.
const HIDDEN: [Kind; 14] = [
    ([0xF1, 0x02], "999999999999", "999999999999", false),
    ([0xF2, 0x84], "AAAAAAAAAAAA", "AAAAAAAAAAAA", false),
    ([0xF8, 0x04], "............", "............", false),
    ([0xFD, 0x82], "............", "............", false),
    ([0xFA, 0x01], "............", "8...........", false),
    ([0xFF, 0x02], "............", "8...........", false),
    ([0xFB, 0x03], "............", "8...........", false),
    ([0xFE, 0x04], "............", "8...........", false),
    ([0xFE, 0x81], "............", "8...........", false),
    ([0xFA, 0x82], "............", "8...........", false),
    ([0xFF, 0x83], "............", "8...........", false),
    ([0xFB, 0x84], "............", "8...........", false),
    ([0xFA, 0x9A], "............", "8...........", false),
    ([0xF8, 0xFE], "............", "............", false),
];

/// RAM and font of all ones, but for page 7 with one strip, a row of codes at
/// this cell, and slice 1 of characters 1 to 4, font and user: 062, 061, 862,
/// 861. Before the row stands a code that ends in foreground.
fn seams(row: usize, codes: &[[u8; 2]]) -> (Vec<u8>, Vec<u8>) {
    let (mut ram, mut font) = (vec![0xFF; RAM_LEN], vec![0xFF; FONT_LEN]);
    ram[448..450].copy_from_slice(&[row as u8, 0xC0 | (row >> 8) as u8]);
    for (number, slice) in (1..).zip([[0x62, 0xF0], [0x61, 0x00], [0x62, 0xF8], [0x61, 0x08]]) {
        font[36 * number..][..2].copy_from_slice(&slice);
        ram[38 * number + 2..][..2].copy_from_slice(&slice);
    }
    for (place, code) in [[0x71, 0x02]].iter().chain(codes).enumerate() {
        ram[(row + 2 * place - 2) % RAM_LEN..][..2].copy_from_slice(code);
    }
    (ram, font)
}

/// Line `y` of a frame of this number is `text` from column `start` on, and
/// plain before and behind it, drawn as well as asked for, with FBK 0 and 1.
fn assert_line(settings: [u8; 4], (ram, font): &(Vec<u8>, Vec<u8>), frame: u8, y: u32, start: usize, text: &str) {
    let [ld, dd, height, control] = settings;
    for (fbk, plain) in [(0, "0"), (0x40, "8")] {
        let (mut device, ..) = blank();
        poke(&mut device, &mut [0; RAM_LEN], 0x3FF0, &[ld, dd, height, control | fbk]);
        let width = device.width();
        let shown = std::format!("{:.<start$}{text:.<rest$}", "", rest = width - start).replace('.', plain);
        let mut drawing = Device { next_frame: frame, ..device };
        drawing.frame_start(y + 1).unwrap();
        let mut line = vec![0xEE; width];
        for _ in 0..=y {
            drawing.draw(ram, font, &mut line).unwrap();
        }
        assert_eq!(hex(&line), shown, "drawn: line {y}, frame {frame}");
        let pixels = (0..width as u32).map(|x| device.pixel(ram, font, y + 1, frame.into(), x, y).unwrap());
        assert_eq!(hex(&pixels.collect::<Vec<u8>>()), shown, "asked for: line {y}, frame {frame}");
    }
}

#[test]
fn seams_of_every_pair() {
    // Flash mode 2 hides from frame 16 on. The second row goes over cell 1023 between the two.
    let kinds: Vec<Kind> = SHOWN.into_iter().chain(HIDDEN).collect();
    for &(left, first, _, ends) in &kinds {
        for &(right, alone, behind, _) in &kinds {
            let text = std::format!("{first}{}", if ends { behind } else { alone });
            for row in [500, 1022] {
                assert_line([5, 4, 18, 0xA7], &seams(row, &[left, right, [0x7A, 0xFF]]), 16, 0, 36, &text);
            }
        }
    }
}

#[test]
fn seams_of_flashing_characters_in_their_shown_time() {
    for (left, first, _, ends) in SHOWN {
        for (right, alone, behind, _) in SHOWN {
            let text = std::format!("{first}{}", if ends { behind } else { alone });
            for (left_flashes, right_flashes) in [(0x80, 0), (0, 0x80), (0x80, 0x80)] {
                let codes = [[left[0] | left_flashes, left[1]], [right[0] | right_flashes, right[1]], [0x00, 0xFF]];
                assert_line([5, 4, 18, 0xA7], &seams(500, &codes), 15, 0, 36, &text);
            }
        }
    }
}

#[test]
fn seams_of_every_frame_number() {
    // Steady; flashing, with its first column set; steady; flashing; steady.
    let page = seams(500, &[[0x7A, 0x02], [0xFA, 0x03], [0x7A, 0x01], [0xFA, 0x82], [0x7A, 0x81], [0x00, 0xFF]]);
    let shown = [".....FF8...F", "F8...FF8..F8", ".....FF8..F8", ".....FF8...F", "8....FF8..F8"].concat();
    let hidden = [".....FF8...F", "8...........", ".....FF8..F8", "............", ".....FF8..F8"].concat();
    for (mode, shown_below) in (0..).zip([64, 32, 16, 48]) {
        for frame in 0..64 {
            let text = if frame < shown_below { &shown } else { &hidden };
            assert_line([9, 4, 18, 0x87 | mode << 4], &page, frame, 0, 36, text);
        }
    }
}

#[test]
fn only_the_character_just_to_the_left_counts() {
    for (codes, text) in [
        ([[0x7A, 0x02], [0x7A, 0x9A], [0x7A, 0x01]], [".....FF8...F", "8...........", ".....FF8..F8"]),
        ([[0x7A, 0x02], [0xFA, 0x04], [0x7A, 0x01]], [".....FF8...F", "8...........", ".....FF8..F8"]),
        ([[0x7A, 0x02], [0x71, 0x81], [0x7A, 0x01]], [".....FF8...F", "99999FF999F9", ".....FF8..F8"]),
        ([[0x7A, 0x02], [0x78, 0x82], [0x7A, 0x01]], [".....FF8...F", ".....FF....F", "8....FF8..F8"]),
        ([[0x7A, 0x02], [0x7A, 0x82], [0x7A, 0x02]], [".....FF8...F", "8....FF8...F", "8....FF8...F"]),
        // an end of line, with the attributes of a shadowed character
        ([[0x7A, 0xFF], [0x7A, 0x02], [0x7A, 0x01]], ["............", "............", "............"]),
        ([[0x7A, 0x02], [0x7A, 0xFF], [0x7A, 0x01]], [".....FF8...F", "............", "............"]),
        ([[0x7A, 0x02], [0x7A, 0x02], [0x7A, 0xFF]], [".....FF8...F", "8....FF8...F", "............"]),
    ] {
        assert_line([6, 4, 18, 0xA7], &seams(500, &[codes[0], codes[1], codes[2], [0x00, 0xFF]]), 16, 0, 36, &text.concat());
    }
}

#[test]
fn seams_at_the_cut() {
    // W 60: the second character has 12, 9, 6 or 3 columns. Fewer it never has, since every start is a multiple of 3.
    for (left, first, right, cut) in [
        ([0x71, 0x02], "99999FF9999F", [0x7A, 0x01], ["8....FF8..F8", "8....FF8.", "8....F", "8.."]),
        ([0x71, 0x01], "99999FF999F9", [0x7A, 0x01], [".....FF8..F8", ".....FF8.", ".....F", "..."]),
        ([0x7A, 0x82], ".....FF8...F", [0x7A, 0x83], ["F8...FF8..F8", "F8...FF8.", "F8...F", "F8."]),
        ([0x7A, 0x82], ".....FF8...F", [0xFA, 0x83], ["8...........", "8........", "8.....", "8.."]),
        ([0xFA, 0x82], "............", [0x7A, 0x81], [".....FF8..F8", ".....FF8.", ".....F", "..."]),
        ([0x78, 0x04], "F....FF....F", [0x7A, 0x9A], ["8...........", "8........", "8.....", "8.."]),
        ([0x7A, 0x9A], "............", [0x7A, 0x9A], ["............", ".........", "......", "..."]),
        ([0x7A, 0x84], "F8...FF8...F", [0x78, 0x01], [".....FF...F.", ".....FF..", ".....F", "..."]),
        ([0x7A, 0x84], "F8...FF8...F", [0x72, 0x01], ["AAAAAFFAAAFA", "AAAAAFFAA", "AAAAAF", "AAA"]),
    ] {
        let page = seams(500, &[left, right, [0x71, 0x02]]);
        for ((dd, start), cut) in [(4, 36), (5, 39), (6, 42), (7, 45)].into_iter().zip(cut) {
            assert_line([4, dd, 18, 0xA7], &page, 16, 0, start, &std::format!("{first}{cut}"));
        }
    }
    // The first character is the cut one.
    let page = seams(500, &[[0x7A, 0x01], [0x7A, 0x02]]);
    for (dd, start, text) in [(8, 48, ".....FF8..F8"), (9, 51, ".....FF8."), (10, 54, ".....F"), (11, 57, "...")] {
        assert_line([4, dd, 18, 0xA7], &page, 0, 0, start, text);
    }
}

#[test]
fn no_seam_from_another_line() {
    // Blank and shadowed, then foreground in all columns of all slices: up to W, or to the end of line.
    let (empty, full) = ([0x7A, 0x9A], [0x7A, 0x05]);
    for (ld, codes) in [(4, &[empty, full, empty, full][..]), (6, &[empty, full, [0x7A, 0xFF], empty])] {
        let mut page = seams(500, codes);
        // The strip twice, a spacing, and the strip with ZY.
        let [low, high] = [page.0[448], page.0[449]];
        page.0[450..456].copy_from_slice(&[low, high, 2, 0x00, low, high | 0x20]);
        for y in 0..18 + 18 + 2 + 36 {
            let text = if y == 36 || y == 37 { "" } else { "............FFFFFFFFFFFF" };
            assert_line([ld, 4, 18, 0x87], &page, 0, y, 36, text);
        }
    }
}

#[test]
fn a_seam_by_the_slice_of_its_line() {
    // Font character 5 has 001 in odd slices and user character 5 in even ones, else 000. Behind each stands a blank one.
    let mut page = seams(500, &[[0x78, 0x05], [0x7A, 0x9A], [0x78, 0x85], [0x7A, 0x9A], [0x00, 0xFF]]);
    for slice in 1..=18 {
        page.1[36 * 5 + 2 * (slice - 1)..][..2].copy_from_slice(&[(slice % 2) as u8, 0]);
        page.0[38 * 5 + 2 * slice..][..2].copy_from_slice(&[(1 - slice % 2) as u8, 0]);
    }
    let odd = ["...........F", "8...........", "............", "............"].concat();
    let even = ["............", "............", "...........F", "8..........."].concat();
    for y in 0..18 {
        assert_line([8, 4, 18, 0x87], &page, 0, y, 36, if y % 2 == 0 { &odd } else { &even });
    }
    page.0[449] |= 0x20;
    for y in 0..36 {
        assert_line([8, 4, 18, 0x87], &page, 0, y, 36, if y % 4 < 2 { &odd } else { &even });
    }
}

#[test]
fn a_seam_reads_no_more_cells() {
    let (ram, font) = seams(500, &[[0x7A, 0x82], [0x7A, 0x81], [0x7A, 0x9A], [0x7A, 0x02], [0x7A, 0x01], [0x7A, 0xFF]]);
    let (mut device, _, _, mut line) = blank();
    poke(&mut device, &mut [0; RAM_LEN], 0x3FF0, &[63, 4, 18, 0x87]);
    device.frame_start(1).unwrap();
    let cells = [&[40, 41, 78, 79, 448, 449][..], &Vec::from_iter(500..512)].concat();
    assert_eq!(cells_left(&device, &ram, 0..1024), cells);
    assert_eq!(device.draw(&ram, &font, &mut line), Ok(18));
}

/// Request K9. RAM of zero spacings, whatever their high bits 6 to 0, but for
/// these words. As codes zero spacings are font characters, black on black.
fn zeros(others: &[(usize, [u8; 2])]) -> Vec<u8> {
    let mut ram: Vec<u8> = (0..512).flat_map(|word| [0, (37 * word % 128) as u8]).collect();
    for &(word, bytes) in others {
        ram[2 * (word % 512)..][..2].copy_from_slice(&bytes);
    }
    ram
}

/// The descriptor of a strip with this word's row.
fn strip_at(row: usize) -> [u8; 2] {
    let [high, low] = (2 * (row % 512) as u16).to_be_bytes();
    [low, 0xC0 | high]
}

/// A device of W 60, so that a row of zero spacings has two codes.
fn zero_device(page: u8, height: u8) -> Device {
    let mut device = Device::fresh();
    poke(&mut device, &mut [0; RAM_LEN], 0x3FF0, &[4, 4, height, 0x80 | page]);
    device
}

/// Draws the next line: T is text behind a plain margin, . is plain with FBK 0
/// and # with FBK 1. Answers the cells read too.
fn next_line(device: &mut Device, ram: &[u8]) -> (char, u32) {
    let mut line = [0xEE; 61];
    let reads = device.draw(ram, &[0; FONT_LEN], &mut line).unwrap();
    assert_eq!(line[60], 0xEE);
    let text = [[0; 36].as_slice(), &[8; 24]].concat();
    let kinds = [('T', text), ('.', vec![0; 60]), ('#', vec![8; 60])];
    let (kind, _) = kinds.into_iter().find(|(_, pixels)| line[..60] == pixels[..]).expect("a line of a known kind");
    (kind, reads)
}

/// Draws these lines, and holds what is left to be read after each of them
/// against the slow model.
fn next_lines(device: &mut Device, ram: &[u8], lines: u32) -> Vec<(char, u32)> {
    let mut slow = Slow::of_record(&device.to_bytes());
    let mut drawn = vec![];
    for _ in 0..lines {
        let read = slow.remaining_reads(ram, &[0; FONT_LEN]);
        let expected: Vec<u32> = (0..1024).filter(|&cell| read[cell as usize]).collect();
        assert_eq!(cells_left(device, ram, 0..1024), expected, "after {} lines", drawn.len());
        drawn.push(next_line(device, ram));
        slow.line(ram, &[0; FONT_LEN]);
        assert_eq!(device.to_bytes()[20..], slow.frame_bytes());
    }
    drawn
}

/// All lines of a frame. Pixels that are asked for are as they are drawn.
fn zero_frame(device: &mut Device, ram: &[u8], lines: u32) -> Vec<(char, u32)> {
    device.frame_start(lines).unwrap();
    let drawn = next_lines(device, ram, lines);
    assert_eq!(device.lines_left(), 0);
    assert_eq!(cells_left(device, ram, 0..1024), []);
    for (y, &(kind, _)) in (0..).zip(&drawn) {
        let expected = match kind {
            'T' => "0".repeat(36) + &"8".repeat(24),
            '.' => "0".repeat(60),
            _ => "8".repeat(60),
        };
        assert_eq!(asked(device, ram, &[0; FONT_LEN], 0..60, y), expected, "line {y}");
    }
    drawn
}

/// A frame's part of the record: lines left, descriptor address, strip.
fn frame_bytes(device: &Device) -> [u8; 10] {
    device.to_bytes()[22..].try_into().unwrap()
}

#[test]
fn zero_spacings_at_the_frames_start() {
    // Over cell 1023 as well: page 7 begins at word 224, and 511 words go round from any page.
    for page in 0..8 {
        for passed in [0, 1, 2, 3, 15, 16, 100, 287, 288, 289, 510, 511] {
            let word = 32 * usize::from(page) + passed;
            let ram = zeros(&[(word, strip_at(word + 7))]);
            let first = 2 * passed as u32 + 2;
            let mut device = zero_device(page, 2);
            assert_eq!(zero_frame(&mut device, &ram, 1), [('T', first + 4)]);
            // Behind the strip the 511 others are passed over, back to it.
            let lines = [('T', first + 4), ('T', 4), ('T', 1028), ('T', 4), ('T', 1028)];
            assert_eq!(zero_frame(&mut device, &ram, 5), lines);
        }
        let ram = zeros(&[]);
        let mut device = zero_device(page, 2);
        assert_eq!(zero_frame(&mut device, &ram, 1), [('.', 1024)]);
        assert_eq!(zero_frame(&mut device, &ram, 4), [('.', 1024), ('.', 0), ('.', 0), ('.', 0)]);
    }
}

#[test]
fn no_stray_line_between_strips() {
    for passed in [0, 1, 2, 9, 400] {
        let second = 33 + passed;
        let ram = zeros(&[(32, strip_at(500)), (second, [3, 0x55]), (second + 2, strip_at(490))]);
        let between = 2 * passed as u32 + 2;
        let lines = [('T', 6), ('T', 4), ('.', between), ('.', 0), ('.', 0), ('T', 8), ('T', 4)];
        let mut device = zero_device(1, 2);
        assert_eq!(zero_frame(&mut device, &ram, 7), lines);
        // Round to the first strip; with ZY, and with DE 0.
        let around = 2 * (511 - passed as u32 - 2) + 4;
        assert_eq!(zero_frame(&mut device, &ram, 9)[7..], [('T', around), ('T', 4)]);
        let ram = zeros(&[(32, [0, 0xE0]), (second, [0, 0x80]), (second + 2, [9, 0])]);
        let lines = [('T', 6), ('T', 4), ('T', 4), ('T', 4), ('.', between), ('.', 0), ('.', 4)];
        assert_eq!(zero_frame(&mut device, &ram, 7), lines);
    }
}

#[test]
fn characters_of_low_byte_0_are_not_passed_over() {
    for high in 0x80..=0xFF {
        // CH 0 stays 1. The first row's codes are at words 0, 128, 256 and 384.
        for (height, lines) in [(0, 1), (1, 1), (3, 3)] {
            let lines = if high & 0x20 == 0 { lines } else { 2 * lines };
            let ram = zeros(&[(33, [0, high]), (35, [200, 0])]);
            let mut device = zero_device(1, height);
            let drawn = zero_frame(&mut device, &ram, lines + 1);
            let (kind, codes) = if high & 0x40 == 0 { ('.', 0) } else { ('T', 4) };
            assert_eq!(drawn[0], (kind, 4 + codes));
            assert!(drawn[1..lines as usize].iter().all(|&line| line == (kind, codes)));
            assert_eq!(drawn[lines as usize], ('.', 4));
        }
    }
}

#[test]
fn high_bits_6_to_0_of_a_zero_spacing_do_not_matter() {
    for high in 0..0x80 {
        let ram = zeros(&[(0, [0, high]), (1, [0, 0x7F - high]), (2, strip_at(300))]);
        assert_eq!(zero_frame(&mut zero_device(0, 1), &ram, 1), [('T', 10)]);
        let ram: Vec<u8> = [0, high].repeat(512);
        assert_eq!(zero_frame(&mut zero_device(0, 1), &ram, 2), [('.', 1024), ('.', 0)]);
        // One line is not none.
        let ram = zeros(&[(0, [0, high]), (1, [1, high]), (2, strip_at(300))]);
        assert_eq!(zero_frame(&mut zero_device(0, 1), &ram, 2), [('.', 4), ('T', 6)]);
    }
}

#[test]
fn most_reads_of_a_line() {
    let (mut device, ..) = blank();
    poke(&mut device, &mut [0; RAM_LEN], 0x3FF0, &[63, 4, 18, 0x81]);
    // A row of zero spacings, but for the strip itself, which is blank as a code.
    let ram = zeros(&[(31, strip_at(31))]);
    device.frame_start(1).unwrap();
    assert_eq!(device.draw(&ram, &[0; FONT_LEN], &mut [0; 768]), Ok(1024 + 2 * 61));
    // No user character's code is a zero spacing, so 1,268 is not reached: with 61 of them there are fewer to pass over.
    let row = (0..61).map(|place| (500 + place, [0, 0x80]));
    let others: Vec<(usize, [u8; 2])> = row.chain([(499, strip_at(500))]).collect();
    let ram = zeros(&others);
    poke(&mut device, &mut [0; RAM_LEN], 0x3FF3, &[0x82]);
    device.frame_start(1).unwrap();
    assert_eq!(device.draw(&ram, &[0; FONT_LEN], &mut [0; 768]), Ok(2 * (499 - 64 + 1) + 4 * 61));
}

#[test]
fn in_a_row_is_at_one_line() {
    // Of 2,048 lines each passes over the same 511 descriptors.
    let ram = zeros(&[(300, [1, 0x7F])]);
    let mut device = zero_device(3, 1);
    device.frame_start(2048).unwrap();
    assert_eq!(next_line(&mut device, &ram), ('.', 2 * (300 - 96) + 2));
    for _ in 1..2048 {
        assert_eq!(next_line(&mut device, &ram), ('.', 1024));
        assert_eq!(device.to_bytes()[26], 0);
    }
    let last = [0, 59, 767].map(|x| device.pixel(&zeros(&[(300, strip_at(9))]), &[0; FONT_LEN], 2048, 0, x, 2047));
    assert_eq!(last, [Ok(0), Ok(8), Err(Refusal::NoSuchPixel)]);
    // 255 of them, a strip, and 256: more than 512 at two lines, but not at one.
    let ram = zeros(&[(255, strip_at(9))]);
    assert_eq!(zero_frame(&mut zero_device(0, 1), &ram, 3), [('T', 516), ('T', 1028), ('T', 1028)]);
}

#[test]
fn nothing_is_read_ahead() {
    // The strip ends with the frame: zero spacings behind it are not read, nor where all other words are such.
    let ram = zeros(&[(0, strip_at(300))]);
    let mut device = zero_device(0, 3);
    for lines in 1..=3 {
        device.frame_start(lines).unwrap();
        assert_eq!(cells_left(&device, &ram, 0..1024), [0, 1, 600, 601, 602, 603]);
        for drawn in 1..=lines {
            assert_eq!(next_line(&mut device, &ram), ('T', if drawn == 1 { 6 } else { 4 }));
            let left = if drawn < lines { vec![600, 601, 602, 603] } else { vec![] };
            assert_eq!(cells_left(&device, &ram, 0..1024), left);
        }
        assert_eq!(frame_bytes(&device), [0, 0, 2, 0, 5, 3, 0x58, 2, lines as u8, 0]);
    }
    // One more line reads them all.
    device.frame_start(4).unwrap();
    assert_eq!(cells_left(&device, &ram, 0..1024), Vec::from_iter(0..1024));
    // A spacing that ends with the frame.
    let ram = zeros(&[(0, [2, 0])]);
    device.frame_start(2).unwrap();
    assert_eq!(next_lines(&mut device, &ram, 2), [('.', 2), ('.', 0)]);
    assert_eq!(frame_bytes(&device), [0, 0, 2, 0, 0, 0, 0, 0, 0, 0]);
}

#[test]
fn zero_spacings_at_the_last_line() {
    let ram = zeros(&[(0, [2, 0]), (6, strip_at(300))]);
    let mut device = zero_device(0, 9);
    assert_eq!(zero_frame(&mut device, &ram, 3), [('.', 2), ('.', 0), ('T', 16)]);
    assert_eq!(frame_bytes(&device), [0, 0, 14, 0, 5, 9, 0x58, 2, 1, 0]);
    // The last line meets all 512, since RAM changes before it.
    device.frame_start(3).unwrap();
    assert_eq!(next_lines(&mut device, &ram, 2), [('.', 2), ('.', 0)]);
    assert_eq!(next_lines(&mut device, &zeros(&[]), 1), [('.', 1024)]);
    assert_eq!(frame_bytes(&device), [0, 0, 2, 0, 8, 0, 0, 0, 0, 0]);
    assert_eq!(device.draw(&ram, &[0; FONT_LEN], &mut [0; 60]), Err(Refusal::NoLineLeft));
}

#[test]
fn the_record_in_the_plain_rest() {
    for page in 0..8 {
        let mut device = zero_device(page, 18);
        device.frame_start(300).unwrap();
        let [low, high] = (64 * u16::from(page)).to_le_bytes();
        assert_eq!(frame_bytes(&device), [44, 1, low, high, 0, 0, 0, 0, 0, 0]);
        assert_eq!(next_line(&mut device, &zeros(&[])), ('.', 1024));
        assert_eq!(frame_bytes(&device), [43, 1, low, high, 8, 0, 0, 0, 0, 0]);
        for left in (0..299u16).rev() {
            let before = device.to_bytes();
            assert_eq!(next_line(&mut device, &zeros(&[])), ('.', 0));
            let mut after = before;
            after[22..24].copy_from_slice(&left.to_le_bytes());
            assert_eq!(device.to_bytes(), after);
        }
    }
    // Behind a strip, whose height and codes are gone then; the address is that of the descriptor behind it.
    let mut device = zero_device(7, 2);
    device.frame_start(9).unwrap();
    assert_eq!(next_lines(&mut device, &zeros(&[(511, strip_at(20))]), 2), [('T', 580), ('T', 4)]);
    assert_eq!(frame_bytes(&device), [7, 0, 0, 0, 5, 2, 40, 0, 2, 0]);
    assert_eq!(next_lines(&mut device, &zeros(&[]), 2), [('.', 1024), ('.', 0)]);
    assert_eq!(frame_bytes(&device), [5, 0, 0, 0, 8, 0, 0, 0, 0, 0]);
}

#[test]
fn writes_in_the_plain_rest() {
    let mut ram = zeros(&[]);
    let mut device = zero_device(2, 2);
    device.frame_start(40).unwrap();
    assert_eq!(next_lines(&mut device, &ram, 3), [('.', 1024), ('.', 0), ('.', 0)]);
    assert_eq!(cells_left(&device, &ram, 0..1024), []);
    // Strips everywhere, at the frame's first descriptor too: they come too late.
    let strips: Vec<u8> = strip_at(100).repeat(128);
    for address in [0, 256, 512, 768] {
        poke(&mut device, &mut ram, address, &strips);
        assert_eq!(device.to_bytes()[26], 8);
        assert_eq!(cells_left(&device, &ram, 0..1024), []);
        assert_eq!(next_lines(&mut device, &ram, 2), [('.', 0), ('.', 0)]);
    }
    // Nor do other settings end it: P, CH, LD and DD.
    poke(&mut device, &mut ram, 0x3FF0, &[4, 4, 0, 0x85]);
    assert_eq!(next_lines(&mut device, &ram, 2), [('.', 0), ('.', 0)]);
    // FBK and OSD count at each line.
    for (control, kind) in [(0xC5, '#'), (0x45, '.'), (0x05, '.'), (0xC0, '#'), (0x80, '.'), (0xF0, '#')] {
        poke(&mut device, &mut ram, 0x3FF3, &[control]);
        assert_eq!(next_lines(&mut device, &ram, 2), [(kind, 0), (kind, 0)]);
    }
    assert_eq!(frame_bytes(&device), [15, 0, 128, 0, 8, 0, 0, 0, 0, 0]);
}

#[test]
fn a_frame_start_and_a_reset_end_the_plain_rest() {
    let mut device = zero_device(2, 2);
    device.frame_start(40).unwrap();
    assert_eq!(next_lines(&mut device, &zeros(&[]), 2), [('.', 1024), ('.', 0)]);
    // A refused start changes nothing.
    let before = device;
    for lines in [0, 2049, u32::MAX] {
        assert_eq!(device.frame_start(lines), Err(Refusal::FrameLines));
    }
    assert_eq!(device, before);
    assert_eq!(next_lines(&mut device, &zeros(&[]), 1), [('.', 0)]);
    device.frame_start(5).unwrap();
    assert_eq!(frame_bytes(&device), [5, 0, 128, 0, 0, 0, 0, 0, 0, 0]);
    assert_eq!(cells_left(&device, &zeros(&[]), 0..1024), Vec::from_iter(0..1024));
    assert_eq!(next_lines(&mut device, &zeros(&[]), 2), [('.', 1024), ('.', 0)]);
    let ram = zeros(&[(66, strip_at(9))]);
    assert_eq!(zero_frame(&mut device, &ram, 3), [('T', 10), ('T', 4), ('T', 1028)]);
    // Also after a frame whose lines are all drawn.
    assert_eq!(zero_frame(&mut device, &zeros(&[]), 2), [('.', 1024), ('.', 0)]);
    assert_eq!(zero_frame(&mut device, &ram, 1), [('T', 10)]);

    device.frame_start(40).unwrap();
    assert_eq!(next_lines(&mut device, &zeros(&[]), 2), [('.', 1024), ('.', 0)]);
    device.reset();
    assert_eq!(device.to_bytes(), Device::fresh().to_bytes());
    assert_eq!(cells_left(&device, &zeros(&[]), 0..1024), []);
    device.frame_start(1).unwrap();
    assert_eq!(device.to_bytes()[26], 0);
}

#[test]
fn zero_spacings_with_osd_0() {
    // Descriptors are read all the same, codes are not.
    let ram = zeros(&[(3, strip_at(300)), (9, [2, 0])]);
    let mut device = zero_device(0, 2);
    for control in [0, 0x40] {
        poke(&mut device, &mut [0; RAM_LEN], 0x3FF3, &[control]);
        let lines = [('.', 8), ('.', 0), ('.', 12), ('.', 0), ('.', 2 * (511 - 9 + 4))];
        assert_eq!(zero_frame(&mut device, &ram, 5), lines);
        assert_eq!(zero_frame(&mut device, &zeros(&[]), 3), [('.', 1024), ('.', 0), ('.', 0)]);
        device.frame_start(3).unwrap();
        assert_eq!(cells_left(&device, &ram, 0..1024), Vec::from_iter(0..20));
    }
    // On again in the plain rest, and off at its first line.
    device.frame_start(3).unwrap();
    assert_eq!(next_lines(&mut device, &zeros(&[]), 1), [('.', 1024)]);
    poke(&mut device, &mut [0; RAM_LEN], 0x3FF3, &[0xC0]);
    assert_eq!(next_lines(&mut device, &zeros(&[]), 2), [('#', 0), ('#', 0)]);
}

#[test]
fn a_refused_draw_passes_over_nothing() {
    let ram = zeros(&[]);
    let mut device = zero_device(5, 2);
    device.frame_start(2).unwrap();
    let before = device;
    assert_eq!(device.draw(&ram, &[0; FONT_LEN], &mut [0; 59]), Err(Refusal::LineBuffer));
    assert_eq!(device.draw(&ram, &[0; FONT_LEN - 1], &mut [0; 60]), Err(Refusal::FontLength));
    assert_eq!(device.draw(&ram[1..], &[0; FONT_LEN], &mut [0; 60]), Err(Refusal::RamLength));
    assert_eq!(device, before);
    assert_eq!(next_lines(&mut device, &ram, 2), [('.', 1024), ('.', 0)]);
}

#[test]
fn a_height_taken_behind_zero_spacings() {
    // CH is taken where the strip is found, at the line that passes over.
    let mut ram = zeros(&[(0, strip_at(300)), (4, strip_at(300)), (5, [9, 0])]);
    let mut device = zero_device(0, 2);
    device.frame_start(9).unwrap();
    assert_eq!(next_lines(&mut device, &ram, 2), [('T', 6), ('T', 4)]);
    poke(&mut device, &mut ram, 0x3FF2, &[3]);
    assert_eq!(next_lines(&mut device, &ram, 1), [('T', 12)]);
    poke(&mut device, &mut ram, 0x3FF2, &[0]);
    assert_eq!(next_lines(&mut device, &ram, 3), [('T', 4), ('T', 4), ('.', 2)]);
}

/// A device of this frame part, with 40 lines left and the settings of
/// [`zero_device`].
fn made_up_frame(descriptor: u16, strip: [u8; 6]) -> Device {
    let mut record = zero_device(0, 2).to_bytes();
    record[22] = 40;
    record[24..26].copy_from_slice(&descriptor.to_le_bytes());
    record[26..].copy_from_slice(&strip);
    Device::from_bytes(&record)
}

/// Descriptor addresses with the word that they name.
const ADDRESSES: [(u16, usize); 8] = [(0, 0), (1, 0), (2, 1), (515, 257), (1022, 511), (1023, 511), (0x0405, 2), (0xFFFF, 511)];

#[test]
fn an_odd_descriptor_address_in_a_made_up_record() {
    for (address, word) in ADDRESSES {
        for passed in [0, 1, 511] {
            let mut device = made_up_frame(address, [0; 6]);
            let ram = zeros(&[(word + passed, strip_at(word + passed + 9))]);
            let read = 2 * passed as u32 + 6;
            assert_eq!(cells_left(&device, &ram, 0..1024), Vec::from_iter(0..1024));
            assert_eq!(next_line(&mut device, &ram), ('T', read));
            let next = (2 * (word + passed + 1) % 1024) as u16;
            assert_eq!(device.to_bytes()[24..26], next.to_le_bytes());
        }
        // All of them: the even address that they began at.
        let mut device = made_up_frame(address, [0; 6]);
        assert_eq!(next_lines(&mut device, &zeros(&[]), 2), [('.', 1024), ('.', 0)]);
        let [low, high] = (2 * word as u16).to_le_bytes();
        assert_eq!(frame_bytes(&device), [38, 0, low, high, 8, 0, 0, 0, 0, 0]);
    }
}

#[test]
fn made_up_records_in_the_plain_rest() {
    // Whatever RAM holds: zero spacings, strips alone, or codes.
    for ram in [zeros(&[]), strip_at(9).repeat(512), vec![0xFF; RAM_LEN]] {
        for (address, _) in ADDRESSES {
            let [low, high] = address.to_le_bytes();
            let after = |left: u8| [left, 0, low, high, 8, 0, 0, 0, 0, 0];
            for upper in [0, 0x10, 0x80, 0xF0] {
                // A spacing with no line left; bits 1 and 2 and bytes 28 to 31 do not count.
                let mut device = made_up_frame(address, [8 | 6 | upper, 0, 7, 2, 1, 0]);
                assert_eq!(cells_left(&device, &ram, 0..1024), []);
                for drawn in 1..=40 {
                    assert_eq!(next_line(&mut device, &ram), ('.', 0));
                    assert_eq!(frame_bytes(&device), after(40 - drawn));
                }
                // With lines left bit 3 does not count, and falls with the next one.
                for lines in [1, 2, 30] {
                    let mut device = made_up_frame(address, [8 | 6 | upper, lines, 7, 2, 1, 0]);
                    let without = made_up_frame(address, [6 | upper, lines, 7, 2, 1, 0]);
                    assert_eq!(cells_left(&device, &ram, 0..1024), cells_left(&without, &ram, 0..1024));
                    for drawn in 1..=lines {
                        assert_eq!(next_line(&mut device, &ram), ('.', 0));
                        assert_eq!(frame_bytes(&device), [40 - drawn, 0, low, high, 0, lines - drawn, 0, 0, 0, 0]);
                    }
                    assert_ne!(cells_left(&device, &ram, 0..1024), []);
                }
                // A strip of characters that is over, and further than that.
                for (flags, height, scan) in [(1, 5, 5), (5, 5, 6), (7, 5, 10), (3, 63, 126), (5, 1, 255)] {
                    let mut device = made_up_frame(address, [8 | flags | upper, height, 30, 2, scan, 0]);
                    assert_eq!(cells_left(&device, &ram, 0..1024), []);
                    for left in (0..40).rev() {
                        assert_eq!(next_line(&mut device, &ram), ('.', 0));
                        assert_eq!(frame_bytes(&device), after(left));
                    }
                }
            }
        }
    }
}

#[test]
fn a_strip_on_screen_is_no_plain_rest() {
    let ram = zeros(&[(0, [5, 0]), (1, strip_at(300))]);
    for (address, _) in ADDRESSES {
        let [low, high] = address.to_le_bytes();
        for (flags, lines, kind, reads) in [(5, 4, 'T', 4), (7, 8, 'T', 4), (1, 4, '.', 0), (3, 8, '.', 0)] {
            for scan in 0..lines {
                let mut device = made_up_frame(address, [0xA8 | flags, 4, 30, 2, scan, 0]);
                let mut without = made_up_frame(address, [0xA0 | flags, 4, 30, 2, scan, 0]);
                for drawn in scan + 1..=lines {
                    assert_eq!(cells_left(&device, &ram, 0..1024), cells_left(&without, &ram, 0..1024));
                    assert_eq!(next_line(&mut device, &ram), (kind, reads));
                    assert_eq!(next_line(&mut without, &ram), (kind, reads));
                    let left = 40 - (drawn - scan);
                    assert_eq!(frame_bytes(&device), [left, 0, low, high, flags, 4, 30, 2, drawn, 0]);
                }
                assert_eq!(next_lines(&mut device, &ram, 3), next_lines(&mut without, &ram, 3));
                assert_eq!(frame_bytes(&device), frame_bytes(&without));
            }
        }
    }
    // The frame ends in the strip: bit 3 stays in the record until a line is drawn.
    let mut record = made_up_frame(0, [13, 4, 30, 2, 1, 0]).to_bytes();
    record[22] = 0;
    let mut device = Device::from_bytes(&record);
    assert_eq!(frame_bytes(&device), [0, 0, 0, 0, 13, 4, 30, 2, 1, 0]);
    assert_eq!(cells_left(&device, &ram, 0..1024), []);
    assert_eq!(zero_frame(&mut device, &ram, 6)[4..], [('.', 0), ('T', 6)]);
}

#[test]
fn bits_4_to_7_are_no_plain_rest() {
    let ram = zeros(&[(0, [9, 0]), (1, strip_at(300))]);
    for upper in [0, 0x10, 0x20, 0x40, 0x80, 0xF0] {
        // A spacing that is over, and a strip of characters.
        for strip in [[upper, 0, 0, 0, 0, 0], [upper | 5, 4, 30, 2, 4, 0]] {
            let mut device = made_up_frame(2, strip);
            assert_eq!(next_lines(&mut device, &ram, 2), [('T', 6), ('T', 4)]);
            assert_eq!(frame_bytes(&device), [38, 0, 4, 0, 5, 2, 0x58, 2, 2, 0]);
        }
    }
}

#[test]
fn bus_events_leave_bit_3() {
    let mut ram = zeros(&[]);
    for flags in [0, 8, 13, 0xFF] {
        let mut record = made_up_frame(77, [0; 6]).to_bytes();
        record[26] = flags;
        for (kind, byte) in [(0, 0), (1, 0xBA), (1, 0), (1, 0), (1, 0x99), (0, 0), (1, 0xBB), (2, 0), (3, 0)] {
            assert!(bus_bytes(&mut record, &mut ram, kind, byte) < 65_536);
            assert_eq!(record[26], flags);
        }
        let mut device = Device::from_bytes(&record);
        poke(&mut device, &mut ram, 0x3FF0, &[4, 4, 2, 0x80]);
        assert_eq!(device.to_bytes()[26] & 8, flags & 8);
    }
}

#[test]
fn pixels_behind_zero_spacings() {
    let font = [0; FONT_LEN];
    let text = "0".repeat(36) + &"8".repeat(24);
    let plain = "0".repeat(60);
    // 512 in a row at the first line, whatever the frame that the device is in.
    let mut device = zero_device(4, 2);
    for y in [0, 1, 511, 512, 2047] {
        assert_eq!(asked(&device, &zeros(&[]), &font, 0..60, y), plain);
    }
    device.frame_start(9).unwrap();
    assert_eq!(next_line(&mut device, &zeros(&[])), ('.', 1024));
    // 511 and a strip: all lines show it, though the device's own frame is in its plain rest.
    for word in [127, 128, 200, 0] {
        let ram = zeros(&[(word, strip_at(word + 9))]);
        for y in [0, 1, 2, 3, 1000, 2047] {
            assert_eq!(asked(&device, &ram, &font, 0..60, y), text);
        }
    }
    // FBK, and OSD 0.
    for (control, kind) in [(0xC4, "8"), (0x44, "0"), (0x04, "0")] {
        poke(&mut device, &mut [0; RAM_LEN], 0x3FF3, &[control]);
        assert_eq!(asked(&device, &zeros(&[]), &font, 0..60, 7), kind.repeat(60));
    }
}

#[test]
fn made_up_frames_as_the_slow_model() {
    let mut noise = Noise(0x0009_0512_0511_1268);
    for round in 0..1500 {
        let mut ram = noise.ram();
        let font: Vec<u8> = (0..FONT_LEN).map(|_| noise.byte()).collect();
        let mut record = noise.record(round);
        for number in 0..4 {
            record[4 + usize::from(number)] = noise.register(number);
        }
        record[27] = noise.below(12) as u8;
        (record[30], record[31]) = (noise.below(24) as u8, 0);
        (record[22], record[23]) = (noise.byte(), 0);
        let mut device = Device::from_bytes(&record);
        let mut slow = Slow::of_record(&device.to_bytes());
        for line in 0..record[22] {
            if line % 16 == 0 {
                let read = slow.remaining_reads(&ram, &font);
                for cell in [0, 1, noise.below(1024) as usize, noise.below(1024) as usize, 1022, 1023] {
                    assert_eq!(device.cell(&ram, cell as u32), Ok(read[cell]), "cell {cell}");
                }
            }
            if noise.below(8) == 0 {
                ram[noise.below(1024) as usize] = noise.byte();
            }
            let mut pixels = vec![0; device.width()];
            let answer = device.draw(&ram, &font, &mut pixels);
            let (expected, reads) = slow.line(&ram, &font);
            assert_eq!((answer, pixels), (Ok(reads.len() as u32), expected));
            assert_eq!(device.to_bytes()[20..], slow.frame_bytes());
        }
    }
}
