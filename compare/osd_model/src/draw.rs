//! One scan line's pixels.
//!
//! A character is painted as a whole: its twelve slice bits become byte masks
//! by table, and the masks choose between two or three inks, eight and four
//! pixels at a time.

use crate::frame::{slice_of_step, Frame, Strip, LAST_SLICE};
use crate::registers::Registers;
use crate::{RamWords, Refusal, FONT_LEN, RAM_WORDS};
use core::mem::replace;

/// Pixels across a character.
const COLUMNS: usize = 12;
/// FBLK of a pixel; colour lies in the three bits below.
const BLANKING: u8 = 8;

const FONT_SLICES: usize = 18;
const FONT_WORDS: usize = FONT_LEN / 2;
/// RAM words of a user character: the first is never read as a slice, and
/// slices 1 to 18 follow.
const USER_WORDS: usize = 1 + LAST_SLICE as usize;
const USER_CHARACTERS: u8 = 26;

/// High byte of the code that ends a line.
pub(crate) const END_OF_LINE: u8 = 0xFF;
/// High byte of user character 0; SET in bit 7.
pub(crate) const FIRST_USER: u8 = 0x80;
/// RAM cells of a user character.
pub(crate) const USER_CELLS: u16 = 2 * USER_WORDS as u16;
/// RAM cells that user characters may take.
pub(crate) const ALL_USER_CELLS: u16 = USER_CELLS * USER_CHARACTERS as u16;

const LAST_USER: u8 = FIRST_USER + USER_CHARACTERS - 1;

/// Lent font as slices: byte PX7..PX0, then PX11..PX8 in the low bits.
pub(crate) type FontWords = [[u8; 2]; FONT_WORDS];

/// Font from one slice of character 0 to the same slice of character 127, so
/// that 18 × number stays inside for every number.
type FontSlice = [[u8; 2]; FONT_SLICES * 127 + 1];
/// RAM likewise, from user character 0 to 25.
type UserSlice = [[u8; 2]; USER_WORDS * 25 + 1];

/// Font of the one accepted length, as slices.
#[inline]
pub(crate) fn font_words(font: &[u8]) -> Result<&FontWords, Refusal> {
    match font.as_chunks() {
        (words, []) => words.try_into().map_err(|_| Refusal::FontLength),
        _ => Err(Refusal::FontLength),
    }
}

/// Paints all of `line` with the frame's next line, whose strip has been
/// entered, and answers the RAM cells read for codes and slices.
#[inline]
pub(crate) fn line(registers: &Registers, frame: &Frame, ram: &RamWords, font: &FontWords, line: &mut [u8]) -> u32 {
    if !registers.display_on() {
        line.fill(0);
        return 0;
    }
    let plain = registers.plain_pixel();
    match frame.strip {
        Strip::Characters(strip) if strip.enabled => {
            let start = registers.text_start().min(line.len());
            let (margin, text) = line.split_at_mut(start);
            margin.fill(plain);
            let slice = usize::from(slice_of_step(strip.step(1), strip.height));
            let inks = Inks::new(plain, registers.flash_hidden(frame.number));
            Row::new(ram, font, strip.row, slice, inks).paint(text)
        }
        _ => {
            line.fill(plain);
            0
        }
    }
}

/// A row of characters, from left to right, at one slice.
struct Row<'a> {
    codes: &'a RamWords,
    user: &'a UserSlice,
    font: &'a FontSlice,
    /// RAM word of the next code.
    next: usize,
    /// Words of RAM read.
    reads: u32,
    /// The slice of the character before, as it shows; none before the first.
    before: u16,
    inks: Inks,
}

impl<'a> Row<'a> {
    /// `slice` is one that lines show, 1 to 18; slice 1 is the font's first.
    #[inline]
    fn new(ram: &'a RamWords, font: &'a FontWords, row: u16, slice: usize, inks: Inks) -> Row<'a> {
        let slice = slice.min(LAST_SLICE as usize);
        Row {
            codes: ram,
            user: ram[slice..].first_chunk().expect("18 + 19 × 25 < 512"),
            font: font[slice - 1..].first_chunk().expect("17 + 18 × 127 < 2304"),
            next: usize::from(row),
            reads: 0,
            before: 0,
            inks,
        }
    }

    /// Paints characters until the text area is full or the line ends, and
    /// answers the RAM cells read. No code is read beyond a full area.
    #[inline]
    fn paint(mut self, text: &mut [u8]) -> u32 {
        let (whole, cut) = text.as_chunks_mut::<COLUMNS>();
        let mut painted = 0;
        let mut ended = false;
        for pixels in whole {
            let Some(character) = self.next_character() else {
                ended = true;
                break;
            };
            *pixels = character;
            painted += COLUMNS;
        }
        if !ended && !cut.is_empty() {
            if let Some(character) = self.next_character() {
                cut.copy_from_slice(&character[..cut.len()]);
                return 2 * self.reads;
            }
        }
        text[painted..].fill(self.inks.plain);
        2 * self.reads
    }

    /// Reads a code and its slice; nothing at the end of the line.
    #[inline(always)]
    fn next_character(&mut self) -> Option<[u8; COLUMNS]> {
        let [attributes, number] = self.codes[self.next % RAM_WORDS];
        self.next += 1;
        self.reads += 1;
        let bits = match number {
            0..FIRST_USER => bits_of(self.font[FONT_SLICES * usize::from(number)]),
            FIRST_USER..=LAST_USER => {
                self.reads += 1;
                bits_of(self.user[USER_WORDS * usize::from(number - FIRST_USER)])
            }
            END_OF_LINE => return None,
            _ => 0,
        };
        let bits = self.inks.shown(attributes, bits);
        let before = replace(&mut self.before, bits);
        Some(self.inks.character(attributes, bits, before))
    }
}

/// A slice's pixels, PX11 on top; four bits above them are not its own.
#[inline]
fn bits_of(word: [u8; 2]) -> u16 {
    u16::from_le_bytes(word)
}

/// What a code's attributes mean on the present line.
struct Inks {
    plain: u8,
    /// Background for each BK, in eight pixels.
    background: [u64; 16],
    /// Attribute bit that hides a character now: FL, or none.
    hiding: u8,
}

impl Inks {
    #[inline]
    fn new(plain: u8, hidden: bool) -> Inks {
        let mut background = [eight(plain); 16];
        for (colour, pixels) in (0..8).zip(&mut background) {
            *pixels = eight(BLANKING | colour);
        }
        Inks { plain, background, hiding: if hidden { 0x80 } else { 0 } }
    }

    /// What a slice shows: nothing while its character is hidden.
    #[inline(always)]
    fn shown(&self, attributes: u8, bits: u16) -> u16 {
        if attributes & self.hiding == 0 {
            bits
        } else {
            0
        }
    }

    /// Twelve pixels; `bits` has 1 for foreground that shows, as `before` has
    /// for the character to the left. Bits above PX11 do nothing.
    #[inline(always)]
    fn character(&self, attributes: u8, bits: u16, before: u16) -> [u8; COLUMNS] {
        let foreground = eight(BLANKING | (attributes >> 4 & 7));
        let background = self.background[usize::from(attributes & 15)];
        let mut pixels = Pixels { left: background, right: background as u32 };
        pixels.flip(bits, foreground ^ background);
        // BK3 and BK1: what stands to the right of foreground is shadow. To the
        // left of PX11 stands PX0 of the character before.
        if attributes & 0b1010 == 0b1010 {
            let left = bits >> 1 & 0x7FF | before << 11 & 0x800;
            pixels.flip(left & !bits, eight(BLANKING) ^ background);
        }
        pixels.bytes()
    }
}

/// Twelve pixels in two registers, leftmost in the lowest byte.
struct Pixels {
    left: u64,
    right: u32,
}

impl Pixels {
    /// Changes by exclusive or the pixels whose bit is set, of the twelve low bits.
    #[inline(always)]
    fn flip(&mut self, bits: u16, change: u64) {
        self.left ^= EIGHT_MASKS[usize::from(bits >> 4 & 0xFF)] & change;
        self.right ^= (EIGHT_MASKS[usize::from(bits & 0xF) << 4] & change) as u32;
    }

    #[inline(always)]
    fn bytes(self) -> [u8; COLUMNS] {
        let mut bytes = [0; COLUMNS];
        bytes[..8].copy_from_slice(&self.left.to_le_bytes());
        bytes[8..].copy_from_slice(&self.right.to_le_bytes());
        bytes
    }
}

/// Eight pixels of one kind.
#[inline(always)]
fn eight(pixel: u8) -> u64 {
    u64::from_le_bytes([pixel; 8])
}

/// For eight bits a byte mask each, highest bit in the lowest byte.
static EIGHT_MASKS: [u64; 256] = eight_masks();

const fn eight_masks() -> [u64; 256] {
    let mut table = [0; 256];
    let mut bits = 0;
    while bits < 256 {
        let mut column = 0;
        while column < 8 {
            if bits & (0x80 >> column) != 0 {
                table[bits] |= 0xFF << (8 * column);
            }
            column += 1;
        }
        bits += 1;
    }
    table
}
