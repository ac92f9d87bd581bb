//! Font files: a font in ten blocks of 512 bytes with checks, so that a bad
//! byte on a card is noticed before it is drawn.
//!
//! | Bytes of a block | Content |
//! |---|---|
//! | 0–1 | number of the block, 0 to 9 |
//! | 2–3 | used length: 504, in block 9 72 |
//! | 4–507 | as many bytes of font; unused bytes are 0 |
//! | 508–509 | sum of bytes 0 to 507 |
//! | 510–511 | sum of each of these bytes times its position, from 1 |
//!
//! Numbers of two bytes have their low byte first; both sums are modulo
//! 65,536.

use core::num::Wrapping;

use crate::bytes::refused;
use crate::{Refusal, FONT_LEN};

#[cfg(test)]
mod tests;

/// Bytes of a font file.
pub const FILE_LEN: usize = BLOCKS * BLOCK_LEN;

const BLOCKS: usize = 10;
const BLOCK_LEN: usize = CHECKED_LEN + CHECKS_LEN;
const CHECKED_LEN: usize = HEADER_LEN + PAYLOAD_LEN;
const CHECKS_LEN: usize = 4;
const HEADER_LEN: usize = 4;
const PAYLOAD_LEN: usize = 504;

type Block = [u8; BLOCK_LEN];

/// Why a file was not read.
#[derive(Clone, Copy, PartialEq, Eq, Debug)]
pub struct Unread {
    /// What is wrong with a length, or else with the first bad block.
    pub refusal: Refusal,
    /// That block's place in the file, 0 to 9; 0 where a length is wrong.
    pub place: u8,
}

/// Writes a font as a file.
#[inline]
pub fn write(font: &[u8], file: &mut [u8]) -> Result<(), Refusal> {
    let font: &[u8; FONT_LEN] = font.try_into().map_err(|_| Refusal::FileLength)?;
    let file: &mut [u8; FILE_LEN] = file.try_into().map_err(|_| Refusal::FileLength)?;
    let (blocks, _) = file.as_chunks_mut();
    for ((place, block), used) in (0..).zip(&mut *blocks).zip(font.chunks(PAYLOAD_LEN)) {
        fill(block, place, used);
    }
    // Behind all of them: no byte is summed up while it is still on its way to memory.
    for block in blocks {
        let checks = checks(block);
        block[CHECKED_LEN..].copy_from_slice(&checks);
    }
    Ok(())
}

/// Reads a file's font. The blocks are tested in turn, all of them before a
/// byte of the font is written: each must be as [`write()`] gives it.
#[inline]
pub fn read(file: &[u8], font: &mut [u8]) -> Result<(), Unread> {
    let wrong_length = Unread { refusal: Refusal::FileLength, place: 0 };
    let file: &[u8; FILE_LEN] = file.try_into().map_err(|_| wrong_length)?;
    let font: &mut [u8; FONT_LEN] = font.try_into().map_err(|_| wrong_length)?;
    let (blocks, _) = file.as_chunks();
    for (place, block) in (0..).zip(blocks) {
        test(block, place).map_err(|refusal| Unread { refusal, place })?;
    }
    for (block, used) in blocks.iter().zip(font.chunks_mut(PAYLOAD_LEN)) {
        used.copy_from_slice(&block[HEADER_LEN..][..used.len()]);
    }
    Ok(())
}

/// [`write()`], which answers the refusal's number times 65,536.
#[inline]
pub fn write_bytes(font: &[u8], file: &mut [u8]) -> u32 {
    write(font, file).map_or_else(refused, |()| 0)
}

/// [`read`], which answers the refusal's number times 65,536 plus the place of
/// the bad block.
#[inline]
pub fn read_bytes(file: &[u8], font: &mut [u8]) -> u32 {
    read(file, font).map_or_else(|Unread { refusal, place }| refused(refusal) + u32::from(place), |()| 0)
}

/// A block but for its checks.
fn fill(block: &mut Block, place: u8, used: &[u8]) {
    block[..HEADER_LEN].copy_from_slice(&header(place));
    let (font, unused) = block[HEADER_LEN..CHECKED_LEN].split_at_mut(used.len());
    font.copy_from_slice(used);
    unused.fill(0);
}

fn test(block: &Block, place: u8) -> Result<(), Refusal> {
    if block[CHECKED_LEN..] != checks(block) {
        return Err(Refusal::BlockChecks);
    }
    let unused = &block[HEADER_LEN + used_len(place)..CHECKED_LEN];
    // Without a way out at the first that is not 0, many are taken at a time.
    let is_padding = unused.iter().fold(0, |all, byte| all | byte) == 0;
    if block[..HEADER_LEN] != header(place) || !is_padding {
        return Err(Refusal::BlockFormat);
    }
    Ok(())
}

/// Number and used length of the block at this place.
fn header(place: u8) -> [u8; HEADER_LEN] {
    let [low, high] = (used_len(place) as u16).to_le_bytes();
    [place, 0, low, high]
}

/// Bytes of font in the block at this place: the last has what is left.
fn used_len(place: u8) -> usize {
    PAYLOAD_LEN.min(FONT_LEN - usize::from(place) * PAYLOAD_LEN)
}

/// Both checks of a block, over the bytes before them.
///
/// These stand in rows, and each column has sums of its own: no sum waits for
/// the one beside it. The byte in column c of row r is at position 32r + c + 1.
/// From the last row up, the columns' sums so far are added up before each row
/// is, which counts every byte as often as there are rows before its own.
fn checks(block: &Block) -> [u8; CHECKS_LEN] {
    const COLUMNS: usize = 32;
    let (rows, rest) = block[..CHECKED_LEN].as_chunks::<COLUMNS>();
    let mut sums = [Wrapping(0_u16); COLUMNS];
    let mut by_row = [Wrapping(0_u16); COLUMNS];
    for (sum, &byte) in sums.iter_mut().zip(rest) {
        sum.0 = byte.into();
    }
    for row in rows.iter().rev() {
        for ((sum, by_row), &byte) in sums.iter_mut().zip(&mut by_row).zip(row) {
            *by_row += *sum;
            *sum += u16::from(byte);
        }
    }
    let sum: Wrapping<u16> = sums.iter().sum();
    let by_row = by_row.iter().sum::<Wrapping<u16>>() * Wrapping(COLUMNS as u16);
    let by_column: Wrapping<u16> = sums.iter().zip(1..).map(|(sum, column)| sum * Wrapping(column)).sum();
    let ([a, b], [c, d]) = (sum.0.to_le_bytes(), (by_row + by_column).0.to_le_bytes());
    [a, b, c, d]
}
