//! Files by hand, and against a slow writer that takes the request's words one
//! by one; every refusal; damage of every sort.

extern crate std;
use std::vec;
use std::vec::Vec;

use super::{read, read_bytes, write, write_bytes, Unread, FILE_LEN};
use crate::{Refusal, FONT_LEN};

/// What a buffer holds before a call: no byte is as its neighbour, none is 0.
fn pattern(len: usize) -> Vec<u8> {
    (0..len).map(|i| 1 + (i % 251) as u8).collect()
}

/// What a font's buffer holds before a file is read: no byte is as in the
/// pattern.
fn unread() -> Vec<u8> {
    let mut font = pattern(FONT_LEN);
    font.rotate_left(1);
    font
}

fn written(font: &[u8]) -> Vec<u8> {
    let mut file = pattern(FILE_LEN);
    assert_eq!(write(font, &mut file), Ok(()));
    let mut again = vec![0; FILE_LEN];
    assert_eq!(write_bytes(font, &mut again), 0);
    assert_eq!(again, file);
    file
}

/// The font of a file that is accepted, or the refusal's number and value. A
/// refused call leaves the font's bytes, and both calls say the same.
fn outcome(file: &[u8]) -> Result<Vec<u8>, (u32, u32)> {
    let (mut font, mut by_bytes) = (unread(), unread());
    let answer = read(file, &mut font);
    let number = read_bytes(file, &mut by_bytes);
    assert_eq!(font, by_bytes);
    match answer {
        Ok(()) => {
            assert_eq!(number, 0);
            Ok(font)
        }
        Err(Unread { refusal, place }) => {
            assert_eq!(number, u32::from(refusal.number()) << 16 | u32::from(place));
            assert_eq!(font, unread());
            Err((number >> 16, number & 0xFFFF))
        }
    }
}

/// The bytes 0 to 507 of a block with its two checks.
fn slow_block(checked: &[u8]) -> Vec<u8> {
    assert_eq!(checked.len(), 508);
    let (mut sum, mut by_position) = (0_u64, 0_u64);
    for (i, &byte) in checked.iter().enumerate() {
        sum += u64::from(byte);
        by_position += u64::from(byte) * (i as u64 + 1);
    }
    let mut block = checked.to_vec();
    for check in [sum % 65_536, by_position % 65_536] {
        block.extend([(check % 256) as u8, (check / 256) as u8]);
    }
    block
}

fn slow_file(font: &[u8]) -> Vec<u8> {
    let mut file = vec![];
    for number in 0..10 {
        let used = if number == 9 { 72 } else { 504 };
        let mut checked = vec![number as u8, 0, (used % 256) as u8, (used / 256) as u8];
        checked.extend(&font[504 * number..][..used]);
        checked.resize(508, 0);
        file.extend(slow_block(&checked));
    }
    file
}

/// Changes bytes 0 to 507 of the block at this place, and makes its checks
/// right again.
fn forge(file: &mut [u8], place: usize, change: impl FnOnce(&mut [u8])) {
    let block = &mut file[512 * place..][..512];
    change(&mut block[..508]);
    let right = slow_block(&block[..508]);
    block.copy_from_slice(&right);
}

/// Fonts of every kind: all 0, all FF, noise, a single byte.
fn fonts() -> Vec<Vec<u8>> {
    let mut state = 9425_u32;
    let mut noise = || {
        state = state.wrapping_mul(1_664_525).wrapping_add(1_013_904_223);
        (state >> 24) as u8
    };
    let mut fonts = vec![vec![0; FONT_LEN], vec![255; FONT_LEN], pattern(FONT_LEN)];
    for _ in 0..20 {
        fonts.push((0..FONT_LEN).map(|_| noise()).collect());
    }
    for byte in [0, 1, 11, 12, 15, 16, 27, 28, 491, 492, 503, 504, 505, 1007, 1008, 4535, 4536, 4607] {
        let mut font = vec![0; FONT_LEN];
        font[byte] = 1 + noise() % 255;
        fonts.push(font);
    }
    fonts
}

#[test]
fn blocks_by_hand() {
    // All 0: sums of the header alone, 3 + F8 + 1 and 3·1 + F8·3 + 1·4.
    let file = written(&[0; FONT_LEN]);
    assert_eq!(file[3 * 512..][..4], [0x03, 0x00, 0xF8, 0x01]);
    assert_eq!(file[3 * 512 + 508..][..4], [0xFC, 0x00, 0xEF, 0x02]);
    assert_eq!(file[9 * 512..][..4], [0x09, 0x00, 0x48, 0x00]);
    assert_eq!(file[9 * 512 + 508..], [0x51, 0x00, 0xE1, 0x00]);
    assert!((0..10).all(|place| file[512 * place + 4..][..504] == [0; 504]));
    assert_eq!(outcome(&file), Ok(vec![0; FONT_LEN]));

    // All FF: 128,769 + n and 32,966,128 + n in block n, 18,441 and 743,805 in
    // block 9, of which each but 18,441 is above 65,535.
    let file = written(&[255; FONT_LEN]);
    for place in 0..9 {
        let block = &file[512 * usize::from(place)..][..512];
        assert_eq!(block[..4], [place, 0x00, 0xF8, 0x01]);
        assert!(block[4..508] == [255; 504]);
        assert_eq!(block[508..], [0x01 + place, 0xF7, 0xF0 + place, 0x05]);
    }
    assert_eq!(file[9 * 512..][..4], [0x09, 0x00, 0x48, 0x00]);
    assert!(file[9 * 512 + 4..][..72] == [255; 72] && file[9 * 512 + 76..][..432] == [0; 432]);
    assert_eq!(file[9 * 512 + 508..], [0x09, 0x48, 0x7D, 0x59]);
    assert_eq!(outcome(&file), Ok(vec![255; FONT_LEN]));
}

#[test]
fn single_bytes_by_hand() {
    // A byte of the font, its block and place there, and the block's checks.
    for (byte, value, block, place, checks) in [
        (0, 1, 0, 4, [0xFA, 0x00, 0xF1, 0x02]),        // 249 + 1, 748 + 5
        (503, 1, 0, 507, [0xFA, 0x00, 0xE8, 0x04]),    // 249 + 1, 748 + 508
        (504, 1, 1, 4, [0xFB, 0x00, 0xF2, 0x02]),      // 250 + 1, 749 + 5
        (1007, 255, 1, 507, [0xF9, 0x01, 0xF1, 0xFC]), // 250 + 255, 749 + 255 · 508 = 65,536 + 64,753
        (4535, 2, 8, 507, [0x03, 0x01, 0xEC, 0x06]),   // 257 + 2, 756 + 1,016
        (4536, 3, 9, 4, [0x54, 0x00, 0xF0, 0x00]),     // 81 + 3, 225 + 15
        (4607, 2, 9, 75, [0x53, 0x00, 0x79, 0x01]),    // 81 + 2, 225 + 152
    ] {
        let mut font = vec![0; FONT_LEN];
        font[byte] = value;
        let file = written(&font);
        let mut expected = written(&[0; FONT_LEN]);
        expected[512 * block + place] = value;
        expected[512 * block + 508..][..4].copy_from_slice(&checks);
        assert!(file == expected, "byte {byte}");
        assert_eq!(outcome(&file), Ok(font));
    }
}

#[test]
fn bytes_of_a_font_in_their_places() {
    for byte in (0..FONT_LEN).step_by(5) {
        let mut font = vec![0; FONT_LEN];
        font[byte] = 0xA5;
        let file = written(&font);
        assert!(file == slow_file(&font), "byte {byte}");
        assert_eq!(file[512 * (byte / 504) + 4 + byte % 504], 0xA5);
        assert!(outcome(&file) == Ok(font), "byte {byte}");
    }
}

#[test]
fn written_and_read() {
    for font in fonts() {
        let file = written(&font);
        assert!(file == slow_file(&font));
        assert!(outcome(&file) == Ok(font));
    }
}

#[test]
fn lengths_that_are_refused() {
    let good = written(&pattern(FONT_LEN));
    let file_lens = [0, 1, 511, 512, 4608, FILE_LEN - 512, FILE_LEN - 1, FILE_LEN, FILE_LEN + 1, FILE_LEN + 512, 2 * FILE_LEN];
    let font_lens = [0, 1, 504, FONT_LEN - 1, FONT_LEN, FONT_LEN + 1, 5120, 2 * FONT_LEN];
    for file_len in file_lens {
        for font_len in font_lens {
            if (file_len, font_len) == (FILE_LEN, FONT_LEN) {
                continue;
            }
            // A good file as far as it goes, and a bad one: the length comes first.
            for first in [0, 1] {
                let mut file: Vec<u8> = good.iter().copied().cycle().take(file_len).collect();
                if let Some(byte) = file.first_mut() {
                    *byte = first;
                }
                let mut font = pattern(font_len);
                assert_eq!(read(&file, &mut font), Err(Unread { refusal: Refusal::FileLength, place: 0 }));
                assert_eq!(read_bytes(&file, &mut font), 15 << 16);
                assert_eq!(font, pattern(font_len));
                let before = file.clone();
                assert_eq!(write(&font, &mut file), Err(Refusal::FileLength));
                assert_eq!(write_bytes(&font, &mut file), 15 << 16);
                assert_eq!(file, before);
            }
        }
    }
}

#[test]
fn any_changed_byte_is_refused() {
    // The comparison with the library tries all 255 changes of each.
    for (font, every) in [(pattern(FONT_LEN), 1), (vec![0; FONT_LEN], 13), (vec![255; FONT_LEN], 13)] {
        let file = written(&font);
        for place in (0..FILE_LEN).step_by(every) {
            let mut bad = file.clone();
            bad[place] ^= [0x01, 0x80, 0xFF, 1 + (place % 255) as u8][place % 4];
            assert_eq!(outcome(&bad), Err((16, (place / 512) as u32)), "byte {place}");
        }
    }
}

#[test]
fn exchanged_neighbours_are_refused() {
    // The last byte before the padding is 90.
    let file = written(&pattern(FONT_LEN));
    let mut exchanged = 0;
    for place in 0..10 {
        for byte in 4..508 {
            let first = 512 * place + byte;
            // The last of a block stands beside the first of the next.
            let second = if byte == 507 { first + 9 } else { first + 1 };
            if second < FILE_LEN && file[first] != file[second] {
                let mut bad = file.clone();
                bad.swap(first, second);
                assert_eq!(outcome(&bad), Err((16, place as u32)), "byte {byte} of block {place}");
                exchanged += 1;
            }
        }
    }
    assert_eq!(exchanged, FONT_LEN);
}

#[test]
fn each_check_counts() {
    let file = written(&pattern(FONT_LEN));
    for place in 0..10 {
        // Each bit of the four bytes.
        for bit in 0..32 {
            let mut bad = file.clone();
            bad[512 * place + 508 + bit / 8] ^= 1 << (bit % 8);
            assert_eq!(outcome(&bad), Err((16, place as u32)), "bit {bit}");
        }
        // One up by 1, one down by 1: the sum is right.
        let mut bad = file.clone();
        bad[512 * place + 10] += 1;
        bad[512 * place + 50] -= 1;
        assert_eq!(outcome(&bad), Err((16, place as u32)));
        // One up by 2 at position 9, one down by 1 at 18: the other sum is right.
        let mut bad = file.clone();
        bad[512 * place + 8] += 2;
        bad[512 * place + 17] -= 1;
        assert_eq!(outcome(&bad), Err((16, place as u32)));
    }
}

#[test]
fn another_number() {
    let font = pattern(FONT_LEN);
    let file = written(&font);
    for place in 0..10 {
        let high_bits = (8..16).map(|bit| place | 1 << bit);
        for number in (0..20).chain(250..270).chain(high_bits).chain([0xFF00 + place, 0xFFFF]) {
            let mut forged = file.clone();
            forge(&mut forged, place, |block| block[..2].copy_from_slice(&(number as u16).to_le_bytes()));
            let expected = if number == place { Ok(font.clone()) } else { Err((17, place as u32)) };
            assert!(outcome(&forged) == expected, "number {number} in block {place}");
        }
        // Whole blocks exchanged, and one in the place of another.
        for other in (0..10).filter(|&other| other != place) {
            let mut exchanged = file.clone();
            exchanged[512 * place..][..512].copy_from_slice(&file[512 * other..][..512]);
            assert_eq!(outcome(&exchanged), Err((17, place as u32)));
            exchanged[512 * other..][..512].copy_from_slice(&file[512 * place..][..512]);
            assert_eq!(outcome(&exchanged), Err((17, place.min(other) as u32)));
        }
    }
}

#[test]
fn another_used_length() {
    // With padding that fits both lengths, and with one that does not.
    for font in [pattern(FONT_LEN), vec![0; FONT_LEN]] {
        let file = written(&font);
        for place in 0..10 {
            let right = if place == 9 { 72 } else { 504 };
            let lens = [0, 1, 71, 72, 73, 503, 504, 505, 507, 508, 512, 4608, 0xFF00 + right % 256, 0xFFFF];
            for len in lens.into_iter().chain((0..16).map(|bit| right ^ 1 << bit)) {
                let mut forged = file.clone();
                forge(&mut forged, place, |block| block[2..4].copy_from_slice(&(len as u16).to_le_bytes()));
                let expected = if len == right { Ok(font.clone()) } else { Err((17, place as u32)) };
                assert!(outcome(&forged) == expected, "length {len} in block {place}");
            }
        }
    }
}

#[test]
fn padding_that_is_not_0() {
    let file = written(&pattern(FONT_LEN));
    for byte in 76..508 {
        for value in [1, 0x80, 0xFF] {
            let mut forged = file.clone();
            forge(&mut forged, 9, |block| block[byte] = value);
            assert_eq!(outcome(&forged), Err((17, 9)), "byte {byte}");
        }
    }
    // 256 of them, so that their sum is 0 in a byte.
    let mut forged = file.clone();
    forge(&mut forged, 9, |block| block[100..356].fill(1));
    assert_eq!(outcome(&forged), Err((17, 9)));
    // The font's own bytes are free: the last one before the padding, and the
    // last of a whole block.
    for (place, byte) in [(9, 75), (9, 4), (8, 507), (0, 4)] {
        let mut font = pattern(FONT_LEN);
        font[504 * place + byte - 4] = 200;
        let mut forged = file.clone();
        forge(&mut forged, place, |block| block[byte] = 200);
        assert!(forged == written(&font));
        assert!(outcome(&forged) == Ok(font));
    }
}

#[test]
fn checks_before_format_and_blocks_in_turn() {
    let file = written(&pattern(FONT_LEN));
    let spoil = |file: &mut [u8], place: usize, refusal: u32| match refusal {
        16 => file[512 * place + 200] ^= 1,
        _ => forge(file, place, |block| block[1] = 1),
    };
    for first in 0..10 {
        // Both in one block.
        let mut bad = file.clone();
        spoil(&mut bad, first, 17);
        assert_eq!(outcome(&bad), Err((17, first as u32)));
        spoil(&mut bad, first, 16);
        assert_eq!(outcome(&bad), Err((16, first as u32)));
        // Number and checks are both another's.
        let mut bad = file.clone();
        bad[512 * first] += 1;
        assert_eq!(outcome(&bad), Err((16, first as u32)));
        for second in first + 1..10 {
            for (refusal, other) in [(16, 16), (16, 17), (17, 16), (17, 17)] {
                let mut bad = file.clone();
                spoil(&mut bad, first, refusal);
                spoil(&mut bad, second, other);
                assert_eq!(outcome(&bad), Err((refusal, first as u32)));
            }
        }
    }
}

#[test]
fn an_empty_card() {
    // The checks of zeros hold, the used length of the first block does not.
    assert_eq!(outcome(&[0; FILE_LEN]), Err((17, 0)));
    assert_eq!(outcome(&[0xFF; FILE_LEN]), Err((16, 0)));
    assert_eq!(outcome(&pattern(FILE_LEN)), Err((16, 0)));
}

#[test]
fn an_accepted_file_is_what_the_writer_gives() {
    // Fonts in blocks of others, with their checks.
    let fonts = fonts();
    let files: Vec<Vec<u8>> = fonts.iter().map(|font| written(font)).collect();
    for (i, file) in files.iter().enumerate() {
        let other = &files[(7 * i + 3) % files.len()];
        for place in 0..10 {
            let mut mixed = file.clone();
            mixed[512 * place..][..512].copy_from_slice(&other[512 * place..][..512]);
            let font = outcome(&mixed).unwrap();
            assert!(written(&font) == mixed);
        }
    }
}
