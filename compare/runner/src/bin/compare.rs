//! Compares the proved library with the independent implementation, call by call, over many random sessions; captures that are cut with
//! the same captures fed whole; pixels that are asked for with those that are drawn; and font files with all single damages of one.
//!
//!     compare PAGE [SEED [SESSIONS]]
//!
//! PAGE is the sample page, crates/demo/stdin: its traffic is the first capture. Session i uses seed SEED + i, so a difference is shown
//! again by `compare PAGE SEED+i 1`.

use runner::library::Linked;
use runner::sessions::{corrupted, play, DEFAULT_SEED, DEFAULT_SESSIONS};
use runner::zero_spacings::ZeroSpacings;
use runner::{captures, font_files, frames, linked, pages};
use std::process::exit;

/// Refusals of a bus event that is not acknowledged: idle, not addressed, reading, writing. Every session meets each of them.
const NOT_ACKNOWLEDGED: [usize; 4] = [5, 12, 13, 14];

/// Refusals of a font file: a length, a block's checks, a block's format. Every session meets each of them too.
const FONT_FILE: [usize; 3] = [15, 16, 17];

/// Adds to the counts of a session's refusals those of another.
fn add(counts: &mut [u64; 256], others: [u64; 256]) {
    for (all, some) in counts.iter_mut().zip(others) {
        *all += some;
    }
}

fn main() {
    let mut words = std::env::args().skip(1);
    let page = std::fs::read(words.next().expect("the sample page")).expect("the sample page can be read");
    let mut number = |otherwise: u64| match words.next() {
        Some(word) => word.parse().expect("a number"),
        None => otherwise,
    };
    let seed = number(DEFAULT_SEED);
    let sessions = number(DEFAULT_SESSIONS);
    assert_eq!(linked::device_len(), 32);
    assert_eq!(linked::feed_len(), 2);

    let mut counts = [0; 256];
    let mut made_up = 0;
    let mut made_up_counts = [0; 256];
    let mut made_up_fed = 0;
    let mut asked = 0;
    let mut damaged = 0;
    let mut made_up_frames = 0;
    let mut zero_spacings = ZeroSpacings::default();
    for i in 0..sessions {
        let played = play(&mut Linked, seed + i);
        add(&mut counts, played.refusals);
        zero_spacings += played.zero_spacings;
        let on_corrupted = corrupted(&mut Linked, seed + i);
        made_up += on_corrupted.calls;
        add(&mut made_up_counts, on_corrupted.compared);
        made_up_frames += on_corrupted.frame_calls;
        zero_spacings += on_corrupted.zero_spacings;
        made_up_fed += captures::made_up(seed + i);
        let (pixels, met) = frames::made_up(seed + i);
        asked += pixels;
        zero_spacings += met;
        damaged += font_files::made_up(seed + i);
    }
    let (_, capture) = page.split_at(pages::FONT);
    let fed = captures::sample(capture);
    captures::longest();
    frames::lengths();
    font_files::lengths(seed);
    let changed = font_files::changed_bytes(seed);
    let exchanged = font_files::exchanged_neighbours(seed);
    let formats = font_files::other_formats(seed);

    println!("seeds {seed} to {}: {sessions} sessions", seed + sessions - 1);
    for (refusal, count) in counts.iter().enumerate().filter(|(_, &count)| count > 0) {
        println!("  refusal {refusal:3}: {count:8} answers");
    }
    for refusal in NOT_ACKNOWLEDGED {
        if counts[refusal] == 0 || made_up_counts[refusal] == 0 {
            println!("no call was refused with {refusal}, or none on a corrupted record");
            exit(1);
        }
    }
    if let Some(refusal) = FONT_FILE.into_iter().find(|&refusal| counts[refusal] == 0) {
        println!("no call was refused with {refusal}");
        exit(1);
    }
    if !zero_spacings.of_all_sorts() {
        println!("no line passed over zero spacings, none met 512 of them, or the plain rest was not met");
        exit(1);
    }
    println!("{} calls compared, 0 differences; {made_up} calls on corrupted records, 0 faults", counts.iter().sum::<u64>());
    println!("{} bus events and chunks on corrupted records compared in full, 0 differences", made_up_counts.iter().sum::<u64>());
    println!(
        "a capture of {} bytes fed {fed} times, {sessions} others {made_up_fed} times, whole and cut: 0 differences",
        capture.len()
    );
    println!("{made_up_frames} lines, cell questions and frame starts of made-up frames compared in full, 0 differences");
    let ZeroSpacings { passed, met, rest, asked: in_rest } = zero_spacings;
    println!(
        "of all these, {passed} lines passed over zero spacings, {met} met 512 of them, and the plain rest had {rest} lines and {in_rest} questions"
    );
    println!("{asked} pixels of {sessions} frames asked for and drawn: 0 differences");
    println!("{sessions} fonts written and read, their files read {damaged} times with damage of all sorts: 0 differences");
    println!("a font file with each of {changed} changed bytes, {exchanged} exchanged neighbours and {formats} other formats: 0 differences");
}
