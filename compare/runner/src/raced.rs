//! The pages and transfers that the race (bin/speed.rs) is run on, and that ports/run/count.c counts instructions on.

use crate::pages::{self, FIRST_USER, FONT, RAM};
use crate::random::Random;
use crate::traffic::Logged;

const WORDS: usize = RAM / 2;

/// A font of noise, and pages of RAM.
pub struct Pages {
    pub font: Vec<u8>,
    pub font_page: Vec<u8>,
    pub user_page: Vec<u8>,
    pub shadowed: Vec<u8>,
    pub stop: Vec<u8>,
    pub noise: Vec<u8>,
    pub descriptors: Vec<u8>,
    pub strips: Vec<u8>,
    pub passing: [(usize, Vec<u8>); 3],
    pub behind_511: Vec<u8>,
    pub zeros: Vec<u8>,
}

impl Pages {
    // Made from seeds of its own, not from a default.
    #[allow(clippy::new_without_default)]
    pub fn new() -> Pages {
        let mut random = Random::new(9425);
        let mut font = vec![0; FONT];
        random.fill(&mut font);
        let mut noise = vec![0; RAM];
        random.fill(&mut noise);
        // No attributes of 0: where strips of CH 1 come to the codes, none is a zero spacing.
        let font_page = full_page(|| ((random.byte() & 0x77).max(1), random.below(128) as u8));
        let mut random = Random::new(9426);
        let user_page = full_page(|| (random.byte() & 0x77, FIRST_USER + random.below(26) as u8));
        let mut random = Random::new(9427);
        let shadowed = full_page(|| (0x0A | random.byte() & 0x70, random.below(128) as u8));
        let stop = stop_page(&mut random);
        Pages {
            font,
            font_page,
            user_page,
            shadowed,
            stop,
            noise,
            descriptors: all_descriptors(),
            strips: all_strips(),
            passing: [1, 16, 511].map(|passed| (passed, passing(passed))),
            behind_511: behind_511(),
            zeros: vec![0; RAM],
        }
    }
}

/// A host's transfer: start, slave address, internal address, sixty data bytes, stop.
pub fn transfer(reads: bool) -> Vec<Logged> {
    let mut events = vec![(0, 0), (1, 0xBA), (1, 0x01), (1, 0x40)];
    if reads {
        events.extend([(0, 0), (1, 0xBB)]);
        events.extend([(2, 0); 60]);
    } else {
        events.extend((0..60).map(|i| (1, i)));
    }
    events.push((3, 0));
    events
}

/// Every descriptor shows the row of 61 codes at word 256.
fn full_page(mut code: impl FnMut() -> (u8, u8)) -> Vec<u8> {
    let mut ram = vec![0; RAM];
    for word in 0..256 {
        pages::characters(&mut ram, word, 256, true, false);
    }
    for word in 256..WORDS {
        let (attributes, high) = code();
        pages::code(&mut ram, word, attributes, high);
    }
    ram
}

/// Two short texts with much transparent picture between them, as a door monitor shows them.
fn stop_page(random: &mut Random) -> Vec<u8> {
    let mut ram = vec![0; RAM];
    for page in 0..8 {
        let word = 4 * page;
        pages::spacing(&mut ram, word, 20);
        pages::characters(&mut ram, word + 1, 256, true, true);
        pages::spacing(&mut ram, word + 2, 180);
        pages::characters(&mut ram, word + 3, 300, true, false);
    }
    for word in 32..256 {
        pages::spacing(&mut ram, word, 255);
    }
    for (row, length) in [(256, 24), (300, 16)] {
        for word in row..row + length {
            pages::code(&mut ram, word, 0x7A, 32 + random.below(90) as u8);
        }
        pages::code(&mut ram, row + length, 0, pages::END_OF_LINE);
    }
    ram
}

/// Every word is the descriptor of an enabled strip, each with a row of its own.
fn all_descriptors() -> Vec<u8> {
    let mut ram = vec![0; RAM];
    for word in 0..WORDS {
        pages::characters(&mut ram, word, 7 * word, true, false);
    }
    ram
}

/// Every word is a strip's descriptor, and a user character as a code. The last one alone has DE, so that 2,048 lines of CH 1 end in it.
fn all_strips() -> Vec<u8> {
    let mut ram = vec![0; RAM];
    for word in 0..WORDS {
        pages::characters(&mut ram, word, 7 * word, word == WORDS - 1, false);
    }
    ram
}

/// Every line passes over so many zero spacings and comes to a spacing of one line. Where the groups do not fill the RAM some have one more.
fn passing(passed: usize) -> Vec<u8> {
    let mut ram = vec![0; RAM];
    let groups = WORDS / (passed + 1);
    for group in 1..=groups {
        pages::spacing(&mut ram, group * WORDS / groups - 1, 1);
    }
    ram
}

/// Zero spacings, and behind 511 of them a strip; its codes are zero spacings too, black characters of the font.
fn behind_511() -> Vec<u8> {
    let mut ram = vec![0; RAM];
    pages::characters(&mut ram, WORDS - 1, 0, true, false);
    ram
}
