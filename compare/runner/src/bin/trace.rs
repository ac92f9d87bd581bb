//! Writes a trace of the comparison's sessions, with the answers and buffers of the independent implementation (see runner::recorder).
//!
//!     trace FILE PAGE [SEED [SESSIONS]]
//!
//! PAGE is the sample page, crates/demo/stdin: its frame comes first, and its digest is printed.

use runner::recorder::Recorder;
use runner::sample;
use runner::sessions::{corrupted, play, DEFAULT_SEED, DEFAULT_SESSIONS};
use std::fs::{read, File};
use std::io::{BufWriter, Result};

fn main() -> Result<()> {
    let mut words = std::env::args().skip(1);
    let file = File::create(words.next().expect("a file to write"))?;
    let page = read(words.next().expect("the sample page"))?;
    let mut number = |otherwise: u64| match words.next() {
        Some(word) => word.parse().expect("a number"),
        None => otherwise,
    };
    let seed = number(DEFAULT_SEED);
    let sessions = number(DEFAULT_SESSIONS);

    let mut recorder = Recorder::new(BufWriter::new(file))?;
    println!("sample page: digest {:08x}", sample::play(&mut recorder, &page));
    for i in 0..sessions {
        play(&mut recorder, seed + i);
        corrupted(&mut recorder, seed + i);
    }
    println!("seeds {seed} to {}: {} calls", seed + sessions - 1, recorder.end()?);
    Ok(())
}
