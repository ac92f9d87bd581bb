//! Races the proved library against the independent implementation, side by side in one run, and prints a table of ratios.
//!
//!     speed [ROUNDS]
//!
//! Each figure is the least of ROUNDS rounds, in which the two take turns. A ratio below 1 means that the proved library is faster.

use osd_model::{bus_bytes, feed_bytes, font_file, pixel_bytes, Device, Event};
use runner::font_files::FILE;
use runner::library::Place;
use runner::linked;
use runner::pages::{FONT, RAM};
use runner::raced::{transfer, Pages};
use runner::traffic;
use std::hint::black_box;
use std::time::Instant;

const LINES: u32 = 2048;

type Record = [u8; 32];

/// Both devices, in the same state.
struct Pair {
    ram: Vec<u8>,
    font: Vec<u8>,
    ours: Record,
    model: Device,
}

impl Pair {
    /// Registers 3FF0 to 3FF3 are written over the bus, as a host does it.
    fn new(ram: Vec<u8>, font: &[u8], settings: [u8; 4]) -> Pair {
        let mut pair = Pair { ram, font: font.to_vec(), ours: [0; 32], model: Device::fresh() };
        linked::fresh(&mut pair.ours);
        let [ld, dd, ch, control] = settings;
        pair.event(0, 0);
        for byte in [0xBA, 0x3F, 0xF0, ld, dd, ch, control] {
            pair.event(1, byte);
        }
        pair.event(3, 0);
        pair
    }

    fn event(&mut self, kind: u8, byte: u8) {
        let event = Event::of_kind(kind, byte).expect("a kind");
        assert_eq!(linked::bus(&mut self.ours, &mut self.ram, kind, byte), 0);
        assert!(self.model.bus(&mut self.ram, event).is_ok());
    }

    fn start(&mut self) {
        assert_eq!(linked::frame_start(&mut self.ours, LINES), 0);
        assert!(self.model.frame_start(LINES).is_ok());
    }

    /// A line on both sides, with the same count of cells.
    fn draw(&mut self) {
        let [mut line, mut model_line] = [[0; 768]; 2];
        let reads = linked::draw(&mut self.ours, &self.ram, &self.font, &mut line);
        assert_eq!(self.model.draw(&self.ram, &self.font, &mut model_line), Ok(reads));
        assert_eq!(line, model_line);
    }
}

#[inline(never)]
fn model_draw(device: &mut Device, ram: &[u8], font: &[u8], line: &mut [u8]) -> u32 {
    device.draw(ram, font, line).unwrap_or(0)
}

#[inline(never)]
fn model_cell(device: &Device, ram: &[u8], cell: u32) -> u32 {
    u32::from(device.cell(ram, cell).unwrap_or(false))
}

/// The same byte layout as the library's, and a call that is not inlined, as the library's is not.
#[inline(never)]
fn model_bus(device: &mut Record, ram: &mut [u8], kind: u8, byte: u8) -> u32 {
    bus_bytes(device, ram, kind, byte)
}

#[inline(never)]
fn model_feed(device: &mut Record, feed: &mut [u8; 2], ram: &mut [u8], chunk: &[u8], out: &mut [u8]) -> u32 {
    feed_bytes(device, feed, ram, chunk, out)
}

#[inline(never)]
fn model_pixel(device: &Record, ram: &[u8], font: &[u8], Place { lines, frame, x, y }: Place) -> u32 {
    pixel_bytes(device, ram, font, lines, frame, x, y)
}

#[inline(never)]
fn model_font_write(font: &[u8], file: &mut [u8]) -> u32 {
    font_file::write_bytes(font, file)
}

#[inline(never)]
fn model_font_read(file: &[u8], font: &mut [u8]) -> u32 {
    font_file::read_bytes(file, font)
}

/// The least time of some rounds, in nanoseconds a turn, of two competitors that take turns.
fn race(rounds: u32, turns: u32, mut ours: impl FnMut(), mut model: impl FnMut()) -> (f64, f64) {
    let mut best = (f64::MAX, f64::MAX);
    let time = |work: &mut dyn FnMut()| {
        let start = Instant::now();
        work();
        start.elapsed().as_nanos() as f64 / f64::from(turns)
    };
    for _ in 0..rounds {
        best.0 = best.0.min(time(&mut ours));
        best.1 = best.1.min(time(&mut model));
    }
    best
}

fn row(name: &str, (ours, model): (f64, f64)) {
    println!("| {name} | {ours:.1} | {model:.1} | {:.2} |", ours / model);
}

/// A line buffer at the start of a cache line, so that neither side is lucky with its place.
#[repr(align(64))]
struct Line([u8; 768]);

/// A frame of 2,048 lines.
fn draw(name: &str, rounds: u32, pair: Pair) {
    lines(name, rounds, pair, 0, LINES);
}

/// So many lines of a frame behind those that were drawn before, again and again up to 2,048 of them.
fn lines(name: &str, rounds: u32, mut pair: Pair, before: u32, lines: u32) {
    let mut line = Line([0; 768]);
    let mut model_line = Line([0; 768]);
    pair.start();
    for _ in 0..before {
        pair.draw();
    }
    let (start, model_start) = (pair.ours, pair.model);
    let Pair { ram, font, .. } = pair;
    let times = LINES / lines;
    let figures = race(
        rounds,
        times * lines,
        || {
            for _ in 0..times {
                let mut device = start;
                for _ in 0..lines {
                    black_box(linked::draw(&mut device, &ram, &font, &mut line.0));
                }
            }
        },
        || {
            for _ in 0..times {
                let mut device = model_start;
                for _ in 0..lines {
                    black_box(model_draw(&mut device, &ram, &font, &mut model_line.0));
                }
            }
        },
    );
    assert_eq!(line.0, model_line.0);
    row(name, figures);
}

const TRANSFERS: u32 = 400;

fn bus(name: &str, rounds: u32, font: &[u8], reads: bool) {
    let pair = Pair::new(vec![0; RAM], font, [63, 4, 18, 0x80]);
    let events = transfer(reads);
    let (mut ours, mut model) = (pair.ours, pair.ours);
    let (mut ram, mut model_ram) = (pair.ram.clone(), pair.ram);
    let figures = race(
        rounds,
        TRANSFERS * events.len() as u32,
        || {
            for _ in 0..TRANSFERS {
                for &(kind, byte) in &events {
                    black_box(linked::bus(&mut ours, &mut ram, kind, byte));
                }
            }
        },
        || {
            for _ in 0..TRANSFERS {
                for &(kind, byte) in &events {
                    black_box(model_bus(&mut model, &mut model_ram, kind, byte));
                }
            }
        },
    );
    assert_eq!((ours, ram), (model, model_ram));
    row(name, figures);
}

/// The same transfers, each as one chunk of a capture.
fn feed(name: &str, rounds: u32, font: &[u8], reads: bool) {
    let pair = Pair::new(vec![0; RAM], font, [63, 4, 18, 0x80]);
    let events = transfer(reads);
    let chunk = traffic::bytes(&events);
    let (mut ours, mut model) = (pair.ours, pair.ours);
    let (mut ram, mut model_ram) = (pair.ram.clone(), pair.ram);
    let (mut feed, mut model_feed_record) = ([0; 2], [0; 2]);
    let (mut out, mut model_out) = (vec![0; chunk.len()], vec![0; chunk.len()]);
    let figures = race(
        rounds,
        TRANSFERS * events.len() as u32,
        || {
            for _ in 0..TRANSFERS {
                black_box(linked::feed(&mut ours, &mut feed, &mut ram, black_box(&chunk), &mut out));
            }
        },
        || {
            for _ in 0..TRANSFERS {
                black_box(model_feed(&mut model, &mut model_feed_record, &mut model_ram, black_box(&chunk), &mut model_out));
            }
        },
    );
    assert_eq!((ours, feed, ram, out), (model, model_feed_record, model_ram, model_out));
    row(name, figures);
}

/// Every cell at the start of a frame: the mean over all, and the cell that takes longest. All cells are gone through in each round,
/// so that a disturbance of the machine does not stay with one of them.
fn cells(name: &str, rounds: u32, mut pair: Pair) {
    const TIMES: u32 = 32;
    pair.start();
    let Pair { ram, ours, model, .. } = pair;
    let mut best = vec![(f64::MAX, f64::MAX); RAM];
    for _ in 0..rounds / 4 {
        for (cell, best) in (0..).zip(&mut best) {
            let (a, b) = race(
                1,
                TIMES,
                || {
                    for _ in 0..TIMES {
                        black_box(linked::cell(&ours, &ram, black_box(cell)));
                    }
                },
                || {
                    for _ in 0..TIMES {
                        black_box(model_cell(&model, &ram, black_box(cell)));
                    }
                },
            );
            *best = (best.0.min(a), best.1.min(b));
        }
    }
    let worst = best.iter().fold((0f64, 0f64), |worst, best| (worst.0.max(best.0), worst.1.max(best.1)));
    let mean = race(
        rounds,
        RAM as u32,
        || {
            for cell in 0..RAM as u32 {
                black_box(linked::cell(&ours, &ram, cell));
            }
        },
        || {
            for cell in 0..RAM as u32 {
                black_box(model_cell(&model, &ram, cell));
            }
        },
    );
    for cell in 0..RAM as u32 {
        assert_eq!(linked::cell(&ours, &ram, cell), model_cell(&model, &ram, cell));
    }
    row(&format!("{name}, worst"), worst);
    row(&format!("{name}, mean"), mean);
}

/// The same pixel again and again, through the same record on both sides; pixels all over the frame are compared.
fn pixel(name: &str, rounds: u32, pair: Pair, x: u32, y: u32) {
    pixels(name, rounds, pair, x, y, 64, 1);
}

/// The same, so many times a round; pixels of some columns are compared.
fn pixels(name: &str, rounds: u32, pair: Pair, x: u32, y: u32, times: u32, step: usize) {
    let Pair { ram, font, ours: record, .. } = pair;
    let place = Place { lines: LINES, frame: 0, x, y };
    let figures = race(
        rounds,
        times,
        || {
            for _ in 0..times {
                black_box(linked::pixel(&record, &ram, &font, black_box(place)));
            }
        },
        || {
            for _ in 0..times {
                black_box(model_pixel(&record, &ram, &font, black_box(place)));
            }
        },
    );
    for y in (0..LINES).step_by(89).chain([y]) {
        for x in (0..768).step_by(step) {
            let place = Place { x, y, ..place };
            assert_eq!(linked::pixel(&record, &ram, &font, place), model_pixel(&record, &ram, &font, place));
        }
    }
    row(name, figures);
}

/// A font and a font file, each at the start of a cache line.
#[repr(align(64))]
struct Font([u8; FONT]);

#[repr(align(64))]
struct File([u8; FILE]);

const FILES: u32 = 64;

fn font_write(name: &str, rounds: u32, font: &[u8]) {
    let font = Font(font.try_into().expect("a font"));
    let (mut file, mut model_file) = (File([0; FILE]), File([0; FILE]));
    let figures = race(
        rounds,
        FILES,
        || {
            for _ in 0..FILES {
                black_box(linked::font_write(black_box(&font.0), &mut file.0));
            }
        },
        || {
            for _ in 0..FILES {
                black_box(model_font_write(black_box(&font.0), &mut model_file.0));
            }
        },
    );
    assert_eq!(file.0, model_file.0);
    row(name, figures);
}

/// A font's file, with this byte changed where there is one: then it is refused.
fn font_read(name: &str, rounds: u32, font: &[u8], changed: Option<usize>) {
    let mut file = File([0; FILE]);
    assert_eq!(linked::font_write(font, &mut file.0), 0);
    if let Some(byte) = changed {
        file.0[byte] ^= 1;
    }
    let (mut read, mut model_read) = (Font([0; FONT]), Font([0; FONT]));
    let expected = changed.map_or(0, |byte| (16 << 16) + byte as u32 / 512);
    assert_eq!(linked::font_read(&file.0, &mut read.0), expected);
    assert_eq!(model_font_read(&file.0, &mut model_read.0), expected);
    let figures = race(
        rounds,
        FILES,
        || {
            for _ in 0..FILES {
                black_box(linked::font_read(black_box(&file.0), &mut read.0));
            }
        },
        || {
            for _ in 0..FILES {
                black_box(model_font_read(black_box(&file.0), &mut model_read.0));
            }
        },
    );
    assert_eq!(read.0, model_read.0);
    row(name, figures);
}

fn main() {
    let rounds = std::env::args().nth(1).map_or(200, |word| word.parse().expect("a number"));
    let Pages { font, font_page, user_page, shadowed, stop, noise, descriptors, strips, passing, behind_511, zeros } = Pages::new();

    println!("| Row | Proved, ns | Rust, ns | Ratio |");
    println!("|---|---|---|---|");
    let wide = |ram: &Vec<u8>| Pair::new(ram.clone(), &font, [63, 4, 18, 0x80]);
    draw("a line of 61 font characters", rounds, wide(&font_page));
    draw("a line of 61 user characters", rounds, wide(&user_page));
    draw("a line of 61 shadowed characters", rounds, wide(&shadowed));
    draw("a line of a stop page, mostly transparent", rounds, wide(&stop));
    draw("a line over noise RAM", rounds, wide(&noise));
    draw("a narrow line, 48 pixels", rounds, Pair::new(font_page.clone(), &font, [3, 4, 18, 0x80]));
    for (passed, page) in &passing {
        draw(&format!("a line that passes over {passed} zero spacing{}", if *passed == 1 { "" } else { "s" }), rounds, wide(page));
    }
    lines("a line that meets 512 zero spacings", rounds, wide(&zeros), 0, 1);
    lines("a line of the plain rest", rounds, wide(&zeros), 1, LINES - 1);
    bus("a bus event, writing", rounds, &font, false);
    bus("a bus event, reading", rounds, &font, true);
    feed("a fed event, writing", rounds, &font, false);
    feed("a fed event, reading", rounds, &font, true);
    for ch in [1, 18, 63] {
        for (name, ram) in [("full page", &font_page), ("stop page", &stop), ("noise", &noise), ("all descriptors", &descriptors)] {
            let pair = Pair::new(ram.clone(), &font, [63, 4, ch, 0x80]);
            cells(&format!("a cell question, CH {ch}, {name}"), rounds, pair);
        }
    }
    cells("a cell question, zero spacings", rounds, wide(&zeros));
    let thin = |ram: &Vec<u8>| Pair::new(ram.clone(), &font, [63, 4, 1, 0x80]);
    cells("a cell question, CH 1, 511 zero spacings and a strip", rounds, thin(&behind_511));
    pixel("a pixel, first line, first character", rounds, wide(&font_page), 36, 0);
    pixel("a pixel, CH 18, full page, line 1,000, in the middle", rounds, wide(&font_page), 384, 1000);
    pixel("a pixel, CH 1, 2,048 strips, last line, last column", rounds, thin(&strips), 767, 2047);
    pixels("a pixel, CH 1, 511 zero spacings and a strip, last line, last column", rounds, thin(&behind_511), 767, 2047, 1, 109);
    pixel("a pixel, zero spacings, last line, last column", rounds, wide(&zeros), 767, 2047);
    font_write("a font file, written", rounds, &font);
    font_read("a font file, read", rounds, &font, None);
    font_read("a font file, refused at block 9", rounds, &font, Some(FILE - 1));
}
