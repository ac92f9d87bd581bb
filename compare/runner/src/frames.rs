//! Frames on the proved library during which nothing is stored: a pixel that is asked for is the one that is drawn, on any record.

use crate::library::{Place, FRAME_NUMBER, REGISTERS};
use crate::linked;
use crate::pages::{random_page, seam_page, zero_page, FONT, RAM};
use crate::random::Random;
use crate::zero_spacings::ZeroSpacings;
use osd_model::{Device, DEVICE_LEN};
use std::process::exit;

/// How many lines of a frame are asked for, pixel by pixel.
const LINES_ASKED: u32 = 24;
/// How many pixels of each such line where it may take 511 descriptors a line to get there.
const COLUMNS_ASKED: usize = 12;
/// A byte of a line that is not drawn.
const NO_PIXEL: u8 = 0xEE;

/// A record of any bytes, with a page that shows something; or what calls can leave of it.
fn record(random: &mut Random, p: u8) -> [u8; DEVICE_LEN] {
    let mut record = [0; DEVICE_LEN];
    random.fill(&mut record);
    let [ld, dd, ch, control] = [0, 1, 2, 3].map(|number| record[REGISTERS][number]);
    let settings = [
        random.pick(&[63, 0xC4, ld]),
        random.pick(&[0, 4, 5, 7, 8, dd]),
        random.pick(&[0, 1, 2, 12, 18, 37, 63, ch]),
        control & 0x78 | p | random.pick(&[0x80, 0x80, 0x80, 0]),
    ];
    record[REGISTERS][..4].copy_from_slice(&settings);
    if random.one_in(2) {
        record = Device::from_bytes(&record).to_bytes();
    }
    record
}

/// Lengths that are right as soon as their upper bits are lost: each buffer is refused, in the order of the refusals.
pub fn lengths() {
    let lens = [DEVICE_LEN, RAM, FONT];
    for wrong in 1..8 {
        let buffers = [0, 1, 2].map(|buffer| vec![0; lens[buffer] + (wrong >> buffer & 1) * 65_536]);
        for (lines, x) in [(1, 0), (1, 12), (0, 12)] {
            let place = Place { lines, frame: 0, x, y: 0 };
            let answer = linked::pixel(&buffers[0], &buffers[1], &buffers[2], place);
            let refusal = [255, 1, 2][wrong.trailing_zeros() as usize];
            if answer != refusal << 16 {
                println!("a pixel with buffers of {:?} bytes answers {answer}", buffers.each_ref().map(Vec::len));
                exit(1);
            }
        }
    }
}

/// A frame of a random page on a made-up record. Answers how many pixels were asked for, and what was met of zero spacings.
pub fn made_up(seed: u64) -> (u64, ZeroSpacings) {
    let mut random = Random::new(!(seed << 32));
    let mut ram = vec![0; RAM];
    let zero_spacings = random.one_in(3);
    let p = match zero_spacings {
        true => zero_page(&mut random, &mut ram),
        false if random.one_in(4) => seam_page(&mut random, &mut ram),
        false => random_page(&mut random, &mut ram),
    };
    let mut font = vec![0; FONT];
    random.fill(&mut font);
    let mut record = record(&mut random, p);
    let lines = random.pick(&[1, 20, 100, 400, 2048]);
    // The model has the say where calls can leave the record.
    let mut model = Some(Device::from_bytes(&record)).filter(|model| model.to_bytes() == record);

    assert_eq!(linked::frame_start(&mut record, lines), 0);
    if let Some(model) = &mut model {
        assert_eq!(model.frame_start(lines), Ok(()));
    }
    let frame = u32::from(record[FRAME_NUMBER]) + 64 * random.below(1 << 26) as u32;
    let mut asked = 0;
    let mut met = ZeroSpacings::default();
    for y in 0..lines {
        let mut line = [NO_PIXEL; 768];
        let before = record;
        let reads = linked::draw(&mut record, &ram, &font, &mut line);
        met.line(&before, &record, reads);
        let mut model_line = [NO_PIXEL; 768];
        let drawn = model.as_mut().map(|model| model.draw(&ram, &font, &mut model_line));
        let differs = |what: &str| -> ! {
            println!("seed {seed}: {what}: frame {frame} of {lines} lines, line {y}");
            exit(1);
        };
        if drawn.is_some_and(|drawn| drawn != Ok(reads) || model_line != line) {
            differs("another line than the model's");
        }
        if !random.one_in(u64::from(1 + lines / LINES_ASKED)) {
            continue;
        }
        let columns = if zero_spacings { COLUMNS_ASKED } else { line.len() };
        let first = random.below((line.len() - columns + 1) as u64) as usize;
        for (x, &pixel) in (0..).zip(&line).skip(first).take(columns) {
            let place = Place { lines, frame, x, y };
            let ours = linked::pixel(&record, &ram, &font, place);
            let expected = if pixel == NO_PIXEL { 11 << 16 } else { u32::from(pixel) };
            if ours != expected {
                differs(&format!("column {x} answers {ours}, drawn was {pixel}"));
            }
            asked += 1;
            met.question(&record);
        }
    }
    (asked, met)
}
