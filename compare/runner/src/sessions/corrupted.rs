//! Calls on corrupted records: every call ends, and touches no byte outside its buffers, and none of those that it only reads. Bus
//! events and chunks are compared in full, since the header says what they answer and leave whatever the records' bytes are. So are
//! lines, cell questions and frame starts of records that no call leaves, but whose numbers are in their range.

use super::other_lens;
use crate::lent::Lent;
use crate::library::{Library, Place, LINES_LEFT, NEXT_DESCRIPTOR, STRIP};
use crate::model;
use crate::pages::{random_page, zero_page, FONT, RAM};
use crate::random::Random;
use crate::traffic;
use crate::zero_spacings::ZeroSpacings;
use osd_model::{Device, DEVICE_LEN, FEED_LEN};
use std::process::exit;

/// Records of a seed, for bus events and chunks alone and again for calls of every sort.
const RECORDS: u32 = 40;
/// Records with a made-up strip on screen, and calls on each.
const FRAMES: u32 = 12;
const FRAME_CALLS: u32 = 12;
/// Those in each bus state, which come first: the states that there are, and one that is idle again.
const STATES: u32 = 8;
/// Times that a record is called with each sort of call.
const TIMES: u32 = 6;

/// How many calls there were.
pub struct Corrupted {
    pub calls: u64,
    /// Bus events and chunks among them that were compared in full, by their refusals.
    pub compared: [u64; 256],
    /// Lines, cell questions and frame starts that were.
    pub frame_calls: u64,
    pub zero_spacings: ZeroSpacings,
}

/// A device's record of any bytes, mostly in a bus state that there is, and mostly with the counter at a cell or a register but for its
/// two highest bits.
fn record(random: &mut Random) -> Vec<u8> {
    let mut record = vec![0; DEVICE_LEN];
    random.fill(&mut record);
    record[0] = random.pick(&[0, 1, 2, 2, 3, 4, 5, 5, 5, 6, 6, 6, 7, record[0], record[0], record[0]]);
    if !random.one_in(4) {
        let address = traffic::address(random) as u16 | random.next() as u16 & 0xC000;
        record[2..4].copy_from_slice(&address.to_le_bytes());
    }
    record
}

/// A record with any strip on screen, some lines left and any address of the next descriptor; often with bit 3 beside the strip. Its other
/// numbers are in their range, but for bits and bytes that do not count.
fn record_in_frame(random: &mut Random) -> Vec<u8> {
    let mut bytes = [0; DEVICE_LEN];
    random.fill(&mut bytes);
    let lines: u16 = random.pick(&[0, 1, 2, 9, 40, 40, 2048]);
    bytes[LINES_LEFT..][..2].copy_from_slice(&lines.to_le_bytes());
    let few = random.below(5) as u8;
    bytes[STRIP + 1] = random.pick(&[0, 1, few, few, bytes[STRIP + 1]]);
    let scan = random.below(9) as u16;
    bytes[STRIP + 4..].copy_from_slice(&random.pick(&[0, scan, scan, 126, 255]).to_le_bytes());
    let mut record = Device::from_bytes(&bytes).to_bytes();
    record[STRIP] |= bytes[STRIP] & 0xF0;
    if record[STRIP] & 1 == 0 {
        // No characters: ZY, DE, a code address and a scan line do not count.
        record[STRIP] |= bytes[STRIP] & 6;
        record[STRIP + 2..].copy_from_slice(&bytes[STRIP + 2..]);
    }
    record.to_vec()
}

/// A feed's record of any bytes, mostly open.
fn feed_record(random: &mut Random) -> Vec<u8> {
    let (state, held) = (random.byte(), random.byte());
    vec![random.pick(&[0, 0, 0, 1, 1, 1, 2, state]), random.pick(&[0, 1, 1, 2, 2, 3, 4, held])]
}

/// Any event, now and then of a kind that there is not.
fn any_event(random: &mut Random) -> traffic::Logged {
    let (kind, byte) = traffic::any_event(random);
    let bad = traffic::bad_kind(random);
    (if random.one_in(8) { random.pick(&[4, bad]) } else { kind }, byte)
}

/// These bytes, now and then cut or filled up to another length.
fn lent(random: &mut Random, mut bytes: Vec<u8>, other_lens: &[usize]) -> Lent {
    if random.one_in(12) {
        bytes.resize(random.pick(other_lens), 0xBA);
    }
    Lent::copy_of(random, &bytes)
}

/// A seed's calls, and the buffers of bus events and chunks.
struct Calls<'a, L> {
    library: &'a mut L,
    random: Random,
    seed: u64,
    counts: Corrupted,
    device: Lent,
    ram: Lent,
    feed: Lent,
    chunk: Lent,
    out: Lent,
}

impl<L: Library> Calls<'_, L> {
    fn new(library: &mut L, seed: u64) -> Calls<'_, L> {
        let mut random = Random::new(!seed);
        let [device, ram, feed, chunk, out] = [DEVICE_LEN, RAM, FEED_LEN, 0, 0].map(|len| Lent::new(&mut random, len));
        let counts = Corrupted { calls: 0, compared: [0; 256], frame_calls: 0, zero_spacings: ZeroSpacings::default() };
        Calls { library, random, seed, counts, device, ram, feed, chunk, out }
    }

    fn buffers(&self) -> [&Lent; 5] {
        [&self.device, &self.ram, &self.feed, &self.chunk, &self.out]
    }

    fn copies(&self) -> [Vec<u8>; 5] {
        self.buffers().map(|lent| lent.get().to_vec())
    }

    /// A bus event, and the model's on copies.
    fn event(&mut self, (kind, byte): traffic::Logged) {
        let before = self.copies();
        let mut model = before.clone();
        let [device, ram, ..] = &mut model;
        let expected = model::bus(device, ram, kind, byte);
        let answer = self.library.bus(&mut self.device, &mut self.ram, kind, byte);
        self.same(&format!("event {kind}, byte {byte:02X}"), (answer, expected), &before, &model);
    }

    /// A chunk on another feed, mostly with room for its output, and the model's on copies.
    fn chunk(&mut self) {
        let random = &mut self.random;
        let feed = feed_record(random);
        self.feed = lent(random, feed, &[0, 1, 3, 32]);
        // Mostly without the start and what follows it: the record's own state counts, and a held half may fit or not.
        let capture = traffic::capture(random);
        let first = random.pick(&[0, 1, 2, 4, 6, 8, 9]);
        self.chunk = Lent::copy_of(random, &capture[first..]);
        let room = if random.one_in(6) { random.below(100) as usize } else { capture.len() };
        self.out = Lent::new(random, room);

        let before = self.copies();
        let mut model = before.clone();
        let [device, ram, feed, chunk, out] = &mut model;
        let expected = model::feed(device, feed, ram, chunk, out);
        let answer = self.library.feed(&mut self.device, &mut self.feed, &mut self.ram, &self.chunk, &mut self.out);
        self.same("chunk", (answer, expected), &before, &model);
    }

    /// Answer, and every byte of every buffer. What lies around the buffers, and the chunk, also where calls are not compared.
    fn same(&mut self, what: &str, (answer, expected): (u32, u32), before: &[Vec<u8>; 5], model: &[Vec<u8>; 5]) {
        let compares = self.library.compares();
        let left = self.copies();
        let held = self.buffers().iter().all(|lent| lent.guards_hold()) && left[3] == before[3];
        if !held || compares && (answer != expected || left != *model) {
            println!("seed {}: {what} on a corrupted record; bytes around the buffers and the chunk hold: {held}", self.seed);
            for (name, answer, bytes) in [("before", 0, before), ("library", answer, &left), ("model", expected, model)] {
                println!("  {name:8} {answer:06X}, record {:02X?}, feed {:02X?}, chunk {:02X?}", bytes[0], bytes[2], bytes[3]);
            }
            println!("  RAM as the model's: {}, output: {}", left[1] == model[1], left[4] == model[4]);
            exit(1);
        }
        self.counts.calls += 1;
        if compares {
            self.counts.compared[(answer >> 16) as usize] += 1;
        }
    }

    /// Any event, and one time in so many a chunk behind it.
    fn event_and_chunk(&mut self, one_in: u64) {
        let event = any_event(&mut self.random);
        self.event(event);
        if self.random.one_in(one_in) {
            self.chunk();
        }
    }

    /// Calls of the other sorts. Nobody says what they answer, or leave in the record and the line.
    fn others(&mut self, font: &Lent, line: &mut Lent) {
        let number = self.random.below(1100) as u32;
        let [record_before, ram_before, ..] = self.copies();
        let font_before = font.get().to_vec();
        self.library.cell(&self.device, &self.ram, number);
        let [lines, frame, x, y] = [2100, u64::MAX, 800, 2100].map(|end| self.random.below(end) as u32);
        self.library.pixel(&self.device, &self.ram, font, Place { lines, frame, x, y });
        let same_record = self.device.get() == &record_before[..];
        self.library.draw(&mut self.device, &self.ram, font, line);
        let starts = self.random.one_in(6);
        if starts {
            self.library.frame_start(&mut self.device, number);
        }
        self.counts.calls += 3 + u64::from(starts);
        let same_ram = self.ram.get() == &ram_before[..];
        let held = [&self.device, &self.ram, font, line].iter().all(|lent| lent.guards_hold());
        if !held || !same_record || !same_ram || font.get() != &font_before[..] {
            println!("seed {}: a corrupted record changed bytes outside", self.seed);
            exit(1);
        }
    }

    /// Lines, cell questions and frame starts on records with a made-up strip on screen, compared in full.
    fn frames(&mut self) {
        let font = Lent::new(&mut self.random, FONT);
        for _ in 0..FRAMES {
            let random = &mut self.random;
            let record = record_in_frame(random);
            self.device = Lent::copy_of(random, &record);
            let mut page = vec![0; RAM];
            if random.one_in(3) {
                random_page(random, &mut page);
            } else {
                zero_page(random, &mut page);
            }
            self.ram = Lent::copy_of(random, &page);
            for _ in 0..FRAME_CALLS {
                self.frame_call(&font);
            }
        }
    }

    fn frame_call(&mut self, font: &Lent) {
        let random = &mut self.random;
        let before = self.device.get().to_vec();
        let mut record: [u8; DEVICE_LEN] = before[..].try_into().expect("a record");
        let mut model = Device::from_bytes(&record);
        let width = model.width();
        let len = if random.one_in(8) { random.below(width as u64) as usize } else { width };
        let mut line = Lent::new(random, len);
        let mut model_line = line.get().to_vec();
        let number = random.below(1025) as u32;
        let next = u32::from(before[NEXT_DESCRIPTOR]) + 256 * u32::from(before[NEXT_DESCRIPTOR + 1] & 3);
        let (what, answer, expected) = match random.below(16) {
            0 => {
                let expected = super::packed(model.frame_start(number).map(|()| 0));
                ("frame start", self.library.frame_start(&mut self.device, number), expected)
            }
            1..=6 => {
                let cell = random.pick(&[number, next, next ^ 1, number]);
                let expected = super::packed(model.cell(self.ram.get(), cell).map(u32::from));
                self.counts.zero_spacings.question(&before);
                ("cell question", self.library.cell(&self.device, &self.ram, cell), expected)
            }
            _ => {
                let expected = super::packed(model.draw(self.ram.get(), font.get(), &mut model_line));
                let answer = self.library.draw(&mut self.device, &self.ram, font, &mut line);
                if answer >> 16 == 0 {
                    self.counts.zero_spacings.line(&before, self.device.get(), answer);
                }
                ("draw", answer, expected)
            }
        };
        // What is refused, and a question, leaves the record as it is.
        if expected >> 16 == 0 && what != "cell question" {
            record = model.to_bytes();
        }
        let held = [&self.device, &self.ram, font, &line].iter().all(|lent| lent.guards_hold());
        if !held || answer != expected || self.device.get() != record || line.get() != model_line {
            println!("seed {}: {what} on a made-up frame, {before:02X?}; bytes around the buffers hold: {held}", self.seed);
            println!("  library  {answer:06X}, record {:02X?}", self.device.get());
            println!("  model    {expected:06X}, record {record:02X?}; line as the model's: {}", line.get() == model_line);
            exit(1);
        }
        self.counts.calls += 1;
        self.counts.frame_calls += 1;
    }

    /// A record in each bus state. None has a wrong length and each first meets a fetch and an unknown slave address, so that every seed
    /// has each refusal of an event that is not acknowledged.
    fn states(&mut self) {
        for state in 0..STATES {
            let mut record = record(&mut self.random);
            record[0] = state as u8;
            self.device = Lent::copy_of(&mut self.random, &record);
            self.ram = Lent::new(&mut self.random, RAM);
            let unknown = traffic::unknown_slave(self.random.next());
            self.event((2, unknown));
            self.event((1, unknown));
            for _ in 0..TIMES {
                self.event_and_chunk(4);
            }
        }
    }

    /// Records in any state, now and then with a length that is refused.
    fn bus(&mut self) {
        for _ in STATES..RECORDS {
            let random = &mut self.random;
            let record = record(random);
            self.device = lent(random, record, &other_lens(DEVICE_LEN));
            let ram_len = if random.one_in(12) { random.pick(&other_lens(RAM)) } else { RAM };
            self.ram = Lent::new(random, ram_len);
            for _ in 0..TIMES {
                self.event_and_chunk(4);
            }
        }
    }

    /// Calls of every sort.
    fn all(&mut self) {
        for _ in 0..RECORDS {
            let random = &mut self.random;
            let record = record(random);
            self.device = Lent::copy_of(random, &record);
            let ram_len = if random.one_in(8) { random.below(2000) as usize } else { RAM };
            let font_len = if random.one_in(8) { random.below(9000) as usize } else { FONT };
            let line_len = random.below(900) as usize;
            self.ram = Lent::new(random, ram_len);
            if ram_len == RAM && random.one_in(3) {
                zero_page(random, self.ram.get_mut());
            }
            let font = Lent::new(random, font_len);
            let mut line = Lent::new(random, line_len);
            for _ in 0..TIMES {
                self.others(&font, &mut line);
                self.event_and_chunk(2);
            }
        }
    }
}

/// Calls on a seed's corrupted records. Ends the program at the first difference.
pub fn corrupted<L: Library>(library: &mut L, seed: u64) -> Corrupted {
    let mut calls = Calls::new(library, seed);
    // Bus events and chunks alone, and then frames of numbers in range, so that a trace too says what they answer and leave.
    calls.library.session(seed, false);
    calls.states();
    calls.bus();
    calls.frames();
    calls.library.session(seed, true);
    calls.all();
    calls.counts
}
